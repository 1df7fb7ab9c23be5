/* Each condition of quendaric_reading and quendaric_is_within at its edges, against the processor's own comparison of
   doubles.

   All triples of 29 numbers as quotient, least and most, all pairs as operands; every sum of flags; a refused call.
   Each condition is seen to decide alone. As C and as C++. */

#include "quendaric.h"
#include <stdio.h>

#define SIGN ((uint64_t)1 << 63)
#define INFINITE 0x7FF0000000000000u
#define LEAST_NORMAL 0x0010000000000000u
#define ONE 0x3FF0000000000000u
#define TWELVE 0x4028000000000000u

static uint64_t numbers[29];
static unsigned long compared, held;

/* Zero, the least and the greatest subnormal, the least normal, one and its neighbours, 12, the greatest, infinity, two
   quiet NaNs, two signalling ones, of either sign; and 1/3. */
static void list_numbers(void) {
  static const uint64_t sizes[14] = {0,
                                     1,
                                     LEAST_NORMAL - 1,
                                     LEAST_NORMAL,
                                     ONE - 1,
                                     ONE,
                                     ONE + 1,
                                     TWELVE,
                                     INFINITE - 1,
                                     INFINITE,
                                     INFINITE + 1,
                                     0x7FF7FFFFFFFFFFFFu,
                                     0x7FF8000000000000u,
                                     0x7FFFFFFFFFFFFFFFu};
  for (size_t i = 0; i < 14; i++) {
    numbers[2 * i] = sizes[i];
    numbers[2 * i + 1] = sizes[i] | SIGN;
  }
  numbers[28] = 0x3FD5555555555555u;
}

static bool finite(double x) { return x - x == 0; }

static bool within(double x, double least, double most) { return finite(x) && least <= x && x <= most; }

/* The rule in the words of the header, in doubles. */
static bool is_reading(quendaric_binary64 r, double a, double b, double least, double most) {
  return r.refusal == 0 && finite(a) && finite(b) && b > 0 && r.flags % 4 == r.flags &&
         within(quendaric_double(r.pattern), least, most);
}

static bool same(quendaric_binary64 r, uint64_t a, uint64_t b, uint64_t least, uint64_t most) {
  const bool wanted =
      is_reading(r, quendaric_double(a), quendaric_double(b), quendaric_double(least), quendaric_double(most));
  compared++;
  held += wanted;
  if (quendaric_reading(r, a, b, least, most) == wanted)
    return true;
  printf("refusal %llu, flags %llu: %016llx = %016llx / %016llx from %016llx to %016llx: not %d\n",
         (unsigned long long)r.refusal, (unsigned long long)r.flags, (unsigned long long)r.pattern,
         (unsigned long long)a, (unsigned long long)b, (unsigned long long)least, (unsigned long long)most, wanted);
  return false;
}

/* Every quotient between every two limits. */
static bool limits(void) {
  for (size_t i = 0; i < 29; i++)
    for (size_t j = 0; j < 29; j++)
      for (size_t k = 0; k < 29; k++) {
        const quendaric_binary64 r = {0, 0, numbers[i], QUENDARIC_INEXACT};
        const bool wanted =
            within(quendaric_double(numbers[i]), quendaric_double(numbers[j]), quendaric_double(numbers[k]));
        if (!same(r, ONE, ONE, numbers[j], numbers[k]) ||
            quendaric_is_within(numbers[i], numbers[j], numbers[k]) != wanted)
          return false;
      }
  return true;
}

/* Every two operands, with any sum of flags, and with a refusal. */
static bool operands(void) {
  for (size_t i = 0; i < 29; i++)
    for (size_t j = 0; j < 29; j++)
      for (uint64_t flags = 0; flags < 64; flags++)
        for (uint64_t refusal = 0; refusal <= 17; refusal++) {
          const quendaric_binary64 r = {refusal, 0, ONE, flags};
          if (!same(r, numbers[i], numbers[j], 0, TWELVE))
            return false;
        }
  return true;
}

/* A sound answer, in which one thing after another is wrong. */
static bool alone(void) {
  const quendaric_binary64 sound = {0, 0, ONE, 3};
  const quendaric_binary64 answers[] = {{6, 0, ONE, 0},  {0, 0, ONE, 4},      {0, 0, ONE, 8},         {0, 0, ONE, 16},
                                        {0, 0, ONE, 32}, {0, 0, INFINITE, 0}, {0, 0, INFINITE + 1, 0}};
  for (size_t i = 0; i < sizeof answers / sizeof *answers; i++)
    if (quendaric_reading(answers[i], ONE, ONE, 0, INFINITE))
      return false;
  return quendaric_reading(sound, ONE, ONE, 0, TWELVE) && !quendaric_reading(sound, INFINITE, ONE, 0, TWELVE) &&
         !quendaric_reading(sound, ONE, INFINITE, 0, TWELVE) && !quendaric_reading(sound, ONE, 0, 0, TWELVE) &&
         !quendaric_reading(sound, ONE, SIGN, 0, TWELVE) && !quendaric_reading(sound, ONE, ONE | SIGN, 0, TWELVE) &&
         quendaric_reading(sound, ONE, 1, 0, TWELVE) && /* a subnormal sensitivity is above zero */
         quendaric_reading(sound, ONE, ONE, ONE, ONE) && !quendaric_reading(sound, ONE, ONE, ONE + 1, TWELVE) &&
         !quendaric_reading(sound, ONE, ONE, 0, ONE - 1) && !quendaric_reading(sound, ONE, ONE, TWELVE, 0);
}

/* A call that was refused: its zeros are no reading. */
static bool refused(void) {
  const quendaric_binary64 r = quendaric_divide_binary64_kept(ONE, ONE, 4);
  return r.refusal == QUENDARIC_REFUSED_DIRECTION && !quendaric_reading(r, ONE, ONE, SIGN | ONE, ONE);
}

int main(void) {
  list_numbers();
  if (!limits() || !operands() || !alone() || !refused())
    return printf("quendaric_reading is not what the header says\n"), 1;
  return compared > 0 && held > 0 && held < compared ? 0 : 1;
}
