/* The C lines of FROM-C.md, as they stand.

   tests/c/run writes those of each heading to a file, and here they are run. */

#include "quendaric.h"
#include <stdio.h>

/* ---- fifteen-minute averages: the windows over the limit in an hour of readings, the newest first */

enum { SECONDS = 3600, WINDOWS = SECONDS - 900 + 1 };

static size_t first, last, calls;

static void over_the_limit(size_t j) {
  if (calls++ == 0)
    first = j;
  last = j;
}

static int judge(const uint64_t *readings, size_t seconds, uint64_t limit) {
  static uint64_t means[WINDOWS], remainders[WINDOWS];
  const size_t room = WINDOWS;
#include "averages.h"
  return done.refusal == 0;
}

/* All readings are at the limit but that of second 1,000, which is by one over it: so are the averages of the 900 windows
   that have it, those from second 101 on to those from second 1,000 on. */
static int averages(void) {
  static uint64_t readings[SECONDS];
  for (int i = 0; i < SECONDS; i++)
    readings[i] = 10000;
  readings[SECONDS - 1 - 1000]++;
  if (judge(readings, SECONDS, 10000) && calls == 900 && first == 101 && last == 1000)
    return 1;
  printf("%zu windows over the limit, from %zu to %zu\n", calls, first, last);
  return 0;
}

/* ---- one step at a time: the digits of a run, and a bench that measures one of them wrong */

static uint8_t digits[28], table[QUENDARIC_TABLE_LENGTH];
static int wrong;

static int same_as_measured(int i, int64_t digit, uint64_t sum, uint64_t carry) {
  (void)sum, (void)carry;
  return digit == (int64_t)digits[i] - 2 + (i == wrong);
}

static int first_difference(uint64_t dividend, uint64_t divisor) {
#include "step.h"
  return 28;
}

static int steps(void) {
  const uint64_t dividend = 1729382256910282809, divisor = 1152921504606853765; /* 3 * 2^59 + 12345, 2^60 + 6789 */
  if (quendaric_make_table(table, sizeof table).refusal != 0 ||
      quendaric_run(table, sizeof table, dividend, divisor, 28, digits, sizeof digits, 0).refusal != 0)
    return 0;
  wrong = 28;
  if (first_difference(dividend, divisor) != 28)
    return 0;
  wrong = 9;
  return first_difference(dividend, divisor) == 9;
}

/* ---- readings in order: two ratios that are one double */

struct reading {
  uint64_t current, sensitivity;
};

#include "order.h"

static int in_order(void) {
  const struct reading less = {1152921504606846973, 1152921504606846974},
                       more = {1152921504606846974, 1152921504606846975};
  return compare(&less, &more) < 0 && compare(&more, &less) > 0 && compare(&less, &less) == 0;
}

/* ---- records filed through a wrong table: of the table made for eight bits in a divider that adds seven the second is wrong */

enum { RECORDS = 3 };

static size_t filed, again;
static uint64_t right;

static void file_again(size_t j, uint64_t pattern) { filed++, again = j, right = pattern; }

static int records(void) {
  static const uint64_t currents[RECORDS] = {0x3FF0000000000000ull, 0x3FF0B00000000000ull, 0},
                        sensitivities[RECORDS] = {0x3FF0000000000000ull, 0x3FF1080000000000ull, 0};
#include "records.h"
  return found.refusal == 0 && found.count == 1 && filed == 1 && again == 1 &&
         right == quendaric_pattern(1.04296875 / 1.064453125);
}

int main(void) {
  if (!averages() || !steps() || !in_order() || !records())
    return printf("a use on the page fails\n"), 1;
  return 0;
}
