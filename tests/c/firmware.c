/* README's lines for a reading, as they stand: readings, limits, overflows, zeros, infinities and NaNs; no warning.

   tests/c/run writes them to firmware.h, and here they are run. As C and as C++. */

#include "quendaric.h"
#include <stdio.h>

static double reading;
static int none;

static void no_reading(void) { none = 1; }

static void read_cell(double current, double sensitivity) {
#include "firmware.h"
}

/* The same toward zero, where an overflow is finite and only its flag shows it. */
#undef QUENDARIC_NEAREST
#define QUENDARIC_NEAREST QUENDARIC_TOWARD_ZERO
static void read_toward_zero(double current, double sensitivity) {
#include "firmware.h"
}

/* Do the patterns of a current and a sensitivity give this reading, or none, both ways? */
static int gives(uint64_t current, uint64_t sensitivity, int is_none, double wanted) {
  void (*const ways[])(double, double) = {read_cell, read_toward_zero};
  int same = 0;
  for (int i = 0; i < 2; i++) {
    reading = -1;
    none = 0;
    ways[i](quendaric_double(current), quendaric_double(sensitivity));
    same += none == is_none && (none || quendaric_pattern(reading) == quendaric_pattern(wanted));
  }
  if (same == 2)
    return 1;
  printf("%016llx / %016llx: %s, reading %g\n", (unsigned long long)current, (unsigned long long)sensitivity,
         none ? "none" : "one", reading);
  return 0;
}

int main(void) {
  const uint64_t sign = (uint64_t)1 << 63, infinity = 0x7FF0000000000000, quiet = 0x7FF8000000000000;
  const uint64_t no_numbers[] = {infinity, infinity | sign, quiet, quiet | sign, infinity + 1, 0x7FFFFFFFFFFFFFFF};
  const uint64_t some = quendaric_pattern(8400), other = quendaric_pattern(700);
  int right = gives(some, other, 0, 12) && gives(0, other, 0, 0) && gives(1, other, 0, 0) && /* underflow and inexact */
              gives(quendaric_pattern(5) | sign, quendaric_pattern(10), 0, -0.5) &&
              /* readings that are not plausible, and sensitivities */
              gives(some | sign, other, 1, 0) && gives(some, other | sign, 1, 0) &&
              gives(some, quendaric_pattern(1e300), 1, 0) && gives(some, quendaric_pattern(1e-300), 1, 0) &&
              gives(some, 1, 1, 0) && gives(quendaric_pattern(1e9), other, 1, 0) &&
              gives(quendaric_pattern(1e300), quendaric_pattern(1e-300), 1, 0) &&
              gives(quendaric_pattern(1e300) | sign, quendaric_pattern(1e-300), 1, 0) && gives(some, 0, 1, 0) &&
              gives(some | sign, 0, 1, 0) && gives(some, sign, 1, 0) && gives(0, 0, 1, 0) &&
              /* just at the limits, and just beyond */
              gives(quendaric_pattern(5000), quendaric_pattern(10), 0, 500) &&
              gives(quendaric_pattern(5000.001), quendaric_pattern(10), 1, 0) &&
              gives(quendaric_pattern(-50), quendaric_pattern(10), 0, -5) &&
              gives(quendaric_pattern(-50.001), quendaric_pattern(10), 1, 0) &&
              gives(quendaric_pattern(10), quendaric_pattern(10), 0, 1) &&
              gives(quendaric_pattern(10), quendaric_pattern(10) - 1, 1, 0) &&
              gives(quendaric_pattern(10000), quendaric_pattern(10000), 0, 1) &&
              gives(quendaric_pattern(10000), quendaric_pattern(10000) + 1, 1, 0);
  for (size_t i = 0; i < sizeof no_numbers / sizeof *no_numbers; i++) {
    right = right && gives(no_numbers[i], other, 1, 0) && gives(some, no_numbers[i], 1, 0);
    for (size_t j = 0; j < sizeof no_numbers / sizeof *no_numbers; j++)
      right = right && gives(no_numbers[i], no_numbers[j], 1, 0);
  }
  return right ? 0 : 1;
}
