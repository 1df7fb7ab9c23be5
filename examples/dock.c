/* A docking station's way from what a monitor stored to the highest fifteen-minute average.

     dock UNIT [newest] < SAMPLES

   Each line of standard input is the sample of one second: the binary64 patterns of a current in nA and of a
   sensitivity in nA a UNIT, ppm or ppb, 16 hexadecimal digits each. The oldest sample comes first, or with the argument
   `newest` the newest. Averages are of whole ppb.
   Status: 0 the average was printed; 1 there is none: a sample is no reading, the samples are fewer than a window has,
   or a call refused; 2 the input is wrong, or the output was lost. What is wrong stands on standard error.
   Build: gcc -Iinclude examples/dock.c target/staticlib/libquendaric.a -o build/dock */

#include "cell.h"
#include "samples.h"
#include <inttypes.h>

enum { WIDTH = 900 }; /* fifteen minutes of one sample a second */

static const cell in_ppb = {"ppb", 0.01, 10, -5000, 500000};

static uint64_t readings[MOST], means[MOST], remainders[MOST];

/* Reads a pattern from a word. 0, and a message, where the word is none. */
static int read_pattern(const char *word, uint64_t *pattern) {
  if (strlen(word) != 16 || strspn(word, "0123456789ABCDEFabcdef") != 16) {
    fprintf(stderr, "line %zu: %s is not 16 hexadecimal digits\n", line_number, word);
    return 0;
  }
  *pattern = strtoull(word, NULL, 16);
  return 1;
}

/* The reading of a sample in whole ppb, to the nearest; one below zero becomes 0. False, and a message, where there
   is none. */
static bool read_sample(const cell *of, size_t i) {
  const quendaric_binary64 r = quendaric_divide_binary64_kept(currents[i], sensitivities[i], QUENDARIC_NEAREST);
  const double quotient = quendaric_double(r.pattern);
  if (!is_reading(of, r, currents[i], sensitivities[i])) {
    fprintf(stderr, "sample %zu: no reading: %.17g nA, %.17g nA a %s, quotient %.17g, flags %" PRIu64 "\n", i + 1,
            quendaric_double(currents[i]), quendaric_double(sensitivities[i]), of->unit, quotient, r.flags);
    return false;
  }
  const double ppb = of == &in_ppm ? quotient * 1000 : quotient;
  if (ppb > 0)
    readings[i] = (uint64_t)ppb + (ppb - (double)(uint64_t)ppb >= 0.5);
  return true;
}

/* The window with the highest average; the first of them. */
static size_t highest(size_t count) {
  size_t high = 0;
  for (size_t j = 1; j + WIDTH <= count; j++)
    if (means[j] > means[high] || (means[j] == means[high] && remainders[j] > remainders[high]))
      high = j;
  return high;
}

/* The average of a window in the unit of the sensitivity. */
static void print_average(const cell *of, size_t at) {
  printf("highest average: ");
  if (of == &in_ppm)
    printf("%" PRIu64 ".%03" PRIu64 " and %" PRIu64 "/%d of 0.001", means[at] / 1000, means[at] % 1000, remainders[at],
           WIDTH);
  else
    printf("%" PRIu64 " and %" PRIu64 "/%d", means[at], remainders[at], WIDTH);
  printf(" %s, from second %zu to second %zu after the oldest sample\n", of->unit, at, at + WIDTH - 1);
}

/* The highest average of so many samples. */
static int find_highest(const cell *of, size_t count, bool newest_first) {
  int faults = 0;
  for (size_t i = 0; i < count; i++)
    faults += !read_sample(of, i);
  if (faults > 0 || count < WIDTH) {
    fprintf(stderr, "no average: %zu samples, %d of them no reading, and a window has %d\n", count, faults, WIDTH);
    if (faults > 0)
      fprintf(stderr, "the cell has %g to %g nA a %s and reads %g to %g\n", of->least_sensitivity, of->most_sensitivity,
              of->unit, of->least, of->most);
    return 1;
  }
  const quendaric_averages done =
      quendaric_average_windows(readings, count, WIDTH, newest_first, means, MOST, remainders, MOST);
  if (done.refusal != 0) {
    fprintf(stderr, "the averages were refused: %" PRIu64 "\n", done.refusal);
    return 1;
  }
  print_average(of, highest(count));
  return 0;
}

static const cell *cell_of(const char *unit) {
  if (strcmp(unit, in_ppm.unit) == 0)
    return &in_ppm;
  return strcmp(unit, in_ppb.unit) == 0 ? &in_ppb : NULL;
}

int main(int argc, char **argv) {
  const bool newest_first = argc == 3 && strcmp(argv[2], "newest") == 0;
  const cell *of = argc < 2 ? NULL : cell_of(argv[1]);
  if (of == NULL || argc > 3 || (argc == 3 && !newest_first)) {
    fprintf(stderr, "usage: dock ppm|ppb [newest] < SAMPLES\n");
    return 2;
  }
  const long read = read_samples(read_pattern);
  if (read < 0)
    return 2;
  const int status = find_highest(of, (size_t)read, newest_first);
  return written() ? status : 2;
}
