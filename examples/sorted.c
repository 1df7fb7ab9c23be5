/* Sorts readings by current over sensitivity: two whole numbers below 2^60 a line on standard input, the lines in order on
   standard output, the least ratio first, equal ones as they came. No quotient is rounded, so none swaps neighbours.

     sorted < READINGS

   Status: 0 all was written; 1 a reading was refused; 2 the input could not be read or is wrong, or not all was written. What
   is wrong stands on standard error.
   Build: gcc -Iinclude examples/sorted.c target/staticlib/libquendaric.a -o sorted */

#include "lines.h"
#include "quendaric.h"
#include <errno.h>
#include <inttypes.h>
#include <stdlib.h>

static struct reading {
  uint64_t current, sensitivity;
  size_t line;
} readings[MOST];

/* Reads a whole number, digits alone, from a word into *number. 0, and a message, where the word is none. */
static int read_whole(const char *word, uint64_t *number) {
  errno = 0;
  *number = strtoull(word, NULL, 10);
  if (errno == 0 && strspn(word, "0123456789") == strlen(word))
    return 1;
  fprintf(stderr, "line %zu: %s is not a whole number below 2^64\n", line_number, word);
  return 0;
}

/* For qsort. Every reading has been compared with itself, so that none is refused here. */
static int compare(const void *x, const void *y) {
  const struct reading *u = x, *v = y;
  int64_t order = quendaric_compare_ratios(u->current, u->sensitivity, v->current, v->sensitivity).order;
  return order != 0 ? (int)order : (u->line > v->line) - (u->line < v->line);
}

int main(int argc, char **argv) {
  (void)argv;
  if (argc != 1) {
    fprintf(stderr, "usage: sorted < READINGS\n");
    return 2;
  }
  size_t count = 0;
  char line[LINE], *first, *second;
  int words;
  while ((words = two_words(line, &first, &second)) == 2) {
    uint64_t a, b;
    if (!read_whole(first, &a) || !read_whole(second, &b))
      return 2;
    quendaric_comparison itself = quendaric_compare_ratios(a, b, a, b);
    if (itself.refusal != 0) {
      fprintf(stderr, "line %zu: refused: %" PRIu64 "\n", line_number, itself.refusal);
      return 1;
    }
    readings[count].current = a;
    readings[count].sensitivity = b;
    readings[count].line = count;
    count++;
  }
  if (words != 0)
    return 2;
  qsort(readings, count, sizeof *readings, compare);
  for (size_t j = 0; j < count; j++)
    printf("%" PRIu64 " %" PRIu64 "\n", readings[j].current, readings[j].sensitivity);
  return written() ? 0 : 2;
}
