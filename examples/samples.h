/* Reading samples from standard input, a current and a sensitivity a line, as the example programs do it. */

#ifndef SAMPLES_H
#define SAMPLES_H

#include "lines.h"
#include "parse.h"
#include "quendaric.h"

static uint64_t currents[MOST], sensitivities[MOST];

/* Reads a finite number from a word into *pattern. 0, and a message, where the word is none. */
static inline int read_number(const char *word, uint64_t *pattern) {
  double number;
  if (!parse(word, &number)) {
    fprintf(stderr, "line %zu: %s is not a finite number in the range of double\n", line_number, word);
    return 0;
  }
  *pattern = quendaric_pattern(number);
  return 1;
}

/* Reads all samples into the two lists, each word by the function that is passed. Their number, or -1 and a message. */
static long read_samples(int read(const char *word, uint64_t *pattern)) {
  char line[LINE], *first, *second;
  long count = 0;
  int words;
  while ((words = two_words(line, &first, &second)) == 2) {
    if (!read(first, &currents[count]) || !read(second, &sensitivities[count]))
      return -1;
    count++;
  }
  return words == 0 ? count : -1;
}

#endif
