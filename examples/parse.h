/* Reading a number from a word, as the example programs do it. */

#ifndef PARSE_H
#define PARSE_H

#include <errno.h>
#include <math.h>
#include <stdlib.h>

/* Is the whole word a finite number in the range of double? Then that is put into *x. A subnormal number is one. */
static int parse(const char *word, double *x) {
  char *end;
  errno = 0; /* strtod answers a number below the range by 0 and ERANGE, and a subnormal one by itself and ERANGE */
  *x = strtod(word, &end);
  return end != word && *end == '\0' && isfinite(*x) && (*x != 0 || errno != ERANGE);
}

#endif
