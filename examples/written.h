/* Asking, at a program's end, whether all that it printed was written, as the example programs do it. */

#ifndef WRITTEN_H
#define WRITTEN_H

#include <stdio.h>

/* Is all that was printed written? Else that is told. The last flush alone does not say so: a write that failed before it has
   lost its bytes, and ferror remembers it. */
static int written(void) {
  const int lost = ferror(stdout) | fflush(stdout);
  if (fclose(stdout) == 0 && !lost)
    return 1;
  perror("standard output: not all was written");
  return 0;
}

#endif
