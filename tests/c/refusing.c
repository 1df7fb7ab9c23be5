/* Preloaded into examples and tools: the first printed line is refused, and they have to tell it.

   As by a pipe that is full and does not wait; all other writes go through. A line is a write. In GNU C, for glibc, where
   stdout is a variable. */

#define _GNU_SOURCE
#include <errno.h>
#include <stdio.h>
#include <unistd.h>

static ssize_t all_but_first(void *cookie, const char *bytes, size_t size) {
  static int refused;
  (void)cookie;
  if (refused)
    return write(STDOUT_FILENO, bytes, size);
  refused = 1;
  errno = EAGAIN;
  return 0;
}

__attribute__((constructor)) static void begin(void) {
  const cookie_io_functions_t functions = {.write = all_but_first};
  FILE *const output = fopencookie(NULL, "w", functions);
  if (output == NULL || setvbuf(output, NULL, _IOLBF, BUFSIZ) != 0)
    _exit(99);
  stdout = output;
}
