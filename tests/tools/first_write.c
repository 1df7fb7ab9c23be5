/* Preloaded into rom: the first line of the file that it makes is refused, and all others go through.

   Then neither the last flush nor the close fails, and only the stream's error flag tells. In GNU C, for glibc. */

#define _GNU_SOURCE
#include <errno.h>
#include <stdio.h>
#include <unistd.h>

static int number;

static ssize_t all_but_first(void *cookie, const char *bytes, size_t size) {
  static int refused;
  (void)cookie;
  if (refused)
    return write(number, bytes, size);
  refused = 1;
  errno = ENOSPC;
  return 0;
}

static int close_file(void *cookie) {
  (void)cookie;
  return close(number);
}

FILE *fdopen(int file, const char *mode) {
  const cookie_io_functions_t functions = {.write = all_but_first, .close = close_file};
  FILE *const output = fopencookie(NULL, mode, functions);
  number = file;
  if (output == NULL || setvbuf(output, NULL, _IOLBF, BUFSIZ) != 0)
    _exit(99);
  return output;
}
