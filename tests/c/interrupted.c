/* Preloaded into the programs: calls fail with EINTR and move at most 1,000 bytes, and the output has to be the same.

   Each open and each read, and each write to standard output, fails as often in a row as the variable of its name says (OPENS,
   READS, WRITES), and then goes through, as after a signal. */

#define _GNU_SOURCE
#include <errno.h>
#include <fcntl.h>
#include <stdlib.h>
#include <sys/syscall.h>
#include <unistd.h>

static int interrupted(const char *variable, unsigned long *calls) {
  const char *asked = getenv(variable);
  unsigned long times = asked == NULL ? 0 : strtoul(asked, NULL, 10);
  if ((*calls)++ % (times + 1) == times)
    return 0;
  errno = EINTR;
  return 1;
}

static size_t part(size_t length) { return length < 1000 ? length : 1000; }

int open(const char *path, int flags, ...) {
  static unsigned long calls;
  return interrupted("OPENS", &calls) ? -1 : (int)syscall(SYS_openat, AT_FDCWD, path, flags, 0);
}

ssize_t read(int file, void *bytes, size_t length) {
  static unsigned long calls;
  return interrupted("READS", &calls) ? -1 : syscall(SYS_read, file, bytes, part(length));
}

ssize_t write(int file, const void *bytes, size_t length) {
  static unsigned long calls;
  if (file == STDOUT_FILENO && interrupted("WRITES", &calls))
    return -1;
  return syscall(SYS_write, file, bytes, part(length));
}
