/* What the tools ask of POSIX and wasi-libc has not, for page/make. A page has no signals: a run is stopped by ending the
   worker that it is in. A read never has to wait. */

#ifndef WASI_H
#define WASI_H

#include <fcntl.h>
#include <signal.h>
#include <stdio.h>
#include <stdlib.h>
#include <string.h>
#include <sys/select.h>
#include <sys/stat.h>
#include <unistd.h>

struct sigaction {
  void (*sa_handler)(int);
};
enum { SIG_BLOCK, SIG_UNBLOCK };

static inline int sigemptyset(sigset_t *set) { return memset(set, 0, sizeof *set), 0; }
static inline int sigaddset(sigset_t *set, int number) { return (void)set, (void)number, 0; }
static inline int sigprocmask(int how, const sigset_t *set, sigset_t *before) {
  return (void)how, (void)set, before == NULL ? 0 : sigemptyset(before);
}
static inline int sigaction(int number, const struct sigaction *now, struct sigaction *before) {
  (void)number, (void)now;
  if (before != NULL)
    before->sa_handler = NULL;
  return 0;
}
#define signal(number, handler) ((void)(number))
#define pselect(count, files, b, c, time, mask) ((void)(files), (void)(mask), 1)

/* A file of a run is its own path, and has no permissions. */
#define realpath(name, place) strdup(name)
#define fchmod(file, mode) ((void)(file), (void)(mode), 0)
#define getpid() 1

/* A file that nobody else opens: it is unlinked while it is open. */
static inline FILE *temporary_file(void) {
  static const char name[] = "temporary.part";
  const int file = open(name, O_RDWR | O_CREAT | O_EXCL, 0600);
  if (file < 0 || unlink(name) != 0)
    return NULL;
  return fdopen(file, "w+");
}
#define tmpfile temporary_file

#endif
