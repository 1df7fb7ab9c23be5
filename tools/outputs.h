/* Files that are written, and files that must not be: no output may be a file that is read. */

#ifndef OUTPUTS_H
#define OUTPUTS_H

#include "options.h"
#include <fcntl.h>
#include <sys/stat.h>

/* A file that is written beside its place, which it takes when it is whole. */
typedef struct {
  const char *name; /* or NULL, where it is not wanted */
  char *place, *beside;
  FILE *file;
} output;

/* The same file, by device and inode? Pipes, terminals and the like may be read and written. */
static bool is_one_file(const struct stat *a, const struct stat *b) {
  return S_ISREG(a->st_mode) && a->st_dev == b->st_dev && a->st_ino == b->st_ino;
}

/* Does a new file of the first name take the place of the second? */
static bool is_one_place(const char *a, const char *b) {
  struct stat first, second;
  char folder[2][4096];
  const char *names[2] = {a, b}, *last[2];
  for (int i = 0; i < 2; i++) {
    const char *slash = strrchr(names[i], '/');
    const size_t length = slash != NULL ? (size_t)(slash - names[i]) + 1 : 0;
    if (length >= sizeof folder[i])
      return true;
    memcpy(folder[i], names[i], length);
    memcpy(folder[i] + length, ".", 2);
    last[i] = names[i] + length;
  }
  return strcmp(last[0], last[1]) == 0 && stat(folder[0], &first) == 0 && stat(folder[1], &second) == 0 &&
         first.st_dev == second.st_dev && first.st_ino == second.st_ino;
}

/* What an output is compared with: the files that are read, and standard input. */
static const char *read_name(const options *chosen, size_t at) {
  return at == 0 ? chosen->table : at <= chosen->files ? chosen->records[at - 1] : "-";
}

static bool status_of(const char *name, int stream, struct stat *status) {
  return name == NULL || strcmp(name, "-") == 0 ? fstat(stream, status) == 0 : stat(name, status) == 0;
}

/* Is the output, a file or a standard stream, a file that is read? */
static bool is_read_too(const options *chosen, const char *shown, const struct stat *written) {
  for (size_t i = 0; i <= chosen->files + 1; i++) {
    const char *name = read_name(chosen, i);
    struct stat other;
    if (status_of(name, STDIN_FILENO, &other) && is_one_file(written, &other)) {
      fprintf(stderr, "recheck: %s: this file is read: %s\n", shown, strcmp(name, "-") == 0 ? "standard input" : name);
      return true;
    }
  }
  return false;
}

/* Would a file be written that is read, or written twice? */
static bool is_shared(const options *chosen) {
  const char *const names[] = {chosen->averages, chosen->picture, NULL, NULL};
  static const char *const shown[] = {"", "", "standard output", "standard error"};
  struct stat files[4];
  bool is_there[4], shared = false;
  for (int i = 0; i < 4; i++) {
    is_there[i] = i < 2 ? names[i] != NULL && stat(names[i], &files[i]) == 0 : fstat(i - 1, &files[i]) == 0;
    shared = shared || (is_there[i] && is_read_too(chosen, i < 2 ? names[i] : shown[i], &files[i]));
  }
  for (int i = 0; i < 2; i++)
    for (int k = i + 1; k < 4 && !shared; k++)
      if ((is_there[i] && is_there[k] && is_one_file(&files[i], &files[k])) ||
          (k == 1 && !is_there[0] && !is_there[1] && names[0] != NULL && names[1] != NULL &&
           is_one_place(names[0], names[1]))) {
        fprintf(stderr, "recheck: %s: this file would be written twice\n", names[i]);
        shared = true;
      }
  return shared;
}

/* Can each file of records be read? One that is compressed, by its name, is not. */
static bool are_readable(const options *chosen) {
  size_t streams = 0;
  for (size_t i = 0; i < chosen->files; i++) {
    const char *name = chosen->records[i];
    const size_t length = strlen(name);
    streams += strcmp(name, "-") == 0;
    if (streams > 1)
      return fails("-", "standard input can be read once");
    if (length > 3 && strcmp(name + length - 3, ".gz") == 0) {
      fprintf(stderr, "recheck: %s: this file is compressed: zcat %s | recheck .. reads it\n", name, name);
      return false;
    }
    if (strcmp(name, "-") != 0 && access(name, R_OK) != 0) {
      fprintf(stderr, "recheck: %s: %s\n", name, strerror(errno));
      return false;
    }
  }
  return true;
}

/* The name of a file beside the place. */
static char *beside_of(const char *place) {
  const size_t room = strlen(place) + 32;
  char *name = malloc(room);
  if (name != NULL)
    snprintf(name, room, "%s.%ld.part", place, (long)getpid());
  return name;
}

/* Opens a file for a place. A place that is no regular file is opened itself. */
static bool open_output(output *one, const char *name) {
  struct stat status;
  *one = (output){.name = name};
  if (name == NULL)
    return true;
  const bool is_there = stat(name, &status) == 0;
  if (is_there && !S_ISREG(status.st_mode))
    return (one->file = fopen(name, "w")) != NULL;
  one->place = is_there ? realpath(name, NULL) : strdup(name);
  one->beside = one->place != NULL ? beside_of(one->place) : NULL;
  const int file = one->beside != NULL ? open(one->beside, O_WRONLY | O_CREAT | O_EXCL, 0666) : -1;
  if (file < 0)
    return false;
  if (is_there && fchmod(file, status.st_mode & 0777) != 0)
    return false;
  return (one->file = fdopen(file, "w")) != NULL;
}

/* Ends a file. If it is whole it takes its place, else the place stays as it was. Was all written? */
static bool end_output(output *one, bool whole) {
  if (one->file == NULL)
    return true;
  const bool failed = ferror(one->file) != 0, closed = fclose(one->file) == 0;
  one->file = NULL;
  if (one->beside == NULL)
    return !failed && closed;
  if (whole && !failed && closed && rename(one->beside, one->place) == 0)
    return true;
  unlink(one->beside);
  return !whole;
}

#endif
