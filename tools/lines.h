/* The lines of a file, which is read in blocks: once, or twice where something has to be found in all of it. */

#ifndef LINES_H
#define LINES_H

#include "text.h"
#include <errno.h>
#include <signal.h>
#include <stdint.h>
#include <stdio.h>
#include <sys/select.h>
#include <unistd.h>

/* A line has at most LONGEST bytes besides its end. */
enum { LONGEST = 1023, LINE = LONGEST + 2, BYTES = 1 << 18 };

static volatile sig_atomic_t interrupted;

static void interrupt(int number) { interrupted = number; }

/* SIGINT and SIGTERM are let in only before something is read, so that no write is cut. */
static sigset_t held_signals;

static void hold_signals(void) {
  static const int numbers[] = {SIGINT, SIGTERM};
  sigemptyset(&held_signals);
  for (int i = 0; i < 2; i++) {
    struct sigaction before, now = {.sa_handler = interrupt};
    if (sigaction(numbers[i], NULL, &before) == 0 && before.sa_handler == SIG_IGN)
      continue;
    sigaction(numbers[i], &now, NULL);
    sigaddset(&held_signals, numbers[i]);
  }
  sigprocmask(SIG_BLOCK, &held_signals, NULL);
}

/* Lets signals in until the file can be read. */
static void wait_for(int file) {
  sigset_t open_mask;
  fd_set files;
  FD_ZERO(&files);
  FD_SET(file, &files);
  sigprocmask(SIG_UNBLOCK, &held_signals, NULL); /* one that waits comes in here */
  sigprocmask(SIG_BLOCK, &held_signals, &open_mask);
  if (!interrupted)
    pselect(file + 1, &files, NULL, NULL, NULL, &open_mask);
}

/* A file that is read in blocks. bytes[begin] to bytes[end - 1] were read and not yet taken. */
typedef struct {
  int file;
  FILE *copy; /* takes what is read, where the file cannot be read again; else NULL */
  FILE *kept; /* the copy, when it is read itself */
  size_t begin, end;
  bool ended, failed; /* nothing more can be read; that is so because a read or the copy failed */
  bool skipping;      /* the rest of a line that was too long is still to be skipped */
  bool open_end;      /* the last line has no end */
  char bytes[BYTES];
} reader;

static void begin_reading(reader *input, int file) {
  input->file = file;
  input->copy = NULL;
  input->begin = input->end = 0;
  input->ended = input->failed = input->skipping = input->open_end = false;
}

/* Reads on until the block is full. What was returned of earlier lines is no longer valid. */
static void refill(reader *input) {
  const size_t kept = input->end - input->begin;
  memmove(input->bytes, input->bytes + input->begin, kept);
  input->begin = 0;
  input->end = kept;
  while (input->end < BYTES && !input->ended && !interrupted) {
    wait_for(input->file);
    if (interrupted)
      break;
    const ssize_t count = read(input->file, input->bytes + input->end, BYTES - input->end);
    if (count > 0)
      input->end += (size_t)count;
    const bool error = count < 0 && errno != EINTR;
    input->failed = input->failed || error;
    input->ended = count == 0 || error;
  }
  input->ended = input->ended || interrupted;
  if (input->copy != NULL && fwrite(input->bytes + kept, 1, input->end - kept, input->copy) != input->end - kept)
    input->ended = input->failed = true;
}

/* Takes so many bytes. */
static field take(reader *input, size_t length) {
  const field taken = {input->bytes + input->begin, length};
  input->begin += length;
  return taken;
}

/* Takes what is left of a line that was too long. */
static void skip(reader *input) {
  const char *from = input->bytes + input->begin, *newline = memchr(from, '\n', input->end - input->begin);
  input->skipping = newline == NULL && !input->ended;
  input->open_end = newline == NULL && input->ended;
  take(input, newline != NULL ? (size_t)(newline - from) + 1 : input->end - input->begin);
}

/* Takes the next line, without its end, if it stands whole in the block. Of a line of LINE bytes or more the first LINE
   are taken. The last line of a file need not have an end, unless reading stopped in it. */
static bool next_line(reader *input, field *line) {
  if (input->skipping)
    skip(input);
  const char *from = input->bytes + input->begin;
  const size_t rest = input->end - input->begin, seen = rest < LINE ? rest : LINE;
  const char *newline = memchr(from, '\n', seen);
  const bool stopped = !input->ended || input->failed || interrupted;
  if (newline == NULL && (rest == 0 || (seen < LINE && stopped)))
    return false;
  *line = take(input, newline != NULL ? (size_t)(newline - from) : seen);
  if (newline != NULL)
    take(input, 1);
  else if (seen == LINE)
    skip(input);
  else
    input->open_end = true;
  if (line->length > 0 && line->length < LINE && line->text[line->length - 1] == '\r')
    line->length--;
  return true;
}

/* How many bytes the mark of UTF-8 has that some programs put before the first line: 3, or 0 where there is none. */
static size_t mark_length(const reader *input) {
  return input->end >= 3 && memcmp(input->bytes, "\xEF\xBB\xBF", 3) == 0 ? 3 : 0;
}

/* Goes back to the first line: in the block if all still stands there, else in the copy, or in the file. The line begins
   behind so many bytes; the file was read from the place on. */
static bool read_again(reader *input, bool in_block, size_t behind, off_t place) {
  input->skipping = input->open_end = false;
  if (in_block) {
    input->begin = behind;
    return true;
  }
  if (input->copy != NULL) {
    const bool written = fflush(input->copy) == 0 && ferror(input->copy) == 0;
    input->kept = input->copy;
    begin_reading(input, fileno(input->kept));
    return written && lseek(input->file, (off_t)behind, SEEK_SET) == (off_t)behind;
  }
  begin_reading(input, input->file);
  return lseek(input->file, place + (off_t)behind, SEEK_SET) == place + (off_t)behind;
}

#endif
