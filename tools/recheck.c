/* Which filed records of monitors are wrong, and what is right? docs/RECHECK.md is its specification.

   Right values, marks and averages are those of the unit's proved calls; reading, comparing and printing are this
   program's own. It reads the records in blocks and needs no more memory for a season than for a day.

   Build: gcc -O2 -Iinclude tools/recheck.c target/staticlib/libquendaric.a -o recheck */

#define _XOPEN_SOURCE 700
#include "blocks.h"
#include "find.h"
#include "summary.h"

enum { NONE_WRONG = 0, SOME_WRONG = 1, NOT_ALL = 2, INTERRUPTED = 130 };

/* Does something that was counted say that less was done than was asked? */
static bool is_less_done(void) {
  return lost || sums.unreadable > 0 || sums.records == 0 || is_misfit(&sums) || averages.found.windows[GAP] > 0 ||
         averages.untimed > 0 || averages.large > 0 || averages.outside > 0;
}

static int status_now(void) {
  return interrupted ? INTERRUPTED : is_less_done() ? NOT_ALL : sums.wrong > 0 ? SOME_WRONG : NONE_WRONG;
}

/* Reads and judges the records of a file. */
static void judge_records(source *from) {
  size_t length;
  first_taken = false;
  before_length = 0;
  for (;;) {
    while ((length = fill_block(from)) > 0) {
      if (!divide_block(from, length))
        return;
      for (size_t i = 0; i < length; i++)
        judge(from, &block[i], rights[i], (const bool[2]){marks[0][i] != 0, marks[1][i] != 0});
      show_progress();
    }
    if (input.ended)
      break;
    refill(&input);
  }
  from->open_end = input.open_end;
}

static void judge_file(source *from, const char *name) {
  const bool is_stream = strcmp(name, "-") == 0;
  const int file = is_stream ? STDIN_FILENO : open(name, O_RDONLY);
  from->name = is_stream ? "standard input" : name;
  if (file < 0) {
    tell_loss(from->name, strerror(errno));
    return;
  }
  input.kept = NULL;
  begin_reading(&input, file);
  const char *fault = find(&chosen, from, &input);
  if (fault != NULL)
    tell_loss(from->name, fault);
  else {
    begin_list(from);
    from->is_read = true;
    const bool failed = input.failed;
    judge_records(from);
    if (input.failed || failed)
      tell_loss(from->name, "not all was read");
  }
  if (input.kept != NULL)
    fclose(input.kept);
  if (!is_stream)
    close(file);
}

static void close_written(FILE *file, const char *name) {
  const bool failed = ferror(file) != 0;
  if (fclose(file) != 0 || failed)
    tell_loss(name, "not all was written");
}

/* Reads the burned table. */
static bool take_table(void) {
  FILE *file = fopen(chosen.table, "rb");
  if (file == NULL)
    tell_loss(chosen.table, strerror(errno));
  if (file == NULL || !read_table(file, chosen.table, &burned))
    return false;
  fclose(file);
  if (burned.length != QUENDARIC_TABLE_LENGTH)
    tell_loss(chosen.table, "a table has 2048 bytes, and this file has not");
  return burned.length == QUENDARIC_TABLE_LENGTH;
}

/* Are standard output and standard error open? Else a file that is written would take their place. */
static bool are_open(void) {
  if (fcntl(STDERR_FILENO, F_GETFD) < 0)
    return false;
  if (fcntl(STDOUT_FILENO, F_GETFD) < 0)
    tell_loss("standard output", strerror(errno));
  if (!lost && fcntl(STDIN_FILENO, F_GETFD) < 0 && open("/", O_RDONLY) != STDIN_FILENO) /* which cannot be read */
    tell_loss("standard input", strerror(errno));
  return !lost;
}

/* Opens what is written, and the temporary files of a JSON document. */
static bool open_outputs(void) {
  if (!open_output(&averages_file, chosen.averages))
    tell_loss(chosen.averages, strerror(errno));
  if (!lost && !open_output(&picture_file, chosen.picture))
    tell_loss(chosen.picture, strerror(errno));
  if (!lost && chosen.json && ((unreadable = tmpfile()) == NULL || (averages.found.all = tmpfile()) == NULL))
    tell_loss("a temporary file", strerror(errno));
  averages.file = averages_file.file;
  return !lost;
}

/* Ends a file that was written. It takes its place only if all records were read. */
static void end_file(output *one, bool whole) {
  if (one->name != NULL && !end_output(one, whole))
    tell_loss(one->name, "not all was written");
  else if (one->name != NULL && !whole)
    tell_loss(one->name, "it is not written, since not all was read");
}

/* Writes what comes at the end. The files come first, so that the status in the JSON document counts them. */
static int end_run(void) {
  const bool whole = !lost && !interrupted;
  begin_list(NULL);
  end_windows(&all_monitors, &averages);
  if (averages.refused)
    tell_loss("--window", "a call refused to average");
  end_file(&averages_file, whole && !averages.refused);
  if (whole && picture_file.file != NULL)
    draw(picture_file.file, &season, sums.right + sums.wrong, sums.wrong);
  end_file(&picture_file, whole);
  if (chosen.json && !put_end(&chosen, &sums, &averages, &all_monitors, files, unreadable, status_now()))
    tell_loss("standard output", "not all was written");
  close_written(stdout, "standard output");
  clear_progress();
  if (interrupted)
    fprintf(stderr, "interrupted: what follows is of the records that were judged until then\n");
  tell_table(&chosen, burned.bytes);
  for (size_t i = 0; i < chosen.files; i++)
    tell_source(&files[i]);
  tell_totals(&chosen, &sums);
  tell_monitors(&all_monitors);
  tell_windows(&chosen, &averages);
  lost = ferror(stderr) != 0 || lost;
  return status_now();
}

/* Puts down what is wanted. */
static void begin_run(void) {
  averages.width = averages.found.width = chosen.window;
  averages.step = chosen.step;
  averages.limited = chosen.limited;
  averages.limit = chosen.limit;
  averages.separator = separator_for(&chosen);
  averages.found.unit = chosen.unit;
  season.wanted = chosen.picture != NULL;
  take_burned(&burned_marks, chosen.estimate, burned.bytes);
  signal(SIGPIPE, SIG_IGN); /* a closed pipe, and a file that may not grow, are told as writes that failed */
  signal(SIGXFSZ, SIG_IGN);
  hold_signals();
  if (chosen.json)
    put_beginning(&chosen, burned.bytes);
}

int main(int count, char **arguments) {
  char **names = calloc((size_t)count + 1, sizeof *names);
  if (!are_open() || names == NULL)
    return NOT_ALL;
  if (count == 2 && strcmp(arguments[1], "--help") == 0) {
    for (size_t i = 0; i < sizeof help / sizeof *help; i++)
      fputs(help[i], stdout);
    close_written(stdout, "standard output");
    return lost ? NOT_ALL : NONE_WRONG;
  }
  if (!take_arguments(&chosen, count, arguments, names) || is_shared(&chosen) || !are_readable(&chosen) ||
      !take_table() || (files = calloc(chosen.files, sizeof *files)) == NULL || !open_outputs() ||
      quendaric_make_table(made, sizeof made).refusal != 0) {
    end_output(&averages_file, false);
    end_output(&picture_file, false);
    return NOT_ALL;
  }
  begin_run();
  for (size_t i = 0; i < chosen.files && !interrupted; i++)
    judge_file(&files[i], chosen.records[i]);
  return end_run();
}
