/* Records in blocks: read, divided by the unit, judged, listed and counted. */

#ifndef BLOCKS_H
#define BLOCKS_H

#include "../examples/read_table.h"
#include "json.h"
#include "marks.h"
#include "outputs.h"
#include "picture.h"

enum { PROGRESS = 1 << 19 };

static options chosen;
static totals sums;
static windows averages;
static monitors all_monitors;
static picture season;
static reader input;
static source *files;
static table_file burned;
static uint8_t made[QUENDARIC_TABLE_LENGTH];
static record block[BLOCK];
static uint64_t currents[BLOCK], sensitivities[BLOCK], rights[BLOCK];
static marker burned_marks;
static uint8_t marks[2][BLOCK];
static output averages_file, picture_file;
static FILE *unreadable; /* keeps them for the JSON document */
static char before[LINE];
static size_t before_length; /* of the record before, or 0 */
static bool first_taken;     /* the first line of the file was taken */
static bool begun, named;    /* the list has begun; it has the monitors' names */
static bool lost;            /* something was not read or not written */
static bool in_progress;     /* the terminal shows a progress line */

/* Makes room for another line in place of the progress line. */
static void clear_progress(void) {
  if (in_progress)
    fprintf(stderr, "\r%79s\r", "");
  in_progress = false;
}

static void tell_loss(const char *what, const char *why) {
  clear_progress();
  fprintf(stderr, "recheck: %s: %s\n", what, why);
  lost = true;
}

/* Reading records. */

/* Is the record the same as the one before it? */
static bool is_repeated(field line) {
  if (line.length <= LONGEST && line.length == before_length && memcmp(line.text, before, line.length) == 0)
    return true;
  before_length = line.length <= LONGEST ? line.length : 0;
  memcpy(before, line.text, before_length);
  return false;
}

/* Counts a line, and reads it into a place of the block. A line that is no record leaves the place free. */
static bool take_line(source *from, field line, size_t place) {
  record *one = &block[place];
  const bool is_long = line.length > LONGEST, is_empty = !is_long && is_all_blank(line);
  const bool first = !is_long && !is_empty && !first_taken;
  sums.lines++;
  one->line = ++from->lines;
  first_taken = first_taken || first;
  const bool names = first && from->form.header, repeats = !is_empty && !names && is_repeated(line);
  sums.empty += is_empty;
  sums.headers += names;
  sums.repeated += repeats;
  if (is_empty || names || repeats)
    return false;
  one->fault = is_long ? "the line is longer than 1023 bytes"
                       : read_fields(from, line, one, &currents[place], &sensitivities[place]);
  if (one->fault != NULL) /* the calls get 1 / 1 in its place */
    currents[place] = sensitivities[place] = quendaric_pattern(1);
  return true;
}

/* Fills the block, and returns how many records it has. */
static size_t fill_block(source *from) {
  field line;
  size_t length = 0;
  while (length < BLOCK && next_line(&input, &line))
    length += take_line(from, line, length);
  return length;
}

/* Judging records. */

/* The right values and the marks of the block, by both numbers of bits. */
static bool divide_block(const source *from, size_t length) {
  bool refused = quendaric_divide_samples(made, sizeof made, currents, length, sensitivities, length, rights, BLOCK,
                                          chosen.direction)
                     .refusal != 0;
  for (int i = 0; i < 2; i++)
    refused = !mark_block(&burned_marks, i, currents, sensitivities, length, marks[i]) || refused;
  if (refused)
    tell_loss(from->name, "a call refused to divide");
  return !refused;
}

static void tell_unreadable(const source *from, const record *one, const char *fault) {
  clear_progress();
  fprintf(stderr, "%s:%" PRIu64 ": %s\n", from->name, one->line, fault);
  if (unreadable != NULL)
    put_unreadable(unreadable, from->name, one->line, fault, sums.unreadable == 0);
  sums.unreadable++;
}

/* The monitor that a record is of. */
static monitor *monitor_for(const source *from, const record *one) {
  const field file = text_of(from->name);
  const bool by_file = !chosen.joined && chosen.files > 1;
  return monitor_of(&all_monitors, &averages, from->form.monitors ? &one->fields[MONITOR] : by_file ? &file : NULL);
}

static void put_wrong(const source *from, const record *one, uint64_t right, const bool marked[2],
                      const char *monitor) {
  char text[TEXT];
  clear_progress();
  right_text(from, one, right, text);
  if (chosen.json)
    put_object(from, one, text_of(text), marked, monitor, sums.wrong == 1);
  else
    put_line(&chosen, one, text_of(text), marked, named, monitor);
}

/* Adds a record that was judged to windows and picture. */
static void add_record(monitor *of, const record *one, uint64_t right, bool wrong) {
  int64_t seconds = 0;
  if (averages.width == 0 && !season.wanted)
    return;
  const enum form form = read_time(one->fields[TIME], &seconds);
  const bool filed = (one->kind == AS_PATTERN || one->kind == AS_DECIMAL) && one->in_range;
  if (averages.width > 0)
    add_reading(&averages, of->own, form, seconds, right, filed ? &one->filed : NULL, wrong);
  if (season.wanted)
    add_to_picture(&season, one->fields[TIME], form, seconds, quendaric_double(right),
                   quendaric_double(filed ? one->filed : right), wrong);
}

static void judge(const source *from, const record *one, uint64_t right, const bool marked[2]) {
  monitor *of = one->fault == NULL && quendaric_is_finite(right) ? monitor_for(from, one) : NULL;
  sums.records++;
  if (of == NULL) {
    tell_unreadable(from, one,
                    one->fault != NULL            ? one->fault
                    : !quendaric_is_finite(right) ? "the quotient is not finite"
                                                  : "there are more than 1024 monitors");
    return;
  }
  const bool wrong = is_wrong(from, one, right, marked[0]);
  count_record(&sums, from, one, wrong, marked);
  of->records++;
  of->wrong += wrong;
  if (wrong)
    put_wrong(from, one, right, marked, of->name);
  add_record(of, one, right, wrong);
}

/* Begins the list, when the columns of the first file are known. */
static void begin_list(const source *first) {
  if (begun)
    return;
  begun = true;
  named = chosen.files > 1 || (first != NULL && first->form.monitors);
  averages.named = named;
  if (!chosen.json)
    put_names(&chosen, named);
  if (averages.file != NULL) {
    const char c = averages.separator;
    fprintf(averages.file, "from%cto%cmean%cremainder%cfiled_mean%cfiled_remainder%cwrong", c, c, c, c, c, c);
    if (named)
      fprintf(averages.file, "%cmonitor", c);
    putc('\n', averages.file);
  }
}

static void show_progress(void) {
  static uint64_t shown;
  if (sums.records - shown < PROGRESS || !isatty(STDERR_FILENO))
    return;
  shown = sums.records;
  in_progress = true;
  fprintf(stderr, "\r%" PRIu64 " records, %" PRIu64 " wrong, %" PRIu64 " unreadable ", sums.records, sums.wrong,
          sums.unreadable);
}

#endif
