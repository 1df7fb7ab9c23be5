/* The windows of a monitor's readings that hold a wrong record, with their right and filed averages. */

#ifndef WINDOWS_H
#define WINDOWS_H

#include "stretches.h"

enum { SPANS = 4 };

/* What stands at a time: a wrong record; no reading that can be averaged; no filed one. */
enum { IS_WRONG = 1, IS_MISSING = 2, IS_UNFILED = 4 };

/* A monitor's readings, a step apart, in the order of the file. The one at i has the time anchor + (i - at) * order *
   step. The arrays have room for SPANS widths. */
typedef struct {
  const char *monitor; /* its name, or NULL */
  size_t length;
  int64_t anchor, at, last;
  int order;       /* 1, -1, or 0 before it is known */
  bool is_full;    /* there has been a window */
  uint64_t number; /* how many readings of the series stood before the first */
  stretch open[KINDS];
  uint64_t *right, *filed;
  unsigned char *what;
} series;

/* What is asked of windows, and what is counted. */
typedef struct {
  size_t width; /* 0 where no windows are wanted */
  int64_t step;
  bool limited;
  uint64_t limit;
  FILE *file; /* for a line of each whole window, or NULL */
  char separator;
  bool named; /* lines have the monitor's name */
  bool refused;
  uint64_t untimed, large, missing, doubled, back, outside, unfiled;
  stretches found;
  uint64_t means[2][SPANS * QUENDARIC_WIDEST_WINDOW], remainders[2][SPANS * QUENDARIC_WIDEST_WINDOW];
} windows;

/* The series of a monitor, or NULL where there is no room. */
static series *new_series(const windows *all, const char *monitor) {
  const size_t room = SPANS * all->width;
  series *one = calloc(1, sizeof *one);
  uint64_t *readings = one != NULL ? calloc(room, 2 * sizeof *readings) : NULL;
  unsigned char *what = readings != NULL ? calloc(room, 1) : NULL;
  if (what == NULL)
    return NULL;
  *one = (series){.monitor = monitor, .right = readings, .filed = readings + room, .what = what};
  return one;
}

static int64_t time_at(const windows *all, const series *one, size_t at) {
  return one->anchor + ((int64_t)at - one->at) * (one->order < 0 ? -all->step : all->step);
}

static bool is_above(const windows *all, uint64_t mean, uint64_t remainder) {
  return mean > all->limit || (mean == all->limit && remainder > 0);
}

/* A line of the file of averages. */
static void put_average(const windows *all, const series *one, const window *next) {
  char from[TIME_TEXT], to[TIME_TEXT], mean[TEXT], filed[TEXT];
  const char c = all->separator;
  time_text(all->found.form, next->from, from);
  time_text(all->found.form, next->to, to);
  units_text(next->mean, all->found.unit, mean);
  units_text(next->filed_mean, all->found.unit, filed);
  if (c == ';') {
    mean[strcspn(mean, ".")] = all->found.unit > 0 ? ',' : '\0';
    filed[strcspn(filed, ".")] = all->found.unit > 0 ? ',' : '\0';
  }
  fprintf(all->file, "%s%c%s%c%s%c%" PRIu64 "%c", from, c, to, c, mean, c, next->remainder, c);
  if (next->filed)
    fprintf(all->file, "%s%c%" PRIu64 "%c%zu", filed, c, next->filed_remainder, c, next->wrong);
  else
    fprintf(all->file, "%c%c%zu", c, c, next->wrong);
  if (all->named) {
    putc(c, all->file);
    put_field(all->file, text_of(one->monitor != NULL ? one->monitor : ""), c);
  }
  putc('\n', all->file);
}

/* Adds a whole window. */
static void add_whole(windows *all, series *one, const window *next, uint64_t number) {
  if (all->file != NULL)
    put_average(all, one, next);
  all->unfiled += !next->filed;
  add_to_stretch(&all->found, &one->open[WHOLE], WHOLE, next, number, one->monitor);
  if (!all->limited || !next->filed)
    return;
  const bool above = is_above(all, next->mean, next->remainder);
  if (above != is_above(all, next->filed_mean, next->filed_remainder)) {
    const enum kind kind = above ? RAISED : LOWERED;
    add_to_stretch(&all->found, &one->open[kind], kind, next, number, one->monitor);
  }
}

/* How many of the last width readings are wrong, missing, without a filed one. */
typedef struct {
  size_t wrong, missing, unfiled;
} held;

static void count_in(held *now, unsigned char what, size_t by) {
  now->wrong += what & IS_WRONG ? by : 0;
  now->missing += what & IS_MISSING ? by : 0;
  now->unfiled += what & IS_UNFILED ? by : 0;
}

/* Adds the window that begins at the place, if it holds a wrong record. */
static void add_window(windows *all, series *one, size_t at, const held *now) {
  const int64_t first = time_at(all, one, at), last = time_at(all, one, at + all->width - 1);
  window next = {.from = first < last ? first : last, .to = first < last ? last : first, .wrong = now->wrong};
  if (now->missing > 0) {
    add_to_stretch(&all->found, &one->open[GAP], GAP, &next, one->number + at, one->monitor);
    return;
  }
  next.filed = now->unfiled == 0;
  next.mean = all->means[0][at];
  next.remainder = all->remainders[0][at];
  next.filed_mean = next.filed ? all->means[1][at] : 0;
  next.filed_remainder = next.filed ? all->remainders[1][at] : 0;
  add_whole(all, one, &next, one->number + at);
}

/* Averages the readings that are there, right and filed. */
static bool average(windows *all, const series *one) {
  const size_t room = SPANS * QUENDARIC_WIDEST_WINDOW;
  const quendaric_averages right = quendaric_average_windows(one->right, one->length, all->width, false, all->means[0],
                                                             room, all->remainders[0], room);
  const quendaric_averages filed = quendaric_average_windows(one->filed, one->length, all->width, false, all->means[1],
                                                             room, all->remainders[1], room);
  all->refused = all->refused || right.refusal != 0 || filed.refusal != 0;
  return right.refusal == 0 && filed.refusal == 0;
}

/* Finds the windows in the readings that are there. */
static void find_windows(windows *all, series *one) {
  held now = {0, 0, 0};
  bool some = false;
  if (one->length < all->width)
    return;
  one->is_full = true;
  for (size_t i = 0; i < one->length && !some; i++)
    some = (one->what[i] & IS_WRONG) != 0;
  if (!some || !average(all, one))
    return;
  for (size_t i = 0; i < one->length; i++) {
    count_in(&now, one->what[i], 1);
    if (i + 1 < all->width)
      continue;
    if (now.wrong > 0)
      add_window(all, one, i + 1 - all->width, &now);
    count_in(&now, one->what[i + 1 - all->width], (size_t)-1);
  }
}

#endif
