/* A record becomes a reading of its monitor's series: gaps, doubled times, times that go back. */

#ifndef SERIES_H
#define SERIES_H

#include "windows.h"

/* The value in whole units, ties to even; 0 for a value below zero. Is that below 2^40? */
static bool in_units(uint64_t value, int decimals, uint64_t *units) {
  char text[TEXT];
  *units = 0;
  if (value >> 63 != 0)
    return true;
  const double exact = quendaric_double(value) * tens[decimals];
  if (FLT_EVAL_METHOD == 0 && is_small(exact)) {
    const uint64_t whole = (uint64_t)exact;
    const double over = exact - (double)whole;
    *units = whole + is_more(over);
    if (is_less(over) || is_more(over))
      return true;
    *units = 0;
  }
  round_magnitude(value, decimals, text);
  for (const char *at = text; *at != '\0'; at++)
    if (*at != '.' && (*units = 10 * *units + (uint64_t)(*at - '0')) >> 40 != 0)
      return false;
  return true;
}

/* Adds a reading. Where there is no more room, only what later windows need is kept. */
static void push(windows *all, series *one, uint64_t right, uint64_t filed, unsigned char what) {
  if (one->length == SPANS * all->width) {
    find_windows(all, one);
    const size_t kept = all->width - 1, gone = one->length - kept;
    memmove(one->right, one->right + gone, kept * sizeof *one->right);
    memmove(one->filed, one->filed + gone, kept * sizeof *one->filed);
    memmove(one->what, one->what + gone, kept);
    one->length = kept;
    one->at -= (int64_t)gone;
    one->number += gone;
  }
  one->right[one->length] = right;
  one->filed[one->length] = filed;
  one->what[one->length++] = what;
}

static void push_missing(windows *all, series *one, uint64_t count) {
  for (; count > 0; count--)
    push(all, one, 0, 0, IS_MISSING | IS_UNFILED);
}

static void end_stretches(windows *all, series *one) {
  for (int i = 0; i < KINDS; i++)
    end_stretch(&all->found, &one->open[i], (enum kind)i);
}

/* Is one of the last readings wrong, so that windows reach on from it? */
static bool reaches_on(const windows *all, const series *one) {
  const size_t first = one->length < all->width ? 0 : one->length - all->width + 1;
  for (size_t i = first; i < one->length; i++)
    if ((one->what[i] & IS_WRONG) != 0)
      return true;
  return false;
}

/* Readings are missing on both sides of a time that does not follow. The order is kept, or found anew. */
static void part_series(windows *all, series *one, int64_t seconds, int order) {
  const size_t around = all->width - 1;
  if (reaches_on(all, one))
    push_missing(all, one, around);
  find_windows(all, one);
  end_stretches(all, one);
  one->is_full = true;
  one->number += one->length;
  one->length = 0;
  one->order = order;
  one->anchor = seconds;
  one->at = (int64_t)around;
  push_missing(all, one, around);
}

/* Makes room up to a time that is not the last one. */
static void go_on_to(windows *all, series *one, int64_t seconds) {
  const int64_t ahead = seconds - one->last;
  const int order = one->order != 0 ? one->order : ahead > 0 ? 1 : -1;
  if (ahead % all->step != 0 || (ahead > 0) != (order > 0)) {
    all->back++;
    part_series(all, one, seconds, 0);
    return;
  }
  const uint64_t missing = (uint64_t)((ahead > 0 ? ahead : -ahead) / all->step) - 1;
  one->order = order;
  all->missing += missing;
  if (missing < all->width)
    push_missing(all, one, missing);
  else
    part_series(all, one, seconds, order);
}

/* Adds a record of a time in seconds. */
static void add_timed(windows *all, series *one, int64_t seconds, uint64_t right, uint64_t filed, unsigned char what) {
  if (one->length > 0 && seconds == one->last) {
    all->doubled++;
    one->what[one->length - 1] |= IS_MISSING | (what & IS_WRONG);
    return;
  }
  if (one->length == 0)
    one->anchor = seconds;
  else
    go_on_to(all, one, seconds);
  push(all, one, right, filed, what);
  one->last = seconds;
}

/* Adds a record. Its form of time is that of the first that has one, or it is in no window. */
static void add_reading(windows *all, series *one, enum form form, int64_t seconds, uint64_t right,
                        const uint64_t *filed, bool wrong) {
  uint64_t units, filed_units = 0;
  unsigned char what = wrong ? IS_WRONG : 0;
  if (all->found.form == UNTIMED)
    all->found.form = form;
  if (form == UNTIMED || form != all->found.form) {
    all->untimed++;
    all->outside += wrong;
    return;
  }
  if (!in_units(right, all->found.unit, &units)) {
    all->large++;
    units = 0;
    what |= IS_MISSING;
  }
  if (filed == NULL || !in_units(*filed, all->found.unit, &filed_units)) {
    filed_units = 0;
    what |= IS_UNFILED;
  }
  add_timed(all, one, seconds, units, filed_units, what);
}

/* The series ends with the last file. */
static void end_series(windows *all, series *one) {
  find_windows(all, one);
  end_stretches(all, one);
  for (size_t i = 0; i < one->length && !one->is_full; i++)
    all->outside += (one->what[i] & IS_WRONG) != 0;
}

#endif
