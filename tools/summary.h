/* The summary's part on windows. */

#ifndef SUMMARY_H
#define SUMMARY_H

#include "report.h"

/* Windows that follow one another. */
static void tell_stretch(const stretches *all, const stretch *one, enum kind kind) {
  char from[TIME_TEXT], to[TIME_TEXT], mean[TEXT], unit[TEXT];
  const window *highest = &one->highest;
  time_text(all->form, one->from, from);
  time_text(all->form, one->to, to);
  fprintf(stderr, "  %" PRIu64 " from %s to %s", one->count, from, to);
  if (one->monitor != NULL)
    fprintf(stderr, " (%s)", one->monitor);
  if (kind != GAP) {
    units_text(highest->mean, all->unit, mean);
    units_text(1, all->unit, unit);
    time_text(all->form, highest->from, from);
    fprintf(stderr, "; highest right average: %s and %" PRIu64 "/%zu of %s, from %s on", mean, highest->remainder,
            all->width, unit, from);
    units_text(highest->filed_mean, all->unit, mean);
    if (highest->filed)
      fprintf(stderr, "; as filed: %s and %" PRIu64 "/%zu", mean, highest->filed_remainder, all->width);
  }
  putc('\n', stderr);
}

static void tell_kind(const stretches *all, enum kind kind) {
  for (size_t i = 0; i < all->listed[kind]; i++)
    tell_stretch(all, &all->list[kind][i], kind);
  if (all->stretches[kind] > all->listed[kind])
    fprintf(stderr, "  and in %" PRIu64 " places more: --json lists all\n", all->stretches[kind] - all->listed[kind]);
}

static void tell_count(uint64_t count, const char *what) {
  if (count > 0)
    fprintf(stderr, "%s: %" PRIu64 "\n", what, count);
}

static void tell_windows(const options *chosen, const windows *all) {
  const stretches *found = &all->found;
  if (all->width == 0)
    return;
  fprintf(stderr, "windows of %zu readings, %ld s apart, with a wrong record: %" PRIu64 "\n", all->width, chosen->step,
          found->windows[WHOLE]);
  tell_kind(found, WHOLE);
  tell_count(found->windows[GAP], "windows with a wrong record and a gap, which have no average");
  tell_kind(found, GAP);
  if (all->limited) {
    fprintf(stderr, "right average above %s, and the filed one not: %" PRIu64 "\n", chosen->limit_text,
            found->windows[RAISED]);
    tell_kind(found, RAISED);
    fprintf(stderr, "filed average above %s, and the right one not: %" PRIu64 "\n", chosen->limit_text,
            found->windows[LOWERED]);
    tell_kind(found, LOWERED);
    tell_count(all->unfiled, "windows without a filed average");
  }
  tell_count(all->missing, "readings that are missing in gaps");
  tell_count(all->doubled, "times that have two records");
  tell_count(all->back, "times that go back, or are no whole number of steps on");
  tell_count(all->outside, "wrong records in no window, for want of so many readings");
  tell_count(all->untimed, "in no window, since the time is not in seconds or by ISO 8601, as the first is");
  tell_count(all->large, "in no average, since the reading is too large");
}

#endif
