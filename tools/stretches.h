/* Stretches: windows that follow one another and hold a wrong record, of each kind. */

#ifndef STRETCHES_H
#define STRETCHES_H

#include "decimals.h"
#include "quote.h"
#include "times.h"

/* Whole windows; windows with a gap; those whose right average is above the limit and whose filed one is not; those the
   other way round. */
enum kind { WHOLE, GAP, RAISED, LOWERED, KINDS };
enum { LISTED = 20 };

static const char *const kind_names[] = {"whole", "gap", "raised", "lowered"};

/* A window that holds wrong records, with its averages: the sum is mean * width + remainder. */
typedef struct {
  int64_t from, to;
  uint64_t mean, remainder;
  bool filed;
  uint64_t filed_mean, filed_remainder;
  size_t wrong;
} window;

/* When the earliest window begins and the latest ends, how many they are, and the one with the highest average. */
typedef struct {
  uint64_t count, last; /* the number of the last window in its series */
  int64_t from, to;
  window highest;
  const char *monitor; /* or NULL */
} stretch;

/* The first of a kind are listed, and all are counted. */
typedef struct {
  size_t width, listed[KINDS];
  int unit;
  enum form form;
  uint64_t windows[KINDS], stretches[KINDS];
  stretch list[KINDS][LISTED];
  FILE *all; /* takes every stretch, as JSON; or NULL */
} stretches;

/* So many units, in decimals. */
static void units_text(uint64_t units, int decimals, char text[TEXT]) {
  const int length = snprintf(text, TEXT, "%0*" PRIu64, decimals + 1, units);
  if (decimals > 0) {
    memmove(text + length - decimals + 1, text + length - decimals, (size_t)decimals + 1);
    text[length - decimals] = '.';
  }
}

static void put_json_time(FILE *file, const char *name, enum form form, int64_t seconds) {
  char text[TIME_TEXT];
  time_text(form, seconds, text);
  fprintf(file, "\"%s\": \"%s\"", name, text);
}

static void put_json_average(FILE *file, const char *prefix, bool is_there, uint64_t mean, uint64_t remainder,
                             int unit) {
  char text[TEXT];
  units_text(mean, unit, text);
  if (is_there)
    fprintf(file, ", \"%smean\": \"%s\", \"%sremainder\": %" PRIu64, prefix, text, prefix, remainder);
  else
    fprintf(file, ", \"%smean\": null, \"%sremainder\": null", prefix, prefix);
}

static void put_json_stretch(const stretches *all, const stretch *one, enum kind kind, bool first) {
  fprintf(all->all, "%s\n{\"kind\": \"%s\", \"monitor\": ", first ? "" : ",", kind_names[kind]);
  put_json_name(all->all, one->monitor);
  fprintf(all->all, ", \"count\": %" PRIu64 ", ", one->count);
  put_json_time(all->all, "from", all->form, one->from);
  fputs(", ", all->all);
  put_json_time(all->all, "to", all->form, one->to);
  fputs(", \"highest\": ", all->all);
  if (kind == GAP)
    fputs("null}", all->all);
  else {
    const window *highest = &one->highest;
    putc('{', all->all);
    put_json_time(all->all, "from", all->form, highest->from);
    put_json_average(all->all, "", true, highest->mean, highest->remainder, all->unit);
    put_json_average(all->all, "filed_", highest->filed, highest->filed_mean, highest->filed_remainder, all->unit);
    fputs("}}", all->all);
  }
}

/* Keeps the stretch that ended. */
static void end_stretch(stretches *all, stretch *one, enum kind kind) {
  uint64_t before = 0;
  if (one->count == 0)
    return;
  for (int i = 0; i < KINDS; i++)
    before += all->stretches[i];
  if (all->all != NULL)
    put_json_stretch(all, one, kind, before == 0);
  all->stretches[kind]++;
  if (all->listed[kind] < LISTED)
    all->list[kind][all->listed[kind]++] = *one;
  one->count = 0;
}

/* Adds the window of this number to the stretch, or begins another. */
static void add_to_stretch(stretches *all, stretch *one, enum kind kind, const window *next, uint64_t number,
                           const char *monitor) {
  all->windows[kind]++;
  if (one->count > 0 && number != one->last + 1)
    end_stretch(all, one, kind);
  if (one->count == 0)
    *one = (stretch){0, number, next->from, next->to, *next, monitor};
  one->count++;
  one->last = number;
  one->from = next->from < one->from ? next->from : one->from;
  one->to = next->to > one->to ? next->to : one->to;
  if (next->mean > one->highest.mean || (next->mean == one->highest.mean && next->remainder > one->highest.remainder))
    one->highest = *next;
}

#endif
