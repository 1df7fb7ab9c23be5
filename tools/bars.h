/* The bars of the picture. One is so many seconds wide that at most BARS are needed; as the season grows bars are joined.
   Where the first time is not in seconds and not by ISO 8601, a bar is so many records wide. */

#ifndef BARS_H
#define BARS_H

#include "times.h"

enum { BARS = 240, LABEL = 20 };

typedef struct {
  uint64_t records, wrong;
  double low, high;    /* of the right readings */
  double right, filed; /* of the wrong record that is farthest off; filed is right where it was not filed as a number */
  char time[LABEL + 1];
} bar;

/* Bar i stands for the places from (first + i) * width on; a place is a time in seconds or the number of a record. */
typedef struct {
  bool wanted, timed, local; /* local: times without a zone */
  int64_t first, width, place;
  size_t length;
  bar bars[BARS];
} picture;

/* What makes a wider bar of neighbours: 1, 5, 15 seconds, 1, 5, 15 minutes, 1, 4 hours, a day, a week, and on. */
static int64_t joined_by(int64_t width) {
  static const int64_t widths[] = {1, 5, 15, 60, 300, 900, 3600, 14400, 86400, 604800};
  for (size_t i = 0; i + 1 < sizeof widths / sizeof *widths; i++)
    if (widths[i] == width)
      return widths[i + 1] / width;
  return 4;
}

static double apart(const bar *one) {
  return one->right < one->filed ? one->filed - one->right : one->right - one->filed;
}

/* Adds what another bar holds. */
static void join(bar *to, const bar *from) {
  if (from->records == 0)
    return;
  const bool farther = from->wrong > 0 && (to->wrong == 0 || apart(from) > apart(to));
  if (to->records == 0) {
    *to = *from;
    return;
  }
  to->low = from->low < to->low ? from->low : to->low;
  to->high = from->high > to->high ? from->high : to->high;
  to->right = farther ? from->right : to->right;
  to->filed = farther ? from->filed : to->filed;
  to->records += from->records;
  to->wrong += from->wrong;
}

/* Makes the bars wider. */
static void widen(picture *all) {
  const int64_t by = joined_by(all->width), first = floor_of(all->first, by);
  static bar wider[BARS];
  size_t length = 0;
  memset(wider, 0, sizeof wider);
  for (size_t i = 0; i < all->length; i++) {
    const size_t at = (size_t)(floor_of(all->first + (int64_t)i, by) - first);
    join(&wider[at], &all->bars[i]);
    length = at + 1;
  }
  memcpy(all->bars, wider, sizeof wider);
  all->first = first;
  all->width *= by;
  all->length = length;
}

/* The bar of a place. */
static bar *bar_at(picture *all, int64_t place) {
  if (all->length == 0) {
    all->width = 1;
    all->first = place;
    all->length = 1;
  }
  int64_t low, high;
  for (;;) {
    const int64_t at = floor_of(place, all->width), end = all->first + (int64_t)all->length - 1;
    low = at < all->first ? at : all->first;
    high = at > end ? at : end;
    if (high - low < BARS)
      break;
    widen(all);
  }
  const size_t before = (size_t)(all->first - low);
  memmove(all->bars + before, all->bars, all->length * sizeof *all->bars);
  memset(all->bars, 0, before * sizeof *all->bars);
  all->first = low;
  all->length = (size_t)(high - low) + 1;
  return &all->bars[floor_of(place, all->width) - low];
}

/* Adds a record. */
static void add_to_picture(picture *all, field time, enum form form, int64_t seconds, double right, double filed,
                           bool wrong) {
  const bool timed = form != UNTIMED;
  if (all->length == 0) {
    all->timed = timed;
    all->local = form == LOCAL;
  }
  if (!all->timed)
    all->place += all->length != 0;
  else if (timed)
    all->place = seconds;
  bar one = {1, wrong, right, right, right, filed, ""};
  memcpy(one.time, time.text, time.length < LABEL ? time.length : LABEL);
  join(bar_at(all, all->place), &one);
}

#endif
