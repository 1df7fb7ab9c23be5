/* The monitors whose records are read, by their names. */

#ifndef MONITORS_H
#define MONITORS_H

#include "series.h"

enum { MOST_MONITORS = 1024, PLACES = 2 * MOST_MONITORS };

typedef struct {
  char *name; /* or NULL, where there is one monitor without a name */
  uint64_t records, wrong;
  series *own; /* or NULL, where no windows are wanted */
} monitor;

/* place[h] is 0, or one more than the number of a monitor whose name has the hash h, or one before h. */
typedef struct {
  size_t count;
  monitor list[MOST_MONITORS], *last;
  unsigned short place[PLACES];
} monitors;

static bool has_name(const monitor *one, const field *name) {
  return name == NULL || one->name == NULL ? name == NULL && one->name == NULL : is_same(text_of(one->name), *name);
}

static size_t hash_of(const field *name) {
  uint32_t hash = 2166136261u;
  for (size_t i = 0; name != NULL && i < name->length; i++)
    hash = (hash ^ (unsigned char)name->text[i]) * 16777619u;
  return hash % PLACES;
}

/* A new monitor, or NULL where there is no room for it. */
static monitor *new_monitor(monitors *all, const windows *averages, const field *name) {
  monitor *one = &all->list[all->count];
  if (all->count == MOST_MONITORS)
    return NULL;
  *one = (monitor){.name = NULL};
  if (name != NULL) {
    one->name = calloc(name->length + 1, 1);
    if (one->name == NULL)
      return NULL;
    memcpy(one->name, name->text, name->length);
  }
  if (averages->width > 0 && (one->own = new_series(averages, one->name)) == NULL)
    return NULL;
  all->count++;
  return one;
}

/* The monitor of this name, or of none. */
static monitor *monitor_of(monitors *all, const windows *averages, const field *name) {
  if (all->last != NULL && has_name(all->last, name))
    return all->last;
  size_t at = hash_of(name);
  while (all->place[at] != 0 && !has_name(&all->list[all->place[at] - 1], name))
    at = (at + 1) % PLACES;
  if (all->place[at] == 0) {
    if (new_monitor(all, averages, name) == NULL)
      return NULL;
    all->place[at] = (unsigned short)all->count;
  }
  all->last = &all->list[all->place[at] - 1];
  return all->last;
}

/* All records were added. */
static void end_windows(monitors *all, windows *averages) {
  for (size_t i = 0; i < all->count && averages->width > 0; i++)
    end_series(averages, all->list[i].own);
}

#endif
