/* What a cell for hydrogen sulfide can be, as the example programs have it. Put in the figures of yours. */

#ifndef CELL_H
#define CELL_H

#include "quendaric.h"

/* The sensitivities that it can have, in nA a unit, and the readings that it can give, in that unit; a current drifts
   below zero in clean air. */
typedef struct {
  const char *unit;
  double least_sensitivity, most_sensitivity, least, most;
} cell;

static const cell in_ppm = {"ppm", 10, 10000, -5, 500};

/* Is the quotient of a current and a sensitivity a reading of this cell? */
static inline bool is_reading(const cell *of, quendaric_binary64 r, uint64_t current, uint64_t sensitivity) {
  return quendaric_is_within(sensitivity, quendaric_pattern(of->least_sensitivity),
                             quendaric_pattern(of->most_sensitivity)) &&
         quendaric_reading(r, current, sensitivity, quendaric_pattern(of->least), quendaric_pattern(of->most));
}

#endif
