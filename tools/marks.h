/* Marks by both numbers of bits. A run that comes out wrong has read a faulty cell (specification, 17.3), and all cells
   that it reads stand in the divisor's row; so of a record whose row has none the mark is 0, and it is not asked for. */

#ifndef MARKS_H
#define MARKS_H

#include "quendaric.h"
#include <string.h>

enum { BLOCK = 4096, ROWS = 16, ROW_LENGTH = QUENDARIC_TABLE_LENGTH / ROWS };

/* The table, and for each number of bits the rows with a faulty cell. */
typedef struct {
  uint64_t bits[2]; /* of the estimate that was named, and of the other */
  const uint8_t *table;
  bool faulty[2][ROWS], some[2];
} marker;

static void take_burned(marker *marks, uint64_t estimate, const uint8_t table[QUENDARIC_TABLE_LENGTH]) {
  *marks = (marker){.bits = {estimate, 15 - estimate}, .table = table};
  for (int i = 0; i < 2; i++)
    for (uint64_t cell = 0; cell < QUENDARIC_TABLE_LENGTH; cell++) {
      const uint64_t row = cell / ROW_LENGTH;
      const quendaric_cell answer = quendaric_check_cell_for(marks->bits[i], row, cell % ROW_LENGTH, table[cell]);
      marks->faulty[i][row] = marks->faulty[i][row] || answer.refusal != 0 || !answer.allowed;
      marks->some[i] = marks->some[i] || marks->faulty[i][row];
    }
}

/* Can a record with this sensitivity be marked? The row of a subnormal number is not looked for. */
static bool can_be_marked(const marker *marks, int i, uint64_t sensitivity) {
  return (sensitivity >> 52 & 0x7FF) == 0 ? marks->some[i] : marks->faulty[i][sensitivity >> 48 & 15];
}

/* Marks a block of records, by one of the numbers of bits. Does the unit take them? */
static bool mark_block(const marker *marks, int i, const uint64_t currents[BLOCK], const uint64_t sensitivities[BLOCK],
                       size_t length, uint8_t marked[BLOCK]) {
  static uint64_t a[BLOCK], b[BLOCK];
  static uint8_t found[BLOCK];
  static size_t places[BLOCK];
  size_t count = 0;
  for (size_t k = 0; k < length; k++)
    if (can_be_marked(marks, i, sensitivities[k])) {
      a[count] = currents[k];
      b[count] = sensitivities[k];
      places[count++] = k;
    }
  const quendaric_affected_count answer = quendaric_affected_samples(
      marks->bits[i], marks->table, QUENDARIC_TABLE_LENGTH, a, count, b, count, found, BLOCK);
  memset(marked, 0, length);
  for (size_t k = 0; k < count; k++)
    marked[places[k]] = found[k];
  return answer.refusal == 0;
}

#endif
