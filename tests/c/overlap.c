/* gcc warns of each call whose pointers overlap, and of no other line.

   A line each, marked; -Wrestrict is a part of -Wall. Compiled by tests/c/run, never linked. tools/prototypes makes this file: do not
   edit it. */
/* clang-format off */

#include "quendaric.h"

uint64_t overlap_make_table(uint8_t *buffer) {
  uint64_t refusals = 0;
  refusals += quendaric_make_table(buffer, 1).refusal;
  return refusals;
}

uint64_t overlap_make_table_for(uint8_t *buffer) {
  uint64_t refusals = 0;
  refusals += quendaric_make_table_for(1, buffer, 1).refusal;
  return refusals;
}

uint64_t overlap_repair_table(uint8_t *table, uint8_t *repaired, uint8_t *changed) {
  uint64_t refusals = 0;
  refusals += quendaric_repair_table(table, 1, repaired, 1, changed, 1).refusal;
  refusals += quendaric_repair_table(table, 1, table + 4096, 1, changed, 1).refusal;
  refusals += quendaric_repair_table(table, 1, table, 1, changed, 1).refusal; /* overlaps */
  refusals += quendaric_repair_table(table, 1, repaired, 1, table + 4096, 1).refusal;
  refusals += quendaric_repair_table(table, 1, repaired, 1, table, 1).refusal; /* overlaps */
  refusals += quendaric_repair_table(table, 1, repaired, 1, repaired + 4096, 1).refusal;
  refusals += quendaric_repair_table(table, 1, repaired, 1, repaired, 1).refusal; /* overlaps */
  return refusals;
}

uint64_t overlap_repair_table_for(uint8_t *table, uint8_t *repaired, uint8_t *changed) {
  uint64_t refusals = 0;
  refusals += quendaric_repair_table_for(1, table, 1, repaired, 1, changed, 1).refusal;
  refusals += quendaric_repair_table_for(1, table, 1, table + 4096, 1, changed, 1).refusal;
  refusals += quendaric_repair_table_for(1, table, 1, table, 1, changed, 1).refusal; /* overlaps */
  refusals += quendaric_repair_table_for(1, table, 1, repaired, 1, table + 4096, 1).refusal;
  refusals += quendaric_repair_table_for(1, table, 1, repaired, 1, table, 1).refusal; /* overlaps */
  refusals += quendaric_repair_table_for(1, table, 1, repaired, 1, repaired + 4096, 1).refusal;
  refusals += quendaric_repair_table_for(1, table, 1, repaired, 1, repaired, 1).refusal; /* overlaps */
  return refusals;
}

uint64_t overlap_run(uint8_t *table, uint8_t *buffer) {
  uint64_t refusals = 0;
  refusals += quendaric_run(table, 1, 1, 1, 1, buffer, 1, 1).refusal;
  refusals += quendaric_run(table, 1, 1, 1, 1, table + 4096, 1, 1).refusal;
  refusals += quendaric_run(table, 1, 1, 1, 1, table, 1, 1).refusal; /* overlaps */
  return refusals;
}

uint64_t overlap_run_kept(uint8_t *buffer) {
  uint64_t refusals = 0;
  refusals += quendaric_run_kept(1, 1, 1, buffer, 1, 1).refusal;
  return refusals;
}

uint64_t overlap_divide_samples(uint8_t *table, uint64_t *currents, uint64_t *sensitivities, uint64_t *concentrations) {
  uint64_t refusals = 0;
  refusals += quendaric_divide_samples(table, 1, currents, 1, sensitivities, 1, concentrations, 1, 1).refusal;
  refusals += quendaric_divide_samples(table, 1, currents, 1, currents, 1, concentrations, 1, 1).refusal;
  refusals += quendaric_divide_samples(table, 1, currents, 1, sensitivities, 1, currents + 4096, 1, 1).refusal;
  refusals += quendaric_divide_samples(table, 1, currents, 1, sensitivities, 1, currents, 1, 1).refusal; /* overlaps */
  refusals += quendaric_divide_samples(table, 1, currents, 1, sensitivities, 1, sensitivities + 4096, 1, 1).refusal;
  refusals += quendaric_divide_samples(table, 1, currents, 1, sensitivities, 1, sensitivities, 1, 1).refusal; /* overlaps */
  return refusals;
}

uint64_t overlap_affected_samples(uint8_t *table, uint64_t *currents, uint64_t *sensitivities, uint8_t *affected) {
  uint64_t refusals = 0;
  refusals += quendaric_affected_samples(1, table, 1, currents, 1, sensitivities, 1, affected, 1).refusal;
  refusals += quendaric_affected_samples(1, table, 1, currents, 1, currents, 1, affected, 1).refusal;
  refusals += quendaric_affected_samples(1, table, 1, currents, 1, sensitivities, 1, table + 4096, 1).refusal;
  refusals += quendaric_affected_samples(1, table, 1, currents, 1, sensitivities, 1, table, 1).refusal; /* overlaps */
  return refusals;
}

uint64_t overlap_average_windows(uint64_t *readings, uint64_t *means, uint64_t *remainders) {
  uint64_t refusals = 0;
  refusals += quendaric_average_windows(readings, 1, 1, 1, means, 1, remainders, 1).refusal;
  refusals += quendaric_average_windows(readings, 1, 1, 1, readings + 4096, 1, remainders, 1).refusal;
  refusals += quendaric_average_windows(readings, 1, 1, 1, readings, 1, remainders, 1).refusal; /* overlaps */
  refusals += quendaric_average_windows(readings, 1, 1, 1, means, 1, readings + 4096, 1).refusal;
  refusals += quendaric_average_windows(readings, 1, 1, 1, means, 1, readings, 1).refusal; /* overlaps */
  refusals += quendaric_average_windows(readings, 1, 1, 1, means, 1, means + 4096, 1).refusal;
  refusals += quendaric_average_windows(readings, 1, 1, 1, means, 1, means, 1).refusal; /* overlaps */
  return refusals;
}

uint64_t overlap_divide_packed(uint8_t *dividend, uint8_t *divisor) {
  uint64_t refusals = 0;
  refusals += quendaric_divide_packed(dividend, divisor).refusal;
  refusals += quendaric_divide_packed(dividend, dividend).refusal;
  return refusals;
}

uint64_t overlap_count_visits(uint8_t *table, uint32_t *visits) {
  uint64_t refusals = 0;
  refusals += quendaric_count_visits(table, 1, 1, 1, visits, 1).refusal;
  return refusals;
}
