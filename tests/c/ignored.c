/* The compiler warns of each call whose answer is ignored.

   Compiled by tests/c/run, never linked. tools/prototypes makes this file: do not edit it. */
/* clang-format off */

#include "quendaric.h"

void ignored_check_cell(uint64_t row, uint64_t column, uint8_t byte) {
  quendaric_check_cell(row, column, byte);
}

void ignored_check_cell_for(uint64_t estimate_bits, uint64_t row, uint64_t column, uint8_t byte) {
  quendaric_check_cell_for(estimate_bits, row, column, byte);
}

void ignored_check_table(const uint8_t *table, size_t length) {
  quendaric_check_table(table, length);
}

void ignored_check_table_for(uint64_t estimate_bits, const uint8_t *table, size_t table_length) {
  quendaric_check_table_for(estimate_bits, table, table_length);
}

void ignored_row_limits(uint64_t row) {
  quendaric_row_limits(row);
}

void ignored_row_limits_for(uint64_t estimate_bits, uint64_t row) {
  quendaric_row_limits_for(estimate_bits, row);
}

void ignored_make_table(uint8_t *QUENDARIC_RESTRICT buffer, size_t length) {
  quendaric_make_table(buffer, length);
}

void ignored_make_table_for(uint64_t estimate_bits, uint8_t *QUENDARIC_RESTRICT buffer, size_t buffer_length) {
  quendaric_make_table_for(estimate_bits, buffer, buffer_length);
}

void ignored_repair_table(const uint8_t *table, size_t table_length, uint8_t *QUENDARIC_RESTRICT repaired,
                          size_t repaired_length, uint8_t *QUENDARIC_RESTRICT changed, size_t changed_length) {
  quendaric_repair_table(table, table_length, repaired, repaired_length, changed, changed_length);
}

void ignored_repair_table_for(uint64_t estimate_bits, const uint8_t *table, size_t table_length,
                              uint8_t *QUENDARIC_RESTRICT repaired, size_t repaired_length,
                              uint8_t *QUENDARIC_RESTRICT changed, size_t changed_length) {
  quendaric_repair_table_for(estimate_bits, table, table_length, repaired, repaired_length, changed, changed_length);
}

void ignored_run(const uint8_t *table, size_t table_length, uint64_t dividend, uint64_t divisor, size_t digits,
                 uint8_t *QUENDARIC_RESTRICT buffer, size_t buffer_length, size_t place) {
  quendaric_run(table, table_length, dividend, divisor, digits, buffer, buffer_length, place);
}

void ignored_run_kept(uint64_t dividend, uint64_t divisor, size_t digits, uint8_t *QUENDARIC_RESTRICT buffer,
                      size_t buffer_length, size_t place) {
  quendaric_run_kept(dividend, divisor, digits, buffer, buffer_length, place);
}

void ignored_step(uint64_t sum, uint64_t carry, uint64_t divisor, const uint8_t *table, size_t table_length) {
  quendaric_step(sum, carry, divisor, table, table_length);
}

void ignored_divide_whole(const uint8_t *table, size_t table_length, uint64_t a, uint64_t b) {
  quendaric_divide_whole(table, table_length, a, b);
}

void ignored_divide_whole_kept(uint64_t a, uint64_t b) {
  quendaric_divide_whole_kept(a, b);
}

void ignored_divide_binary64(const uint8_t *table, size_t table_length, uint64_t a, uint64_t b, uint64_t direction) {
  quendaric_divide_binary64(table, table_length, a, b, direction);
}

void ignored_divide_binary64_kept(uint64_t a, uint64_t b, uint64_t direction) {
  quendaric_divide_binary64_kept(a, b, direction);
}

void ignored_divide_samples(const uint8_t *table, size_t table_length, const uint64_t *currents, size_t currents_length,
                            const uint64_t *sensitivities, size_t sensitivities_length,
                            uint64_t *QUENDARIC_RESTRICT concentrations, size_t concentrations_length,
                            uint64_t direction) {
  quendaric_divide_samples(table, table_length, currents, currents_length, sensitivities, sensitivities_length,
                           concentrations, concentrations_length, direction);
}

void ignored_affected_samples(uint64_t estimate_bits, const uint8_t *table, size_t table_length,
                              const uint64_t *currents, size_t currents_length, const uint64_t *sensitivities,
                              size_t sensitivities_length, uint8_t *QUENDARIC_RESTRICT affected,
                              size_t affected_length) {
  quendaric_affected_samples(estimate_bits, table, table_length, currents, currents_length, sensitivities,
                             sensitivities_length, affected, affected_length);
}

void ignored_affected_whole(uint64_t estimate_bits, const uint8_t *table, size_t table_length, uint64_t a, uint64_t b) {
  quendaric_affected_whole(estimate_bits, table, table_length, a, b);
}

void ignored_affected_run(uint64_t estimate_bits, const uint8_t *table, size_t table_length, uint64_t dividend,
                          uint64_t divisor, size_t digits) {
  quendaric_affected_run(estimate_bits, table, table_length, dividend, divisor, digits);
}

void ignored_average_windows(const uint64_t *readings, size_t readings_length, size_t width, bool newest_first,
                             uint64_t *QUENDARIC_RESTRICT means, size_t means_length,
                             uint64_t *QUENDARIC_RESTRICT remainders, size_t remainders_length) {
  quendaric_average_windows(readings, readings_length, width, newest_first, means, means_length, remainders,
                            remainders_length);
}

void ignored_divide_packed(const uint8_t dividend[8], const uint8_t divisor[8]) {
  quendaric_divide_packed(dividend, divisor);
}

void ignored_count_visits(const uint8_t *table, size_t table_length, uint64_t bits, size_t digits,
                          uint32_t *QUENDARIC_RESTRICT visits, size_t visits_length) {
  quendaric_count_visits(table, table_length, bits, digits, visits, visits_length);
}

void ignored_compare_ratios(uint64_t a, uint64_t b, uint64_t c, uint64_t d) {
  quendaric_compare_ratios(a, b, c, d);
}

void ignored_root_whole(uint64_t a) {
  quendaric_root_whole(a);
}

void ignored_root_binary64(uint64_t a, uint64_t direction) {
  quendaric_root_binary64(a, direction);
}

void ignored_version_3_6_0(void) {
  quendaric_version_3_6_0();
}
