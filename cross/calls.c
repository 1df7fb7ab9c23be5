/* The calls of include/quendaric.h over the proved functions, for the archives that cross/build makes. tools/prototypes
   makes this file: do not edit it. */

#include "target.h"

void quendaric_proved_check_cell(void *, uint64_t, uint64_t, uint8_t);
quendaric_cell quendaric_check_cell(uint64_t row, uint64_t column, uint8_t byte) {
  quendaric_cell answer;
  quendaric_proved_check_cell(&answer, row, column, byte);
  return answer;
}

void quendaric_proved_check_cell_for(void *, uint64_t, uint64_t, uint64_t, uint8_t);
quendaric_cell quendaric_check_cell_for(uint64_t estimate_bits, uint64_t row, uint64_t column, uint8_t byte) {
  quendaric_cell answer;
  quendaric_proved_check_cell_for(&answer, estimate_bits, row, column, byte);
  return answer;
}

void quendaric_proved_check_table(void *, const void *, uint64_t);
quendaric_report quendaric_check_table(const uint8_t *table, size_t length) {
  quendaric_report answer;
  quendaric_proved_check_table(&answer, table, length);
  return answer;
}

void quendaric_proved_check_table_for(void *, uint64_t, const void *, uint64_t);
quendaric_report quendaric_check_table_for(uint64_t estimate_bits, const uint8_t *table, size_t table_length) {
  quendaric_report answer;
  quendaric_proved_check_table_for(&answer, estimate_bits, table, table_length);
  return answer;
}

void quendaric_proved_row_limits(void *, uint64_t);
quendaric_limits quendaric_row_limits(uint64_t row) {
  quendaric_limits answer;
  quendaric_proved_row_limits(&answer, row);
  return answer;
}

void quendaric_proved_row_limits_for(void *, uint64_t, uint64_t);
quendaric_limits quendaric_row_limits_for(uint64_t estimate_bits, uint64_t row) {
  quendaric_limits answer;
  quendaric_proved_row_limits_for(&answer, estimate_bits, row);
  return answer;
}

void quendaric_proved_make_table(void *, const void *, uint64_t);
quendaric_made quendaric_make_table(uint8_t *QUENDARIC_RESTRICT buffer, size_t length) {
  quendaric_made answer;
  quendaric_proved_make_table(&answer, buffer, length);
  return answer;
}

void quendaric_proved_make_table_for(void *, uint64_t, const void *, uint64_t);
quendaric_made quendaric_make_table_for(uint64_t estimate_bits, uint8_t *QUENDARIC_RESTRICT buffer,
                                        size_t buffer_length) {
  quendaric_made answer;
  quendaric_proved_make_table_for(&answer, estimate_bits, buffer, buffer_length);
  return answer;
}

void quendaric_proved_repair_table(void *, const void *, uint64_t, const void *, uint64_t, const void *, uint64_t);
quendaric_repaired quendaric_repair_table(const uint8_t *table, size_t table_length,
                                          uint8_t *QUENDARIC_RESTRICT repaired, size_t repaired_length,
                                          uint8_t *QUENDARIC_RESTRICT changed, size_t changed_length) {
  quendaric_repaired answer;
  quendaric_proved_repair_table(&answer, table, table_length, repaired, repaired_length, changed, changed_length);
  return answer;
}

void quendaric_proved_repair_table_for(void *, uint64_t, const void *, uint64_t, const void *, uint64_t, const void *, uint64_t);
quendaric_repaired quendaric_repair_table_for(uint64_t estimate_bits, const uint8_t *table, size_t table_length,
                                              uint8_t *QUENDARIC_RESTRICT repaired, size_t repaired_length,
                                              uint8_t *QUENDARIC_RESTRICT changed, size_t changed_length) {
  quendaric_repaired answer;
  quendaric_proved_repair_table_for(&answer, estimate_bits, table, table_length, repaired, repaired_length, changed,
                                    changed_length);
  return answer;
}

void quendaric_proved_run(void *, const void *, uint64_t, uint64_t, uint64_t, uint64_t, const void *, uint64_t, uint64_t);
quendaric_ran quendaric_run(const uint8_t *table, size_t table_length, uint64_t dividend, uint64_t divisor,
                            size_t digits, uint8_t *QUENDARIC_RESTRICT buffer, size_t buffer_length, size_t place) {
  quendaric_ran answer;
  quendaric_proved_run(&answer, table, table_length, dividend, divisor, digits, buffer, buffer_length, place);
  return answer;
}

void quendaric_proved_run_kept(void *, uint64_t, uint64_t, uint64_t, const void *, uint64_t, uint64_t);
quendaric_ran quendaric_run_kept(uint64_t dividend, uint64_t divisor, size_t digits, uint8_t *QUENDARIC_RESTRICT buffer,
                                 size_t buffer_length, size_t place) {
  quendaric_ran answer;
  quendaric_proved_run_kept(&answer, dividend, divisor, digits, buffer, buffer_length, place);
  return answer;
}

void quendaric_proved_step(void *, uint64_t, uint64_t, uint64_t, const void *, uint64_t);
quendaric_stepped quendaric_step(uint64_t sum, uint64_t carry, uint64_t divisor, const uint8_t *table,
                                 size_t table_length) {
  quendaric_stepped answer;
  quendaric_proved_step(&answer, sum, carry, divisor, table, table_length);
  return answer;
}

void quendaric_proved_divide_whole(void *, const void *, uint64_t, uint64_t, uint64_t);
quendaric_whole quendaric_divide_whole(const uint8_t *table, size_t table_length, uint64_t a, uint64_t b) {
  quendaric_whole answer;
  quendaric_proved_divide_whole(&answer, table, table_length, a, b);
  return answer;
}

void quendaric_proved_divide_whole_kept(void *, uint64_t, uint64_t);
quendaric_whole quendaric_divide_whole_kept(uint64_t a, uint64_t b) {
  quendaric_whole answer;
  quendaric_proved_divide_whole_kept(&answer, a, b);
  return answer;
}

void quendaric_proved_divide_binary64(void *, const void *, uint64_t, uint64_t, uint64_t, uint64_t);
quendaric_binary64 quendaric_divide_binary64(const uint8_t *table, size_t table_length, uint64_t a, uint64_t b,
                                             uint64_t direction) {
  quendaric_binary64 answer;
  quendaric_proved_divide_binary64(&answer, table, table_length, a, b, direction);
  return answer;
}

void quendaric_proved_divide_binary64_kept(void *, uint64_t, uint64_t, uint64_t);
quendaric_binary64 quendaric_divide_binary64_kept(uint64_t a, uint64_t b, uint64_t direction) {
  quendaric_binary64 answer;
  quendaric_proved_divide_binary64_kept(&answer, a, b, direction);
  return answer;
}

void quendaric_proved_divide_samples(void *, const void *, uint64_t, const void *, uint64_t, const void *, uint64_t, const void *, uint64_t, uint64_t);
quendaric_samples quendaric_divide_samples(const uint8_t *table, size_t table_length, const uint64_t *currents,
                                           size_t currents_length, const uint64_t *sensitivities,
                                           size_t sensitivities_length, uint64_t *QUENDARIC_RESTRICT concentrations,
                                           size_t concentrations_length, uint64_t direction) {
  quendaric_samples answer;
  quendaric_proved_divide_samples(&answer, table, table_length, currents, currents_length, sensitivities,
                                  sensitivities_length, concentrations, concentrations_length, direction);
  return answer;
}

void quendaric_proved_affected_samples(void *, uint64_t, const void *, uint64_t, const void *, uint64_t, const void *, uint64_t, const void *, uint64_t);
quendaric_affected_count quendaric_affected_samples(uint64_t estimate_bits, const uint8_t *table, size_t table_length,
                                                    const uint64_t *currents, size_t currents_length,
                                                    const uint64_t *sensitivities, size_t sensitivities_length,
                                                    uint8_t *QUENDARIC_RESTRICT affected, size_t affected_length) {
  quendaric_affected_count answer;
  quendaric_proved_affected_samples(&answer, estimate_bits, table, table_length, currents, currents_length,
                                    sensitivities, sensitivities_length, affected, affected_length);
  return answer;
}

void quendaric_proved_affected_whole(void *, uint64_t, const void *, uint64_t, uint64_t, uint64_t);
quendaric_affected_mark quendaric_affected_whole(uint64_t estimate_bits, const uint8_t *table, size_t table_length,
                                                 uint64_t a, uint64_t b) {
  quendaric_affected_mark answer;
  quendaric_proved_affected_whole(&answer, estimate_bits, table, table_length, a, b);
  return answer;
}

void quendaric_proved_affected_run(void *, uint64_t, const void *, uint64_t, uint64_t, uint64_t, uint64_t);
quendaric_affected_mark quendaric_affected_run(uint64_t estimate_bits, const uint8_t *table, size_t table_length,
                                               uint64_t dividend, uint64_t divisor, size_t digits) {
  quendaric_affected_mark answer;
  quendaric_proved_affected_run(&answer, estimate_bits, table, table_length, dividend, divisor, digits);
  return answer;
}

void quendaric_proved_average_windows(void *, const void *, uint64_t, uint64_t, bool, const void *, uint64_t, const void *, uint64_t);
quendaric_averages quendaric_average_windows(const uint64_t *readings, size_t readings_length, size_t width,
                                             bool newest_first, uint64_t *QUENDARIC_RESTRICT means, size_t means_length,
                                             uint64_t *QUENDARIC_RESTRICT remainders, size_t remainders_length) {
  quendaric_averages answer;
  quendaric_proved_average_windows(&answer, readings, readings_length, width, newest_first, means, means_length,
                                   remainders, remainders_length);
  return answer;
}

void quendaric_proved_divide_packed(void *, const void *, const void *);
quendaric_packed quendaric_divide_packed(const uint8_t dividend[8], const uint8_t divisor[8]) {
  quendaric_packed answer;
  quendaric_proved_divide_packed(&answer, dividend, divisor);
  return answer;
}

void quendaric_proved_count_visits(void *, const void *, uint64_t, uint64_t, uint64_t, const void *, uint64_t);
quendaric_visits quendaric_count_visits(const uint8_t *table, size_t table_length, uint64_t bits, size_t digits,
                                        uint32_t *QUENDARIC_RESTRICT visits, size_t visits_length) {
  quendaric_visits answer;
  quendaric_proved_count_visits(&answer, table, table_length, bits, digits, visits, visits_length);
  return answer;
}

void quendaric_proved_compare_ratios(void *, uint64_t, uint64_t, uint64_t, uint64_t);
quendaric_comparison quendaric_compare_ratios(uint64_t a, uint64_t b, uint64_t c, uint64_t d) {
  quendaric_comparison answer;
  quendaric_proved_compare_ratios(&answer, a, b, c, d);
  return answer;
}

void quendaric_proved_root_whole(void *, uint64_t);
quendaric_root quendaric_root_whole(uint64_t a) {
  quendaric_root answer;
  quendaric_proved_root_whole(&answer, a);
  return answer;
}

void quendaric_proved_root_binary64(void *, uint64_t, uint64_t);
quendaric_binary64 quendaric_root_binary64(uint64_t a, uint64_t direction) {
  quendaric_binary64 answer;
  quendaric_proved_root_binary64(&answer, a, direction);
  return answer;
}

void quendaric_proved_version_3_6_0(void *);
quendaric_linked quendaric_version_3_6_0(void) {
  quendaric_linked answer;
  quendaric_proved_version_3_6_0(&answer);
  return answer;
}
