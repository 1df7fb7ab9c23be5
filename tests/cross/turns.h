/* A turn of each call: operands by their names (draw.h), every field of the answer.
   tools/prototypes makes this file: do not edit it. */
/* clang-format off */

static void turn_check_cell(void) {
  const uint64_t row = drawn_number("row");
  const uint64_t column = drawn_number("column");
  const uint8_t byte = (uint8_t)drawn_number("byte");
  before_call();
  const quendaric_cell r = quendaric_check_cell(row, column, byte);
  after_call();
  note(r.allowed);
  note(r.divisor);
  note((uint64_t)r.remainder);
  end(r.refusal, r.place);
}

static void turn_check_cell_for(void) {
  const uint64_t estimate_bits = drawn_number("estimate_bits");
  const uint64_t row = drawn_number("row");
  const uint64_t column = drawn_number("column");
  const uint8_t byte = (uint8_t)drawn_number("byte");
  before_call();
  const quendaric_cell r = quendaric_check_cell_for(estimate_bits, row, column, byte);
  after_call();
  note(r.allowed);
  note(r.divisor);
  note((uint64_t)r.remainder);
  end(r.refusal, r.place);
}

static void turn_check_table(void) {
  const lent table = drawn_list("table", sizeof(uint8_t), false);
  before_call();
  const quendaric_report r = quendaric_check_table(table.start, table.length);
  after_call();
  note(r.count);
  note(r.row);
  note(r.column);
  note(r.divisor);
  note((uint64_t)r.remainder);
  end(r.refusal, r.place);
}

static void turn_check_table_for(void) {
  const uint64_t estimate_bits = drawn_number("estimate_bits");
  const lent table = drawn_list("table", sizeof(uint8_t), false);
  before_call();
  const quendaric_report r = quendaric_check_table_for(estimate_bits, table.start, table.length);
  after_call();
  note(r.count);
  note(r.row);
  note(r.column);
  note(r.divisor);
  note((uint64_t)r.remainder);
  end(r.refusal, r.place);
}

static void turn_row_limits(void) {
  const uint64_t row = drawn_number("row");
  before_call();
  const quendaric_limits r = quendaric_row_limits(row);
  after_call();
  note_bytes(r.limits, sizeof r.limits);
  end(r.refusal, r.place);
}

static void turn_row_limits_for(void) {
  const uint64_t estimate_bits = drawn_number("estimate_bits");
  const uint64_t row = drawn_number("row");
  before_call();
  const quendaric_limits r = quendaric_row_limits_for(estimate_bits, row);
  after_call();
  note_bytes(r.limits, sizeof r.limits);
  end(r.refusal, r.place);
}

static void turn_make_table(void) {
  const lent buffer = drawn_list("buffer", sizeof(uint8_t), true);
  before_call();
  const quendaric_made r = quendaric_make_table(buffer.start, buffer.length);
  after_call();
  end(r.refusal, r.place);
}

static void turn_make_table_for(void) {
  const uint64_t estimate_bits = drawn_number("estimate_bits");
  const lent buffer = drawn_list("buffer", sizeof(uint8_t), true);
  before_call();
  const quendaric_made r = quendaric_make_table_for(estimate_bits, buffer.start, buffer.length);
  after_call();
  end(r.refusal, r.place);
}

static void turn_repair_table(void) {
  const lent table = drawn_list("table", sizeof(uint8_t), false);
  const lent repaired = drawn_list("repaired", sizeof(uint8_t), true);
  const lent changed = drawn_list("changed", sizeof(uint8_t), true);
  before_call();
  const quendaric_repaired r = quendaric_repair_table(table.start, table.length, repaired.start, repaired.length,
                                                      changed.start, changed.length);
  after_call();
  note(r.count);
  end(r.refusal, r.place);
}

static void turn_repair_table_for(void) {
  const uint64_t estimate_bits = drawn_number("estimate_bits");
  const lent table = drawn_list("table", sizeof(uint8_t), false);
  const lent repaired = drawn_list("repaired", sizeof(uint8_t), true);
  const lent changed = drawn_list("changed", sizeof(uint8_t), true);
  before_call();
  const quendaric_repaired r = quendaric_repair_table_for(estimate_bits, table.start, table.length, repaired.start,
                                                          repaired.length, changed.start, changed.length);
  after_call();
  note(r.count);
  end(r.refusal, r.place);
}

static void turn_run(void) {
  const lent table = drawn_list("table", sizeof(uint8_t), false);
  const uint64_t dividend = drawn_number("dividend");
  const uint64_t divisor = drawn_number("divisor");
  const size_t digits = (uint32_t)drawn_number("digits");
  const lent buffer = drawn_list("buffer", sizeof(uint8_t), true);
  const size_t place = (uint32_t)drawn_number("place");
  before_call();
  const quendaric_ran r = quendaric_run(table.start, table.length, dividend, divisor, digits, buffer.start,
                                        buffer.length, place);
  after_call();
  note(r.quotient);
  note(r.remainder);
  note(r.digits);
  end(r.refusal, r.place);
}

static void turn_run_kept(void) {
  const uint64_t dividend = drawn_number("dividend");
  const uint64_t divisor = drawn_number("divisor");
  const size_t digits = (uint32_t)drawn_number("digits");
  const lent buffer = drawn_list("buffer", sizeof(uint8_t), true);
  const size_t place = (uint32_t)drawn_number("place");
  before_call();
  const quendaric_ran r = quendaric_run_kept(dividend, divisor, digits, buffer.start, buffer.length, place);
  after_call();
  note(r.quotient);
  note(r.remainder);
  note(r.digits);
  end(r.refusal, r.place);
}

static void turn_step(void) {
  const uint64_t sum = drawn_number("sum");
  const uint64_t carry = drawn_number("carry");
  const uint64_t divisor = drawn_number("divisor");
  const lent table = drawn_list("table", sizeof(uint8_t), false);
  before_call();
  const quendaric_stepped r = quendaric_step(sum, carry, divisor, table.start, table.length);
  after_call();
  note((uint64_t)r.digit);
  note(r.sum);
  note(r.carry);
  end(r.refusal, r.place);
}

static void turn_divide_whole(void) {
  const lent table = drawn_list("table", sizeof(uint8_t), false);
  const uint64_t a = drawn_number("a");
  const uint64_t b = drawn_number("b");
  before_call();
  const quendaric_whole r = quendaric_divide_whole(table.start, table.length, a, b);
  after_call();
  note(r.quotient);
  note(r.remainder);
  end(r.refusal, r.place);
}

static void turn_divide_whole_kept(void) {
  const uint64_t a = drawn_number("a");
  const uint64_t b = drawn_number("b");
  before_call();
  const quendaric_whole r = quendaric_divide_whole_kept(a, b);
  after_call();
  note(r.quotient);
  note(r.remainder);
  end(r.refusal, r.place);
}

static void turn_divide_binary64(void) {
  const lent table = drawn_list("table", sizeof(uint8_t), false);
  const uint64_t a = drawn_number("a");
  const uint64_t b = drawn_number("b");
  const uint64_t direction = drawn_number("direction");
  before_call();
  const quendaric_binary64 r = quendaric_divide_binary64(table.start, table.length, a, b, direction);
  after_call();
  note(r.pattern);
  note(r.flags);
  end(r.refusal, r.place);
}

static void turn_divide_binary64_kept(void) {
  const uint64_t a = drawn_number("a");
  const uint64_t b = drawn_number("b");
  const uint64_t direction = drawn_number("direction");
  before_call();
  const quendaric_binary64 r = quendaric_divide_binary64_kept(a, b, direction);
  after_call();
  note(r.pattern);
  note(r.flags);
  end(r.refusal, r.place);
}

static void turn_divide_samples(void) {
  const lent table = drawn_list("table", sizeof(uint8_t), false);
  const lent currents = drawn_list("currents", sizeof(uint64_t), false);
  const lent sensitivities = drawn_list("sensitivities", sizeof(uint64_t), false);
  const lent concentrations = drawn_list("concentrations", sizeof(uint64_t), true);
  const uint64_t direction = drawn_number("direction");
  before_call();
  const quendaric_samples r = quendaric_divide_samples(table.start, table.length, currents.start, currents.length,
                                                       sensitivities.start, sensitivities.length, concentrations.start,
                                                       concentrations.length, direction);
  after_call();
  note(r.flags);
  note(r.count);
  end(r.refusal, r.place);
}

static void turn_affected_samples(void) {
  const uint64_t estimate_bits = drawn_number("estimate_bits");
  const lent table = drawn_list("table", sizeof(uint8_t), false);
  const lent currents = drawn_list("currents", sizeof(uint64_t), false);
  const lent sensitivities = drawn_list("sensitivities", sizeof(uint64_t), false);
  const lent affected = drawn_list("affected", sizeof(uint8_t), true);
  before_call();
  const quendaric_affected_count r = quendaric_affected_samples(estimate_bits, table.start, table.length,
                                                                currents.start, currents.length, sensitivities.start,
                                                                sensitivities.length, affected.start, affected.length);
  after_call();
  note(r.count);
  end(r.refusal, r.place);
}

static void turn_affected_whole(void) {
  const uint64_t estimate_bits = drawn_number("estimate_bits");
  const lent table = drawn_list("table", sizeof(uint8_t), false);
  const uint64_t a = drawn_number("a");
  const uint64_t b = drawn_number("b");
  before_call();
  const quendaric_affected_mark r = quendaric_affected_whole(estimate_bits, table.start, table.length, a, b);
  after_call();
  note(r.affected);
  end(r.refusal, r.place);
}

static void turn_affected_run(void) {
  const uint64_t estimate_bits = drawn_number("estimate_bits");
  const lent table = drawn_list("table", sizeof(uint8_t), false);
  const uint64_t dividend = drawn_number("dividend");
  const uint64_t divisor = drawn_number("divisor");
  const size_t digits = (uint32_t)drawn_number("digits");
  before_call();
  const quendaric_affected_mark r = quendaric_affected_run(estimate_bits, table.start, table.length, dividend, divisor,
                                                           digits);
  after_call();
  note(r.affected);
  end(r.refusal, r.place);
}

static void turn_average_windows(void) {
  const lent readings = drawn_list("readings", sizeof(uint64_t), false);
  const size_t width = (uint32_t)drawn_number("width");
  const bool newest_first = drawn_number("newest_first") % 2 == 1;
  const lent means = drawn_list("means", sizeof(uint64_t), true);
  const lent remainders = drawn_list("remainders", sizeof(uint64_t), true);
  before_call();
  const quendaric_averages r = quendaric_average_windows(readings.start, readings.length, width, newest_first,
                                                         means.start, means.length, remainders.start,
                                                         remainders.length);
  after_call();
  end(r.refusal, r.place);
}

static void turn_divide_packed(void) {
  const uint8_t *dividend = drawn_packed("dividend", 8);
  const uint8_t *divisor = drawn_packed("divisor", 8);
  before_call();
  const quendaric_packed r = quendaric_divide_packed(dividend, divisor);
  after_call();
  note_bytes(r.quotient, sizeof r.quotient);
  note_bytes(r.remainder, sizeof r.remainder);
  end(r.refusal, r.place);
}

static void turn_count_visits(void) {
  const lent table = drawn_list("table", sizeof(uint8_t), false);
  const uint64_t bits = drawn_number("bits");
  const size_t digits = (uint32_t)drawn_number("digits");
  const lent visits = drawn_list("visits", sizeof(uint32_t), true);
  before_call();
  const quendaric_visits r = quendaric_count_visits(table.start, table.length, bits, digits, visits.start,
                                                    visits.length);
  after_call();
  end(r.refusal, r.place);
}

static void turn_compare_ratios(void) {
  const uint64_t a = drawn_number("a");
  const uint64_t b = drawn_number("b");
  const uint64_t c = drawn_number("c");
  const uint64_t d = drawn_number("d");
  before_call();
  const quendaric_comparison r = quendaric_compare_ratios(a, b, c, d);
  after_call();
  note((uint64_t)r.order);
  end(r.refusal, r.place);
}

static void turn_root_whole(void) {
  const uint64_t a = drawn_number("a");
  before_call();
  const quendaric_root r = quendaric_root_whole(a);
  after_call();
  note(r.root);
  note(r.remainder);
  end(r.refusal, r.place);
}

static void turn_root_binary64(void) {
  const uint64_t a = drawn_number("a");
  const uint64_t direction = drawn_number("direction");
  before_call();
  const quendaric_binary64 r = quendaric_root_binary64(a, direction);
  after_call();
  note(r.pattern);
  note(r.flags);
  end(r.refusal, r.place);
}

static void turn_version_3_6_0(void) {
  before_call();
  const quendaric_linked r = quendaric_version_3_6_0();
  after_call();
  end(r.refusal, r.place);
}

#define EACH_TURN(TURN) \
  TURN(check_cell, SETS) \
  TURN(check_cell_for, SETS) \
  TURN(check_table, TABLE_SETS) \
  TURN(check_table_for, TABLE_SETS) \
  TURN(row_limits, SETS) \
  TURN(row_limits_for, SETS) \
  TURN(make_table, TABLE_SETS) \
  TURN(make_table_for, SETS) \
  TURN(repair_table, TABLE_SETS) \
  TURN(repair_table_for, TABLE_SETS) \
  TURN(run, TABLE_SETS) \
  TURN(run_kept, SETS) \
  TURN(step, TABLE_SETS) \
  TURN(divide_whole, TABLE_SETS) \
  TURN(divide_whole_kept, SETS) \
  TURN(divide_binary64, TABLE_SETS) \
  TURN(divide_binary64_kept, SETS) \
  TURN(divide_samples, TABLE_SETS) \
  TURN(affected_samples, TABLE_SETS) \
  TURN(affected_whole, TABLE_SETS) \
  TURN(affected_run, TABLE_SETS) \
  TURN(average_windows, SETS) \
  TURN(divide_packed, SETS) \
  TURN(count_visits, TABLE_SETS) \
  TURN(compare_ratios, SETS) \
  TURN(root_whole, SETS) \
  TURN(root_binary64, SETS) \
  TURN(version_3_6_0, SETS)

typedef char enough_lists[LISTS >= 4 ? 1 : -1];
