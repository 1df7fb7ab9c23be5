/* Every call through the header: the specification's examples, each refusal, NULL with length 0; answers that are others where
   two arguments are exchanged; as C99 to C2x and C++11 to C++2b.

   It prints nothing but what differs. A call's examples and refusals stand with those of its kind; its arguments are exchanged in
   `orders`. */

#include "quendaric.h"
#include <stdio.h>
#include <string.h>

static int differences = 0;

static void same(const char *what, uint64_t got, uint64_t want) {
  if (got != want) {
    printf("%s: %llu, wanted %llu\n", what, (unsigned long long)got, (unsigned long long)want);
    differences++;
  }
}

#define SAME(got, want) same(#got, (uint64_t)(got), (uint64_t)(want))

/* An answer, every byte of it, and what is wanted. Each of these answers is made of words alone. */
#define WHOLE(type, call, ...)                                                                                         \
  do {                                                                                                                 \
    const type got = call;                                                                                             \
    const type want = {__VA_ARGS__};                                                                                   \
    same(#call, (uint64_t)memcmp(&got, &want, sizeof got), 0);                                                         \
  } while (0)

static const uint64_t one = (uint64_t)1 << 60;
static const uint8_t untouched = 0xC3;

/* Is every byte what it was made? */
static int all_untouched(const uint8_t *bytes, size_t length) {
  for (size_t i = 0; i < length; i++)
    if (bytes[i] != untouched)
      return 0;
  return 1;
}

static void cells(void) {
  quendaric_cell cell = quendaric_check_cell(0, 75, 3);
  SAME(cell.refusal, 0);
  SAME(cell.allowed, 1);
  cell = quendaric_check_cell(0, 75, 4);
  SAME(cell.allowed, 0);
  SAME(cell.divisor, (33ull << 55) + 1);
  SAME(cell.remainder, 11ll << 57);
  SAME(quendaric_check_cell(0, 51, 0).allowed, 1);
  cell = quendaric_check_cell(0, 50, 1);
  SAME(cell.allowed, 0);
  SAME(cell.remainder < 0, 1);
  cell = quendaric_check_cell(3, 5, 9);
  SAME(cell.refusal, QUENDARIC_REFUSED_BYTE);
  SAME(cell.place, 3 * 128 + 5);
  SAME(quendaric_check_cell(0, 128, 2).refusal, QUENDARIC_REFUSED_CELL);
  quendaric_limits limits = quendaric_row_limits(0);
  static const uint8_t row0[6] = {40, 51, 59, 68, 76, 87};
  SAME(limits.refusal, 0);
  SAME(memcmp(limits.limits, row0, 6), 0);
  SAME(quendaric_row_limits(16).refusal, QUENDARIC_REFUSED_CELL);
}

static void tables(uint8_t *table) {
  quendaric_made made = quendaric_make_table(table, QUENDARIC_TABLE_LENGTH - 1);
  SAME(made.refusal, QUENDARIC_REFUSED_ROOM);
  SAME(made.place, 0);
  SAME(all_untouched(table, QUENDARIC_TABLE_LENGTH), 1);
  SAME(quendaric_make_table(table, QUENDARIC_TABLE_LENGTH).refusal, 0);
  SAME(quendaric_check_table(table, QUENDARIC_TABLE_LENGTH).refusal, 0);
  SAME(quendaric_check_table(table, 5).refusal, QUENDARIC_REFUSED_LENGTH);
  table[215] = 2;
  quendaric_report report = quendaric_check_table(table, QUENDARIC_TABLE_LENGTH);
  SAME(report.refusal, QUENDARIC_REFUSED_BAD_CELL);
  SAME(report.place, 215);
  SAME(report.count, 1);
  SAME(report.row, 1);
  SAME(report.column, 87);
  SAME(report.divisor, 1242993497154256896ull);
  SAME(report.remainder, 3314649325744685056ll);
  table[1000] = 5;
  report = quendaric_check_table(table, QUENDARIC_TABLE_LENGTH);
  SAME(report.refusal, QUENDARIC_REFUSED_BYTE);
  SAME(report.place, 1000);
  SAME(report.count, 0);
  SAME(quendaric_make_table(table, QUENDARIC_TABLE_LENGTH).refusal, 0);
  SAME(table[215], 4);
}

static void runs(const uint8_t *table) {
  uint8_t buffer[5] = {9, 9, 9, 9, 9};
  static const uint8_t after[5] = {9, 3, 1, 1, 9};
  quendaric_ran ran = quendaric_run(table, QUENDARIC_TABLE_LENGTH, one, one / 2 * 3, 3, buffer, 5, 1);
  SAME(ran.refusal, 0);
  SAME(ran.place, 0);
  SAME(ran.quotient, 10);
  SAME(ran.remainder, one);
  SAME(ran.digits, 3);
  SAME(memcmp(buffer, after, 5), 0);
  ran = quendaric_run_kept(one, one, 3, buffer, 5, 0);
  SAME(ran.quotient, 16);
  SAME(ran.remainder, 0);
  SAME(buffer[0], 3);
}

/* Steps, each pair fed back, give the digits of the run; what a step refuses, in its order. */
static void steps(const uint8_t *table) {
  const size_t length = QUENDARIC_TABLE_LENGTH;
  const uint64_t divisor = one / 2 * 3;
  uint8_t buffer[QUENDARIC_MOST_DIGITS];
  SAME(quendaric_run(table, length, one, divisor, QUENDARIC_MOST_DIGITS, buffer, sizeof buffer, 0).refusal, 0);
  quendaric_stepped step = {0, 0, 0, one, 0};
  for (int i = 0; i < QUENDARIC_MOST_DIGITS; i++) {
    step = quendaric_step(step.sum, step.carry, divisor, table, length);
    SAME(step.refusal, 0);
    SAME(step.place, 0);
    SAME((uint64_t)(step.digit + 2), buffer[i]);
  }
  step = quendaric_step(8 * one / 3, 0, one, table, length);
  SAME(step.refusal, 0);
  step = quendaric_step(8 * one / 3, 1, one, table, length);
  SAME(step.refusal, QUENDARIC_REFUSED_RANGE);
  SAME((uint64_t)step.digit | step.sum | step.carry | step.place, 0);
  SAME(quendaric_step(0, 0 - 8 * one / 3, one, table, length).refusal, 0);
  SAME(quendaric_step(0, 0 - 8 * one / 3 - 1, one, table, length).refusal, QUENDARIC_REFUSED_RANGE);
  SAME(quendaric_step((uint64_t)1 << 63, 0, one - 1, table, 5).refusal, QUENDARIC_REFUSED_SPAN);
  SAME(quendaric_step((uint64_t)1 << 63, 0, 2 * one, table, 5).refusal, QUENDARIC_REFUSED_SPAN);
  SAME(quendaric_step((uint64_t)1 << 63, 0, one, table, 5).refusal, QUENDARIC_REFUSED_RANGE);
  SAME(quendaric_step(1, 0, one, table, 5).refusal, QUENDARIC_REFUSED_LENGTH);
}

/* Runs that are refused: the first in order, and every byte of the buffer as it was. */
static void refused_runs(const uint8_t *table) {
  uint8_t buffer[40];
  uint8_t bad[QUENDARIC_TABLE_LENGTH];
  const size_t length = sizeof buffer;
  memset(buffer, untouched, length);
  memcpy(bad, table, sizeof bad);
  bad[215] = 2;
  SAME(quendaric_run_kept(1, one, 0, buffer, length, 0).refusal, QUENDARIC_REFUSED_DIGITS);
  SAME(quendaric_run_kept(1, one, QUENDARIC_MOST_DIGITS + 1, buffer, length, 0).refusal, QUENDARIC_REFUSED_DIGITS);
  SAME(quendaric_run_kept(1, one - 1, 28, buffer, length, 0).refusal, QUENDARIC_REFUSED_SPAN);
  SAME(quendaric_run_kept(2 * one, one, 28, buffer, length, 0).refusal, QUENDARIC_REFUSED_SPAN);
  SAME(quendaric_run_kept(1, one, 28, buffer, length, 13).refusal, QUENDARIC_REFUSED_ROOM);
  SAME(quendaric_run_kept(1, one, 28, buffer, length, SIZE_MAX).refusal, QUENDARIC_REFUSED_ROOM);
  SAME(quendaric_run(table, sizeof bad, 1, one, 29, buffer, length, 0).refusal, QUENDARIC_REFUSED_DIGITS);
  SAME(quendaric_run(table, sizeof bad, 1, 0, 28, buffer, length, 0).refusal, QUENDARIC_REFUSED_SPAN);
  SAME(quendaric_run(bad, 5, 1, one, 28, buffer, length, 13).refusal, QUENDARIC_REFUSED_ROOM);
  SAME(quendaric_run(bad, 5, 1, one, 28, buffer, length, 0).refusal, QUENDARIC_REFUSED_LENGTH);
  SAME(quendaric_run(bad, sizeof bad, 1, one, 28, buffer, length, 0).refusal, QUENDARIC_REFUSED_BAD_CELL);
  SAME(quendaric_run(bad, sizeof bad, 1, one, 28, buffer, length, 0).place, 215);
  bad[1000] = 5;
  SAME(quendaric_run(bad, sizeof bad, 1, one, 28, buffer, length, 0).refusal, QUENDARIC_REFUSED_BYTE);
  SAME(quendaric_run(bad, sizeof bad, 1, one, 28, buffer, length, 0).place, 1000);
  SAME(all_untouched(buffer, length), 1);
}

/* NULL with length 0, alone and beside what is right. */
static void nothing_lent(const uint8_t *table) {
  const size_t length = QUENDARIC_TABLE_LENGTH;
  uint8_t buffer[28];
  memset(buffer, untouched, sizeof buffer);
  SAME(quendaric_check_table(NULL, 0).refusal, QUENDARIC_REFUSED_LENGTH);
  SAME(quendaric_make_table(NULL, 0).refusal, QUENDARIC_REFUSED_ROOM);
  SAME(quendaric_run(NULL, 0, 1, one, 28, NULL, 0, 0).refusal, QUENDARIC_REFUSED_ROOM);
  SAME(quendaric_run(table, length, 1, one, 28, NULL, 0, 0).refusal, QUENDARIC_REFUSED_ROOM);
  SAME(quendaric_run(NULL, 0, 1, one, 28, buffer, sizeof buffer, 0).refusal, QUENDARIC_REFUSED_LENGTH);
  SAME(quendaric_run_kept(1, one, 28, NULL, 0, 0).refusal, QUENDARIC_REFUSED_ROOM);
  SAME(quendaric_divide_whole(NULL, 0, 1, 1).refusal, QUENDARIC_REFUSED_LENGTH);
  SAME(quendaric_divide_binary64(NULL, 0, 1, 1, QUENDARIC_NEAREST).refusal, QUENDARIC_REFUSED_LENGTH);
  SAME(all_untouched(buffer, sizeof buffer), 1);
}

static void divisions(const uint8_t *table) {
  quendaric_whole whole = quendaric_divide_whole(table, QUENDARIC_TABLE_LENGTH, 4195835, 3145727);
  SAME(whole.refusal, 0);
  SAME(whole.quotient, 1);
  SAME(whole.remainder, 1050108);
  SAME(quendaric_divide_whole_kept(1, 0).refusal, QUENDARIC_REFUSED_BY_ZERO);
  SAME(quendaric_divide_whole_kept(one, 0).refusal, QUENDARIC_REFUSED_TOO_LARGE);
  quendaric_binary64 third = quendaric_divide_binary64(table, QUENDARIC_TABLE_LENGTH, 0x3FF0000000000000ull,
                                                       0x4008000000000000ull, QUENDARIC_NEAREST);
  SAME(third.refusal, 0);
  SAME(third.place, 0);
  SAME(third.pattern, 0x3FD5555555555555ull);
  SAME(third.flags, QUENDARIC_INEXACT);
  quendaric_binary64 least = quendaric_divide_binary64_kept(1, 0x4000000000000000ull, QUENDARIC_UPWARD);
  SAME(least.pattern, 1);
  SAME(least.flags, QUENDARIC_INEXACT + QUENDARIC_UNDERFLOW);
  SAME(quendaric_divide_binary64_kept(1, 1, 4).refusal, QUENDARIC_REFUSED_DIRECTION);
  SAME(quendaric_pattern(-2.5), 0xC004000000000000ull);
  SAME(quendaric_double(0xC004000000000000ull) == -2.5, 1);
  /* a NaN operand, quiet and signalling */
  static const uint64_t nan[2] = {0x7FF8000000000001ull, 0xFFF0000000000001ull};
  static const uint64_t flags[2] = {0, QUENDARIC_INVALID};
  for (int i = 0; i < 2; i++) {
    quendaric_binary64 none = quendaric_divide_binary64_kept(nan[i], 1, QUENDARIC_NEAREST);
    SAME(none.pattern, 0x7FF8000000000000ull);
    SAME(none.flags, flags[i]);
  }
}

/* Samples: the concentrations and the joined flags; each refusal, and the third list as it was. */
static void samples(uint8_t *table) {
  const size_t length = QUENDARIC_TABLE_LENGTH;
  static const uint64_t current[3] = {0x3FF0000000000000ull, 0x3FF0000000000000ull, 0x4008000000000000ull};
  static const uint64_t sensitivity[3] = {0x4008000000000000ull, 0, 0x4008000000000000ull};
  uint64_t list[4] = {7, 7, 7, 7};
  quendaric_samples run =
      quendaric_divide_samples(table, length, current, 3, sensitivity, 3, list, 4, QUENDARIC_NEAREST);
  SAME(run.refusal, 0);
  SAME(run.place, 0);
  SAME(run.flags, QUENDARIC_INEXACT + QUENDARIC_DIVISION_BY_ZERO);
  SAME(run.count, 3);
  SAME(list[0], 0x3FD5555555555555ull);
  SAME(list[1], 0x7FF0000000000000ull);
  SAME(list[2], 0x3FF0000000000000ull);
  SAME(list[3], 7);
  run = quendaric_divide_samples(table, length, NULL, 0, NULL, 0, NULL, 0, QUENDARIC_NEAREST);
  SAME(run.refusal, 0);
  SAME(run.count, 0);
  memset(list, 0, sizeof list);
  SAME(quendaric_divide_samples(table, 5, current, 3, sensitivity, 2, list, 2, 4).refusal, QUENDARIC_REFUSED_DIRECTION);
  SAME(quendaric_divide_samples(table, 5, current, 3, sensitivity, 2, list, 2, 0).refusal, QUENDARIC_REFUSED_LISTS);
  SAME(quendaric_divide_samples(table, 5, current, 3, sensitivity, 3, list, 2, 0).refusal, QUENDARIC_REFUSED_ROOM);
  SAME(quendaric_divide_samples(table, 5, NULL, 0, NULL, 0, NULL, 0, 0).refusal, QUENDARIC_REFUSED_LENGTH);
  table[215] = 2;
  run = quendaric_divide_samples(table, length, current, 3, sensitivity, 3, list, 4, 0);
  SAME(run.refusal, QUENDARIC_REFUSED_BAD_CELL);
  SAME(run.place, 215);
  SAME(run.flags + run.count, 0);
  table[215] = 4;
  SAME(list[0] + list[1] + list[2] + list[3], 0);
}

/* A reading a second for half an hour with a spike of five minutes in it, and its 901 fifteen-minute averages. */
enum { SECONDS = 1800, QUARTER = 900, WINDOWS = SECONDS - QUARTER + 1 };
static uint64_t readings[SECONDS], means[WINDOWS + 1], remainders[WINDOWS + 1];

static quendaric_averages averaged_in(bool newest_first, size_t width, size_t room, size_t other) {
  return quendaric_average_windows(readings, SECONDS, width, newest_first, means, room, remainders, other);
}
static quendaric_averages averaged(size_t width, size_t room, size_t other) {
  return averaged_in(false, width, room, other);
}

static void averages(void) {
  for (int i = 0; i < SECONDS; i++)
    readings[i] = i < 600 || i >= 900 ? 1000 : 20001;
  for (int i = 0; i <= WINDOWS; i++)
    means[i] = remainders[i] = untouched;
  SAME(averaged(QUARTER, WINDOWS - 1, WINDOWS).refusal, QUENDARIC_REFUSED_ROOM);
  SAME(averaged(QUARTER, WINDOWS, WINDOWS - 1).refusal, QUENDARIC_REFUSED_ROOM);
  readings[1790] = (uint64_t)1 << 40;
  SAME(averaged(QUARTER, 0, 0).refusal, QUENDARIC_REFUSED_READING);
  SAME(averaged(QUARTER, 0, 0).place, 1790);
  SAME(averaged(0, 0, 0).refusal, QUENDARIC_REFUSED_WIDTH);
  SAME(averaged(SECONDS + 1, WINDOWS, WINDOWS).refusal, QUENDARIC_REFUSED_WIDTH);
  SAME(averaged(QUENDARIC_WIDEST_WINDOW + 1, WINDOWS, WINDOWS).refusal, QUENDARIC_REFUSED_WIDTH);
  SAME(quendaric_average_windows(NULL, 0, 1, true, NULL, 0, NULL, 0).refusal, QUENDARIC_REFUSED_WIDTH);
  SAME(means[0] == untouched && remainders[0] == untouched, 1);
  readings[1790] = 1000;
  quendaric_averages answer = averaged(QUARTER, WINDOWS + 1, WINDOWS + 1);
  SAME(answer.refusal, 0);
  SAME(answer.place, 0);
  /* 300 readings of 20,001 and 600 of 1,000 by 900; from 601 on readings of the spike have left */
  SAME(means[0], 7333);
  SAME(remainders[0], 600);
  SAME(means[600], 7333);
  SAME(means[601], 7312);
  SAME(remainders[601], 499);
  SAME(means[900], 1000);
  SAME(remainders[900], 0);
  SAME(means[WINDOWS], untouched);
  SAME(remainders[WINDOWS], untouched);
  /* with the newest reading first the oldest window is the list's last; the lists just fit */
  SAME(averaged_in(true, QUARTER, WINDOWS, WINDOWS).refusal, 0);
  SAME(means[0], 1000);
  SAME(remainders[0], 0);
  SAME(means[299], 7312);
  SAME(remainders[299], 499);
  SAME(means[300], 7333);
  SAME(means[900], 7333);
  SAME(remainders[900], 600);
  /* the refusals are the same, and the place is that in the list as handed in */
  SAME(averaged_in(true, QUARTER, WINDOWS - 1, WINDOWS).refusal, QUENDARIC_REFUSED_ROOM);
  SAME(averaged_in(true, QUARTER, WINDOWS, WINDOWS - 1).refusal, QUENDARIC_REFUSED_ROOM);
  SAME(averaged_in(true, SECONDS + 1, 0, 0).refusal, QUENDARIC_REFUSED_WIDTH);
  readings[1] = readings[1797] = (uint64_t)1 << 40;
  SAME(averaged_in(true, QUARTER, 0, 0).refusal, QUENDARIC_REFUSED_READING);
  SAME(averaged_in(true, QUARTER, 0, 0).place, 1);
  SAME(means[0] == 1000 && remainders[299] == 499, 1);
}

/* A repair that is refused: number, place and zero beside them. */
static void refused_repair(quendaric_repaired answer, uint64_t refusal) {
  SAME(answer.refusal, refusal);
  SAME(answer.place, 0);
  SAME(answer.count, 0);
}

static void repairs(const uint8_t *kept) {
  static uint8_t read_back[QUENDARIC_TABLE_LENGTH], repaired[QUENDARIC_TABLE_LENGTH + 1],
      changed[QUENDARIC_TABLE_LENGTH + 1], marks[QUENDARIC_TABLE_LENGTH];
  const size_t size = QUENDARIC_TABLE_LENGTH;
  memcpy(read_back, kept, size);
  read_back[0] = 9, read_back[215] = 2; /* a byte above 4 in a cell without a point, and a bad cell */
  marks[0] = 1, marks[215] = 1;
  memset(repaired, untouched, sizeof repaired);
  memset(changed, untouched, sizeof changed);
  refused_repair(quendaric_repair_table(read_back, size, repaired, size - 1, changed, size), QUENDARIC_REFUSED_ROOM);
  refused_repair(quendaric_repair_table(read_back, size, repaired, size, changed, size - 1), QUENDARIC_REFUSED_ROOM);
  refused_repair(quendaric_repair_table(read_back, 5, repaired, size, changed, size - 1), QUENDARIC_REFUSED_ROOM);
  refused_repair(quendaric_repair_table(read_back, size - 1, repaired, size, changed, size), QUENDARIC_REFUSED_LENGTH);
  refused_repair(quendaric_repair_table(NULL, 0, repaired, size, changed, size), QUENDARIC_REFUSED_LENGTH);
  refused_repair(quendaric_repair_table(NULL, 0, NULL, 0, NULL, 0), QUENDARIC_REFUSED_ROOM);
  SAME(all_untouched(repaired, sizeof repaired) && all_untouched(changed, sizeof changed), 1);
  for (size_t longer = 0; longer < 2; longer++) {
    quendaric_repaired answer =
        quendaric_repair_table(read_back, size, repaired, size + longer, changed, size + longer);
    SAME(answer.refusal, 0);
    SAME(answer.place, 0);
    SAME(answer.count, 2);
    SAME(memcmp(repaired, kept, size), 0);
    SAME(memcmp(changed, marks, size), 0);
    SAME(repaired[size] == untouched && changed[size] == untouched, 1);
  }
  SAME(quendaric_repair_table(kept, size, repaired, size, changed, size).count, 0);
  SAME(memcmp(repaired, kept, size), 0);
}

/* A recheck that is refused: number, place and zero beside them. */
static void no_count(quendaric_affected_count answer, uint64_t refusal) {
  SAME(answer.refusal, refusal);
  SAME(answer.place, 0);
  SAME(answer.count, 0);
}
static void no_mark(quendaric_affected_mark answer, uint64_t refusal) {
  SAME(answer.refusal, refusal);
  SAME(answer.place, 0);
  SAME(answer.affected, 0);
}

/* Which records a table with a bad cell, and with a byte above 4, has affected: 1.0 by 1.0 reads the cell 72 first, by seven bits and
   by eight. */
static void rechecks(const uint8_t *kept) {
  static uint8_t burned[QUENDARIC_TABLE_LENGTH];
  static const uint64_t current[5] = {0x3FF0000000000000ull, 0x3FF0000000000000ull, 0, 0x3FF0000000000000ull,
                                      0x7FF8000000000000ull};
  static const uint64_t sensitivity[5] = {0x3FF0000000000000ull, 0x4008000000000000ull, 0x3FF0000000000000ull, 0,
                                          0x3FF0000000000000ull};
  static const uint8_t marks[6] = {1, 0, 0, 0, 0, 0xC3};
  static const uint8_t none[6] = {0, 0, 0, 0, 0, 0xC3};
  static const uint64_t others[5] = {0, 6, 9, 263, UINT64_MAX}; /* 263 is 7 modulo 256 */
  const size_t size = QUENDARIC_TABLE_LENGTH;
  uint8_t affected[6];
  memset(affected, untouched, sizeof affected);
  memcpy(burned, kept, size);
  for (int k = 0; k < 5; k++) {
    no_count(quendaric_affected_samples(others[k], burned, size, current, 5, sensitivity, 5, affected, 5),
             QUENDARIC_REFUSED_ESTIMATE_BITS);
    no_count(quendaric_affected_samples(others[k], burned, 5, current, 5, sensitivity, 4, affected, 4),
             QUENDARIC_REFUSED_ESTIMATE_BITS);
    no_mark(quendaric_affected_whole(others[k], burned, size, 17, 16), QUENDARIC_REFUSED_ESTIMATE_BITS);
    no_mark(quendaric_affected_whole(others[k], burned, 5, one, 0), QUENDARIC_REFUSED_ESTIMATE_BITS);
    no_mark(quendaric_affected_run(others[k], burned, size, one, one, 28), QUENDARIC_REFUSED_ESTIMATE_BITS);
    no_mark(quendaric_affected_run(others[k], burned, 5, 0, 0, 0), QUENDARIC_REFUSED_ESTIMATE_BITS);
  }
  for (uint64_t bits = 7; bits <= 8; bits++) {
    memset(affected, untouched, sizeof affected);
    no_count(quendaric_affected_samples(bits, burned, 5, current, 5, sensitivity, 4, affected, 4),
             QUENDARIC_REFUSED_LISTS);
    no_count(quendaric_affected_samples(bits, burned, 5, current, 5, sensitivity, 5, affected, 4),
             QUENDARIC_REFUSED_ROOM);
    no_count(quendaric_affected_samples(bits, burned, size - 1, current, 5, sensitivity, 5, affected, 5),
             QUENDARIC_REFUSED_LENGTH);
    no_count(quendaric_affected_samples(bits, NULL, 0, NULL, 0, NULL, 0, NULL, 0), QUENDARIC_REFUSED_LENGTH);
    no_count(quendaric_affected_samples(bits, burned, size, NULL, 0, NULL, 0, NULL, 0), 0);
    SAME(all_untouched(affected, sizeof affected), 1);
    for (uint8_t byte = 2; byte < 8; byte++) {
      burned[72] = byte;
      const int bad = byte != 3; /* 1 is the only digit that is allowed there */
      quendaric_affected_count answer =
          quendaric_affected_samples(bits, burned, size, current, 5, sensitivity, 5, affected, 6);
      SAME(answer.refusal, 0);
      SAME(answer.place, 0);
      SAME(answer.count, bad);
      SAME(memcmp(affected, bad ? marks : none, 6), 0);
      quendaric_affected_mark whole = quendaric_affected_whole(bits, burned, size, 17, 16);
      SAME(whole.refusal, 0);
      SAME(whole.place, 0);
      SAME(whole.affected, bad && byte != 4); /* 17 by 16 takes one digit: 2 is corrected to 1, and 1 is left */
      SAME(quendaric_affected_whole(bits, burned, size, 16, 17).affected, 0);
      /* the same run as that of 17 by 16, and one of two digits: of these 2 is corrected to 1 no more */
      SAME(quendaric_affected_run(bits, burned, size, 17ull << 56, one, 1).affected, bad && byte != 4);
      SAME(quendaric_affected_run(bits, burned, size, one, one, 2).affected, bad);
    }
    no_mark(quendaric_affected_whole(bits, burned, 5, one, 0), QUENDARIC_REFUSED_TOO_LARGE);
    no_mark(quendaric_affected_whole(bits, burned, 5, 1, one), QUENDARIC_REFUSED_TOO_LARGE);
    no_mark(quendaric_affected_whole(bits, burned, 5, 1, 0), QUENDARIC_REFUSED_BY_ZERO);
    no_mark(quendaric_affected_whole(bits, burned, 5, 1, 1), QUENDARIC_REFUSED_LENGTH);
    no_mark(quendaric_affected_whole(bits, NULL, 0, 1, 1), QUENDARIC_REFUSED_LENGTH);
    no_mark(quendaric_affected_run(bits, burned, 5, 0, 0, 0), QUENDARIC_REFUSED_DIGITS);
    no_mark(quendaric_affected_run(bits, burned, 5, 0, 0, 32), QUENDARIC_REFUSED_DIGITS);
    no_mark(quendaric_affected_run(bits, burned, 5, 0, one - 1, 31), QUENDARIC_REFUSED_SPAN);
    no_mark(quendaric_affected_run(bits, burned, 5, 0, 2 * one, 31), QUENDARIC_REFUSED_SPAN);
    no_mark(quendaric_affected_run(bits, burned, 5, 2 * one, one, 31), QUENDARIC_REFUSED_SPAN);
    no_mark(quendaric_affected_run(bits, burned, 5, 2 * one - 1, 2 * one - 1, 31), QUENDARIC_REFUSED_LENGTH);
    no_mark(quendaric_affected_run(bits, NULL, 0, one, one, 1), QUENDARIC_REFUSED_LENGTH);
    no_mark(quendaric_affected_run(bits, kept, size, 0, 2 * one - 1, 31), 0);
    burned[72] = kept[72];
    /* the estimates told apart: through the table made for eight bits this pair is wrong by seven, and right by eight */
    static const uint64_t number = 0x3FF0B00000000000ull, divisor = 0x3FF1080000000000ull;
    quendaric_affected_count answer =
        quendaric_affected_samples(bits, kept, size, &number, 1, &divisor, 1, affected, 1);
    SAME(answer.refusal, 0);
    SAME(answer.count, bits == 7);
    SAME(affected[0], bits == 7);
    SAME(quendaric_affected_run(bits, kept, size, 0x10B0ull << 48, 0x1108ull << 48, 28).affected, bits == 7);
    SAME(quendaric_affected_whole(bits, kept, size, 0x10Bull << 51, 0x1108ull >> 3).affected, bits == 7);
  }
}

/* The lists that are lent to the calls of `orders`, as bytes or as words: all 0 before each call. */
static union {
  uint64_t words[12];
  uint8_t bytes[96];
} lent;

/* Do the lent lists begin with these bytes, and hold 0 behind them? */
static int lent_is(const void *begin, size_t size) {
  for (size_t i = size; i < sizeof lent.bytes; i++)
    if (lent.bytes[i] != 0)
      return 0;
  return memcmp(lent.bytes, begin, size) == 0;
}

/* A call on these numbers x, which are different: its whole answer, every byte of it, and what the lent lists hold are as wanted. For each pair
   of different numbers the call is made once more with the two exchanged, and then they are not, so that no exchange is missed. */
#define BRACED(...)                                                                                                    \
  { __VA_ARGS__ }
#define ORDER_LENT(call, numbers, element, list, type, ...)                                                            \
  do {                                                                                                                 \
    const uint64_t given[] = BRACED numbers;                                                                           \
    const element after[] = BRACED list;                                                                               \
    const type want = {__VA_ARGS__};                                                                                   \
    const size_t count = sizeof given / sizeof *given;                                                                 \
    for (size_t j = 0; j < count; j++)                                                                                 \
      for (size_t k = j == 0 ? 0 : j + 1; k < count; k++) {                                                            \
        uint64_t x[sizeof given / sizeof *given];                                                                      \
        memcpy(x, given, sizeof x);                                                                                    \
        x[j] = given[k], x[k] = given[j];                                                                              \
        memset(&lent, 0, sizeof lent);                                                                                 \
        const type got = call;                                                                                         \
        const int wanted = memcmp(&got, &want, sizeof got) == 0 && lent_is(after, sizeof after);                       \
        if (wanted != (given[j] == given[k]))                                                                          \
          printf("%s: numbers %d and %d of " #numbers "\n", #call, (int)j, (int)k), differences++;                     \
      }                                                                                                                \
  } while (0)
#define ORDER(call, numbers, type, ...) ORDER_LENT(call, numbers, uint8_t, (0), type, __VA_ARGS__)

static void limits_are(quendaric_limits got, uint64_t refusal, int a, int b, int c, int d, int e, int f) {
  const uint8_t want[6] = {(uint8_t)a, (uint8_t)b, (uint8_t)c, (uint8_t)d, (uint8_t)e, (uint8_t)f};
  SAME(got.refusal, refusal);
  SAME(got.place, 0);
  SAME(memcmp(got.limits, want, 6), 0);
}

/* The calls for a number of bits that is neither 7 nor 8: 17 before all else, zeros besides, and no byte is written. */
static void neither(const uint8_t *kept) {
  static const uint64_t others[] = {
      0, 1, 6, 9, 16, 70, 255, 256, 263, 264, 0x100000007, 0x8000000000000000ull, 0x8000000000000008ull, UINT64_MAX};
  static uint8_t buffer[QUENDARIC_TABLE_LENGTH], changed[QUENDARIC_TABLE_LENGTH];
  const size_t size = QUENDARIC_TABLE_LENGTH;
  const uint64_t bits = QUENDARIC_REFUSED_ESTIMATE_BITS;
  SAME(bits, 17);
  memset(buffer, untouched, size);
  memset(changed, untouched, size);
  for (size_t i = 0; i < sizeof others / sizeof *others; i++) {
    const uint64_t other = others[i];
    WHOLE(quendaric_cell, quendaric_check_cell_for(other, 0, 75, 4), bits, 0, 0, 0, 0);
    WHOLE(quendaric_cell, quendaric_check_cell_for(other, 16, 128, 9), bits, 0, 0, 0, 0);
    WHOLE(quendaric_report, quendaric_check_table_for(other, kept, size), bits, 0, 0, 0, 0, 0, 0);
    WHOLE(quendaric_report, quendaric_check_table_for(other, NULL, 0), bits, 0, 0, 0, 0, 0, 0);
    limits_are(quendaric_row_limits_for(other, 0), bits, 0, 0, 0, 0, 0, 0);
    limits_are(quendaric_row_limits_for(other, 16), bits, 0, 0, 0, 0, 0, 0);
    WHOLE(quendaric_made, quendaric_make_table_for(other, buffer, size), bits, 0);
    WHOLE(quendaric_made, quendaric_make_table_for(other, NULL, 0), bits, 0);
    WHOLE(quendaric_repaired, quendaric_repair_table_for(other, kept, size, buffer, size, changed, size), bits, 0, 0);
    WHOLE(quendaric_repaired, quendaric_repair_table_for(other, NULL, 0, NULL, 0, NULL, 0), bits, 0, 0);
  }
  SAME(all_untouched(buffer, size) && all_untouched(changed, size), 1);
}

/* The calls for 7 and for 8. By seven bits the digit 0 of the kept table is bad at byte 196, and it is the first of 17. */
static void by_bits(const uint8_t *kept) {
  static uint8_t seven[QUENDARIC_TABLE_LENGTH + 1], repaired[QUENDARIC_TABLE_LENGTH + 1],
      changed[QUENDARIC_TABLE_LENGTH + 1], bytes[QUENDARIC_TABLE_LENGTH];
  const size_t size = QUENDARIC_TABLE_LENGTH;
  const uint64_t divisor = 17ull << 56;
  const int64_t remainder = 816652732429849942ll;
  memset(seven, untouched, sizeof seven);
  memset(repaired, untouched, sizeof repaired);
  memset(changed, untouched, sizeof changed);
  WHOLE(quendaric_made, quendaric_make_table_for(7, seven, size - 1), QUENDARIC_REFUSED_ROOM, 0);
  SAME(all_untouched(seven, sizeof seven), 1);
  WHOLE(quendaric_made, quendaric_make_table_for(7, seven, size + 1), 0, 0);
  SAME(seven[size], untouched);
  WHOLE(quendaric_made, quendaric_make_table_for(8, repaired, size), 0, 0);
  SAME(memcmp(repaired, kept, size), 0);
  SAME(seven[196], 3);
  SAME(kept[196], 2);

  WHOLE(quendaric_report, quendaric_check_table_for(7, seven, size), 0, 0, 0, 0, 0, 0, 0);
  WHOLE(quendaric_report, quendaric_check_table_for(8, seven, size), 0, 0, 0, 0, 0, 0, 0);
  WHOLE(quendaric_report, quendaric_check_table_for(8, kept, size), 0, 0, 0, 0, 0, 0, 0);
  WHOLE(quendaric_report, quendaric_check_table_for(7, kept, size), QUENDARIC_REFUSED_BAD_CELL, 196, 17, 1, 68, divisor,
        remainder);
  WHOLE(quendaric_report, quendaric_check_table_for(7, kept, 5), QUENDARIC_REFUSED_LENGTH, 0, 0, 0, 0, 0, 0);
  memcpy(bytes, kept, size);
  bytes[1000] = 5;
  WHOLE(quendaric_report, quendaric_check_table_for(7, bytes, size), QUENDARIC_REFUSED_BYTE, 1000, 0, 0, 0, 0, 0);

  WHOLE(quendaric_cell, quendaric_check_cell_for(7, 1, 68, 2), 0, 0, 0, divisor, remainder);
  WHOLE(quendaric_cell, quendaric_check_cell_for(7, 1, 68, 3), 0, 0, 1, 0, 0);
  WHOLE(quendaric_cell, quendaric_check_cell_for(8, 1, 68, 2), 0, 0, 1, 0, 0);
  WHOLE(quendaric_cell, quendaric_check_cell_for(7, 16, 0, 9), QUENDARIC_REFUSED_CELL, 0, 0, 0, 0);
  WHOLE(quendaric_cell, quendaric_check_cell_for(7, 3, 5, 9), QUENDARIC_REFUSED_BYTE, 3 * 128 + 5, 0, 0, 0);

  limits_are(quendaric_row_limits_for(7, 0), 0, 40, 51, 59, 68, 76, 87);
  limits_are(quendaric_row_limits_for(7, 1), 0, 39, 50, 59, 68, 77, 88);
  limits_are(quendaric_row_limits_for(8, 1), 0, 39, 50, 59, 69, 77, 88);
  limits_are(quendaric_row_limits_for(7, 16), QUENDARIC_REFUSED_CELL, 0, 0, 0, 0, 0, 0);

  /* a repair of the kept table is the table made for seven bits: it changes 17 cells, and each change is marked */
  memset(repaired, untouched, sizeof repaired);
  WHOLE(quendaric_repaired, quendaric_repair_table_for(7, kept, size, repaired, size - 1, changed, size),
        QUENDARIC_REFUSED_ROOM, 0, 0);
  WHOLE(quendaric_repaired, quendaric_repair_table_for(7, kept, 5, repaired, size, changed, size),
        QUENDARIC_REFUSED_LENGTH, 0, 0);
  SAME(all_untouched(repaired, sizeof repaired) && all_untouched(changed, sizeof changed), 1);
  WHOLE(quendaric_repaired, quendaric_repair_table_for(7, kept, size, repaired, size + 1, changed, size + 1), 0, 0, 17);
  SAME(memcmp(repaired, seven, size), 0);
  for (size_t k = 0; k < size; k++)
    bytes[k] = kept[k] != seven[k];
  SAME(memcmp(changed, bytes, size), 0);
  SAME(repaired[size] == untouched && changed[size] == untouched, 1);
  WHOLE(quendaric_repaired, quendaric_repair_table_for(8, kept, size, repaired, size, changed, size), 0, 0, 0);
  SAME(memcmp(repaired, kept, size), 0);
  memset(bytes, 0, size);
  SAME(memcmp(changed, bytes, size), 0);

  /* a table for seven bits serves where the unit divides */
  SAME(quendaric_divide_whole(seven, size, 4195835, 3145727).remainder, 1050108);
}

/* Which of two arguments of one type is which, where the worked examples do not tell: of a table with a byte above 4 at (0, 73) the quotient
   1.125 by 1.0 reads that cell first, and 1.0 by 1.125 stays in row 2. (Sum and carry word of a step may be exchanged.) */
static void exchanged(const uint8_t *kept) {
  static uint8_t burned[QUENDARIC_TABLE_LENGTH];
  static const uint64_t larger[2] = {0x3FF2000000000000ull, 0x4008000000000000ull},
                        smaller[2] = {0x3FF0000000000000ull, 0x3FF0000000000000ull};
  const size_t size = QUENDARIC_TABLE_LENGTH;
  uint8_t mark = untouched;
  uint64_t list[2] = {7, 7};
  memcpy(burned, kept, size);
  burned[73] = 5;
  for (uint64_t bits = 7; bits <= 8; bits++) {
    SAME(quendaric_affected_samples(bits, burned, size, larger, 1, smaller, 1, &mark, 1).count, 1);
    SAME(mark, 1);
    SAME(quendaric_affected_samples(bits, burned, size, smaller, 1, larger, 1, &mark, 1).count, 0);
    SAME(mark, 0);
    SAME(quendaric_affected_run(bits, burned, size, 9ull << 57, one, 28).affected, 1);
    SAME(quendaric_affected_run(bits, burned, size, one, 9ull << 57, 28).affected, 0);
    SAME(quendaric_affected_whole(bits, burned, size, 9, 8).affected, 1);
    SAME(quendaric_affected_whole(bits, burned, size, 8, 9).affected, 0);
  }
  SAME(quendaric_divide_samples(kept, size, larger, 2, smaller, 2, list, 2, QUENDARIC_NEAREST).refusal, 0);
  SAME(list[0], 0x3FF2000000000000ull);
  SAME(list[1], 0x4008000000000000ull);
  SAME(quendaric_divide_samples(kept, size, smaller, 2, larger, 2, list, 2, QUENDARIC_NEAREST).refusal, 0);
  SAME(list[0], 0x3FEC71C71C71C71Cull);
  SAME(list[1], 0x3FD5555555555555ull);
}

/* The answer of row_limits in words: the six columns stand in one, the first lowest. Padding is no part of the answer. */
typedef struct {
  uint64_t refusal, place, columns;
} limits_in_words;
static limits_in_words in_words(quendaric_limits limits) {
  limits_in_words words = {limits.refusal, limits.place, 0};
  memcpy(&words.columns, limits.limits, sizeof limits.limits);
  return words;
}

/* One step with this carry: sum and carry may be exchanged, so that no answer tells which is which. */
static const uint64_t carry = 0x1FEDCBA987654321ull;

/* A packed number by its last byte, all others 0: the dividend is number 0, the divisor number 1. */
static const uint8_t *last(uint64_t byte, int number) {
  static uint8_t packed[2][8];
  packed[number][7] = (uint8_t)byte;
  return packed[number];
}

/* Of the lists that are longer than `lent` a part is copied there: from 214 on four bytes of the repaired table and four marks, and the
   visits of four cells. Two lists of one length are exchanged by no number. */
static uint8_t repaired[QUENDARIC_TABLE_LENGTH + 2], changed[QUENDARIC_TABLE_LENGTH + 2];
static uint32_t visited[QUENDARIC_TABLE_LENGTH + 1];
static quendaric_repaired seen_repair(quendaric_repaired answer) {
  memcpy(lent.bytes, repaired + 214, 4);
  memcpy(lent.bytes + 4, changed + 214, 4);
  memset(repaired, 0, sizeof repaired);
  memset(changed, 0, sizeof changed);
  return answer;
}
static quendaric_visits seen_visits(quendaric_visits answer) {
  static const int cells[4] = {63, 72, 76, 47};
  for (int i = 0; i < 4; i++)
    lent.words[i] = visited[cells[i]];
  memset(visited, 0, sizeof visited);
  return answer;
}

/* Each call with numbers that are different. */
static void orders(const uint8_t *kept) {
  /* a table that passes and is not the kept one: 1 is allowed at 1991 too, where the kept table has 0; and two with a bad cell */
  static uint8_t table[QUENDARIC_TABLE_LENGTH], burned[QUENDARIC_TABLE_LENGTH], read_back[QUENDARIC_TABLE_LENGTH];
  static const uint64_t five[5] = {10, 20, 31, 40, 51}, n = 0x1234567890ABCDEFull, d = 0x1FEDCBA987654321ull;
  static const uint64_t ones[2] = {0x3FF0000000000000ull, 0x3FF0000000000000ull},
                        three_and_one[2] = {0x4008000000000000ull, 0x3FF0000000000000ull},
                        three = 0x4008000000000000ull;
  memcpy(table, kept, sizeof table);
  table[1991] = 3;
  memcpy(burned, table, sizeof burned);
  burned[72] = 2;
  memcpy(read_back, table, sizeof read_back);
  read_back[215] = 2;

  /* row, column, byte: the digit 2 is not allowed there */
  ORDER(quendaric_check_cell(x[0], x[1], (uint8_t)x[2]), (0, 75, 4), quendaric_cell, 0, 0, 0, (33ull << 55) + 1,
        11ll << 57);
  ORDER(quendaric_check_table(table, x[0]), (2048), quendaric_report, 0, 0, 0, 0, 0, 0, 0);
  ORDER(in_words(quendaric_row_limits(x[0])), (7), limits_in_words, 0, 0, 0x605247392D1Full);
  ORDER(quendaric_make_table(lent.bytes, x[0]), (16), quendaric_made, 7, 0);
  /* the same for seven bits, whose number comes first: the digit 0 is not allowed there, and is the first bad one of the table */
  ORDER(quendaric_check_cell_for(x[0], x[1], x[2], (uint8_t)x[3]), (7, 1, 68, 2), quendaric_cell, 0, 0, 0, 17ull << 56,
        816652732429849942ll);
  ORDER(quendaric_check_table_for(x[0], table, x[1]), (7, 2048), quendaric_report, 10, 196, 17, 1, 68, 17ull << 56,
        816652732429849942ll);
  ORDER(in_words(quendaric_row_limits_for(x[0], x[1])), (7, 1), limits_in_words, 0, 0, 0x584D443B3227ull);
  ORDER(quendaric_make_table_for(x[0], lent.bytes, x[1]), (7, 16), quendaric_made, 7, 0);
  /* table length, dividend, divisor, digits, buffer length, place: n * 4^4 = 145 * d + 2208485150033111375 */
  ORDER_LENT(quendaric_run(table, x[0], x[1], x[2], x[3], lent.bytes, x[4], x[5]), (2048, n, d, 5, 11, 4), uint8_t,
             (0, 0, 0, 0, 3, 0, 3, 3, 0), quendaric_ran, 0, 0, 145, 2208485150033111375ull, 5);
  ORDER_LENT(quendaric_run_kept(x[0], x[1], x[2], lent.bytes, x[3], x[4]), (n, d, 5, 11, 4), uint8_t,
             (0, 0, 0, 0, 3, 0, 3, 2, 4), quendaric_ran, 0, 0, 145, 2208485150033111375ull, 5);
  /* sum, divisor, table length */
  ORDER(quendaric_step(x[0], carry, x[1], table, x[2]), (0x0123456789ABCDEFull, n, 2048), quendaric_stepped, 0, 0, 2,
        0x15677703419BABBCull, 0xDD3A197C7D4A290Cull);
  ORDER(quendaric_divide_whole(table, x[0], x[1], x[2]), (2048, 1000000007, 7654321), quendaric_whole, 0, 0, 130,
        4938277);
  ORDER(quendaric_divide_whole_kept(x[0], x[1]), (1000000007, 7654321), quendaric_whole, 0, 0, 130, 4938277);
  /* .., a, b, direction: 1/3 upward */
  ORDER(quendaric_divide_binary64(table, x[0], x[1], x[2], x[3]), (2048, ones[0], three, 2), quendaric_binary64, 0, 0,
        0x3FD5555555555556ull, 1);
  ORDER(quendaric_divide_binary64_kept(x[0], x[1], x[2]), (ones[0], three, 2), quendaric_binary64, 0, 0,
        0x3FD5555555555556ull, 1);
  /* .., lengths of the three lists, direction: 1/3 downward */
  ORDER_LENT(quendaric_divide_samples(table, x[0], ones, x[1], three_and_one, x[2], lent.words, x[3], x[4]),
             (2048, 1, 1, 2, 3), uint64_t, (0x3FD5555555555555ull), quendaric_samples, 0, 0, 1, 1);
  /* .., lengths of the three lists: with the bad cell 72 at 2, 1.0 by 1.0 reads it, and 1.0 by 3.0 does not */
  ORDER_LENT(quendaric_affected_samples(x[0], burned, x[1], ones, x[2], three_and_one, x[3], lent.bytes, x[4]),
             (8, 2048, 2, 2, 3), uint8_t, (0, 1, 0), quendaric_affected_count, 0, 0, 1);
  /* .., a, b: 17 by 16 takes one digit, from that cell */
  ORDER(quendaric_affected_whole(x[0], burned, x[1], x[2], x[3]), (8, 2048, 17, 16), quendaric_affected_mark, 0, 0, 1);
  /* .., dividend, divisor, digits: so does one digit of 2^60 + 2^55 by 2^60; of 2^60 by 2^60 + 2^55 the digit 0 is right */
  ORDER(quendaric_affected_run(x[0], burned, x[1], x[2], x[3], x[4]), (8, 2048, 33ull << 55, 1ull << 60, 1),
        quendaric_affected_mark, 0, 0, 1);
  /* number of readings, width, newest first, length of both lists: 142 and 101 by 4 */
  ORDER_LENT(quendaric_average_windows(five, x[0], x[1], x[2] != 0, lent.words, x[3], lent.words + 5, x[3]),
             (5, 4, 1, 3), uint64_t, (35, 25, 0, 0, 0, 2, 1), quendaric_averages, 0, 0);
  /* 98 by 15 */
  ORDER(quendaric_divide_packed(last(x[0], 0), last(x[1], 1)), (0x98, 0x15), quendaric_packed, 0, 0,
        {0, 0, 0, 0, 0, 0, 0, 6}, {0, 0, 0, 0, 0, 0, 0, 8});
  /* length of the table, length of both buffers */
  ORDER_LENT(seen_repair(quendaric_repair_table(read_back, x[0], repaired, x[1], changed, x[1])), (2048, 2050), uint8_t,
             (4, 4, 2, 2, 0, 1, 0, 0), quendaric_repaired, 0, 0, 1);
  ORDER_LENT(seen_repair(quendaric_repair_table_for(x[0], read_back, x[1], repaired, x[2], changed, x[2])),
             (7, 2048, 2050), uint8_t, (4, 4, 2, 2, 0, 1, 0, 0), quendaric_repaired, 0, 0, 18);
  /* table length, bits, digits, length of the list */
  ORDER_LENT(seen_visits(quendaric_count_visits(table, x[0], x[1], x[2], visited, x[3])), (2048, 2, 3, 2049), uint64_t,
             (3, 1, 1, 1), quendaric_visits, 0, 0);
  /* a * d and c * b are what they are with a and d, or c and b exchanged, so a 0 tells these apart, and b and d stand alone */
  ORDER(quendaric_compare_ratios(x[0], x[1], x[2], x[3]), (0, 5, 0, 5), quendaric_comparison, 0, 0, 0);
  ORDER(quendaric_compare_ratios(x[0], x[1], x[2], x[3]), (3, 3, 0, 3), quendaric_comparison, 0, 0, 1);
  ORDER(quendaric_compare_ratios(1, x[0], 1, x[1]), (3, 2), quendaric_comparison, 0, 0, -1);
  ORDER(quendaric_root_whole(x[0]), (4195835), quendaric_root, 0, 0, 2048, 1531);
  ORDER(quendaric_version(), (0), quendaric_linked, 0, 0);
  /* a, direction: the root of 3 upward */
  ORDER(quendaric_root_binary64(x[0], x[1]), (three, 2), quendaric_binary64, 0, 0, 0x3FFBB67AE8584CABull, 1);
}

static void visits(const uint8_t *kept) {
  static uint32_t counts[QUENDARIC_TABLE_LENGTH + 1];
  const size_t size = QUENDARIC_TABLE_LENGTH;
  uint64_t total = 0;
  counts[0] = counts[size] = untouched;
  SAME(quendaric_count_visits(kept, size, 7, 0, counts, size).refusal, QUENDARIC_REFUSED_DIGITS);
  SAME(quendaric_count_visits(kept, size, 1, QUENDARIC_MOST_DIGITS + 1, counts, size).refusal,
       QUENDARIC_REFUSED_DIGITS);
  SAME(quendaric_count_visits(kept, size, 0, 1, counts, 0).refusal, QUENDARIC_REFUSED_BITS);
  SAME(quendaric_count_visits(kept, size, 7, 1, counts, 0).refusal, QUENDARIC_REFUSED_BITS);
  SAME(quendaric_count_visits(NULL, 0, 1, 1, NULL, 0).refusal, QUENDARIC_REFUSED_ROOM);
  SAME(quendaric_count_visits(kept, size, 1, 1, counts, size - 1).refusal, QUENDARIC_REFUSED_ROOM);
  SAME(quendaric_count_visits(kept, size - 1, 1, 1, counts, size).refusal, QUENDARIC_REFUSED_LENGTH);
  SAME(counts[0], untouched);
  SAME(quendaric_count_visits(kept, size, 6, QUENDARIC_MOST_DIGITS, counts, size).refusal, 0);
  SAME(counts[63], 562);
  quendaric_visits answer = quendaric_count_visits(kept, size, 2, 3, counts, size + 1);
  SAME(answer.refusal, 0);
  SAME(answer.place, 0);
  for (size_t i = 0; i < size; i++)
    total += counts[i];
  SAME(total, 12);
  SAME(counts[63], 3);
  SAME(counts[1071], 2);
  SAME(counts[1087], 2);
  SAME(counts[0], 0);
  SAME(counts[size], untouched);
}

static void roots(void) {
  quendaric_root whole = quendaric_root_whole(one - 1);
  SAME(whole.refusal, 0);
  SAME(whole.place, 0);
  SAME(whole.root, (1 << 30) - 1);
  SAME(whole.remainder, 2 * whole.root);
  whole = quendaric_root_whole(one);
  SAME(whole.refusal, QUENDARIC_REFUSED_TOO_LARGE);
  SAME(whole.root, 0);
  quendaric_binary64 two = quendaric_root_binary64(0x4000000000000000ull, QUENDARIC_NEAREST);
  SAME(two.refusal, 0);
  SAME(two.place, 0);
  SAME(two.pattern, 0x3FF6A09E667F3BCDull);
  SAME(two.flags, QUENDARIC_INEXACT);
  SAME(quendaric_root_binary64(0x4000000000000000ull, QUENDARIC_DOWNWARD).pattern, 0x3FF6A09E667F3BCCull);
  SAME(quendaric_root_binary64(1, 4).refusal, QUENDARIC_REFUSED_DIRECTION);
  /* minus zero, a number below zero, a quiet and a signalling NaN */
  SAME(quendaric_root_binary64(0x8000000000000000ull, QUENDARIC_NEAREST).pattern, 0x8000000000000000ull);
  SAME(quendaric_root_binary64(0xBFF0000000000000ull, QUENDARIC_NEAREST).flags, QUENDARIC_INVALID);
  SAME(quendaric_root_binary64(0xFFF8000000000001ull, QUENDARIC_NEAREST).flags, 0);
  SAME(quendaric_root_binary64(0x7FF0000000000001ull, QUENDARIC_NEAREST).flags, QUENDARIC_INVALID);
}

static void packed(void) {
  static const uint8_t dividend[8] = {0x99, 0x99, 0x99, 0x99, 0x99, 0x99, 0x99, 0x99},
                       divisor[8] = {0, 0, 0, 0, 0, 0x12, 0x34, 0x56}, zero[8] = {0},
                       wrong[8] = {0, 0, 0x0A, 0, 0xF0, 0, 0, 0};
  /* 9999999999999999 = 81000518403 * 123456 + 39231 */
  static const uint8_t quotient[8] = {0, 0, 0x08, 0x10, 0x00, 0x51, 0x84, 0x03},
                       remainder[8] = {0, 0, 0, 0, 0, 0x03, 0x92, 0x31};
  quendaric_packed answer = quendaric_divide_packed(dividend, divisor);
  SAME(answer.refusal, 0);
  SAME(answer.place, 0);
  SAME(memcmp(answer.quotient, quotient, 8), 0);
  SAME(memcmp(answer.remainder, remainder, 8), 0);
  answer = quendaric_divide_packed(dividend, dividend);
  SAME(answer.refusal, 0);
  SAME(answer.quotient[7], 1);
  SAME(memcmp(answer.quotient, zero, 7) | memcmp(answer.remainder, zero, 8), 0);
  answer = quendaric_divide_packed(dividend, zero);
  SAME(answer.refusal, QUENDARIC_REFUSED_BY_ZERO);
  SAME(answer.place, 0);
  SAME(memcmp(answer.quotient, zero, 8) | memcmp(answer.remainder, zero, 8), 0);
  /* 15 before 5 */
  answer = quendaric_divide_packed(wrong, zero);
  SAME(answer.refusal, QUENDARIC_REFUSED_DECIMAL);
  SAME(answer.place, 2);
  SAME(memcmp(answer.quotient, zero, 8) | memcmp(answer.remainder, zero, 8), 0);
  answer = quendaric_divide_packed(dividend, wrong);
  SAME(answer.refusal, QUENDARIC_REFUSED_DECIMAL);
  SAME(answer.place, 10);
  SAME(memcmp(answer.quotient, zero, 8) | memcmp(answer.remainder, zero, 8), 0);
  SAME(quendaric_divide_packed(wrong, wrong).place, 2);
}

/* Is the answer this order, and no refusal? */
static void compared(quendaric_comparison answer, int64_t order) {
  SAME(answer.refusal, 0);
  SAME(answer.place, 0);
  SAME(answer.order, order);
}

/* Is the answer this refusal, at 0, and 0 besides? */
static void no_order(quendaric_comparison answer, uint64_t refusal) {
  SAME(answer.refusal, refusal);
  SAME(answer.place, 0);
  SAME(answer.order, 0);
}

static void ratios(void) {
  compared(quendaric_compare_ratios(1, 3, 2, 5), -1);
  compared(quendaric_compare_ratios(2, 5, 1, 3), 1);
  compared(quendaric_compare_ratios(2, 6, 1, 3), 0);
  compared(quendaric_compare_ratios(one - 1, one - 2, one - 2, one - 3), -1);
  compared(quendaric_compare_ratios(one - 2, one - 3, one - 1, one - 2), 1);
  compared(quendaric_compare_ratios(0, 1, 0, one - 1), 0);
  no_order(quendaric_compare_ratios(one, 0, 1, 1), QUENDARIC_REFUSED_TOO_LARGE);
  no_order(quendaric_compare_ratios(1, one, 1, 1), QUENDARIC_REFUSED_TOO_LARGE);
  no_order(quendaric_compare_ratios(1, 1, one, 0), QUENDARIC_REFUSED_TOO_LARGE);
  no_order(quendaric_compare_ratios(1, 1, 1, one), QUENDARIC_REFUSED_TOO_LARGE);
  no_order(quendaric_compare_ratios(1, 0, 2, 1), QUENDARIC_REFUSED_BY_ZERO);
  no_order(quendaric_compare_ratios(1, 1, 2, 0), QUENDARIC_REFUSED_BY_ZERO);
}

/* Every exponent with the least, some and the greatest fraction, in both signs: only the last exponent is of no number. */
static void finite(void) {
  const uint64_t fractions[] = {0, 1, (uint64_t)1 << 51, ((uint64_t)1 << 52) - 1};
  for (uint64_t exponent = 0; exponent < 4096; exponent++)
    for (int i = 0; i < 4; i++)
      SAME(quendaric_is_finite(exponent << 52 | fractions[i]), exponent % 2048 != 2047);
}

int main(void) {
  uint8_t table[QUENDARIC_TABLE_LENGTH];
  memset(table, untouched, sizeof table);
  cells();
  tables(table);
  runs(table);
  steps(table);
  repairs(table);
  rechecks(table);
  neither(table);
  exchanged(table);
  orders(table);
  by_bits(table);
  visits(table);
  refused_runs(table);
  nothing_lent(table);
  divisions(table);
  samples(table);
  averages();
  packed();
  ratios();
  roots();
  finite();
  return differences != 0;
}
