/* What the calls of docs/TARGETS.md cost on a Cortex-M processor: instructions, as qemu counts them under -icount shift=0
   (TICK tenths of one are a tick of the SysTick), the mean of TURNS drawn operands. Beside the calls the compiler's own
   division of doubles and of 64 bits. An affected_ call ends a division at the digit that makes it wrong, and read_back
   has many such; the two rows affected_of_ go through a table that passes, the last one that repair_table_for made. */

#include "port.h"
#include "quendaric.h"

enum { TURNS = 50 };

#define SYST_CSR (*(volatile uint32_t *)0xE000E010)
#define SYST_RVR (*(volatile uint32_t *)0xE000E014)
#define SYST_CVR (*(volatile uint32_t *)0xE000E018)

static uint8_t table[QUENDARIC_TABLE_LENGTH], buffer[QUENDARIC_MOST_DIGITS];
static uint8_t read_back[QUENDARIC_TABLE_LENGTH], repaired[QUENDARIC_TABLE_LENGTH], changed[QUENDARIC_TABLE_LENGTH];
static uint32_t visits[QUENDARIC_TABLE_LENGTH];
static uint64_t readings[8], means[8], remainders[8], currents[100], sensitivities[100], concentrations[100];
static uint8_t decimals[16];
static uint64_t a, b;
static volatile uint64_t sink, hundred = 100;

static uint64_t bits(void) {
  static uint64_t state = 1;
  uint64_t z = state += 0x9E3779B97F4A7C15u;
  z = (z ^ z >> 30) * 0xBF58476D1CE4E5B9u;
  z = (z ^ z >> 27) * 0x94D049BB133111EBu;
  return z ^ z >> 31;
}

/* A double between 2^-32 and 2^32. */
static uint64_t number(uint64_t from) { return from >> 12 | (uint64_t)(1023 - 32 + from % 64) << 52; }

#define size sizeof table
#define room sizeof buffer
#define dividend (a >> 3)
#define divisor ((uint64_t)1 << 60 | b >> 4)
#define x (a >> 4)
#define y (b >> 34 | 1)

#define EACH(CALL)                                                                                                     \
  CALL(nothing, a ^ b)                                                                                                 \
  CALL(numbers, number(a) ^ number(b))                                                                                 \
  CALL(check_cell, quendaric_check_cell(a % 16, b % 128, a % 5).allowed)                                               \
  CALL(check_table, quendaric_check_table(table, size).count)                                                          \
  CALL(row_limits, quendaric_row_limits(a % 16).limits[0])                                                             \
  CALL(make_table, quendaric_make_table(table, size).refusal)                                                          \
  CALL(repair_table, quendaric_repair_table(read_back, size, repaired, size, changed, size).count)                     \
  CALL(check_cell_for, quendaric_check_cell_for(7, a % 16, b % 128, a % 5).allowed)                                    \
  CALL(check_table_for, quendaric_check_table_for(7, table, size).count)                                               \
  CALL(row_limits_for, quendaric_row_limits_for(7, a % 16).limits[0])                                                  \
  CALL(make_table_for, quendaric_make_table_for(7, changed, size).refusal)                                             \
  CALL(repair_table_for, quendaric_repair_table_for(7, read_back, size, repaired, size, changed, size).count)          \
  CALL(run_of_28, quendaric_run(table, size, dividend, divisor, 28, buffer, room, 0).quotient)                         \
  CALL(run_kept_of_28, quendaric_run_kept(dividend, divisor, 28, buffer, room, 0).quotient)                            \
  CALL(step, quendaric_step(dividend, 0, divisor, table, size).sum)                                                    \
  CALL(divide_whole, quendaric_divide_whole(table, size, x, y).quotient)                                               \
  CALL(divide_whole_kept, quendaric_divide_whole_kept(x, y).quotient)                                                  \
  CALL(divide_binary64, quendaric_divide_binary64(table, size, number(a), number(b), 0).pattern)                       \
  CALL(divide_binary64_kept, quendaric_divide_binary64_kept(number(a), number(b), 0).pattern)                          \
  CALL(divide_100_samples,                                                                                             \
       quendaric_divide_samples(table, size, currents, 100, sensitivities, 100, concentrations, 100, 0).flags)         \
  CALL(affected_samples, quendaric_affected_samples(7, read_back, size, &a, 1, &b, 1, changed, 1).count)               \
  CALL(affected_whole, quendaric_affected_whole(7, read_back, size, x, y).affected)                                    \
  CALL(affected_run_of_28, quendaric_affected_run(7, read_back, size, dividend, divisor, 28).affected)                 \
  CALL(affected_of_100_samples,                                                                                        \
       quendaric_affected_samples(7, repaired, size, currents, 100, sensitivities, 100, changed, 100).count)           \
  CALL(affected_of_a_right_run, quendaric_affected_run(7, repaired, size, dividend, divisor, 28).affected)             \
  CALL(average_windows, quendaric_average_windows(readings, 8, 4, a % 2, means, 8, remainders, 8).refusal)             \
  CALL(divide_packed, quendaric_divide_packed(decimals, decimals + 8).quotient[0])                                     \
  CALL(count_visits, quendaric_count_visits(table, size, 2, 28, visits, size).refusal)                                 \
  CALL(compare_ratios, (uint64_t)quendaric_compare_ratios(x, y, x + a % 2, y + b % 2).order)                           \
  CALL(root_whole, quendaric_root_whole(x).root)                                                                       \
  CALL(root_binary64, quendaric_root_binary64(number(a), 0).pattern)                                                   \
  CALL(the_compilers_division_by_100, x / hundred)                                                                     \
  CALL(the_compilers_division, quendaric_pattern(quendaric_double(number(a)) / quendaric_double(number(b))))

#define FUNCTION(name, call)                                                                                           \
  __attribute__((noinline)) static void call_##name(void) { sink = call; }
EACH(FUNCTION)
#define ROW(name, call) {#name, call_##name},
static const struct {
  const char *name;
  void (*call)(void);
} calls[] = {EACH(ROW)};

static void draw(int turn) {
  a = bits(), b = bits();
  readings[turn % 8] = a >> 24;
  decimals[turn % 8] = (uint8_t)(a % 10 * 16 + a / 16 % 10);
  decimals[8 + turn % 8] = (uint8_t)(b % 10 * 16 + b / 16 % 10);
  read_back[a % size] = (uint8_t)(b % 8);
}

/* Instructions of a turn of the call, ten times, in ticks. */
static uint64_t ticks_of(void (*call)(void)) {
  SYST_RVR = 0xFFFFFF, SYST_CVR = 0, SYST_CSR = 5;
  const uint32_t before = SYST_CVR;
  for (int again = 0; again < 10; again++)
    call();
  const uint32_t after = SYST_CVR;
  SYST_CSR = 0;
  return (before - after) & 0xFFFFFF;
}

int main(void) {
  uint64_t nothing = 0;
  for (int i = 0; i < 100; i++) {
    const uint64_t n = bits(), d = bits();
    currents[i] = number(n), sensitivities[i] = number(d);
  }
  sink = quendaric_make_table(table, size).refusal;
  sink = quendaric_make_table(read_back, size).refusal;
  for (int i = 0; i < 16; i++)
    draw(i);
  for (size_t i = 0; i < sizeof calls / sizeof calls[0]; i++) {
    uint64_t ticks = 0;
    for (int turn = 0; turn < TURNS; turn++) {
      draw(turn);
      ticks += ticks_of(calls[i].call);
    }
    const uint64_t each = ticks * TICK / (TURNS * 100);
    if (i == 0)
      nothing = each;
    say("  "), say(calls[i].name), say(": "), say_number(each - nothing), say(" instructions\n");
  }
  return 0;
}
