/* Measures the unit beside the same division in C, interleaved round by round, and keeps the best round of each.
     bench            times and ratios
     bench NAME N     N calls of one measure and nothing else, for a count of instructions
     bench windows N  the averages of N windows, likewise
     bench quotients  times over the quotient's length and of the averages alone, to compare two archives in turn
     bench samples    times of lists of samples alone: divided, and rechecked */
#include "baseline.h"
#include "quendaric.h"
#include <math.h>
#include <stdio.h>
#include <stdlib.h>
#include <string.h>
#include <time.h>

#ifdef SOFTFLOAT
#include "softfloat.h"
#endif

enum { PAIRS = 1024, ROUNDS = 600, DIFFERENCES = 4001, READINGS = 100000, WIDTH = 900, LENGTHS = 6 };

static uint8_t table[QUENDARIC_TABLE_LENGTH], all_bad[QUENDARIC_TABLE_LENGTH], one_bad[QUENDARIC_TABLE_LENGTH],
    made[QUENDARIC_TABLE_LENGTH];
static uint8_t repaired[QUENDARIC_TABLE_LENGTH], changed[QUENDARIC_TABLE_LENGTH];
static uint64_t dividend[PAIRS], divisor[PAIRS], a[PAIRS], b[PAIRS];
static struct {
  uint64_t row, column;
  uint8_t byte;
} bad_cell[PAIRS], any_cell[PAIRS];
static struct { uint64_t a, b, c, d; } any_ratio[PAIRS], near_ratio[PAIRS];
static uint8_t out[40];
static uint64_t number_a[PAIRS], number_b[PAIRS];
static uint8_t packed_a[PAIRS][8], packed_b[PAIRS][8]; /* the same numbers, packed */
static uint32_t met[QUENDARIC_TABLE_LENGTH];
static uint64_t readings[READINGS], means[READINGS], remainders[READINGS];
/* Whole numbers whose quotient has so many bits, and readings of two sizes. */
static const int quotient_bits[LENGTHS] = {1, 10, 20, 30, 45, 59};
static struct { uint64_t a, b; } whole[LENGTHS][PAIRS];
static uint64_t low_readings[READINGS], high_readings[READINGS];
static int digits = 28;

static uint64_t run_plain(int i, uint64_t x) {
  return plain_run(table, dividend[i] ^ (x & 255), divisor[i], digits, out).quotient;
}
static uint64_t run_ahead(int i, uint64_t x) {
  return ahead_run(table, dividend[i] ^ (x & 255), divisor[i], digits, out).quotient;
}
static uint64_t run_kept(int i, uint64_t x) {
  return quendaric_run_kept(dividend[i] ^ (x & 255), divisor[i], digits, out, sizeof out, 0).quotient;
}
static uint64_t run_lent(int i, uint64_t x) {
  return quendaric_run(table, sizeof table, dividend[i] ^ (x & 255), divisor[i], digits, out, sizeof out, 0).quotient;
}
static uint64_t check(int i, uint64_t x) {
  (void)i;
  return quendaric_check_table(table, sizeof table).refusal ^ x;
}
static uint64_t check_bad(int i, uint64_t x) {
  (void)i;
  return quendaric_check_table(all_bad, sizeof all_bad).refusal ^ x;
}
static uint64_t check_one(int i, uint64_t x) {
  (void)i;
  return quendaric_check_table(one_bad, sizeof one_bad).refusal ^ x;
}
/* for a divider that adds seven bits: the same table, of which 17 cells are bad there */
static uint64_t check_seven(int i, uint64_t x) {
  (void)i;
  return quendaric_check_table_for(7, table, sizeof table).refusal ^ x;
}
static uint64_t check_eight(int i, uint64_t x) {
  (void)i;
  return quendaric_check_table_for(8, table, sizeof table).refusal ^ x;
}
static uint64_t repair_seven(int i, uint64_t x) {
  (void)i;
  return quendaric_repair_table_for(7, table, sizeof table, repaired, sizeof repaired, changed, sizeof changed).count ^
         x;
}
static uint64_t cell_bad(int i, uint64_t x) {
  return quendaric_check_cell(bad_cell[i].row, bad_cell[i].column, bad_cell[i].byte).divisor ^ x;
}
static uint64_t cell_any(int i, uint64_t x) {
  return quendaric_check_cell(any_cell[i].row, any_cell[i].column, any_cell[i].byte).divisor ^ x;
}
static uint64_t visits(int i, uint64_t x) {
  (void)i;
  return quendaric_count_visits(table, sizeof table, 6, 28, met, QUENDARIC_TABLE_LENGTH).refusal ^ x;
}
static uint64_t make(int i, uint64_t x) {
  (void)i;
  return quendaric_make_table(made, sizeof made).refusal ^ x;
}
static uint64_t repair(int i, uint64_t x) {
  (void)i;
  return quendaric_repair_table(table, sizeof table, repaired, sizeof repaired, changed, sizeof changed).count ^ x;
}
static uint64_t repair_bad(int i, uint64_t x) {
  (void)i;
  return quendaric_repair_table(all_bad, sizeof all_bad, repaired, sizeof repaired, changed, sizeof changed).count ^ x;
}
static uint64_t check_plain(int i, uint64_t x) {
  (void)i;
  return (uint64_t)plain_check(table) ^ x;
}
static uint64_t b64_plain(int i, uint64_t x) { return plain_binary64(table, a[i] ^ (x & 255), b[i], 0).pattern; }
static uint64_t b64_one_word(int i, uint64_t x) { return one_word_binary64(table, a[i] ^ (x & 255), b[i], 0).pattern; }
static uint64_t b64_ahead(int i, uint64_t x) { return ahead_binary64(table, a[i] ^ (x & 255), b[i], 0).pattern; }
static uint64_t b64_kept(int i, uint64_t x) {
  return quendaric_divide_binary64_kept(a[i] ^ (x & 255), b[i], 0).pattern;
}
static uint64_t b64_processor(int i, uint64_t x) { return processor_binary64(a[i] ^ (x & 255), b[i]); }
static uint64_t whole_kept(int i, uint64_t x) {
  return quendaric_divide_whole_kept((a[i] ^ x) >> 4, divisor[i] >> (2 + i % 56)).quotient;
}
static uint64_t whole_sixteen(int i, uint64_t x) {
  return quendaric_divide_whole_kept(number_a[i] ^ (x & 1), number_b[i]).quotient;
}
/* The lowest bit of a number is that of its last digit. */
static uint64_t packed(int i, uint64_t x) {
  uint8_t given[8];
  uint64_t quotient;
  memcpy(given, packed_a[i], 8);
  given[7] ^= x & 1;
  quendaric_packed answer = quendaric_divide_packed(given, packed_b[i]);
  memcpy(&quotient, answer.quotient, 8);
  return quotient;
}
/* Ratios: drawn ones; neighbours, a / b and (a + 1) / b near 2^60; neighbours among Fibonacci's numbers, the last below 2^60. */
static const uint64_t fibonacci[] = {420196140727489673u, 679891637638612258u, 1100087778366101931u};
static uint64_t compare_any(int i, uint64_t x) {
  return (uint64_t)quendaric_compare_ratios(any_ratio[i].a, any_ratio[i].b, any_ratio[i].c, any_ratio[i].d).order ^ x;
}
static uint64_t compare_near(int i, uint64_t x) {
  return (uint64_t)quendaric_compare_ratios(near_ratio[i].a, near_ratio[i].b, near_ratio[i].c, near_ratio[i].d).order ^
         x;
}
static uint64_t compare_fibonacci(int i, uint64_t x) {
  (void)i;
  return (uint64_t)quendaric_compare_ratios(fibonacci[0], fibonacci[1], fibonacci[1], fibonacci[2]).order ^ x;
}
static int64_t by_products(uint64_t u, uint64_t v, uint64_t w, uint64_t z) {
  unsigned __int128 m = (unsigned __int128)u * z, n = (unsigned __int128)w * v;
  return (m > n) - (m < n);
}
static uint64_t compare_products(int i, uint64_t x) {
  return (uint64_t)by_products(any_ratio[i].a, any_ratio[i].b, any_ratio[i].c, any_ratio[i].d) ^ x;
}
/* An operand above 0. */
static uint64_t above(int i, uint64_t x) { return (a[i] ^ (x & 255)) & ~(1ull << 63); }
static uint64_t root_digit(int i, uint64_t x) { return digit_root_binary64(above(i, x), 0).pattern; }
static uint64_t root_pair(int i, uint64_t x) { return pair_root_binary64(above(i, x), 0).pattern; }
static uint64_t root_unit(int i, uint64_t x) { return quendaric_root_binary64(above(i, x), 0).pattern; }
static uint64_t root_processor(int i, uint64_t x) { return processor_root_binary64(above(i, x)); }
static uint64_t root_whole(int i, uint64_t x) { return quendaric_root_whole((a[i] ^ x) >> (4 + i % 56)).root; }
static uint64_t root_whole_digit(int i, uint64_t x) { return digit_root((a[i] ^ x) >> (4 + i % 56)).root; }
#ifdef SOFTFLOAT
static uint64_t b64_softfloat(int i, uint64_t x) {
  float64_t u = {a[i] ^ (x & 255)}, v = {b[i]};
  return f64_div(u, v).v;
}
static uint64_t root_softfloat(int i, uint64_t x) {
  float64_t u = {above(i, x)};
  return f64_sqrt(u).v;
}
#endif

typedef struct {
  const char *name, *what;
  uint64_t (*call)(int, uint64_t);
  int calls; /* in a round */
  double throughput,
      latency; /* best ns a call: calls that do not wait for each other, and calls that do (0: not measured) */
} measure;

static measure measures[] = {
    {"run-plain", "C, the plain recurrence, 28 digits", run_plain, PAIRS, 0, 0},
    {"run-ahead", "C, the same fast algorithm, 28 digits", run_ahead, PAIRS, 0, 0},
    {"run-kept", "unit, kept run, 28 digits", run_kept, PAIRS, 0, 0},
    {"run-lent", "unit, lent run, 28 digits (checks the table)", run_lent, 32, 0, 0},
    {"check", "unit, check of a passing table", check, 32, 0, 0},
    {"check-bad", "unit, check of a table whose cells with points are all bad", check_bad, 32, 0, 0},
    {"check-one", "unit, check of a table whose last cell with a point is bad", check_one, 32, 0, 0},
    {"check-eight", "unit, the same check by the number of bits, 8", check_eight, 32, 0, 0},
    {"check-seven", "unit, check for seven bits of a table with 17 bad cells", check_seven, 32, 0, 0},
    {"cell-bad", "unit, single cells that are bad", cell_bad, PAIRS, 0, 0},
    {"cell-any", "unit, single cells", cell_any, PAIRS, 0, 0},
    {"make", "unit, the made table", make, 32, 0, 0},
    {"repair", "unit, repair of a passing table", repair, 32, 0, 0},
    {"repair-bad", "unit, repair of a table whose cells with points are all bad", repair_bad, 32, 0, 0},
    {"repair-seven", "unit, its repair for seven bits", repair_seven, 32, 0, 0},
    {"visits", "unit, visits of 1,024 pairs, 28 digits", visits, 1, 0, 0},
    {"check-plain", "C, count of bad cells, 128-bit numbers", check_plain, 8, 0, 0},
    {"b64-plain", "C, binary64 over the plain recurrence", b64_plain, PAIRS, 0, 0},
    {"b64-ahead", "C, binary64 over the fast algorithm", b64_ahead, PAIRS, 0, 0},
    {"b64-one-word", "C, binary64 with the remainder in one word", b64_one_word, PAIRS, 0, 0},
    {"b64-kept", "unit, kept binary64", b64_kept, PAIRS, 0, 0},
    {"b64-processor", "the processor's binary64", b64_processor, PAIRS, 0, 0},
#ifdef SOFTFLOAT
    {"b64-softfloat", "SoftFloat f64_div", b64_softfloat, PAIRS, 0, 0},
#endif
    {"whole-kept", "unit, kept whole numbers, mixed sizes", whole_kept, PAIRS, 0, 0},
    {"whole-sixteen", "unit, kept whole numbers of up to sixteen decimal digits", whole_sixteen, PAIRS, 0, 0},
    {"packed", "unit, the same numbers packed", packed, PAIRS, 0, 0},
    {"compare-any", "unit, comparison of drawn ratios", compare_any, PAIRS, 0, 0},
    {"compare-near", "unit, comparison of a / b with (a + 1) / b near 2^60", compare_near, PAIRS, 0, 0},
    {"compare-fibonacci", "unit, comparison of Fibonacci neighbours, 86 rounds", compare_fibonacci, 32, 0, 0},
    {"compare-products", "C, drawn ratios by products in 128 bits", compare_products, PAIRS, 0, 0},
    {"root-digit", "C, binary64 root, the same algorithm", root_digit, PAIRS, 0, 0},
    {"root-pair", "C, binary64 root, two digits a step", root_pair, PAIRS, 0, 0},
    {"root", "unit, binary64 root", root_unit, PAIRS, 0, 0},
    {"root-processor", "the processor's binary64 root", root_processor, PAIRS, 0, 0},
#ifdef SOFTFLOAT
    {"root-softfloat", "SoftFloat f64_sqrt", root_softfloat, PAIRS, 0, 0},
#endif
    {"root-whole-c", "C, whole root, the same algorithm", root_whole_digit, PAIRS, 0, 0},
    {"root-whole", "unit, whole root, mixed sizes", root_whole, PAIRS, 0, 0},
};
enum { MEASURES = sizeof measures / sizeof *measures };

static double now(void) {
  struct timespec t;
  clock_gettime(CLOCK_MONOTONIC, &t);
  return t.tv_sec * 1e9 + t.tv_nsec;
}

static uint64_t bits(void) {
  static uint64_t state = 1;
  uint64_t z = state += 0x9E3779B97F4A7C15ull;
  z = (z ^ z >> 30) * 0xBF58476D1CE4E5B9ull;
  z = (z ^ z >> 27) * 0x94D049BB133111EBull;
  return z ^ z >> 31;
}

static volatile uint64_t sink;

/* A cell that holds a digit which is not allowed in it, where there is one. */
static int spoil(uint8_t *t, int k) {
  for (uint8_t byte = 0; byte < 5; byte++)
    if (quendaric_check_cell(k / 128, k % 128, byte).allowed == 0) {
      t[k] = byte;
      return 1;
    }
  return 0;
}

/* Sixteen digits as text, two of them a byte. */
static void pack(uint64_t number, uint8_t bytes[8]) {
  char text[17];
  snprintf(text, sizeof text, "%016llu", (unsigned long long)number);
  for (int i = 0; i < 8; i++)
    bytes[i] = (uint8_t)((text[2 * i] - '0') * 16 + text[2 * i + 1] - '0');
}

static void prepare(void) {
  if (quendaric_make_table(table, sizeof table).refusal != 0)
    exit(2);
  memcpy(all_bad, table, sizeof table);
  memcpy(one_bad, table, sizeof table);
  int last = 0;
  for (int k = 0; k < QUENDARIC_TABLE_LENGTH; k++)
    if (spoil(all_bad, k))
      last = k;
  spoil(one_bad, last);
  for (int i = 0; i < PAIRS; i++) {
    int k;
    do
      k = bits() % QUENDARIC_TABLE_LENGTH;
    while (all_bad[k] == table[k]);
    bad_cell[i].row = k / 128, bad_cell[i].column = k % 128, bad_cell[i].byte = all_bad[k];
    any_cell[i].row = bits() % 16, any_cell[i].column = bits() % 128, any_cell[i].byte = bits() % 5;
  }
  for (int i = 0; i < PAIRS; i++) {
    a[i] = (bits() & 0x800fffffffffffffull) | (823 + bits() % 400) << 52;
    b[i] = (bits() & 0x800fffffffffffffull) | (823 + bits() % 400) << 52;
    dividend[i] = ((a[i] & 0xfffffffffffffull) | 1ull << 52) << 8;
    divisor[i] = ((b[i] & 0xfffffffffffffull) | 1ull << 52) << 8;
  }
  for (int i = 0; i < READINGS; i++)
    readings[i] = bits() >> (24 + bits() % 32);
  uint64_t end = 1;
  for (int i = 0; i < PAIRS; i++) {
    end = i % 16 ? end * 10 : 10;
    number_a[i] = bits() % 10000000000000000ull;
    number_b[i] = 1 + bits() % (end - 1);
    pack(number_a[i], packed_a[i]);
    pack(number_b[i], packed_b[i]);
  }
  for (int i = 0; i < PAIRS; i++) {
    any_ratio[i].a = bits() >> 4, any_ratio[i].b = bits() >> 4 | 1, any_ratio[i].c = bits() >> 4,
    any_ratio[i].d = bits() >> 4 | 1;
    near_ratio[i].a = (1ull << 60) - 2 - (bits() >> 8), near_ratio[i].b = (1ull << 60) - 1 - (bits() >> 8);
    near_ratio[i].c = near_ratio[i].a + 1, near_ratio[i].d = near_ratio[i].b;
  }
  for (int k = 0; k < LENGTHS; k++)
    for (int i = 0; i < PAIRS; i++) {
      int q = quotient_bits[k], length = 1 + i % (60 - q);
      uint64_t quotient = 1ull << (q - 1) | bits() >> 1 >> (64 - q),
               by = 1ull << (length - 1) | bits() >> 1 >> (64 - length);
      whole[k][i].a = quotient * by + bits() % by, whole[k][i].b = by;
    }
  for (int i = 0; i < READINGS; i++)
    low_readings[i] = bits() % 20000, high_readings[i] = (1ull << 40) - 1 - bits() % 20000;
}

static void averages(size_t length, size_t width, bool newest_first) {
  sink =
      quendaric_average_windows(readings, length, width, newest_first, means, READINGS, remainders, READINGS).refusal;
}

/* Every way gives the same answers before any is timed. */
static int agree(void) {
  int differ = 0;
  for (int i = 0; i < PAIRS; i++) {
    uint8_t x[28], y[28], z[28];
    baseline_ran p = plain_run(table, dividend[i], divisor[i], 28, x),
                 q = ahead_run(table, dividend[i], divisor[i], 28, y);
    quendaric_ran r = quendaric_run_kept(dividend[i], divisor[i], 28, z, 28, 0);
    differ += p.quotient != r.quotient || p.remainder != r.remainder || memcmp(x, z, 28);
    differ += q.quotient != r.quotient || q.remainder != r.remainder || memcmp(y, z, 28);
    baseline_ran o = one_word_run(table, dividend[i], divisor[i], 28);
    differ += o.quotient != r.quotient || o.remainder != r.remainder;
    for (uint64_t d = 0; d < 4; d++) {
      uint64_t u = i % 2 ? a[i] : bits(), v = i % 4 > 1 ? b[i] : bits();
      baseline_binary64 s = plain_binary64(table, u, v, d), t = ahead_binary64(table, u, v, d),
                        o = one_word_binary64(table, u, v, d);
      quendaric_binary64 w = quendaric_divide_binary64_kept(u, v, d);
      differ += s.pattern != w.pattern || s.flags != w.flags || t.pattern != w.pattern || t.flags != w.flags;
      differ += o.pattern != w.pattern || o.flags != w.flags;
    }
    for (uint64_t d = 0; d < 4; d++) {
      uint64_t u = i % 2 ? above(i, 0) : i % 4 ? bits() >> (12 + i % 50) : bits();
      baseline_binary64 s = digit_root_binary64(u, d), t = pair_root_binary64(u, d);
      quendaric_binary64 w = quendaric_root_binary64(u, d);
      differ += s.pattern != w.pattern || s.flags != w.flags || t.pattern != w.pattern || t.flags != w.flags;
    }
    uint8_t quotient[8], remainder[8];
    quendaric_whole whole = quendaric_divide_whole_kept(number_a[i], number_b[i]);
    quendaric_packed same = quendaric_divide_packed(packed_a[i], packed_b[i]);
    pack(whole.quotient, quotient), pack(whole.remainder, remainder);
    differ += whole.refusal != 0 || same.refusal != 0 || memcmp(same.quotient, quotient, 8) ||
              memcmp(same.remainder, remainder, 8);
    differ += root_processor(i, 0) != root_unit(i, 0) || root_whole(i, 0) != root_whole_digit(i, 0);
#ifdef SOFTFLOAT
    differ += root_softfloat(i, 0) != root_unit(i, 0);
#endif
    differ += compare_any(i, 0) != compare_products(i, 0) || compare_near(i, 0) != UINT64_MAX;
    differ += processor_binary64(a[i], b[i]) != quendaric_divide_binary64_kept(a[i], b[i], 0).pattern;
#ifdef SOFTFLOAT
    differ += b64_softfloat(i, 0) != quendaric_divide_binary64_kept(a[i], b[i], 0).pattern;
#endif
  }
  differ += compare_fibonacci(0, 0) != (uint64_t)by_products(fibonacci[0], fibonacci[1], fibonacci[1], fibonacci[2]);
  static uint64_t other_means[READINGS], other_remainders[READINGS];
  averages(READINGS, WIDTH, false);
  plain_averages(readings, READINGS, WIDTH, other_means, other_remainders);
  differ += memcmp(means, other_means, sizeof means) != 0 || memcmp(remainders, other_remainders, sizeof means) != 0;
  averages(READINGS, WIDTH, true);
  for (int j = 0; j <= READINGS - WIDTH; j++)
    differ += means[j] != other_means[READINGS - WIDTH - j] || remainders[j] != other_remainders[READINGS - WIDTH - j];
  for (int k = 0; k < LENGTHS; k++)
    for (int i = 0; i < PAIRS; i++) {
      quendaric_whole w = quendaric_divide_whole_kept(whole[k][i].a, whole[k][i].b);
      differ += w.quotient != whole[k][i].a / whole[k][i].b || w.remainder != whole[k][i].a % whole[k][i].b ||
                w.quotient >> (quotient_bits[k] - 1) != 1;
    }
  static uint64_t list[PAIRS];
  quendaric_samples run = quendaric_divide_samples(table, sizeof table, a, PAIRS, b, PAIRS, list, PAIRS, 0);
  differ += run.refusal != 0 || run.count != PAIRS;
  for (int i = 0; i < PAIRS; i++)
    differ += list[i] != quendaric_divide_binary64_kept(a[i], b[i], 0).pattern;
  differ +=
      quendaric_repair_table(all_bad, sizeof all_bad, repaired, sizeof repaired, changed, sizeof changed).refusal !=
          0 ||
      memcmp(repaired, table, sizeof table) != 0;
  differ += plain_check(table) != 0 || quendaric_check_table(table, sizeof table).refusal != 0;
  return differ;
}

static double timed(measure *m, int latency) {
  uint64_t x = 0;
  double start = now();
  if (latency)
    for (int i = 0; i < m->calls; i++)
      x = m->call(i, x);
  else
    for (int i = 0; i < m->calls; i++)
      x ^= m->call(i, 0);
  double t = (now() - start) / m->calls;
  sink = x;
  return t;
}

/* A check, a cell, the maker, a repair and these comparisons have no operand that comes from the last answer. */
static int chains(const measure *m) {
  return strncmp(m->name, "check", 5) && strncmp(m->name, "cell", 4) && strcmp(m->name, "make") &&
         strncmp(m->name, "repair", 6) && strncmp(m->name, "compare", 7);
}

static void keep(double *best, double t) {
  if (*best == 0 || t < *best)
    *best = t;
}

static const measure *named(const char *name) {
  for (int j = 0; j < MEASURES; j++)
    if (!strcmp(measures[j].name, name))
      return &measures[j];
  fprintf(stderr, "no measure %s\n", name);
  exit(2);
}

static void ratio(const char *what, const char *x, const char *y, double target) {
  double r = named(x)->throughput / named(y)->throughput;
  printf("%-58s %7.2f", what, r);
  if (chains(named(x)) && chains(named(y)))
    printf(" %7.2f", named(x)->latency / named(y)->latency);
  else
    printf(" %7s", "-");
  if (target > 0)
    printf("   at most %g: %s", target, r <= target ? "met" : "MISSED");
  printf("\n");
}

static int by_size(const void *x, const void *y) {
  double u = *(const double *)x, v = *(const double *)y;
  return (u > v) - (u < v);
}

static void of_lent(const char *what, double quarter[3], const char *than, double target) {
  double t = named(than)->throughput;
  printf("%-58s %7.2f %7.2f %7.2f   at most %g: %s\n", what, quarter[0] / t, quarter[1] / t, quarter[2] / t, target,
         quarter[1] / t <= target ? "met" : "MISSED");
}

/* The lent run without its check cannot be called: a round of lent runs less a round of checks beside it, many times over.
   The middle difference, and those a quarter of the way from either end. */
static void lent_alone(void) {
  static double difference[DIFFERENCES];
  measure lent = *named("run-lent"), alone = *named("check");
  for (int i = 0; i < DIFFERENCES; i++)
    difference[i] = timed(&lent, 0) - timed(&alone, 0);
  qsort(difference, DIFFERENCES, sizeof *difference, by_size);
  double quarter[3] = {difference[DIFFERENCES / 4], difference[DIFFERENCES / 2], difference[3 * (DIFFERENCES / 4)]};
  printf("\n%-57s %8s %7s %8s\n", "a lent run less a check, of many differences", "quartile", "median", "quartile");
  printf("%-58s %7.1f %7.1f %7.1f\n", "ns a call", quarter[0], quarter[1], quarter[2]);
  of_lent("the same / the same recurrence in C", quarter, "run-plain", 0.65);
  of_lent("the same / the same fast algorithm in C", quarter, "run-ahead", 1.10);
  printf("\n");
}

/* Time over n digits, from 1 to the most, and the straight line nearest to it. */
static void growth(void) {
  static const char *const names[] = {"run-plain", "run-ahead", "run-kept"};
  static const int shown[] = {1, 7, 14, 21, 28};
  double best[3][QUENDARIC_MOST_DIGITS + 1] = {{0}};
  for (int round = 0; round < ROUNDS / 4; round++)
    for (digits = 1; digits <= QUENDARIC_MOST_DIGITS; digits++)
      for (int j = 0; j < 3; j++) {
        measure m = *named(names[j]);
        keep(&best[j][digits], timed(&m, 0));
      }
  digits = 28;
  printf("growth over n digits, ns:");
  for (int k = 0; k < 5; k++)
    printf("%8s%-2d", "n = ", shown[k]);
  printf("   nearest line\n");
  for (int j = 0; j < 3; j++) {
    double n = QUENDARIC_MOST_DIGITS, sx = 0, sy = 0, sxx = 0, sxy = 0, most = 0;
    for (int k = 1; k <= QUENDARIC_MOST_DIGITS; k++)
      sx += k, sy += best[j][k], sxx += k * k, sxy += k * best[j][k];
    double slope = (n * sxy - sx * sy) / (n * sxx - sx * sx), start = (sy - slope * sx) / n;
    for (int k = 1; k <= QUENDARIC_MOST_DIGITS; k++)
      most = fmax(most, fabs(best[j][k] - start - slope * k));
    printf("%-25s", names[j]);
    for (int k = 0; k < 5; k++)
      printf("%10.1f", best[j][shown[k]]);
    printf("   %.1f + %.2f n, within %.1f\n", start, slope, most);
  }
}

/* Lists of samples, the check counted once, beside the single call and the recurrence in C on the same operands: ns a sample. */
static void samples(void) {
  static uint64_t current[100000], sensitivity[100000], concentration[100000];
  for (int i = 0; i < 100000; i++)
    current[i] = a[i % PAIRS] ^ (bits() & 0xffff), sensitivity[i] = b[i % PAIRS] ^ (bits() & 0xffff);
  printf("%-58s %7s %7s %7s %7s   %s\n", "samples, ns each", "list", "single", "C", "in one",
         "list / single, list / C, list / C in one word");
  for (int n = 1000; n <= 100000; n *= 100) {
    double best[4] = {0, 0, 0, 0};
    for (int round = 0; round < 200000 / n * 4 + 20; round++) {
      double start = now();
      quendaric_samples run =
          quendaric_divide_samples(table, sizeof table, current, n, sensitivity, n, concentration, n, 0);
      keep(&best[0], (now() - start) / n);
      uint64_t x = run.flags ^ run.refusal;
      start = now();
      for (int i = 0; i < n; i++)
        x ^= quendaric_divide_binary64_kept(current[i], sensitivity[i], 0).pattern;
      keep(&best[1], (now() - start) / n);
      start = now();
      for (int i = 0; i < n; i++)
        x ^= plain_binary64(table, current[i], sensitivity[i], 0).pattern;
      keep(&best[2], (now() - start) / n);
      start = now();
      for (int i = 0; i < n; i++)
        x ^= one_word_binary64(table, current[i], sensitivity[i], 0).pattern;
      keep(&best[3], (now() - start) / n);
      sink = x;
    }
    printf("%-51s %6d %7.1f %7.1f %7.1f %7.1f   %.3f, at most 1.05: %s; %.3f, at most 0.65: %s; %.3f\n",
           "normal numbers, nearest, a list of", n, best[0], best[1], best[2], best[3], best[0] / best[1],
           best[0] / best[1] <= 1.05 ? "met" : "MISSED", best[0] / best[2],
           best[0] / best[2] <= 0.65 ? "met" : "MISSED", best[0] / best[3]);
  }
  printf("\n");
}

/* The same samples rechecked by eight bits and by seven, through a table without a bad cell, with five of them, and bad in every cell with a point, beside their division and beside as many kept runs, whose steps the recheck follows: ns a sample. */
static void rechecks(void) {
  static uint64_t current[100000], sensitivity[100000], concentration[100000];
  static uint8_t marks[100000], made[2][QUENDARIC_TABLE_LENGTH], five_bad[2][QUENDARIC_TABLE_LENGTH];
  static const int cells[5] = {215, 603, 991, 1379, 1767};
  for (int k = 0; k < 2; k++) {
    if (quendaric_make_table_for(8 - k, made[k], sizeof made[k]).refusal != 0)
      exit(1);
    memcpy(five_bad[k], made[k], sizeof made[k]);
    for (int c = 0; c < 5; c++)
      five_bad[k][cells[c]] = 2;
  }
  for (int i = 0; i < 100000; i++)
    current[i] = a[i % PAIRS] ^ (bits() & 0xffff), sensitivity[i] = b[i % PAIRS] ^ (bits() & 0xffff);
  printf("%-58s %7s %7s %7s %7s %7s   %s\n", "samples rechecked, ns each", "divided", "run", "none", "five", "all bad",
         "none and five / run");
  for (int n = 1000; n <= 100000; n *= 100) {
    double best[2][3] = {{0}}, divided = 0, ran = 0;
    for (int round = 0; round < 200000 / n * 4 + 20; round++) {
      double start = now();
      sink = quendaric_divide_samples(table, sizeof table, current, n, sensitivity, n, concentration, n, 0).flags;
      keep(&divided, (now() - start) / n);
      start = now();
      for (int i = 0; i < n; i++)
        sink = quendaric_run_kept(dividend[i % PAIRS], divisor[i % PAIRS], 28, out, sizeof out, 0).quotient;
      keep(&ran, (now() - start) / n);
      for (int k = 0; k < 2; k++) {
        const uint8_t *const burned[3] = {made[k], five_bad[k], all_bad};
        for (int c = 0; c < 3; c++) {
          start = now();
          sink = quendaric_affected_samples(8 - k, burned[c], sizeof table, current, n, sensitivity, n, marks, n).count;
          keep(&best[k][c], (now() - start) / n);
        }
      }
    }
    for (int k = 0; k < 2; k++) {
      double none = best[k][0] / ran, five = best[k][1] / ran;
      printf("by %d bits, %-40s %6d %7.1f %7.1f %7.1f %7.1f %7.1f   %.3f, %.3f, at most 1.1: %s\n", 8 - k,
             "bad cells, a list of", n, divided, ran, best[k][0], best[k][1], best[k][2], none, five,
             none <= 1.1 && five <= 1.1 ? "met" : "MISSED");
    }
  }
  printf("\n");
}

/* A single division of a window's sum: what the averages spend on each window. */
static uint64_t window_alone(int i) {
  return quendaric_divide_whole_kept(WIDTH * readings[i] + (uint64_t)i, WIDTH).quotient;
}

/* Time a window, best of rounds: in both directions, beside the same loop in C and beside a single division, and over
   widths and lengths. */
static void averages_time(void) {
  static const struct {
    size_t width, length;
    bool newest_first;
  } shape[] = {{WIDTH, READINGS, false}, {WIDTH, READINGS, true}, {1, READINGS, false},
               {2, READINGS, false},     {30, READINGS, false},   {4096, READINGS, false},
               {WIDTH, 1000, false},     {WIDTH, 10000, false},   {WIDTH, 50000, false}};
  enum { SHAPES = sizeof shape / sizeof *shape };
  double best[SHAPES] = {0}, plain = 0, alone = 0;
  for (int round = 0; round < ROUNDS / 20; round++) {
    for (int k = 0; k < SHAPES; k++) {
      double start = now();
      averages(shape[k].length, shape[k].width, shape[k].newest_first);
      keep(&best[k], (now() - start) / (double)(shape[k].length - shape[k].width + 1));
    }
    double start = now();
    plain_averages(readings, READINGS, WIDTH, means, remainders);
    keep(&plain, (now() - start) / (READINGS - WIDTH + 1));
    start = now();
    for (int i = 0; i < READINGS; i++)
      sink = window_alone(i);
    keep(&alone, (now() - start) / READINGS);
  }
  printf("\n%-58s %7s\n", "averages, best of rounds", "ns");
  for (int k = 0; k < SHAPES; k++)
    printf("unit, a window, width %4zu, %6zu readings, %s first %8.1f\n", shape[k].width, shape[k].length,
           shape[k].newest_first ? "newest" : "oldest", best[k]);
  printf("%-58s %7.1f\n", "C with the machine's division, a window, width 900", plain);
  printf("%-58s %7.1f\n", "unit, a kept whole number by 900", alone);
  printf("%-58s %7.2f\n", "a window / a kept whole number by 900", best[0] / alone);
  printf("%-58s %7.2f\n", "a window / the same loop in C", best[0] / plain);
  printf("%-58s %7.2f\n", "a window, newest first / oldest first", best[1] / best[0]);
}

/* Time over the length of the quotient: kept whole numbers, the divisors of every length that leaves room for it, and windows of small and of large readings. */
static void quotients_time(void) {
  double best[LENGTHS] = {0}, low = 0, high = 0;
  for (int round = 0; round < ROUNDS; round++)
    for (int k = 0; k < LENGTHS; k++) {
      uint64_t x = 0;
      double start = now();
      for (int i = 0; i < PAIRS; i++)
        x ^= quendaric_divide_whole_kept(whole[k][i].a, whole[k][i].b).quotient;
      keep(&best[k], (now() - start) / PAIRS);
      sink = x;
    }
  for (int round = 0; round < ROUNDS / 20; round++) {
    double start = now();
    sink =
        quendaric_average_windows(low_readings, READINGS, WIDTH, false, means, READINGS, remainders, READINGS).refusal;
    keep(&low, (now() - start) / (READINGS - WIDTH + 1));
    start = now();
    sink =
        quendaric_average_windows(high_readings, READINGS, WIDTH, false, means, READINGS, remainders, READINGS).refusal;
    keep(&high, (now() - start) / (READINGS - WIDTH + 1));
  }
  printf("\n%-40s", "growth over the quotient's length, bits:");
  for (int k = 0; k < LENGTHS; k++)
    printf("%8d", quotient_bits[k]);
  printf("\n%-40s", "unit, kept whole numbers, ns");
  for (int k = 0; k < LENGTHS; k++)
    printf("%8.1f", best[k]);
  printf("\n%-58s %7.1f\n%-58s %7.1f\n", "unit, a window of 900 readings below 20,000", low,
         "unit, a window of 900 readings near 2^40", high);
}

int main(int argc, char **argv) {
  prepare();
  if (argc == 3 && !strcmp(argv[1], "windows")) {
    averages((size_t)atoi(argv[2]) + WIDTH - 1, WIDTH, false);
    return sink != 0;
  }
  if (argc == 3) {
    const measure *m = named(argv[1]);
    for (int i = 0, n = atoi(argv[2]); i < n; i++)
      sink = m->call(i % PAIRS, 0);
    return 0;
  }
  int differ = agree();
  printf("answers that differ between the ways: %d\n", differ);
  if (differ)
    return 1;
  if (argc == 2 && !strcmp(argv[1], "samples")) {
    samples();
    rechecks();
    return 0;
  }
  if (argc == 2 && !strcmp(argv[1], "quotients")) {
    quotients_time();
    averages_time();
    return 0;
  }
  for (int round = 0; round < ROUNDS; round++)
    for (int j = 0; j < MEASURES; j++) {
      keep(&measures[j].throughput, timed(&measures[j], 0));
      if (chains(&measures[j]))
        keep(&measures[j].latency, timed(&measures[j], 1));
    }
  printf("%-56s %10s %7s\n", "best of rounds, ns a call", "throughput", "latency");
  for (int j = 0; j < MEASURES; j++) {
    printf("%-58s %7.1f", measures[j].what, measures[j].throughput);
    if (chains(&measures[j]))
      printf(" %7.1f\n", measures[j].latency);
    else
      printf(" %7s\n", "-");
  }
  printf("\n%-56s %10s %7s\n", "ratios", "throughput", "latency");
  ratio("kept run / the same recurrence in C", "run-kept", "run-plain", 0.65);
  ratio("kept run / the same fast algorithm in C", "run-kept", "run-ahead", 1.10);
  ratio("kept binary64 / binary64 over the recurrence in C", "b64-kept", "b64-plain", 0.65);
  ratio("kept binary64 / binary64 over the fast algorithm in C", "b64-kept", "b64-ahead", 0);
  ratio("kept binary64 / binary64 in one word in C", "b64-kept", "b64-one-word", 0);
  ratio("kept binary64 / the processor", "b64-kept", "b64-processor", 0);
#ifdef SOFTFLOAT
  ratio("kept binary64 / SoftFloat", "b64-kept", "b64-softfloat", 0);
#endif
  ratio("check of a passing table / kept run", "check", "run-kept", 9);
  ratio("check of a passing table / C count in 128-bit numbers", "check", "check-plain", 0.15);
  ratio("check, every cell with a point bad / passing", "check-bad", "check", 1.5);
  ratio("check, one bad cell, the last / passing", "check-one", "check", 1.3);
  ratio("check by the number of bits, 8 / check", "check-eight", "check", 0);
  ratio("check for seven bits, 17 bad cells / passing", "check-seven", "check", 0);
  ratio("the made table / kept run", "make", "run-kept", 0);
  ratio("packed / the same whole numbers", "packed", "whole-sixteen", 0);
  ratio("repair of a passing table / its check", "repair", "check", 0);
  ratio("repair, every cell with a point bad / its check", "repair-bad", "check-bad", 0);
  ratio("repair for seven bits, 17 bad cells / of a passing table", "repair-seven", "repair", 0);
  double runs = named("visits")->throughput / (PAIRS * named("run-kept")->throughput);
  printf("%-58s %7.2f %7s   at most 1.5: %s\n", "visits of 1,024 pairs / as many kept runs", runs, "-",
         runs <= 1.5 ? "met" : "MISSED");
  ratio("comparison of drawn ratios / kept whole numbers", "compare-any", "whole-kept", 0);
  ratio("comparison of neighbours / kept whole numbers", "compare-near", "whole-kept", 0);
  ratio("comparison of Fibonacci neighbours / kept whole numbers", "compare-fibonacci", "whole-kept", 0);
  ratio("comparison of drawn ratios / products in C", "compare-any", "compare-products", 0);
  ratio("binary64 root / the same algorithm in C", "root", "root-digit", 1.0);
  ratio("binary64 root / two digits a step in C", "root", "root-pair", 0);
  ratio("binary64 root / kept binary64", "root", "b64-kept", 1.1);
  ratio("binary64 root / the processor", "root", "root-processor", 0);
#ifdef SOFTFLOAT
  ratio("binary64 root / SoftFloat", "root", "root-softfloat", 0);
#endif
  ratio("whole root / the same algorithm in C", "root-whole", "root-whole-c", 0);
  lent_alone();
  samples();
  rechecks();
  growth();
  quotients_time();
  averages_time();
  return 0;
}
