/* What the calls take, once for each library: with VARIANT this is one round over the calls below, to be linked with one library
   alone; without it, the program that makes ROUNDS rounds of each variant in turn and prints the least time of each call, in
   nanoseconds, and what it is of the first variant's. tests/bench/one-file builds it. */

#define _POSIX_C_SOURCE 199309L
#include <stdint.h>
#include <stdio.h>
#include <time.h>

enum { CALLS = 13, RECORDS = 1000 };

#ifdef VARIANT
#include "quendaric.h"

static uint64_t bits(void) {
  static uint64_t state = 1;
  uint64_t z = state += 0x9E3779B97F4A7C15u;
  z = (z ^ z >> 30) * 0xBF58476D1CE4E5B9u;
  z = (z ^ z >> 27) * 0x94D049BB133111EBu;
  return z ^ z >> 31;
}

/* A double between 2^-32 and 2^32. */
static uint64_t number(uint64_t from) { return from >> 12 | (uint64_t)(1023 - 32 + from % 64) << 52; }

static double now(void) {
  struct timespec at;
  clock_gettime(CLOCK_PROCESS_CPUTIME_ID, &at);
  return (double)at.tv_sec * 1e9 + (double)at.tv_nsec;
}

static uint64_t a[RECORDS], b[RECORDS], c[RECORDS], left[RECORDS], readings[RECORDS];
static uint8_t table[QUENDARIC_TABLE_LENGTH], repaired[QUENDARIC_TABLE_LENGTH], changed[QUENDARIC_TABLE_LENGTH];
static uint8_t affected[RECORDS], digits[QUENDARIC_MOST_DIGITS];
static volatile uint64_t sink;

#define SIZE sizeof table
/* the least time so far of `times` calls, each of `parts` */
#define TIME(times, parts, call)                                                                                       \
  {                                                                                                                    \
    const double from = now();                                                                                         \
    for (int i = 0; i < (times); i++)                                                                                  \
      sink = (uint64_t)(call);                                                                                         \
    const double each = (now() - from) / (times) / (parts);                                                            \
    least[which] = least[which] == 0 || each < least[which] ? each : least[which];                                     \
    which++;                                                                                                           \
  }

void VARIANT(double *least);
void VARIANT(double *least) {
  int which = 0;
  sink = quendaric_make_table(table, SIZE).refusal;
  for (int i = 0; i < RECORDS && a[RECORDS - 1] == 0; i++) {
    const uint64_t n = bits(), d = bits();
    a[i] = number(n), b[i] = number(d), readings[i] = n >> 44;
  }
  TIME(RECORDS, 1, quendaric_divide_binary64_kept(a[i], b[i], QUENDARIC_NEAREST).pattern)
  TIME(60, 1, quendaric_check_table(table, SIZE).count)
  TIME(60, 1, quendaric_check_table_for(7, table, SIZE).count)
  TIME(1, RECORDS, quendaric_affected_samples(8, table, SIZE, a, RECORDS, b, RECORDS, affected, RECORDS).count)
  TIME(1, RECORDS, quendaric_divide_samples(table, SIZE, a, RECORDS, b, RECORDS, c, RECORDS, QUENDARIC_NEAREST).flags)
  TIME(RECORDS, 1, quendaric_divide_whole_kept(a[i] >> 4, b[i] >> 34 | 1).quotient)
  TIME(RECORDS, 1, quendaric_run_kept(a[i] >> 3, (uint64_t)1 << 60 | b[i] >> 4, 28, digits, sizeof digits, 0).quotient)
  TIME(1, RECORDS - 899, quendaric_average_windows(readings, RECORDS, 900, false, c, RECORDS, left, RECORDS).refusal)
  TIME(RECORDS, 1, quendaric_compare_ratios(a[i] >> 4, b[i] >> 4, (a[i] >> 4) + 1, b[i] >> 4).order)
  TIME(RECORDS, 1, quendaric_root_whole(a[i] >> 4).root)
  TIME(RECORDS, 1, quendaric_root_binary64(a[i], QUENDARIC_NEAREST).pattern)
  TIME(20, 1, quendaric_make_table(repaired, SIZE).refusal)
  TIME(20, 1, quendaric_repair_table(table, SIZE, repaired, SIZE, changed, SIZE).count)
}
#else
enum { ROUNDS = 60 };

#define DECLARE(variant) void variant(double *least);
VARIANTS(DECLARE)
#define ROW(variant) {#variant, variant, {0}},
static struct {
  const char *name;
  void (*round)(double *);
  double least[CALLS];
} variants[] = {VARIANTS(ROW)};

static const char *const names[CALLS] = {"divide_binary64_kept",
                                         "check_table",
                                         "check_table_for, seven bits",
                                         "affected_samples, a sample",
                                         "divide_samples, a sample",
                                         "divide_whole_kept",
                                         "run_kept, 28 digits",
                                         "average_windows, a window of 900",
                                         "compare_ratios, near ratios",
                                         "root_whole",
                                         "root_binary64",
                                         "make_table",
                                         "repair_table"};

int main(void) {
  const int count = sizeof variants / sizeof variants[0];
  for (int turn = 0; turn < ROUNDS; turn++)
    for (int i = 0; i < count; i++)
      variants[i].round(variants[i].least);
  printf("|call|");
  for (int i = 0; i < count; i++)
    printf("%s|", variants[i].name);
  printf("\n");
  for (int call = 0; call < CALLS; call++) {
    printf("|%s|%.0f|", names[call], variants[0].least[call]);
    for (int i = 1; i < count; i++)
      printf("%.0f (%.2f)|", variants[i].least[call], variants[i].least[call] / variants[0].least[call]);
    printf("\n");
  }
  return 0;
}
#endif
