/* The same division in C, to measure against: the specification's recurrence step by step, with its estimate of eight bits and
   the quotient by on-the-fly conversion, the same with the next column known ahead of the words, the same
   with the remainder in one word, and binary64 division over each. And the same roots. */
#ifndef BASELINE_H
#define BASELINE_H

#include <stddef.h>
#include <stdint.h>

typedef struct {
  uint64_t quotient, remainder;
} baseline_ran;

typedef struct {
  uint64_t pattern, flags;
} baseline_binary64;

typedef struct {
  uint64_t root, remainder;
} baseline_root;

/* The recurrence as the specification writes it: the column from the two words, then the words, at each step. */
baseline_ran plain_run(const uint8_t *table, uint64_t dividend, uint64_t divisor, int digits, uint8_t *out);

/* The same digits, the next column worked out from the top bits of the words and of the chosen multiple. */
baseline_ran ahead_run(const uint8_t *table, uint64_t dividend, uint64_t divisor, int digits, uint8_t *out);

/* Quotient and remainder alone, the remainder in one word, as the unit's number forms find them. */
baseline_ran one_word_run(const uint8_t *table, uint64_t dividend, uint64_t divisor, int digits);

baseline_binary64 plain_binary64(const uint8_t *table, uint64_t a, uint64_t b, uint64_t direction);
baseline_binary64 ahead_binary64(const uint8_t *table, uint64_t a, uint64_t b, uint64_t direction);
baseline_binary64 one_word_binary64(const uint8_t *table, uint64_t a, uint64_t b, uint64_t direction);

/* Roots by the unit's algorithm, a binary digit a step. */
baseline_root digit_root(uint64_t a);
baseline_binary64 digit_root_binary64(uint64_t a, uint64_t direction);

/* The binary64 root with two digits a step. */
baseline_binary64 pair_root_binary64(uint64_t a, uint64_t direction);

/* The number of bad cells of a table, cell by cell in 128-bit whole numbers. */
int plain_check(const uint8_t *table);

/* Mean and remainder of every full window of width readings: a total that slides, and the machine's own division. */
void plain_averages(const uint64_t *readings, size_t length, size_t width, uint64_t *means, uint64_t *remainders);

/* The processor's own division and root, nearest, without flags. */
uint64_t processor_binary64(uint64_t a, uint64_t b);
uint64_t processor_root_binary64(uint64_t a);

#endif
