/* How a ROM stores a table, how many cells of a table are wrong, and whether another way of storing it would fit far
   better. docs/ROM.md has the rules. */

#ifndef STORED_H
#define STORED_H

#include "quendaric.h"
#include <inttypes.h>
#include <stdio.h>

/* halves: the halves of every row change places. mask: the bits that are used. base: digit q is stored as q + base. */
typedef struct {
  bool halves;
  unsigned mask, base;
} storing;

static const storing as_table = {false, 255, 2};

/* The place of a cell in the ROM, and that of a byte of the ROM in the table. */
static size_t place_of(storing how, size_t cell) { return how.halves ? cell ^ 64 : cell; }

static uint8_t from_rom(storing how, uint8_t byte) {
  return (uint8_t)(((byte & how.mask) + how.mask + 1 - how.base + 2) & how.mask);
}

static inline uint8_t to_rom(storing how, uint8_t byte) {
  return (uint8_t)(((byte + how.mask + 1 - 2 + how.base) & how.mask) | (255u & ~how.mask));
}

/* The table in an image, and the image of a table. */
static inline void take_from_rom(storing how, const uint8_t *stored, uint8_t *table) {
  for (size_t i = 0; i < QUENDARIC_TABLE_LENGTH; i++)
    table[i] = from_rom(how, stored[place_of(how, i)]);
}

static inline void put_into_rom(storing how, const uint8_t *table, uint8_t *stored) {
  for (size_t i = 0; i < QUENDARIC_TABLE_LENGTH; i++)
    stored[place_of(how, i)] = to_rom(how, table[i]);
}

/* May the byte stand in the cell, by so many bits? No byte above 4 may. */
static bool fits(uint64_t bits, size_t cell, uint8_t byte) {
  const quendaric_cell one = quendaric_check_cell_for(bits, cell / 128, cell % 128, byte);
  return one.refusal == 0 && one.allowed == 1;
}

/* Bytes above 4, and of the other cells those that are bad, by eight bits and by seven. */
typedef struct {
  size_t above, eight, seven;
} faults;

static inline faults faults_of(const uint8_t *table) {
  faults all = {0, 0, 0};
  for (size_t i = 0; i < QUENDARIC_TABLE_LENGTH; i++) {
    all.above += table[i] > 4;
    all.eight += table[i] <= 4 && !fits(8, i, table[i]);
    all.seven += table[i] <= 4 && !fits(7, i, table[i]);
  }
  return all;
}

/* Cells that are bad by eight bits or above 4, if the table is an image that is stored so. */
static size_t faults_if(storing how, const uint8_t *table) {
  size_t count = 0;
  for (size_t i = 0; i < QUENDARIC_TABLE_LENGTH; i++)
    count += !fits(8, i, from_rom(how, table[place_of(how, i)]));
  return count;
}

static int options_of(storing how) { return how.halves + (how.mask != 255) + (how.base != 2); }

/* The way of storing, of those that are tried, with the fewest faults; of these one with the fewest options. */
static storing best_of(const uint8_t *table, size_t *least) {
  storing best = as_table;
  *least = faults_if(best, table);
  for (unsigned i = 0; i < 32; i++) {
    const storing how = {i % 2 == 1, i / 2 % 2 == 1 ? 7 : 255, i / 4};
    const size_t count = faults_if(how, table);
    if (count < *least || (count == *least && options_of(how) < options_of(best))) {
      best = how;
      *least = count;
    }
  }
  return best;
}

enum { FAR_FEWER = 100 };

/* Says on standard error which options of `rom read` leave far fewer faulty cells, if some do. */
static void tell_better(const char *name, const uint8_t *table) {
  const size_t now = faults_if(as_table, table);
  if (now < FAR_FEWER)
    return;
  size_t least;
  const storing best = best_of(table, &least);
  if (now - least < FAR_FEWER || least * 10 > now)
    return;
  fprintf(stderr, "%s: %zu cells are bad or above 4; `rom read", name, now);
  if (best.halves)
    fprintf(stderr, " --halves");
  if (best.mask != 255)
    fprintf(stderr, " --mask %u", best.mask);
  if (best.base != 2)
    fprintf(stderr, " --base %u", best.base);
  fprintf(stderr, "` would leave %zu\n", least);
}

#endif
