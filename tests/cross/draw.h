/* Drawn operands for every call, refused ones among them: SETS sets of them (for calls that go over a whole table: TABLE_SETS).
   turns.h, which tools/prototypes makes from the exports, has a turn of each call; this file draws its operands, by their names:
   a new call needs no line here, unless it takes an operand for which the draw at the end of `usual` is a poor one. A program
   that includes this file says what is done before_call and after_call, and makes turns by `begin` and `turns`. */

#include "port.h"
#include "quendaric.h"

static inline void before_call(void);
static inline void after_call(void);

#ifndef SETS
#define SETS 100000
#endif
#ifndef TABLE_SETS
#define TABLE_SETS ((SETS + 9) / 10)
#endif

enum { SIZE = QUENDARIC_TABLE_LENGTH, WORDS = 24, SHORT = 40, LISTS = 4, SPARE = 2 };

static uint64_t state = 1, digest, refusals, clear;
static uint8_t kept[SIZE], passing[SIZE];

static uint64_t bits(void) {
  uint64_t z = state += 0x9E3779B97F4A7C15u;
  z = (z ^ z >> 30) * 0xBF58476D1CE4E5B9u;
  z = (z ^ z >> 27) * 0x94D049BB133111EBu;
  return z ^ z >> 31;
}

static unsigned below(unsigned end) { return (unsigned)(bits() >> 32) % end; }

static void note(uint64_t word) {
  digest = (digest ^ word) * 0x9FB21C651E98DF25u;
  digest ^= digest >> 32;
}

static void note_bytes(const void *from, size_t length) {
  const uint8_t *bytes = (const uint8_t *)from;
  uint64_t word = length;
  for (size_t i = 0; i < length; i++) {
    word = word << 8 | bytes[i];
    if (i % 8 == 7)
      note(word);
  }
  note(word);
}

/* No expression draws twice: in C such draws have no order. */

static uint64_t shorter(void) {
  const unsigned shift = below(64);
  return bits() >> shift;
}

/* Words of all lengths, and edges of the ranges. */
static uint64_t word(void) {
  const unsigned kind = below(8), less = below(4);
  switch (kind) {
  case 0: return bits();
  case 1: return ((uint64_t)1 << below(64)) - less % 2;
  case 2: return ((uint64_t)1 << 60) - 2 + less;
  case 3: return less;
  default: return shorter();
  }
}

static uint64_t whole(void) { return below(16) ? word() >> 4 : word(); }

/* Bits of binary64: every class. */
static uint64_t pattern(void) {
  static const uint64_t special[] = {0,
                                     1,
                                     0x7FF0000000000000u,
                                     0x7FF0000000000001u,
                                     0x7FF8000000000000u,
                                     0x7FEFFFFFFFFFFFFFu,
                                     0x0010000000000000u,
                                     0x000FFFFFFFFFFFFFu,
                                     0x3FF0000000000000u,
                                     0x4008000000000000u};
  const uint64_t sign = (uint64_t)below(2) << 63, drawn = bits();
  switch (below(8)) {
  case 0: return special[below(10)] | sign;
  case 1: return drawn >> 12 >> below(52) | sign;
  case 2: return drawn;
  case 3: return (drawn & 0xFFF0000000000000u) | (uint64_t)below(1024) << 42;
  default: return drawn >> 12 | (uint64_t)(1023 - 40 + below(80)) << 52 | sign;
  }
}

static bool is(const char *name, const char *other) {
  while (*name != 0 && *name == *other)
    name++, other++;
  return *name == *other;
}

static bool has(const char *name, const char *part) {
  for (; *name != 0; name++) {
    size_t i = 0;
    while (part[i] != 0 && name[i] == part[i])
      i++;
    if (part[i] == 0)
      return true;
  }
  return false;
}

/* What one turn has in common: its call, how long its input lists are, whether what is written has room for a table. */
static const char *call;
static size_t many;
static bool roomy;
static uint64_t first, second; /* the turn's operands sum, a and b */

/* An operand as its name has it. */
static uint64_t usual(const char *name) {
  if (is(name, "row"))
    return below(16);
  if (is(name, "column"))
    return below(128);
  if (is(name, "byte"))
    return below(5);
  if (is(name, "direction"))
    return below(4);
  if (is(name, "dividend"))
    return bits() >> 3;
  if (is(name, "divisor"))
    return (uint64_t)1 << 60 | bits() >> 4;
  if (is(name, "digits"))
    return 1 + below(28);
  if (is(name, "place"))
    return below(16);
  if (is(name, "width"))
    return 1 + below((unsigned)many + 1);
  if (is(name, "bits"))
    return below(64) ? 1 + below(2) : below(8);
  if (is(name, "estimate_bits"))
    return below(16) ? 7 + below(2) : below(16);
  if (is(name, "sum"))
    return first = word();
  if (is(name, "carry")) {
    /* the remainder, between -2^62 and 2^62, less the sum */
    const uint64_t up = bits() >> 2, down = bits() >> 2;
    return up - down - first;
  }
  if (has(call, "binary64"))
    return pattern();
  if (is(name, "a"))
    return first = whole();
  if (is(name, "b"))
    return second = whole();
  const unsigned near = below(6);
  if (is(name, "c") && near < 3)
    return first + near;
  if (is(name, "d") && near < 3)
    return second + near;
  return below(4) ? whole() : pattern();
}

/* An operand: at times any word, and at times one that would be usual if its higher bits were lost. */
static uint64_t drawn_number(const char *name) {
  const unsigned kind = below(16);
  const uint64_t drawn = usual(name);
  return kind == 0 ? word() : kind == 1 ? drawn | (uint64_t)1 << (8 + below(56)) : drawn;
}

/* The lists of a turn. Behind the last place of each there is more, which has to stay as it is. */
static union {
  uint64_t words[(4 * (SIZE + SPARE) + 7) / 8];
  uint32_t halves[SIZE + SPARE];
  uint8_t bytes[4 * (SIZE + SPARE)];
} lists[LISTS];
static size_t rooms[LISTS], lent_lists;

typedef struct {
  void *start;
  size_t length;
} lent;

/* A table: mostly one that passes, else one with bad cells or bytes above 4, or another length. */
static size_t table(uint8_t *to) {
  const unsigned kind = below(16);
  for (int i = 0; i < SIZE; i++)
    to[i] = kind < 6 ? kept[i] : passing[i];
  for (unsigned i = kind < 12 ? 0 : 1 + below(3); i > 0; i--) {
    const unsigned cell = below(SIZE);
    to[cell] = (uint8_t)below(kind == 14 ? 256 : 5);
  }
  return kind < 15 ? SIZE : below(2) ? below(SIZE) : SIZE + below(2);
}

static void fill(uint8_t *to, size_t length) {
  const uint8_t byte = (uint8_t)bits();
  for (size_t i = 0; i < length; i++)
    to[i] = (uint8_t)(byte + i);
}

/* A list of elements of `each` bytes. One that is too short is often short by one. */
static lent drawn_list(const char *name, size_t each, bool written) {
  const size_t which = lent_lists++;
  const unsigned kind = below(16);
  size_t length = written ? (each == 8 ? WORDS : roomy ? SIZE : SHORT) : many;
  lent made = {lists[which].bytes, 0};
  if (!written && each == 1) {
    rooms[which] = SIZE + SPARE;
    fill(lists[which].bytes, rooms[which]);
    made.length = table(lists[which].bytes);
    return made;
  }
  if (written && each == 8 && below(2))
    length = many; /* just enough, or one too few */
  rooms[which] = each * ((each == 8 ? WORDS : length) + SPARE);
  fill(lists[which].bytes, rooms[which]);
  for (size_t i = 0; !written && i < WORDS; i++)
    lists[which].words[i] = !is(name, "readings") ? pattern() : below(256) ? shorter() >> 24 : word();
  const size_t more = written ? below(SPARE + 1) : 0;
  made.length = kind == 0 ? below(WORDS) : kind == 1 && length > 0 ? length - 1 : length + more;
  return made;
}

/* A packed decimal number, at any address. */
static uint8_t *drawn_packed(const char *name, size_t length) {
  const size_t which = lent_lists++, at = below(8);
  const size_t zeros = is(name, "divisor") && below(3) ? below((unsigned)length + 1) : 0;
  uint8_t *to = lists[which].bytes + at;
  rooms[which] = length + 8;
  fill(lists[which].bytes, rooms[which]);
  for (size_t i = 0; i < length; i++) {
    const unsigned two = below(100);
    to[i] = (uint8_t)(i < zeros ? 0 : two / 10 << 4 | two % 10);
  }
  if (below(16) == 0) {
    const unsigned wrong = below((unsigned)length);
    to[wrong] = (uint8_t)bits();
  }
  return to;
}

static void begin(const char *name) {
  call = name;
  lent_lists = 0;
  many = below(4) ? below(6) : below(WORDS + 1);
  roomy = below(8) != 0;
}

static void end(uint64_t refusal, uint64_t place) {
  note(refusal), note(place);
  clear += refusal == 0;
  refusals |= (uint64_t)1 << refusal % 64;
  for (size_t i = 0; i < lent_lists; i++)
    note_bytes(lists[i].bytes, rooms[i]);
}

#include "turns.h"

#define ROW(name, sets) {"quendaric_" #name, turn_##name, sets},
static const struct {
  const char *name;
  void (*turn)(void);
  long sets;
} turns[] = {EACH_TURN(ROW)};

/* Another table that passes: in each cell any digit that is allowed there. */
static void make_passing(void) {
  for (unsigned cell = 0; cell < SIZE; cell++) {
    uint8_t byte = (uint8_t)below(5);
    while (quendaric_check_cell(cell / 128, cell % 128, byte).allowed == 0)
      byte = (uint8_t)((byte + 1) % 5);
    passing[cell] = byte;
  }
}

static bool make_tables(void) {
  const bool made = quendaric_make_table(kept, SIZE).refusal == 0;
  make_passing();
  return made && quendaric_check_table(passing, SIZE).refusal == 0;
}
