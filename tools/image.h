/* The 2,048 bytes of a ROM image, from a text and into one: Intel HEX, raw bytes, and what forms.h reads. docs/ROM.md
   has the rules: each byte is given once, and nothing else is. */

#ifndef IMAGE_H
#define IMAGE_H

#include "quendaric.h"
#include <inttypes.h>
#include <stdio.h>
#include <string.h>

enum { ROM_SIZE = QUENDARIC_TABLE_LENGTH };

/* What is read. Where reading fails, `why` says so of the line. */
typedef struct {
  const unsigned char *text;
  size_t length, at, line;
  char why[120];
} source;

/* Byte i has the address offset + i. */
typedef struct {
  uint64_t offset;
  size_t count;
  bool given[ROM_SIZE];
  uint8_t bytes[ROM_SIZE];
} image;

static bool wrong(source *from, const char *why) {
  snprintf(from->why, sizeof from->why, "%s", why);
  return false;
}

static bool wrong_at(source *from, uint64_t address, const char *why) {
  snprintf(from->why, sizeof from->why, "the byte at address 0x%" PRIX64 " %s", address, why);
  return false;
}

/* Puts a byte where it belongs. */
static bool put_byte(source *from, image *to, uint64_t address, unsigned byte) {
  if (address < to->offset || address - to->offset >= ROM_SIZE)
    return wrong_at(from, address, "is outside the 2,048");
  const size_t at = (size_t)(address - to->offset);
  if (to->given[at])
    return wrong_at(from, address, "is given twice");
  to->given[at] = true;
  to->bytes[at] = (uint8_t)byte;
  to->count++;
  return true;
}

/* At the end: is every byte given? */
static bool is_full(source *from, const image *all) {
  size_t i = 0;
  while (i < ROM_SIZE && all->given[i])
    i++;
  if (i == ROM_SIZE)
    return true;
  snprintf(from->why, sizeof from->why, "the end, and bytes are missing: %zu, the first at address 0x%" PRIX64,
           ROM_SIZE - all->count, all->offset + i);
  return false;
}

static int hex_digit(int letter) {
  if (letter >= '0' && letter <= '9')
    return letter - '0';
  if (letter >= 'a' && letter <= 'f')
    return letter - 'a' + 10;
  return letter >= 'A' && letter <= 'F' ? letter - 'A' + 10 : -1;
}

/* ---- Raw bytes */

static bool read_bytes(source *from, image *to) {
  if (from->length != ROM_SIZE) {
    snprintf(from->why, sizeof from->why, "%zu bytes, not 2,048", from->length);
    return false;
  }
  for (size_t i = 0; i < ROM_SIZE; i++)
    put_byte(from, to, i, from->text[i]);
  return true;
}

/* ---- Intel HEX */

enum { LONGEST_RECORD = 1 + 2 + 1 + 255 + 1, HEX_LINE = 16 };

typedef struct {
  unsigned length, address, type;
  uint8_t bytes[LONGEST_RECORD];
} record;

/* The next line that is not empty, without its end. False at the end of the text. */
static bool next_line(source *from, const unsigned char **line, size_t *length) {
  while (from->at < from->length) {
    const unsigned char *start = from->text + from->at;
    const unsigned char *end = memchr(start, '\n', from->length - from->at);
    *line = start;
    *length = end != NULL ? (size_t)(end - start) : from->length - from->at;
    from->at += *length + (end != NULL);
    from->line++;
    if (*length > 0 && start[*length - 1] == '\r')
      --*length;
    if (*length > 0)
      return true;
  }
  return false;
}

/* Takes a record apart: its form, its length and its checksum. */
static bool read_record(source *from, const unsigned char *line, size_t length, record *one) {
  const size_t count = length / 2; /* of pairs of digits, behind the colon */
  unsigned sum = 0;
  if (line[0] != ':' || length % 2 != 1 || count < 5 || count > LONGEST_RECORD)
    return wrong(from, "this is no record of Intel HEX");
  for (size_t i = 0; i < count; i++) {
    const int high = hex_digit(line[1 + 2 * i]), low = hex_digit(line[2 + 2 * i]);
    if (high < 0 || low < 0)
      return wrong(from, "this is no record of Intel HEX");
    one->bytes[i] = (uint8_t)(16 * high + low);
    sum += one->bytes[i];
  }
  one->length = one->bytes[0];
  one->address = 256u * one->bytes[1] + one->bytes[2];
  one->type = one->bytes[3];
  if (one->length + 5 != count)
    return wrong(from, "the record has another length than it says");
  if (sum % 256 != 0)
    return wrong(from, "the checksum is wrong");
  memmove(one->bytes, one->bytes + 4, one->length);
  return true;
}

static bool put_record(source *from, image *to, uint64_t upper, const record *one) {
  if (one->address + one->length > 65536)
    return wrong(from, "the record goes beyond the address 65,535");
  for (unsigned i = 0; i < one->length; i++)
    if (!put_byte(from, to, upper + one->address + i, one->bytes[i]))
      return false;
  return true;
}

static bool read_hex(source *from, image *to) {
  const unsigned char *line;
  size_t length;
  uint64_t upper = 0;
  bool ended = false;
  while (next_line(from, &line, &length)) {
    record one;
    if (ended)
      return wrong(from, "there is more behind the end record");
    if (!read_record(from, line, length, &one))
      return false;
    if (one.type == 0) {
      if (!put_record(from, to, upper, &one))
        return false;
    } else if (one.type == 1 && one.length == 0)
      ended = true;
    else if ((one.type == 2 || one.type == 4) && one.length == 2)
      upper = (256u * one.bytes[0] + one.bytes[1]) * (one.type == 2 ? (uint64_t)16 : 65536);
    else if ((one.type != 3 && one.type != 5) || one.length != 4) /* where a program begins */
      return wrong(from, "a record of this type and length is not known");
  }
  return ended ? is_full(from, to) : wrong(from, "the end record is missing");
}

static void write_record(FILE *file, unsigned type, unsigned address, const uint8_t *bytes, unsigned length) {
  unsigned sum = length + address / 256 + address % 256 + type;
  fprintf(file, ":%02X%04X%02X", length, address, type);
  for (unsigned i = 0; i < length; i++) {
    fprintf(file, "%02X", bytes[i]);
    sum += bytes[i];
  }
  fprintf(file, "%02X\n", (256 - sum % 256) % 256);
}

/* In lines of 16 bytes; none goes beyond a multiple of 65,536. */
static void write_hex(FILE *file, const uint8_t bytes[ROM_SIZE], uint64_t offset) {
  uint64_t upper = 0;
  unsigned length;
  for (unsigned i = 0; i < ROM_SIZE; i += length) {
    const uint64_t address = offset + i, left = 65536 - address % 65536;
    length = ROM_SIZE - i < HEX_LINE ? ROM_SIZE - i : HEX_LINE;
    length = left < length ? (unsigned)left : length;
    if (address / 65536 != upper) {
      upper = address / 65536;
      const uint8_t value[2] = {(uint8_t)(upper / 256), (uint8_t)(upper % 256)};
      write_record(file, 4, 0, value, 2);
    }
    write_record(file, 0, (unsigned)(address % 65536), bytes + i, length);
  }
  write_record(file, 1, 0, NULL, 0);
}

#endif
