/* ROM images as numbers: a C array, a list of numbers, and what Verilog's $readmemh reads (docs/ROM.md). */

#ifndef FORMS_H
#define FORMS_H

#include "image.h"

typedef enum { NO_FORM, HEX, BYTES, C_ARRAY, NUMBERS, VERILOG } form;

/* The next character, or -1 at the end. */
static int ahead(const source *from) { return from->at < from->length ? from->text[from->at] : -1; }

static void step_on(source *from) {
  if (from->text[from->at++] == '\n')
    from->line++;
}

static bool is_blank(int letter) {
  return letter == ' ' || letter == '\t' || letter == '\r' || letter == '\n' || letter == '\v' || letter == '\f';
}

/* Does a comment begin here, with this second character? */
static bool begins(const source *from, char second) {
  return ahead(from) == '/' && from->length - from->at > 1 && from->text[from->at + 1] == second;
}

static void pass_line_comment(source *from) {
  while (ahead(from) >= 0 && ahead(from) != '\n')
    step_on(from);
}

static bool pass_comment(source *from) {
  const size_t start = from->at, line = from->line;
  while (from->at < from->length) {
    const bool closes = from->at >= start + 3 && from->text[from->at - 1] == '*' && ahead(from) == '/';
    step_on(from);
    if (closes)
      return true;
  }
  from->line = line;
  return wrong(from, "the comment does not end");
}

/* Passes over blanks and comments. */
static bool pass_blanks(source *from) {
  for (;;)
    if (is_blank(ahead(from)))
      step_on(from);
    else if (begins(from, '/'))
      pass_line_comment(from);
    else if (!begins(from, '*'))
      return true;
    else if (!pass_comment(from))
      return false;
}

/* Is this the end of a word? */
static bool is_parted(const source *from) {
  const int letter = ahead(from);
  return letter < 0 || is_blank(letter) || letter == ',' || letter == '}' || begins(from, '/') || begins(from, '*');
}

/* Digits to the base, at most `most` in value; false where there is none or the value is above it. */
static bool read_digits(source *from, unsigned base, uint64_t most, uint64_t *value, size_t *digits) {
  *value = 0;
  for (*digits = 0;; ++*digits) {
    const int digit = hex_digit(ahead(from));
    if (digit < 0 || (unsigned)digit >= base)
      return *digits > 0;
    *value = *value * base + (unsigned)digit;
    if (*value > most)
      return false;
    step_on(from);
  }
}

/* A number of C, from -128 to 255. */
static bool read_c_number(source *from, unsigned *byte) {
  const bool below = ahead(from) == '-';
  uint64_t value;
  size_t digits;
  if (below)
    step_on(from);
  const bool zero = ahead(from) == '0';
  const bool hexadecimal = zero && from->length - from->at > 1 && (from->text[from->at + 1] | 32) == 'x';
  from->at += hexadecimal ? 2 : 0;
  if (!read_digits(from, hexadecimal ? 16 : 10, below ? 128 : 255, &value, &digits) || !is_parted(from))
    return wrong(from, "this is no number from -128 to 255");
  if (zero && !hexadecimal && digits > 1)
    return wrong(from, "a number with a 0 before it would be octal");
  *byte = (unsigned)(below ? 256 - value : value) % 256;
  return true;
}

/* The numbers up to the end of the text, or up to a brace; `parted` by a comma each. */
static bool read_list(source *from, image *to, bool parted) {
  bool comma = true; /* may a number follow? */
  for (;;) {
    unsigned byte;
    if (!pass_blanks(from))
      return false;
    if (ahead(from) < 0 || ahead(from) == '}')
      return true;
    if (parted && !comma)
      return wrong(from, "a comma is missing");
    if (!read_c_number(from, &byte) || !put_byte(from, to, to->count, byte) || !pass_blanks(from))
      return false;
    comma = ahead(from) == ',';
    if (comma)
      step_on(from);
  }
}

static bool read_numbers(source *from, image *to) {
  if (!read_list(from, to, false))
    return false;
  return ahead(from) < 0 ? is_full(from, to) : wrong(from, "there is a } in a list without {");
}

static bool read_c_array(source *from, image *to) {
  while (ahead(from) >= 0 && ahead(from) != '{') {
    if (!pass_blanks(from))
      return false;
    if (ahead(from) >= 0 && ahead(from) != '{')
      step_on(from);
  }
  if (ahead(from) < 0)
    return wrong(from, "there is no array: no { was found");
  step_on(from);
  if (!read_list(from, to, true))
    return false;
  if (ahead(from) < 0)
    return wrong(from, "the array does not end: no } was found");
  step_on(from);
  if (!pass_blanks(from))
    return false;
  if (ahead(from) == ';')
    step_on(from);
  if (!pass_blanks(from))
    return false;
  return ahead(from) < 0 ? is_full(from, to) : wrong(from, "there is more behind the array");
}

static bool read_verilog(source *from, image *to) {
  uint64_t address = 0, value;
  size_t digits;
  for (;;) {
    if (!pass_blanks(from))
      return false;
    if (ahead(from) < 0)
      return is_full(from, to);
    const bool is_address = ahead(from) == '@';
    from->at += is_address;
    if (!read_digits(from, 16, is_address ? UINT32_MAX : 255, &value, &digits) || !is_parted(from) ||
        ahead(from) == ',' || ahead(from) == '}' || (!is_address && digits > 2))
      return wrong(from, is_address ? "this is no address" : "this is no byte of two hexadecimal digits");
    if (!is_address && !put_byte(from, to, address, (unsigned)value))
      return false;
    address = is_address ? value : address + 1;
  }
}

/* Reads the text into an image whose offset is set. */
static bool read_image(form kind, source *from, image *to) {
  from->line = kind != HEX && kind != BYTES;
  switch (kind) {
  case HEX: return read_hex(from, to);
  case C_ARRAY: return read_c_array(from, to);
  case NUMBERS: return read_numbers(from, to);
  case VERILOG: return read_verilog(from, to);
  default: return read_bytes(from, to);
  }
}

/* Sixteen a line, each by the format. */
static void write_rows(FILE *file, const uint8_t bytes[ROM_SIZE], const char *before, const char *each,
                       const char *after) {
  for (int i = 0; i < ROM_SIZE; i++) {
    fputs(i % 16 == 0 ? before : " ", file);
    fprintf(file, each, bytes[i]);
    fputs(i % 16 == 15 ? after : "", file);
  }
}

static void write_image(FILE *file, form kind, const uint8_t bytes[ROM_SIZE], uint64_t offset) {
  if (kind == HEX)
    write_hex(file, bytes, offset);
  else if (kind == BYTES)
    fwrite(bytes, 1, ROM_SIZE, file);
  else if (kind == C_ARRAY) {
    fprintf(file, "static const unsigned char table[%d] = {\n", ROM_SIZE);
    write_rows(file, bytes, "    ", "%d,", "\n");
    fprintf(file, "};\n");
  } else {
    if (kind == VERILOG && offset != 0)
      fprintf(file, "@%" PRIx64 "\n", offset);
    write_rows(file, bytes, "", kind == VERILOG ? "%02x" : "%d", "\n");
  }
}

#endif
