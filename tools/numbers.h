/* The number in a field: a pattern, a decimal number, or a word for something that is not finite. */

#ifndef NUMBERS_H
#define NUMBERS_H

#include "lines.h"
#include "quendaric.h"
#include <float.h>
#include <stdlib.h>

/* One more than the value of a hexadecimal digit, or 0 for another byte. */
static const unsigned char digit_values[256] = {
    ['0'] = 1,  ['1'] = 2,  ['2'] = 3,  ['3'] = 4,  ['4'] = 5,  ['5'] = 6,  ['6'] = 7,  ['7'] = 8,
    ['8'] = 9,  ['9'] = 10, ['a'] = 11, ['b'] = 12, ['c'] = 13, ['d'] = 14, ['e'] = 15, ['f'] = 16,
    ['A'] = 11, ['B'] = 12, ['C'] = 13, ['D'] = 14, ['E'] = 15, ['F'] = 16};

/* Is the field the 16 hexadecimal digits of a pattern, perhaps behind 0x? */
static bool read_pattern(field part, uint64_t *pattern) {
  if (part.length == 18 && part.text[0] == '0' && small_letter(part.text[1]) == 'x')
    part.text += 2, part.length -= 2;
  if (part.length != 16)
    return false;
  uint64_t bits = 0;
  bool others = false;
  for (size_t i = 0; i < 16; i++) {
    const unsigned char value = digit_values[(unsigned char)part.text[i]];
    others |= value == 0;
    bits = bits << 4 | (uint64_t)((value - 1u) & 15);
  }
  *pattern = bits;
  return !others;
}

/* Has a pattern a letter, so that it is no decimal number? */
static bool has_letter(field pattern) {
  size_t at = 0;
  while (at < pattern.length && is_digit(pattern.text[at]))
    at++;
  return at < pattern.length;
}

/* Does the field name something that is not finite, with a sign or none? */
static bool is_word(field part) {
  if (part.length > 0 && (part.text[0] == '+' || part.text[0] == '-'))
    part.text++, part.length--;
  return is_word_of(part, "nan") || is_word_of(part, "inf") || is_word_of(part, "infinity");
}

/* How many decimal digits stand at the text's beginning. */
static size_t digits_at(const char *text) {
  size_t count = 0;
  while (is_digit(text[count]))
    count++;
  return count;
}

/* Is the text a decimal number: a sign or none, digits with a point among them or none, an exponent or none? (strtod
   also takes hexadecimal numbers, nan and inf.) */
static bool is_decimal(const char *text) {
  text += *text == '+' || *text == '-';
  const size_t whole = digits_at(text);
  text += whole;
  const size_t fraction = *text == '.' ? digits_at(text + 1) : 0;
  text += *text == '.' ? 1 + fraction : 0;
  if (whole + fraction == 0)
    return false;
  if (*text == 'e' || *text == 'E') {
    text += 1 + (text[1] == '+' || text[1] == '-');
    const size_t exponent = digits_at(text);
    if (exponent == 0)
      return false;
    text += exponent;
  }
  return *text == '\0';
}

/* A sign or none, and 1 to 15 digits with a decimal sign among them or none. The number is digits / 10^decimals, and
   digits is below 2^53. */
typedef struct {
  bool negative;
  uint64_t digits;
  int decimals;
} plain;

static bool read_plain(field part, char decimal_sign, plain *number) {
  const size_t sign = part.length > 0 && (part.text[0] == '-' || part.text[0] == '+');
  size_t point = part.length;
  uint64_t digits = 0;
  if (part.length - sign > 16)
    return false;
  for (size_t i = sign; i < part.length; i++)
    if (is_digit(part.text[i]))
      digits = 10 * digits + (uint64_t)(part.text[i] - '0');
    else if (part.text[i] == decimal_sign && point == part.length)
      point = i;
    else
      return false;
  const bool pointed = point < part.length;
  const size_t count = part.length - sign - pointed;
  *number = (plain){part.length > 0 && part.text[0] == '-', digits, pointed ? (int)(part.length - point - 1) : 0};
  return count > 0 && count <= 15;
}

static const double tens[] = {1,   1e1,  1e2,  1e3,  1e4,  1e5,  1e6,  1e7,  1e8,
                              1e9, 1e10, 1e11, 1e12, 1e13, 1e14, 1e15, 1e16, 1e17};

/* The nearest binary64 number: digits and power of ten are such numbers, so that their quotient is rounded once. */
static double double_of(plain number) {
  const double magnitude = (double)number.digits / tens[number.decimals];
  return number.negative ? -magnitude : magnitude;
}

/* What stands in a field. */
enum number { FINITE, NOT_FINITE, OUT_OF_RANGE, NO_NUMBER };

/* Copies the field with a point for its decimal sign, and a zero byte behind it. Is it a decimal number? */
static bool copy_decimal(field part, char decimal_sign, char copy[LINE + 1]) {
  for (size_t i = 0; i < part.length; i++) {
    const char c = part.text[i];
    copy[i] = c == decimal_sign ? '.' : c == '.' || c == '\0' ? '?' : c;
  }
  copy[part.length] = '\0';
  return is_decimal(copy);
}

/* Reads a decimal number. Where it is finite, *pattern becomes the nearest binary64 number: strtod rounds correctly, and
   in a program that does not call setlocale it wants a point. */
static enum number read_by_strtod(field part, char decimal_sign, uint64_t *pattern) {
  static char copy[LINE + 1];
  if (!copy_decimal(part, decimal_sign, copy))
    return is_word(part) ? NOT_FINITE : NO_NUMBER;
  errno = 0; /* a number below the range is answered by 0 and ERANGE, a subnormal one by itself and ERANGE */
  const double nearest = strtod(copy, NULL);
  *pattern = quendaric_pattern(nearest);
  return !quendaric_is_finite(*pattern) || (nearest == 0 && errno == ERANGE) ? OUT_OF_RANGE : FINITE;
}

/* Does the same, faster for a plain number. */
static enum number read_decimal(field part, char decimal_sign, plain *number, bool *is_plain, uint64_t *pattern) {
  *is_plain = read_plain(part, decimal_sign, number);
  if (!*is_plain || FLT_EVAL_METHOD != 0)
    return read_by_strtod(part, decimal_sign, pattern);
  *pattern = quendaric_pattern(double_of(*number));
  return FINITE;
}

/* Reads an operand of a file that has patterns, or decimal numbers. */
static enum number read_operand(field part, bool patterns, char decimal_sign, uint64_t *pattern) {
  plain number;
  bool is_plain;
  if (!patterns)
    return read_decimal(part, decimal_sign, &number, &is_plain, pattern);
  return !read_pattern(part, pattern) ? NO_NUMBER : quendaric_is_finite(*pattern) ? FINITE : NOT_FINITE;
}

#endif
