/* Numbers rounded to so many decimals, and whether a filed number is such a rounding. Nothing is approximate: printf and
   strtod of the C library round correctly, decimal numbers are compared digit by digit, and ratios by the unit. */

#ifndef DECIMALS_H
#define DECIMALS_H

#include "numbers.h"

enum { MOST_DECIMALS = 17, TEXT = 1 + 310 + 1 + MOST_DECIMALS + 1 + 1 };

/* The magnitude of a finite number, rounded to so many decimals, ties to even. A zero stands before it. */
static void round_magnitude(uint64_t pattern, int decimals, char text[TEXT]) {
  text[0] = '0';
  snprintf(text + 1, TEXT - 1, "%.*f", decimals, quendaric_double(pattern & ~((uint64_t)1 << 63)));
}

/* Does the number lie halfway between two numbers of so many decimals? Twice it, times the power of ten, is then odd:
   its lowest bit stands for 2^-(decimals + 1). */
static bool is_halfway(uint64_t pattern, int decimals) {
  const int exponent = (int)(pattern >> 52 & 0x7FF);
  uint64_t significand = (pattern & (((uint64_t)1 << 52) - 1)) | (uint64_t)(exponent != 0) << 52;
  int lowest = (exponent != 0 ? exponent : 1) - 1075;
  if (significand == 0)
    return false;
  for (; significand % 2 == 0; significand /= 2)
    lowest++;
  return lowest == -(decimals + 1);
}

/* Adds one to the last place of a number that begins with a zero. */
static void add_one(char *text) {
  char *at = text + strlen(text) - 1;
  for (; *at == '9' || *at == '.'; at--)
    if (*at == '9')
      *at = '0';
  ++*at;
}

/* A magnitude as it is compared: 0.DIGITS * 10^point, where the digits have no zero at either end. */
typedef struct {
  char digits[LINE + 1];
  size_t length;
  long point;
} decimal;

/* The exponent behind the e, or one far outside every range that is compared. */
static long exponent_at(const char *text) {
  const long far = 1000000, exponent = strtol(text, NULL, 10);
  return exponent > far ? far : exponent < -far ? -far : exponent;
}

/* Reads the magnitude of a text that is_decimal takes. */
static void read_magnitude(const char *text, decimal *number) {
  bool fraction = false;
  number->length = 0;
  number->point = 0;
  for (; *text != '\0' && *text != 'e' && *text != 'E'; text++) {
    if (*text == '.')
      fraction = true;
    if (!is_digit(*text))
      continue;
    const bool leading = number->length == 0 && *text == '0';
    if (!leading)
      number->digits[number->length++] = *text;
    number->point += leading ? -fraction : !fraction;
  }
  if (*text != '\0')
    number->point += exponent_at(text + 1);
  while (number->length > 0 && number->digits[number->length - 1] == '0')
    number->length--;
}

static bool same_magnitude(const decimal *a, const char *text) {
  static decimal b;
  read_magnitude(text, &b);
  return a->length == b.length && memcmp(a->digits, b.digits, b.length) == 0 && (a->length == 0 || a->point == b.point);
}

/* Is the decimal number in the text the right one, rounded to so many decimals? Either neighbour of a number that lies
   halfway is taken. A zero has no sign here. */
static bool is_rounded(const char *text, uint64_t right, int decimals) {
  static decimal filed;
  char rounded[TEXT];
  read_magnitude(text, &filed);
  if (filed.length > 0 && (*text == '-') != (right >> 63 != 0))
    return false;
  round_magnitude(right, decimals, rounded);
  if (same_magnitude(&filed, rounded))
    return true;
  if (!is_halfway(right, decimals))
    return false;
  round_magnitude(right, decimals + 1, rounded); /* exact, and its last digit is a 5 */
  rounded[strlen(rounded) - 1] = '\0';
  if (same_magnitude(&filed, rounded))
    return true;
  add_one(rounded);
  return same_magnitude(&filed, rounded);
}

/* So many units of the last decimal. Below 2^30 of them the roundings of operands, quotient and product are together
   below 2^-20, which is less than 1e-6: what is not so close to a half is sure, for the ratio as it is written too. */
static bool is_small(double units) { return units > -1073741824.0 && units < 1073741824.0; }
static bool is_less(double distance) { return distance < 0.5 - 1e-6; }
static bool is_more(double distance) { return distance > 0.5 + 1e-6; }

enum sure { IS_NOT, IS, NOT_SURE };

/* Is the plain number surely the right one, rounded to so many decimals? */
static enum sure is_plainly(plain filed, uint64_t right, int decimals) {
  const double units = quendaric_double(right) * tens[decimals];
  if (FLT_EVAL_METHOD != 0 || filed.decimals > decimals || !is_small(units))
    return NOT_SURE;
  const double magnitude = (double)filed.digits * tens[decimals - filed.decimals];
  const double taken = filed.negative ? -magnitude : magnitude;
  const double distance = taken < units ? units - taken : taken - units;
  return is_less(distance) ? IS : is_more(distance) ? IS_NOT : NOT_SURE;
}

/* The number times a power of ten, or 2^60, which the calls refuse, where it is that or more. */
static uint64_t times_ten(uint64_t number, int power) {
  const uint64_t limit = (uint64_t)1 << 60;
  for (; power > 0 && number > 0 && number < limit; power--)
    number = number < limit / 10 ? 10 * number : limit;
  return number;
}

/* The same number without zeros at the end of its digits; its decimals can then be below zero. */
static plain stripped(plain number) {
  for (; number.digits > 0 && number.digits % 10 == 0; number.decimals--)
    number.digits /= 10;
  return number;
}

/* Does the ratio a / b, as it is written, lie at most half a unit of so many decimals from the filed number? */
static bool is_near_ratio(plain filed, plain a, plain b, int decimals) {
  filed = stripped(filed), a = stripped(a), b = stripped(b);
  if ((filed.digits > 0 && filed.decimals > decimals) ||
      (filed.digits > 0 && filed.negative != (a.negative != b.negative)))
    return false;
  const uint64_t units = times_ten(filed.digits, decimals - filed.decimals), twice = times_ten(2, decimals);
  const uint64_t top = times_ten(a.digits, b.decimals - a.decimals);
  const uint64_t bottom = a.digits == 0 ? b.digits : times_ten(b.digits, a.decimals - b.decimals);
  const quendaric_comparison above = quendaric_compare_ratios(top, bottom, 2 * units + 1, twice);
  if (above.refusal != 0 || above.order > 0)
    return false;
  if (units == 0)
    return true;
  const quendaric_comparison below = quendaric_compare_ratios(top, bottom, 2 * units - 1, twice);
  return below.refusal == 0 && below.order >= 0;
}

#endif
