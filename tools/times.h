/* Times: whole seconds, or ISO 8601 with a zone or without one. A day has 86,400 seconds. */

#ifndef TIMES_H
#define TIMES_H

#include "text.h"
#include <inttypes.h>
#include <stdint.h>
#include <stdio.h>

enum form { UNTIMED, SECONDS, ZONED, LOCAL };
enum { TIME_TEXT = 48 };

/* Is the field a whole number below 10^15? */
static bool read_seconds(field part, int64_t *seconds) {
  const size_t sign = part.length > 0 && part.text[0] == '-';
  if (part.length == sign || part.length > 15 + sign)
    return false;
  *seconds = 0;
  for (size_t i = sign; i < part.length; i++) {
    if (!is_digit(part.text[i]))
      return false;
    *seconds = 10 * *seconds + (part.text[i] - '0');
  }
  *seconds = sign ? -*seconds : *seconds;
  return true;
}

/* Takes so many digits from the front. Do they stand for a number from low to high? */
static bool take_digits(field *part, size_t count, int64_t low, int64_t high, int64_t *number) {
  *number = 0;
  if (part->length < count)
    return false;
  for (size_t i = 0; i < count; i++) {
    if (!is_digit(part->text[i]))
      return false;
    *number = 10 * *number + (part->text[i] - '0');
  }
  part->text += count, part->length -= count;
  return *number >= low && *number <= high;
}

static bool take_one_of(field *part, const char *those) {
  const bool is_there = part->length > 0 && part->text[0] != '\0' && strchr(those, part->text[0]) != NULL;
  part->text += is_there, part->length -= is_there;
  return is_there;
}

static bool is_leap(int64_t year) { return year % 4 == 0 && (year % 100 != 0 || year % 400 == 0); }

static int64_t days_of_month(int64_t year, int64_t month) {
  static const int64_t days[] = {31, 28, 31, 30, 31, 30, 31, 31, 30, 31, 30, 31};
  return days[month - 1] + (month == 2 && is_leap(year));
}

/* How many days lie between 1970 and the beginning of a year from 0 on. */
static int64_t days_before(int64_t year) {
  const int64_t above = year + 399; /* as many leap days, and 400 years of 146,097 days to take off */
  return 365 * (year + 400) + above / 4 - above / 100 + above / 400 - 146097 - 719527;
}

/* A date and a time of day, in seconds since 1970. */
static bool take_date(field *part, int64_t *seconds) {
  int64_t year, month, day, hour, minute, second;
  if (!take_digits(part, 4, 0, 9999, &year) || !take_one_of(part, "-") || !take_digits(part, 2, 1, 12, &month) ||
      !take_one_of(part, "-") || !take_digits(part, 2, 1, days_of_month(year, month), &day) ||
      !take_one_of(part, "T ") || !take_digits(part, 2, 0, 23, &hour) || !take_one_of(part, ":") ||
      !take_digits(part, 2, 0, 59, &minute) || !take_one_of(part, ":") || !take_digits(part, 2, 0, 59, &second))
    return false;
  int64_t days = days_before(year) + day - 1;
  for (int64_t i = 1; i < month; i++)
    days += days_of_month(year, i);
  *seconds = ((days * 24 + hour) * 60 + minute) * 60 + second;
  return true;
}

/* A fraction of zeros, or nothing. */
static bool take_fraction(field *part) {
  if (!take_one_of(part, "."))
    return true;
  bool some = false;
  while (take_one_of(part, "0"))
    some = true;
  return some;
}

/* The seconds that a zone is ahead of UTC. */
static bool take_zone(field *part, int64_t *ahead) {
  int64_t hours, minutes = 0;
  *ahead = 0;
  if (take_one_of(part, "Z"))
    return true;
  const bool behind = part->length > 0 && part->text[0] == '-';
  if (!take_one_of(part, "+-") || !take_digits(part, 2, 0, 23, &hours))
    return false;
  if (part->length > 0) {
    take_one_of(part, ":");
    if (!take_digits(part, 2, 0, 59, &minutes))
      return false;
  }
  *ahead = (behind ? -60 : 60) * (60 * hours + minutes);
  return true;
}

/* The form of a time, and its seconds where it has one. */
static enum form read_time(field part, int64_t *seconds) {
  int64_t ahead;
  if (read_seconds(part, seconds))
    return SECONDS;
  if (!take_date(&part, seconds) || !take_fraction(&part))
    return UNTIMED;
  if (part.length == 0)
    return LOCAL;
  if (!take_zone(&part, &ahead) || part.length > 0)
    return UNTIMED;
  *seconds -= ahead;
  return ZONED;
}

/* The quotient rounded down. */
static int64_t floor_of(int64_t a, int64_t b) { return a / b - (a % b < 0); }

/* A time in the form in which it was given, or in UTC. */
static void time_text(enum form form, int64_t seconds, char text[TIME_TEXT]) {
  if (form != ZONED && form != LOCAL) {
    snprintf(text, TIME_TEXT, "%" PRId64, seconds);
    return;
  }
  const int64_t days = floor_of(seconds, 86400), rest = seconds - 86400 * days;
  int64_t year = 1969 + floor_of(days, days < 0 ? 365 : 366), month = 1;
  while (days_before(year + 1) <= days)
    year++;
  int64_t day = days - days_before(year);
  for (; day >= days_of_month(year, month); month++)
    day -= days_of_month(year, month);
  snprintf(text, TIME_TEXT, "%04d-%02d-%02dT%02d:%02d:%02d%s", (int)year, (int)month, (int)day + 1, (int)(rest / 3600),
           (int)(rest / 60 % 60), (int)(rest % 60), form == ZONED ? "Z" : "");
}

#endif
