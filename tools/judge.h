/* Is a record right? And what is counted. */

#ifndef JUDGE_H
#define JUDGE_H

#include "decimals.h"
#include "records.h"

/* By a number of bits: how many records are marked, marked and right, wrong and not marked; and how many speak against
   this number. */
typedef struct {
  uint64_t marked, marked_right, wrong_unmarked, against;
} marks_count;

/* lines = headers + empty + repeated + records, and records = right + wrong + unreadable. */
typedef struct {
  uint64_t lines, headers, empty, repeated, records, right, wrong, unreadable, by_mark;
  marks_count by[2];                                                                 /* by --estimate, by the other */
  char first[LINE + 1], last[LINE + 1], first_wrong[LINE + 1], last_wrong[LINE + 1]; /* times */
} totals;

/* Does the ratio of current and sensitivity, as they are written, round to what was filed? */
static bool is_by_ratio(const source *from, const record *one) {
  const char sign = from->form.decimal_sign;
  plain a, b;
  return !from->patterns && one->is_plain && read_plain(one->fields[CURRENT], sign, &a) &&
         read_plain(one->fields[SENSITIVITY], sign, &b) && is_near_ratio(one->number, a, b, from->decimals);
}

/* Is the decimal number that was filed right? */
static bool is_right_decimal(const source *from, const record *one, uint64_t right) {
  static char copy[LINE + 1];
  if (from->decimals < 0)
    return one->in_range && quendaric_double(one->filed) == quendaric_double(right);
  const enum sure plainly = one->is_plain ? is_plainly(one->number, right, from->decimals) : NOT_SURE;
  if (plainly != NOT_SURE)
    return plainly == IS;
  copy_decimal(one->fields[FILED], from->form.decimal_sign, copy);
  return is_rounded(copy, right, from->decimals) || is_by_ratio(from, one);
}

/* Is the record wrong? Where nothing was filed, the mark decides. */
static bool is_wrong(const source *from, const record *one, uint64_t right, bool marked) {
  switch (one->kind) {
  case NOT_FILED: return marked;
  case AS_WORD: return true;
  case AS_PATTERN: return quendaric_double(one->filed) != quendaric_double(right);
  default: return !is_right_decimal(from, one, right);
  }
}

/* Keeps a time as the last, and as the first if there was none. */
static void keep_time(field time, char first[LINE + 1], char last[LINE + 1]) {
  memcpy(last, time.text, time.length);
  last[time.length] = '\0';
  if (first[0] == '\0')
    memcpy(first, last, time.length + 1);
}

/* What the table made wrong is marked. What is marked and right speaks against the number only if it was filed in full:
   rounding hides small errors. */
static void count_marks(marks_count *by, bool filed, bool in_full, bool wrong, bool marked) {
  by->marked += marked;
  by->marked_right += marked && !wrong;
  by->wrong_unmarked += wrong && !marked;
  by->against += filed && (wrong ? !marked : marked && in_full);
}

static void count_record(totals *sums, const source *from, const record *one, bool wrong, const bool marked[2]) {
  sums->right += !wrong;
  sums->wrong += wrong;
  sums->by_mark += one->kind == NOT_FILED;
  for (int i = 0; i < 2; i++)
    count_marks(&sums->by[i], one->kind != NOT_FILED, one->kind == AS_PATTERN || from->decimals < 0, wrong, marked[i]);
  keep_time(one->fields[TIME], sums->first, sums->last);
  if (wrong)
    keep_time(one->fields[TIME], sums->first_wrong, sums->last_wrong);
}

/* Do filed values fit the other number of bits better? */
static bool is_misfit(const totals *sums) { return sums->by[1].against < sums->by[0].against; }

/* The right value as it is to be filed. */
static void right_text(const source *from, const record *one, uint64_t right, char text[TEXT]) {
  if (one->kind == AS_PATTERN || (from->decimals < 0 && from->patterns))
    snprintf(text, TEXT, "%016llX", (unsigned long long)right);
  else if (from->decimals < 0)
    snprintf(text, TEXT, "%.17g", quendaric_double(right));
  else {
    round_magnitude(right, from->decimals, text);
    text[0] = '-';
    if (right >> 63 == 0 || strspn(text, "-0.") == strlen(text))
      memmove(text, text + 1, strlen(text));
  }
  char *point = strchr(text, '.');
  if (point != NULL)
    *point = from->form.decimal_sign;
}

#endif
