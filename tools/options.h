/* The arguments of recheck. */

#ifndef OPTIONS_H
#define OPTIONS_H

#include "decimals.h"
#include "help.h"

enum numbers { FIND_NUMBERS, PATTERNS, NUMBERS };
enum { FIND_DECIMALS = -2, IN_FULL = -1, MOST_UNIT = 9, MOST_STEP = 86400 };

typedef struct {
  uint64_t estimate, direction;
  int decimals; /* or FIND_DECIMALS, or IN_FULL */
  enum numbers numbers;
  size_t window; /* 0 where none are wanted */
  long step;
  int unit; /* decimals of the unit of averages */
  bool limited;
  uint64_t limit; /* in units */
  char decimal_sign;
  bool json, joined;
  const char *monitor, *limit_text, *table, *averages, *picture; /* or NULL */
  char **records;                                                /* names of files */
  size_t files;
} options;

static const char *const directions[] = {"nearest", "zero", "up", "down"};

static bool fails(const char *option, const char *why) {
  fprintf(stderr, "recheck: %s: %s\n%s", option, why, usage);
  return false;
}

/* A whole number from low to high. */
static bool read_count(const char *text, long low, long high, long *count) {
  char *end;
  *count = strtol(text, &end, 10);
  return is_digit(text[0]) && *end == '\0' && *count >= low && *count <= high;
}

static bool read_direction(const char *text, uint64_t *direction) {
  for (uint64_t i = 0; i < 4; i++)
    if (strcmp(text, directions[i]) == 0) {
      *direction = i;
      return true;
    }
  return false;
}

/* 1, or 0.1 to 0.000000001. */
static bool read_unit(const char *text, int *decimals) {
  const size_t zeros = strncmp(text, "0.", 2) == 0 ? strspn(text + 2, "0") : 0;
  *decimals = text[0] == '1' ? 0 : (int)zeros + 1;
  return strcmp(text[0] == '1'                ? text
                : strncmp(text, "0.", 2) == 0 ? text + 2 + zeros
                                              : "",
                "1") == 0 &&
         zeros < MOST_UNIT;
}

/* The limit, in whole units below 2^40. */
static bool read_limit(options *chosen) {
  plain limit;
  if (!read_plain(text_of(chosen->limit_text), '.', &limit) || limit.negative)
    return false;
  limit = stripped(limit);
  chosen->limit = times_ten(limit.digits, chosen->unit - limit.decimals);
  return (limit.digits == 0 || limit.decimals <= chosen->unit) && chosen->limit < (uint64_t)1 << 40;
}

static bool has_value(const char *option) {
  static const char *const valued[] = {"--estimate", "--direction", "--decimals", "--window",   "--step",
                                       "--unit",     "--limit",     "--monitor",  "--averages", "--picture"};
  for (size_t i = 0; i < sizeof valued / sizeof *valued; i++)
    if (strcmp(option, valued[i]) == 0)
      return true;
  return false;
}

/* Takes an option whose value is a number or a word. */
static bool take_number(options *chosen, const char *option, const char *value) {
  long count;
  if (strcmp(option, "--estimate") == 0 && read_count(value, 7, 8, &count))
    chosen->estimate = (uint64_t)count;
  else if (strcmp(option, "--decimals") == 0 && strcmp(value, "full") == 0)
    chosen->decimals = IN_FULL;
  else if (strcmp(option, "--decimals") == 0 && read_count(value, 0, MOST_DECIMALS, &count))
    chosen->decimals = (int)count;
  else if (strcmp(option, "--window") == 0 && read_count(value, 1, QUENDARIC_WIDEST_WINDOW, &count))
    chosen->window = (size_t)count;
  else if (strcmp(option, "--step") == 0 && read_count(value, 1, MOST_STEP, &count))
    chosen->step = count;
  else if (!(strcmp(option, "--unit") == 0 && read_unit(value, &chosen->unit)) &&
           !(strcmp(option, "--direction") == 0 && read_direction(value, &chosen->direction)))
    return fails(option, "it does not take this value");
  return true;
}

/* Takes an option that has a value. */
static bool take_value(options *chosen, const char *option, const char *value) {
  if (strcmp(option, "--averages") == 0)
    chosen->averages = value;
  else if (strcmp(option, "--picture") == 0)
    chosen->picture = value;
  else if (strcmp(option, "--limit") == 0)
    chosen->limit_text = value;
  else if (strcmp(option, "--monitor") == 0 && *value != '\0' && strcmp(value, "0") != 0)
    chosen->monitor = value;
  else
    return take_number(chosen, option, value);
  return true;
}

/* Takes an argument that has no value. */
static bool take_word(options *chosen, char *word) {
  if (strcmp(word, "--json") == 0)
    chosen->json = true;
  else if (strcmp(word, "--comma") == 0)
    chosen->decimal_sign = ',';
  else if (strcmp(word, "--patterns") == 0)
    chosen->numbers = PATTERNS;
  else if (strcmp(word, "--numbers") == 0)
    chosen->numbers = NUMBERS;
  else if (strcmp(word, "--joined") == 0)
    chosen->joined = true;
  else if (word[0] == '-' && word[1] != '\0')
    return fails(word, "there is no such option");
  else if (chosen->table == NULL)
    chosen->table = word;
  else
    chosen->records[chosen->files++] = word;
  return true;
}

/* Is there all that is needed? */
static bool is_whole(options *chosen) {
  if (chosen->estimate == 0)
    return fails("--estimate", "it is missing: how many bits of each remainder word does the divider add, 7 or 8?");
  if (chosen->table == NULL)
    return fails("TABLE", "it is missing");
  if (chosen->averages != NULL && chosen->window == 0)
    return fails("--averages", "it goes with --window");
  if (chosen->limit_text != NULL && chosen->window == 0)
    return fails("--limit", "it goes with --window");
  if (chosen->limit_text != NULL && !read_limit(chosen))
    return fails("--limit", "it is no whole number of units (--unit)");
  chosen->limited = chosen->limit_text != NULL;
  return true;
}

/* Takes the arguments. names has room for as many names of files, and at least one. */
static bool take_arguments(options *chosen, int count, char **arguments, char **names) {
  static char standard_input[] = "-";
  *chosen = (options){.decimals = FIND_DECIMALS, .decimal_sign = '.', .step = 1, .unit = 3, .records = names};
  for (int i = 1; i < count; i++) {
    const bool valued = has_value(arguments[i]);
    if (valued && i + 1 == count)
      return fails(arguments[i], "its value is missing");
    if (valued ? !take_value(chosen, arguments[i], arguments[i + 1]) : !take_word(chosen, arguments[i]))
      return false;
    i += valued;
  }
  if (chosen->files == 0)
    names[chosen->files++] = standard_input;
  return is_whole(chosen);
}

#endif
