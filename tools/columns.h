/* How the lines of a file are parted: the separator and the columns, as the first line tells them. */

#ifndef COLUMNS_H
#define COLUMNS_H

#include "numbers.h"

enum column { TIME, CURRENT, SENSITIVITY, FILED, MONITOR, COLUMNS, OTHER = COLUMNS };

static const char *const column_names[] = {"time", "current", "sensitivity", "filed", "monitor"};

/* column[i] is what field i of a line is. */
typedef struct {
  bool known; /* there was a first line */
  char separator, decimal_sign;
  bool header, by_names, monitors;
  bool usable; /* there are a time, a current and a sensitivity, and no field that is not understood */
  bool filed;  /* there is such a column */
  size_t count;
  unsigned char column[LINE + 1];
} layout;

static char separator_of(field line, char decimal_sign) {
  static const char marks[] = {';', '\t', ','};
  for (size_t i = 0; i < sizeof marks; i++)
    if (has(line, marks[i]) && marks[i] != decimal_sign)
      return marks[i];
  return ' ';
}

static const char *separator_name(char separator) {
  return separator == ';' ? "semicolons" : separator == '\t' ? "tabs" : separator == ',' ? "commas" : "spaces";
}

/* Parts a line into all its fields, and returns their number. */
static size_t part_all(field line, char separator, field fields[LINE + 1]) {
  size_t count = 0, from = 0;
  for (size_t to = 0; to <= line.length; to++)
    if (to == line.length || line.text[to] == separator) {
      fields[count++] = trimmed((field){line.text + from, to - from}, separator);
      from = to + 1;
    }
  return count;
}

/* Parts a line into the fields that have a column, and returns the number of all its fields. */
static size_t part_fields(field line, const layout *form, field fields[COLUMNS + 1]) {
  size_t count = 0, from = 0;
  const char separator = form->separator;
  for (size_t to = 0; to <= line.length; to++)
    if (to == line.length || line.text[to] == separator) {
      if (form->column[count] != OTHER)
        fields[form->column[count]] = trimmed((field){line.text + from, to - from}, separator);
      count++;
      from = to + 1;
    }
  return count;
}

/* Can the field be a name in a header? */
static bool is_name(field part) {
  uint64_t pattern;
  return !is_digit(part.text[0]) && memchr("+-.,", part.text[0], 4) == NULL && !read_pattern(part, &pattern) &&
         !is_word(part) && is_text(part, true);
}

/* Three names or more, no two of them alike. Other fields are empty. */
static bool is_header(const field fields[], size_t count) {
  size_t names = 0;
  for (size_t i = 0; i < count; i++) {
    if (fields[i].length == 0)
      continue;
    if (!is_name(fields[i]))
      return false;
    for (size_t k = 0; k < i; k++)
      if (is_same(fields[i], fields[k]))
        return false;
    names++;
  }
  return names >= 3;
}

/* The letters that a name begins with. */
static field letters_of(field name) {
  size_t length = 0;
  while (length < name.length && small_letter(name.text[length]) >= 'a' && small_letter(name.text[length]) <= 'z')
    length++;
  return (field){name.text, length};
}

/* Which column has the name, or OTHER. */
static enum column named_column(field name) {
  for (int i = TIME; i < COLUMNS; i++)
    if (is_word_of(letters_of(name), column_names[i]))
      return (enum column)i;
  return OTHER;
}

/* The columns by the names of the header. What is wrong with them is returned, or NULL. */
static const char *take_names(layout *form, const field fields[]) {
  size_t found[COLUMNS + 1] = {0};
  for (size_t i = 0; i < form->count; i++)
    if (found[named_column(fields[i])]++ > 0 && named_column(fields[i]) != OTHER)
      return "its header has a name twice";
  form->by_names = found[TIME] && found[CURRENT] && found[SENSITIVITY];
  for (size_t i = 0; i < form->count && form->by_names; i++)
    form->column[i] = (unsigned char)named_column(fields[i]);
  form->monitors = form->by_names && found[MONITOR] > 0;
  form->filed = form->by_names && found[FILED] > 0;
  return NULL;
}

/* The fourth of four columns is what was filed, whatever its name. */
static void take_fourth(layout *form) {
  for (size_t i = 0; i < form->count && form->count == 4 && !form->monitors && !form->filed; i++)
    if (form->column[i] == OTHER) {
      form->column[i] = FILED;
      form->filed = true;
    }
}

/* The column that --monitor names, by its number or by its name. */
static const char *take_monitor(layout *form, const field fields[], const char *wanted) {
  size_t at = 0;
  if (digits_at(wanted) == strlen(wanted))
    at = (size_t)strtoul(wanted, NULL, 10) - 1;
  else
    while (at < form->count && !(form->header && is_same(fields[at], text_of(wanted))))
      at++;
  if (at >= form->count)
    return "it has no such column as --monitor names";
  for (size_t i = 0; i < form->count; i++)
    if (form->column[i] == MONITOR)
      form->column[i] = OTHER;
  const bool is_free = form->column[at] == OTHER;
  form->column[at] = MONITOR;
  form->monitors = true;
  return is_free ? NULL : "--monitor names a column that has another name";
}

/* The columns by their order, but for the monitor's. */
static void take_order(layout *form) {
  unsigned char next = TIME;
  for (size_t i = 0; i < form->count; i++)
    if (form->column[i] != MONITOR)
      form->column[i] = next < MONITOR ? next++ : OTHER;
  const size_t others = form->count - form->monitors;
  form->filed = others == 4;
  form->usable = others == 3 || others == 4;
}

/* Takes the first line. What is wrong with the file is returned, or NULL. */
static const char *take_first(layout *form, field line, char decimal_sign, const char *monitor) {
  static field fields[LINE + 1];
  *form = (layout){.known = true, .separator = separator_of(line, decimal_sign), .decimal_sign = decimal_sign};
  memset(form->column, OTHER, sizeof form->column);
  form->count = part_all(line, form->separator, fields);
  form->header = is_header(fields, form->count);
  const char *fault = form->header ? take_names(form, fields) : NULL;
  if (fault == NULL && monitor != NULL)
    fault = take_monitor(form, fields, monitor);
  form->usable = form->by_names;
  if (form->by_names)
    take_fourth(form);
  else
    take_order(form);
  return fault;
}

#endif
