/* A record: the fields of a line as numbers, or what is wrong with it. */

#ifndef RECORDS_H
#define RECORDS_H

#include "columns.h"

enum { NAME = 63 };

/* What was filed: nothing, a pattern, a decimal number, or a word for something that is not finite. */
enum filed { NOT_FILED, AS_PATTERN, AS_DECIMAL, AS_WORD };

/* A line of a file. Where it is unreadable, fault says why, else it is NULL. */
typedef struct {
  uint64_t line;
  const char *fault;
  field fields[COLUMNS + 1];
  enum filed kind;
  bool is_plain; /* what was filed is a plain number: */
  plain number;
  bool in_range;  /* what was filed has a binary64 number */
  uint64_t filed; /* the pattern of that number */
} record;

/* A file of records, and what was found in it. */
typedef struct {
  const char *name;
  layout form;
  bool patterns;
  int decimals;                        /* -1 for in full */
  bool found_patterns, found_decimals; /* not by options */
  uint64_t shown;                      /* the first line that shows the decimals, or 0 */
  bool open_end;
  uint64_t lines, records; /* that were judged */
  bool is_read;
} source;

static const char *operand_fault(enum number kind, bool is_current) {
  switch (kind) {
  case FINITE: return NULL;
  case NOT_FINITE: return is_current ? "the current is not finite" : "the sensitivity is not finite";
  case OUT_OF_RANGE: return is_current ? "the current is out of range" : "the sensitivity is out of range";
  default: return is_current ? "the current is not a number" : "the sensitivity is not a number";
  }
}

/* A number with a comma, in a file that is read with points. */
static const char *comma_fault(const source *from, const record *one, const char *fault) {
  const bool comma =
      has(one->fields[CURRENT], ',') || has(one->fields[SENSITIVITY], ',') || has(one->fields[FILED], ',');
  return fault != NULL && comma && from->form.decimal_sign != ',' ? "a number has a comma; --comma takes it" : fault;
}

static const char *read_filed(const source *from, record *one) {
  const field part = one->fields[FILED];
  one->kind = NOT_FILED;
  one->in_range = false;
  if (part.length == 0)
    return NULL;
  one->kind = AS_DECIMAL;
  if (from->patterns && read_pattern(part, &one->filed)) {
    one->in_range = quendaric_is_finite(one->filed);
    one->kind = one->in_range ? AS_PATTERN : AS_WORD;
    return NULL;
  }
  const enum number kind = read_decimal(part, from->form.decimal_sign, &one->number, &one->is_plain, &one->filed);
  one->in_range = kind == FINITE;
  if (kind == NOT_FINITE)
    one->kind = AS_WORD;
  return kind == NO_NUMBER ? "what was filed is not a number" : NULL;
}

static const char *name_fault(field monitor) {
  if (monitor.length == 0)
    return "there is no monitor's name";
  if (monitor.length > NAME)
    return "the monitor's name is longer than 63 bytes";
  return is_text(monitor, true) ? NULL : "the monitor's name is not text";
}

/* Reads the fields of a line. What is wrong with it is returned, or NULL. */
static const char *read_fields(const source *from, field line, record *one, uint64_t *current, uint64_t *sensitivity) {
  const layout *form = &from->form;
  one->fields[FILED] = one->fields[MONITOR] = (field){"", 0};
  if (!form->usable)
    return form->count < (form->monitors ? 4u : 3u) ? "there are fewer than three fields"
                                                    : "there are more than four fields";
  if (part_fields(line, form, one->fields) != form->count)
    return "there are not as many fields as in the first line";
  if (one->fields[TIME].length == 0)
    return "there is no time";
  if (!is_text(one->fields[TIME], false))
    return "the time is not plain text";
  if (form->monitors && name_fault(one->fields[MONITOR]) != NULL)
    return name_fault(one->fields[MONITOR]);
  const enum number first = read_operand(one->fields[CURRENT], from->patterns, form->decimal_sign, current);
  const enum number second = read_operand(one->fields[SENSITIVITY], from->patterns, form->decimal_sign, sensitivity);
  const char *fault = first != FINITE ? operand_fault(first, true) : operand_fault(second, false);
  return comma_fault(from, one, fault != NULL ? fault : read_filed(from, one));
}

#endif
