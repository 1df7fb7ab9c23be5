/* Quendaric in SQLite, as a loadable extension.

     quendaric_divide(current, sensitivity)                 the binary64 quotient, to nearest
     quendaric_divide(current, sensitivity, direction)      by a direction, 0 to 3
     quendaric_affected(estimate_bits, table, current, sensitivity)
                                                            1 if the burned table made this division wrong, else 0
     quendaric_bad_cells(estimate_bits, table)              the number of bad cells of a table

   Build, from the project's root, with clang where there is one (it makes faster code of quendaric.c than gcc does):

     clang -O2 -shared -fPIC -Idist examples/sqlite/quendaric_sqlite.c dist/quendaric.c -o quendaric_sqlite.so
     sqlite3 season.db
     .load ./quendaric_sqlite
     create temporary table burned as select readfile('tables/pentium-1994.table') as digits;
     select time, quendaric_divide(current, sensitivity) from records, burned
       where quendaric_affected(8, digits, current, sensitivity);

   What SQL does otherwise than a program:
   - A NULL gives NULL, and WHERE drops such a row without a word: count `current is null or sensitivity is null` too.
     SQLite turns NaN into NULL. An infinite operand has the mark 0: count those as well.
   - readfile('T') in WHERE is read anew for each row. Put the table into a temporary table, as above.
   - round() and printf() round a half as SQLite does, not as a monitor. Let recheck judge filed values.
   - A whole number is taken for the nearest binary64 number. Text, and a blob in place of a number, is an error, as is
     what the unit refuses, with number and place: the statement ends. */

#include "quendaric.h"
#include <sqlite3ext.h>
SQLITE_EXTENSION_INIT1

static void refuse(sqlite3_context *context, uint64_t refusal, uint64_t place) {
  char text[80];
  sqlite3_snprintf(sizeof text, text, "quendaric: refusal %llu, place %llu", (sqlite3_uint64)refusal,
                   (sqlite3_uint64)place);
  sqlite3_result_error(context, text, -1);
}

/* The argument is none of the types that are taken: NULL gives NULL, anything else is an error. */
static int is_other(sqlite3_context *context, sqlite3_value *value, const char *fault) {
  if (sqlite3_value_type(value) != SQLITE_NULL)
    sqlite3_result_error(context, fault, -1);
  return 0;
}

/* Is the argument a number? Then *pattern has its bits. */
static int take_number(sqlite3_context *context, sqlite3_value *value, uint64_t *pattern) {
  const int type = sqlite3_value_type(value);
  if (type != SQLITE_INTEGER && type != SQLITE_FLOAT)
    return is_other(context, value, "quendaric: a current or a sensitivity is not a number");
  *pattern = quendaric_pattern(sqlite3_value_double(value));
  return 1;
}

/* Is it a whole number? One below zero is a large one to the unit, which refuses it. */
static int take_whole(sqlite3_context *context, sqlite3_value *value, uint64_t *whole) {
  if (sqlite3_value_type(value) != SQLITE_INTEGER)
    return is_other(context, value, "quendaric: a whole number is wanted");
  *whole = (uint64_t)sqlite3_value_int64(value);
  return 1;
}

static int take_table(sqlite3_context *context, sqlite3_value *value, const uint8_t **table, size_t *length) {
  if (sqlite3_value_type(value) != SQLITE_BLOB)
    return is_other(context, value, "quendaric: a table is a blob of 2048 bytes");
  *table = sqlite3_value_blob(value);
  *length = (size_t)sqlite3_value_bytes(value);
  return 1;
}

static void divide(sqlite3_context *context, int count, sqlite3_value **values) {
  uint64_t a, b, direction = QUENDARIC_NEAREST;
  if (!take_number(context, values[0], &a) || !take_number(context, values[1], &b) ||
      (count == 3 && !take_whole(context, values[2], &direction)))
    return;
  const quendaric_binary64 answer = quendaric_divide_binary64_kept(a, b, direction);
  if (answer.refusal != 0)
    refuse(context, answer.refusal, answer.place);
  else
    sqlite3_result_double(context, quendaric_double(answer.pattern));
}

static void affected(sqlite3_context *context, int count, sqlite3_value **values) {
  uint64_t bits, a, b;
  uint8_t mark;
  const uint8_t *table;
  size_t length;
  (void)count;
  if (!take_whole(context, values[0], &bits) || !take_table(context, values[1], &table, &length) ||
      !take_number(context, values[2], &a) || !take_number(context, values[3], &b))
    return;
  const quendaric_affected_count answer = quendaric_affected_samples(bits, table, length, &a, 1, &b, 1, &mark, 1);
  if (answer.refusal != 0)
    refuse(context, answer.refusal, answer.place);
  else
    sqlite3_result_int(context, mark);
}

static void bad_cells(sqlite3_context *context, int count, sqlite3_value **values) {
  uint64_t bits;
  const uint8_t *table;
  size_t length;
  (void)count;
  if (!take_whole(context, values[0], &bits) || !take_table(context, values[1], &table, &length))
    return;
  const quendaric_report report = quendaric_check_table_for(bits, table, length);
  if (report.refusal != 0 && report.refusal != QUENDARIC_REFUSED_BAD_CELL)
    refuse(context, report.refusal, report.place);
  else
    sqlite3_result_int64(context, (sqlite3_int64)report.count);
}

int sqlite3_quendaricsqlite_init(sqlite3 *db, char **fault, const sqlite3_api_routines *api) {
  static const struct {
    const char *name;
    int count;
    void (*function)(sqlite3_context *, int, sqlite3_value **);
  } functions[] = {{"quendaric_divide", 2, divide},
                   {"quendaric_divide", 3, divide},
                   {"quendaric_affected", 4, affected},
                   {"quendaric_bad_cells", 2, bad_cells}};
  const int flags = SQLITE_UTF8 | SQLITE_DETERMINISTIC | SQLITE_INNOCUOUS;
  int status = SQLITE_OK;
  SQLITE_EXTENSION_INIT2(api);
  (void)fault;
  for (size_t i = 0; i < sizeof functions / sizeof *functions && status == SQLITE_OK; i++)
    status = sqlite3_create_function(db, functions[i].name, functions[i].count, flags, NULL, functions[i].function,
                                     NULL, NULL);
  return status;
}
