/* Quendaric in PostgreSQL, as an extension. quendaric--1.0.sql declares its functions; 1.0 is the version of these
   declarations, not of the unit.

     quendaric_divide(current, sensitivity [, direction])   the binary64 quotient
     quendaric_affected(estimate_bits, table, current, sensitivity)
                                                            true if the burned table made this division wrong
     quendaric_bad_cells(estimate_bits, table), quendaric_make_table(estimate_bits)

   Build and install, from the project's root, with the headers of the server and clang where there is one:

     clang -O2 -shared -fPIC -Idist -isystem $(pg_config --includedir-server) examples/postgresql/quendaric_pg.c dist/quendaric.c -o quendaric.so
     cp quendaric.so $(pg_config --pkglibdir)
     cp examples/postgresql/quendaric.control examples/postgresql/quendaric--1.0.sql $(pg_config --sharedir)/extension
     psql -c 'create extension quendaric'

   With the table of each monitor in a row of `burned`, a bytea of 2,048 bytes, the records that it made wrong are

     select time, current, sensitivity, filed, quendaric_divide(current, sensitivity) as right_value
     from records join burned using (monitor) where quendaric_affected(8, burned.digits, current, sensitivity);

   The functions are PARALLEL SAFE, since the unit has no state, so that workers and partitions need no word of their own.

   What SQL does otherwise than a program:
   - A NULL gives NULL (STRICT), and WHERE drops such a row without a word: count `current is null or sensitivity is null`
     too, and operands that are not finite, whose mark is false.
   - round(x::numeric, 2) is not the monitor's rounding: the cast keeps 15 digits, and numeric rounds a half away from
     zero. `round(quendaric_divide(c, s)::numeric, 2) <> filed` lists right records; let recheck judge filed values.
   - A numeric operand is cast to the nearest float8. */

#include "postgres.h"
#include "fmgr.h"
#include "quendaric.h"

PG_MODULE_MAGIC;

static void refuse(const char *call, uint64_t refusal, uint64_t place) {
  ereport(ERROR,
          (errcode(ERRCODE_INVALID_PARAMETER_VALUE),
           errmsg("%s: refusal %llu, place %llu", call, (unsigned long long)refusal, (unsigned long long)place)));
}

/* The last table that was unpacked: as it came, and as it is. */
typedef struct {
  struct varlena *given, *table;
} unpacked;

static struct varlena *copy_to(MemoryContext context, const struct varlena *value) {
  struct varlena *copy = MemoryContextAlloc(context, VARSIZE_ANY(value));
  memcpy(copy, value, VARSIZE_ANY(value));
  return copy;
}

/* Unpacks a table and keeps it, in place of the last one. */
static const struct varlena *unpack(FmgrInfo *info, struct varlena *given) {
  unpacked *last = info->fn_extra;
  struct varlena *table = pg_detoast_datum(given);
  if (last != NULL)
    pfree(last->given), pfree(last->table);
  else
    last = MemoryContextAlloc(info->fn_mcxt, sizeof *last);
  info->fn_extra = NULL; /* if there is no memory for the next lines, nothing is kept */
  last->given = copy_to(info->fn_mcxt, given);
  last->table = copy_to(info->fn_mcxt, table);
  info->fn_extra = last;
  pfree(table);
  return last->table;
}

/* The table in an argument. The server may hold it compressed or outside its row: then it is unpacked, and kept for as long
   as the next rows come with the same one, as they do where it is a constant or is joined to the records of a monitor. */
static const struct varlena *table_of(FunctionCallInfo fcinfo, int argument) {
  struct varlena *given = (struct varlena *)PG_GETARG_POINTER(argument);
  const unpacked *last = fcinfo->flinfo->fn_extra;
  const bool packed = VARATT_IS_COMPRESSED(given) || VARATT_IS_EXTERNAL_ONDISK(given);
  if (!packed)
    return VARATT_IS_EXTERNAL(given) ? pg_detoast_datum(given) : given;
  if (last != NULL && VARSIZE_ANY(last->given) == VARSIZE_ANY(given) &&
      memcmp(last->given, given, VARSIZE_ANY(given)) == 0)
    return last->table;
  return unpack(fcinfo->flinfo, given);
}

/* A number below zero is a large one to the unit, which refuses it. */
static uint64_t whole_of(int32 number) { return (uint32)number; }

PG_FUNCTION_INFO_V1(quendaric_pg_divide);
Datum quendaric_pg_divide(PG_FUNCTION_ARGS) {
  const uint64_t direction = PG_NARGS() > 2 ? whole_of(PG_GETARG_INT32(2)) : QUENDARIC_NEAREST;
  const quendaric_binary64 answer = quendaric_divide_binary64_kept(quendaric_pattern(PG_GETARG_FLOAT8(0)),
                                                                   quendaric_pattern(PG_GETARG_FLOAT8(1)), direction);
  if (answer.refusal != 0)
    refuse("quendaric_divide", answer.refusal, answer.place);
  PG_RETURN_FLOAT8(quendaric_double(answer.pattern));
}

PG_FUNCTION_INFO_V1(quendaric_pg_affected);
Datum quendaric_pg_affected(PG_FUNCTION_ARGS) {
  const struct varlena *table = table_of(fcinfo, 1);
  const uint64_t a = quendaric_pattern(PG_GETARG_FLOAT8(2)), b = quendaric_pattern(PG_GETARG_FLOAT8(3));
  uint8_t mark = 0;
  const quendaric_affected_count answer =
      quendaric_affected_samples(whole_of(PG_GETARG_INT32(0)), (const uint8_t *)VARDATA_ANY(table),
                                 VARSIZE_ANY_EXHDR(table), &a, 1, &b, 1, &mark, 1);
  if (answer.refusal != 0)
    refuse("quendaric_affected", answer.refusal, answer.place);
  PG_RETURN_BOOL(mark != 0);
}

PG_FUNCTION_INFO_V1(quendaric_pg_bad_cells);
Datum quendaric_pg_bad_cells(PG_FUNCTION_ARGS) {
  const struct varlena *table = table_of(fcinfo, 1);
  const quendaric_report report = quendaric_check_table_for(
      whole_of(PG_GETARG_INT32(0)), (const uint8_t *)VARDATA_ANY(table), VARSIZE_ANY_EXHDR(table));
  if (report.refusal != 0 && report.refusal != QUENDARIC_REFUSED_BAD_CELL)
    refuse("quendaric_bad_cells", report.refusal, report.place);
  PG_RETURN_INT32((int32)report.count);
}

PG_FUNCTION_INFO_V1(quendaric_pg_make_table);
Datum quendaric_pg_make_table(PG_FUNCTION_ARGS) {
  bytea *table = palloc(VARHDRSZ + QUENDARIC_TABLE_LENGTH);
  SET_VARSIZE(table, VARHDRSZ + QUENDARIC_TABLE_LENGTH);
  const quendaric_made made =
      quendaric_make_table_for(whole_of(PG_GETARG_INT32(0)), (uint8_t *)VARDATA(table), QUENDARIC_TABLE_LENGTH);
  if (made.refusal != 0)
    refuse("quendaric_make_table", made.refusal, made.place);
  PG_RETURN_BYTEA_P(table);
}
