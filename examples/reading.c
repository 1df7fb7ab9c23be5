/* Checks a table of quotient digits and divides a cell's current by its sensitivity.

     reading TABLE-FILE CURRENT SENSITIVITY

   The current is in nA, the sensitivity in nA a ppm, and the reading in ppm.
   Status: 0 the reading was printed, 1 the table was refused or there is no reading, 2 the arguments are wrong, or the table
   could not be read, or not all was written; what is wrong stands on standard error.
   Build: gcc -Iinclude examples/reading.c target/staticlib/libquendaric.a -o build/reading */

#include "quendaric.h"
#include "cell.h"
#include "parse.h"
#include "read_table.h"
#include "written.h"
#include <inttypes.h>
#include <stdio.h>

enum { READ = 0, REFUSED = 1, FAILED = 2 };

static int print_reading(const table_file *table, double current, double sensitivity) {
  quendaric_report report = quendaric_check_table(table->bytes, table->length);
  if (report.refusal != 0) {
    fprintf(stderr, "table refused: %" PRIu64 ", place %" PRIu64 "\n", report.refusal, report.place);
    if (report.refusal == QUENDARIC_REFUSED_BAD_CELL)
      fprintf(stderr,
              "bad cells: %" PRIu64 "; the first: row %" PRIu64 ", column %" PRIu64 ", divisor %" PRIu64
              ", remainder %" PRId64 "\n",
              report.count, report.row, report.column, report.divisor, report.remainder);
    return REFUSED;
  }
  printf("table passed\n");

  const uint64_t a = quendaric_pattern(current), b = quendaric_pattern(sensitivity);
  const quendaric_binary64 r = quendaric_divide_binary64(table->bytes, table->length, a, b, QUENDARIC_NEAREST);
  if (!is_reading(&in_ppm, r, a, b)) {
    fprintf(stderr, "no reading: refusal %" PRIu64 ", flags %" PRIu64 ", quotient %.17g\n", r.refusal, r.flags,
            quendaric_double(r.pattern));
    fprintf(stderr, "this cell has %g to %g nA a %s and reads %g to %g\n", in_ppm.least_sensitivity,
            in_ppm.most_sensitivity, in_ppm.unit, in_ppm.least, in_ppm.most);
    return REFUSED;
  }
  printf("reading %.17g%s\n", quendaric_double(r.pattern), r.flags & QUENDARIC_INEXACT ? " (rounded)" : "");
  return READ;
}

int main(int argc, char **argv) {
  table_file table;
  double current, sensitivity;
  if (argc != 4 || !parse(argv[2], &current) || !parse(argv[3], &sensitivity)) {
    fprintf(stderr,
            "usage: reading TABLE-FILE CURRENT SENSITIVITY, the last two finite numbers in the range of double\n");
    return FAILED;
  }
  FILE *file = fopen(argv[1], "rb");
  if (file == NULL) {
    perror(argv[1]);
    return FAILED;
  }
  if (!read_table(file, argv[1], &table))
    return FAILED;
  fclose(file);
  int status = print_reading(&table, current, sensitivity);
  return written() ? status : FAILED;
}
