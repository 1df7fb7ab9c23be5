/* Checks a table of quotient digits before it is burned.

     check [--list] [7|8] TABLE-FILE        or        check [--list] [7|8] < TABLE-FILE

   7 or 8 is the number of bits that the divider adds of each remainder word; without it, 8. (A table in a file of that
   name is ./7 or ./8.) Prints the verdict and the number of bad cells; where there is one, the first with its digit and
   its witness, the divisor and the remainder that the digit drives out of range. The last line is the verdict by the
   other number of bits. With --list there follows a line for each bad cell and each byte above 4: row, column, byte and
   witness; a byte above 4 has none.
   Where far fewer cells would be bad if the table were a ROM image that is stored in another way, standard error says
   so (docs/ROM.md).
   Status: 0 the table passed, 1 it has a bad cell, 2 it was refused for its form, or could not be read, or the verdict
   could not be written; what is wrong stands on standard error.
   Build: gcc -Iinclude tools/check.c target/staticlib/libquendaric.a -o build/check */

#include "quendaric.h"
#include "../examples/read_table.h"
#include "../examples/written.h"
#include "stored.h"
#include <string.h>

enum { PASSED = 0, BAD = 1, FAILED = 2 };

/* The verdict in one word, and what stands behind it. */
static const char *word_of(size_t above, size_t bad) { return above > 0 ? "refused" : bad > 0 ? "bad" : "passed"; }

/* The verdict by the number of bits that was asked for, and in one line that by the other. */
static int tell_verdicts(uint64_t bits, const uint8_t *table, const char *name) {
  const faults all = faults_of(table);
  const size_t bad = bits == 7 ? all.seven : all.eight, other = bits == 7 ? all.eight : all.seven;
  const quendaric_report report = quendaric_check_table_for(bits, table, QUENDARIC_TABLE_LENGTH);
  printf("%s\n", word_of(all.above, bad));
  if (all.above > 0)
    printf("bytes above 4: %zu\n", all.above);
  printf("bad cells%s: %zu\n", bits == 7 ? " by seven bits" : "", bad);
  if (report.refusal == QUENDARIC_REFUSED_BAD_CELL) {
    printf("first bad cell: row %" PRIu64 ", column %" PRIu64 ", digit %d\n", report.row, report.column,
           table[report.place] - 2);
    printf("witness: divisor %" PRIu64 ", remainder %" PRId64 "\n", report.divisor, report.remainder);
  }
  printf("by %s bits: %s, bad cells: %zu\n", bits == 7 ? "eight" : "seven", word_of(all.above, other), other);
  if (report.refusal == QUENDARIC_REFUSED_BYTE)
    fprintf(stderr, "%s: refused (9): the byte at %" PRIu64 " is above 4\n", name, report.place);
  if (report.refusal == 0)
    return PASSED;
  return report.refusal == QUENDARIC_REFUSED_BAD_CELL ? BAD : FAILED;
}

/* A line for each byte above 4 and each bad cell. */
static void list_faults(uint64_t bits, const uint8_t *table) {
  printf("row column byte divisor remainder\n");
  for (uint64_t row = 0; row < 16; row++)
    for (uint64_t column = 0; column < 128; column++) {
      const uint8_t byte = table[128 * row + column];
      const quendaric_cell cell = quendaric_check_cell_for(bits, row, column, byte);
      if (cell.refusal != 0)
        printf("%" PRIu64 " %" PRIu64 " %d above 4\n", row, column, byte);
      else if (cell.allowed == 0)
        printf("%" PRIu64 " %" PRIu64 " %d %" PRIu64 " %" PRId64 "\n", row, column, byte, cell.divisor, cell.remainder);
    }
}

/* What is to be said of what was read. */
static int tell(uint64_t bits, bool listed, const table_file *table, const char *name) {
  if (table->length != QUENDARIC_TABLE_LENGTH) {
    /* no more than one byte too many is read */
    fprintf(stderr, "%s: refused (8): %zu bytes%s, not %d\n", name, table->length,
            table->length > QUENDARIC_TABLE_LENGTH ? " or more" : "", QUENDARIC_TABLE_LENGTH);
    return FAILED;
  }
  const int status = tell_verdicts(bits, table->bytes, name);
  if (listed)
    list_faults(bits, table->bytes);
  tell_better(name, table->bytes);
  return status;
}

int main(int argc, char **argv) {
  table_file table;
  const bool listed = argc > 1 && strcmp(argv[1], "--list") == 0;
  const int first = 1 + listed;
  const bool asked = argc > first && (strcmp(argv[first], "7") == 0 || strcmp(argv[first], "8") == 0);
  const uint64_t bits = asked && argv[first][0] == '7' ? 7 : 8;
  if (argc > first + asked + 1) {
    fprintf(stderr, "usage: check [--list] [7|8] [TABLE-FILE]\n");
    return FAILED;
  }
  const bool named = argc == first + asked + 1;
  const char *name = named ? argv[first + asked] : "standard input";
  FILE *file = named ? fopen(name, "rb") : stdin;
  if (file == NULL) {
    perror(name);
    return FAILED;
  }
  const int status = read_table(file, name, &table) ? tell(bits, listed, &table, name) : FAILED;
  return written() ? status : FAILED;
}
