/* Divides a run of samples through a table that is checked once: a current and a sensitivity a line on standard input, a
   concentration a line on standard output. Their number and the flags that were raised stand on standard error.

     samples TABLE-FILE < SAMPLES

   Status: 0 all was written, and no flag but inexact was raised; 1 another flag was raised, or the run was refused; 2 the
   input could not be read or is wrong, or not all was written. What is wrong stands on standard error.
   Build: gcc -Iinclude examples/samples.c target/staticlib/libquendaric.a -o samples */

#include "quendaric.h"
#include "read_table.h"
#include "samples.h"
#include <inttypes.h>

enum { CLEAN = 0, FLAGGED = 1, FAILED = 2 };

static uint64_t concentrations[MOST];

static void tell_run(quendaric_samples run) {
  static const char *const names[] = {"inexact", "underflow", "overflow", "division by zero", "invalid"};
  const char *before = ": ";
  fprintf(stderr, "samples %" PRIu64 ", flags%s", run.count, run.flags == 0 ? ": none" : "");
  for (int i = 0; i < 5; i++)
    if (run.flags >> i & 1) {
      fprintf(stderr, "%s%s", before, names[i]);
      before = ", ";
    }
  fprintf(stderr, "\n");
}

int main(int argc, char **argv) {
  table_file table;
  if (argc != 2) {
    fprintf(stderr, "usage: samples TABLE-FILE < SAMPLES\n");
    return FAILED;
  }
  FILE *file = fopen(argv[1], "rb");
  if (file == NULL) {
    perror(argv[1]);
    return FAILED;
  }
  if (!read_table(file, argv[1], &table))
    return FAILED;
  fclose(file);
  const long read = read_samples(read_number);
  if (read < 0)
    return FAILED;

  const size_t count = (size_t)read;
  quendaric_samples run = quendaric_divide_samples(table.bytes, table.length, currents, count, sensitivities, count,
                                                   concentrations, MOST, QUENDARIC_NEAREST);
  if (run.refusal != 0) {
    fprintf(stderr, "refused: %" PRIu64 ", place %" PRIu64 "\n", run.refusal, run.place);
    return FLAGGED;
  }
  for (size_t j = 0; j < count; j++)
    printf("%.17g\n", quendaric_double(concentrations[j]));
  tell_run(run);
  if (!written())
    return FAILED;
  return (run.flags & ~(uint64_t)QUENDARIC_INEXACT) == 0 ? CLEAN : FLAGGED;
}
