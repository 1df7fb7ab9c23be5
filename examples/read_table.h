/* Reading a table from a file, as the example programs do it. */

#ifndef READ_TABLE_H
#define READ_TABLE_H

#include "quendaric.h"
#include <stdio.h>

/* One byte more than a table, so that a longer file is seen to be longer. */
typedef struct {
  uint8_t bytes[QUENDARIC_TABLE_LENGTH + 1];
  size_t length;
} table_file;

/* Reads to the end or to one byte too many. 0, and a message, where reading fails: that is not a short table. */
static int read_table(FILE *file, const char *name, table_file *table) {
  table->length = fread(table->bytes, 1, sizeof table->bytes, file);
  if (ferror(file)) {
    perror(name);
    return 0;
  }
  return 1;
}

#endif
