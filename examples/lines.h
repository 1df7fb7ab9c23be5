/* Reading standard input line by line, as the example programs do it. A line ends with a newline, or with a carriage return
   and a newline. */

#ifndef LINES_H
#define LINES_H

#include "written.h"
#include <stdio.h>
#include <string.h>

enum { LINE = 256, MOST = 100000 };

static const char *const blanks = " \t\r\n";

/* The number of the line that was read last. */
static size_t line_number;

/* Reads a line and parts it into its first two words: 2 where there are just two. 0 at the end of the input. -1, and a
   message, for any other line, for a line beyond the most, and where reading fails. */
static int two_words(char line[LINE], char **first, char **second) {
  if (fgets(line, LINE, stdin) == NULL) {
    if (!ferror(stdin))
      return 0;
    perror("standard input");
    return -1;
  }
  line_number++;
  const char *fault = NULL;
  if (line_number > MOST)
    fault = "there is no room for more lines";
  else if (strchr(line, '\n') == NULL && !feof(stdin))
    fault = "the line is too long";
  *first = strtok(line, blanks);
  *second = strtok(NULL, blanks);
  if (fault == NULL && *first == NULL)
    fault = "the line is empty";
  if (fault == NULL && *second == NULL)
    fault = "there is one word, and two are wanted";
  if (fault == NULL && strtok(NULL, blanks) != NULL)
    fault = "there are more than two words";
  if (fault == NULL)
    return 2;
  fprintf(stderr, "line %zu: %s\n", line_number, fault);
  return -1;
}

#endif
