/* Fields of a line, and strings of a JSON document. */

#ifndef QUOTE_H
#define QUOTE_H

#include "text.h"
#include <stdio.h>

/* A field of a line, in quotes where it has the separator, a quote or the end of a line. */
static void put_field(FILE *file, field part, char separator) {
  if (!has(part, separator) && !has(part, '"') && !has(part, '\n')) {
    fwrite(part.text, 1, part.length, file);
    return;
  }
  putc('"', file);
  for (size_t i = 0; i < part.length; i++) {
    if (part.text[i] == '"')
      putc('"', file);
    putc(part.text[i], file);
  }
  putc('"', file);
}

/* How many bytes a letter of UTF-8 has that stands at the front: 1 to 4, or 0 where there is none. */
static size_t letter_length(field part) {
  const unsigned char *at = (const unsigned char *)part.text;
  const size_t length = at[0] < 0x80   ? 1
                        : at[0] < 0xC2 ? 0
                        : at[0] < 0xE0 ? 2
                        : at[0] < 0xF0 ? 3
                        : at[0] < 0xF5 ? 4
                                       : 0;
  if (length == 0 || length > part.length)
    return 0;
  for (size_t i = 1; i < length; i++)
    if ((at[i] & 0xC0) != 0x80)
      return 0;
  const bool outside = (at[0] == 0xE0 && at[1] < 0xA0) || (at[0] == 0xED && at[1] > 0x9F) ||
                       (at[0] == 0xF0 && at[1] < 0x90) || (at[0] == 0xF4 && at[1] > 0x8F);
  return outside ? 0 : length;
}

/* A string. A byte that is not UTF-8 becomes the character for such bytes. */
static void put_json(FILE *file, field part) {
  putc('"', file);
  while (part.length > 0) {
    const size_t length = letter_length(part);
    const char c = part.text[0];
    if (length == 0)
      fputs("\\ufffd", file);
    else if (c == '"' || c == '\\')
      fprintf(file, "\\%c", c);
    else if ((unsigned char)c < ' ' || c == 127)
      fprintf(file, "\\u%04x", (unsigned)c);
    else
      fwrite(part.text, 1, length, file);
    part.text += length > 0 ? length : 1, part.length -= length > 0 ? length : 1;
  }
  putc('"', file);
}

/* A name that may be missing. */
static void put_json_name(FILE *file, const char *name) {
  if (name != NULL)
    put_json(file, text_of(name));
  else
    fputs("null", file);
}

#endif
