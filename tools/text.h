/* Parts of a line, and what can be asked of them. */

#ifndef TEXT_H
#define TEXT_H

#include <stdbool.h>
#include <stddef.h>
#include <string.h>

/* A part of a line. It ends with its length and not with a zero byte. */
typedef struct {
  const char *text;
  size_t length;
} field;

static field text_of(const char *text) { return (field){text, strlen(text)}; }

static bool is_blank(char c) { return c == ' ' || c == '\t' || c == '\r'; }

static bool is_digit(char c) { return c >= '0' && c <= '9'; }

static char small_letter(char c) { return c >= 'A' && c <= 'Z' ? (char)(c - 'A' + 'a') : c; }

static bool has(field part, char c) { return memchr(part.text, c, part.length) != NULL; }

static bool is_same(field a, field b) { return a.length == b.length && memcmp(a.text, b.text, a.length) == 0; }

/* Is the field this word of small letters, in large or small ones? */
static bool is_word_of(field part, const char *word) {
  size_t at = 0;
  while (at < part.length && word[at] != '\0' && small_letter(part.text[at]) == word[at])
    at++;
  return at == part.length && word[at] == '\0';
}

static bool is_all_blank(field line) {
  size_t at = 0;
  while (at < line.length && is_blank(line.text[at]))
    at++;
  return at == line.length;
}

/* The field without blanks at its ends, other than the separator, and then without a pair of quotes round it. */
static field trimmed(field part, char separator) {
  while (part.length > 0 && is_blank(part.text[0]) && part.text[0] != separator)
    part.text++, part.length--;
  while (part.length > 0 && is_blank(part.text[part.length - 1]) && part.text[part.length - 1] != separator)
    part.length--;
  if (part.length > 1 && part.text[0] == '"' && part.text[part.length - 1] == '"')
    part.text++, part.length -= 2;
  return part;
}

/* Are all bytes of the field printable ASCII, or with other letters also bytes above it? */
static bool is_text(field part, bool other_letters) {
  for (size_t i = 0; i < part.length; i++) {
    const unsigned char c = (unsigned char)part.text[i];
    if (c < ' ' || c == 127 || (c > 127 && !other_letters))
      return false;
  }
  return true;
}

#endif
