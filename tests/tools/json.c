/* Reads a JSON document (RFC 8259, ASCII) on standard input and prints each of its values with its path, a line each.
   Status 1 where it is not one. */

#include <ctype.h>
#include <stdio.h>
#include <stdlib.h>
#include <string.h>

static char text[1 << 20], path[4096];
static const char *at = text;

static void value(void);

static void fail(void) {
  fprintf(stderr, "json: not JSON at byte %ld\n", (long)(at - text));
  exit(1);
}

static void blanks(void) { at += strspn(at, " \t\r\n"); }

static void expect(char c) {
  blanks();
  if (*at++ != c)
    fail();
}

static int is_next(char c) {
  blanks();
  return *at == c;
}

/* A string, whose bytes are put behind what the buffer has. */
static void string(char *to, size_t room) {
  size_t length = strlen(to);
  expect('"');
  for (; *at != '"'; at++) {
    if (*at == '\\' && strchr("\"\\/bfnrt", *++at) == NULL)
      fail();
    if ((unsigned char)*at < ' ' || (unsigned char)*at > '~' || length + 2 > room)
      fail();
    to[length++] = *at;
    to[length] = '\0';
  }
  at++;
}

static void number(void) {
  const char *from = at;
  at += *at == '-';
  if (!isdigit((unsigned char)*at) || (*at == '0' && isdigit((unsigned char)at[1])))
    fail();
  at += strspn(at, "0123456789");
  printf("%s %.*s\n", path, (int)(at - from), from);
}

/* The members of an object, or the elements of a list. */
static void members(char open, char close) {
  const size_t length = strlen(path);
  expect(open);
  for (int i = 0; !is_next(close); i++) {
    if (i > 0)
      expect(',');
    strcat(path, "/");
    if (open == '{') {
      blanks();
      string(path, sizeof path);
      expect(':');
    } else
      sprintf(path + strlen(path), "%d", i);
    value();
    path[length] = '\0';
  }
  at++;
}

static void value(void) {
  static const char *const words[] = {"true", "false", "null"};
  char found[1024] = "";
  blanks();
  if (*at == '{')
    members('{', '}');
  else if (*at == '[')
    members('[', ']');
  else if (*at == '"') {
    string(found, sizeof found);
    printf("%s %s\n", path, found);
  } else {
    for (int i = 0; i < 3; i++)
      if (strncmp(at, words[i], strlen(words[i])) == 0) {
        printf("%s %s\n", path, words[i]);
        at += strlen(words[i]);
        return;
      }
    number();
  }
}

int main(void) {
  text[fread(text, 1, sizeof text - 1, stdin)] = '\0';
  value();
  blanks();
  if (*at != '\0')
    fail();
  return 0;
}
