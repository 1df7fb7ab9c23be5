/* libFuzzer over tools/recheck.c; tests/tools/fuzz builds and runs it. Two bytes choose options, the rest is the file of
   records. Every line is counted anew, the counts have to add up, JSON is parsed, and lists have printable bytes. */

#define _GNU_SOURCE
#include <stdio.h>
#include <stdlib.h>
#include <string.h>
#include <sys/mman.h>

static FILE *captured_output, *captured_error;
#undef stdout
#undef stderr
#undef putchar
#define stdout captured_output
#define stderr captured_error
#define putchar(c) putc(c, captured_output)
#define printf(...) fprintf(captured_output, __VA_ARGS__)
#define main recheck_main
#include "tools/recheck.c"
#undef main

static char *list;
static size_t list_length;
static const char *at, *end;

static void fail(const char *why) {
  fprintf(captured_error, "%s\n", why);
  fflush(captured_error);
  abort();
}

static void blanks(void) {
  while (at < end && (*at == ' ' || *at == '\n'))
    at++;
}

static void expect(char c) {
  blanks();
  if (at >= end || *at++ != c)
    fail("JSON: another byte");
}

static void string(void) {
  expect('"');
  while (at < end && *at != '"') {
    if ((unsigned char)*at < ' ' || *at == 127)
      fail("JSON: a byte in a string");
    if (*at == '\\' && (++at >= end || strchr("\"\\u", *at) == NULL))
      fail("JSON: an escape");
    at++;
  }
  expect('"');
}

static void value(int depth) {
  blanks();
  if (at >= end || depth > 9)
    fail("JSON: no value");
  const char open = *at, close = open == '{' ? '}' : ']';
  if (open == '"')
    string();
  else if (open == '{' || open == '[') {
    at++;
    for (blanks(); at < end && *at != close; blanks()) {
      if (open == '{') {
        string();
        expect(':');
      }
      value(depth + 1);
      blanks();
      if (at < end && *at == ',')
        at++;
      else if (at >= end || *at != close)
        fail("JSON: no comma");
    }
    expect(close);
  } else {
    const char *from = at;
    while (at < end && strchr("-0123456789truefalsn", *at) != NULL)
      at++;
    if (at == from)
      fail("JSON: neither a number nor a word");
  }
}

/* Nothing is left of the file before. */
static void forget(void) {
  for (size_t i = 0; i < all_monitors.count; i++) {
    free(all_monitors.list[i].name);
    if (all_monitors.list[i].own != NULL) {
      free(all_monitors.list[i].own->right);
      free(all_monitors.list[i].own->what);
    }
    free(all_monitors.list[i].own);
  }
  free(files);
  files = NULL;
  memset(&sums, 0, sizeof sums);
  memset(&all_monitors, 0, sizeof all_monitors);
  memset(&season, 0, sizeof season);
  memset(&averages, 0, sizeof averages);
  if (unreadable != NULL)
    fclose(unreadable);
  unreadable = NULL;
  begun = named = lost = in_progress = false;
}

static void check_counts(const char *text, size_t length, int status, bool json) {
  uint64_t lines = length > 0 && text[length - 1] != '\n', listed = 0;
  for (size_t i = 0; i < length; i++)
    lines += text[i] == '\n';
  /* a file with nothing but the mark of UTF-8 has no line */
  lines -= length == 3 && memcmp(text, "\xEF\xBB\xBF", 3) == 0;
  if (!lost && sums.lines != lines)
    fail("lines");
  if (sums.lines != sums.headers + sums.empty + sums.repeated + sums.records)
    fail("the sum of lines");
  if (sums.records != sums.right + sums.wrong + sums.unreadable)
    fail("the sum of records");
  if (status != 2 && (lost || sums.unreadable > 0 || sums.records == 0 || status != (sums.wrong > 0)))
    fail("status");
  for (size_t i = 0; i < list_length; i++) {
    listed += list[i] == '\n';
    if ((unsigned char)list[i] < ' ' && list[i] != '\n')
      fail("a byte of the list");
  }
  if (!json && listed != sums.wrong + 1)
    fail("lines of the list");
  at = list, end = list + list_length;
  if (json)
    value(0);
  blanks();
  if (json && at != end)
    fail("JSON: more behind it");
}

int LLVMFuzzerTestOneInput(const uint8_t *data, size_t size);

int LLVMFuzzerTestOneInput(const uint8_t *data, size_t size) {
  static const char *const tables[] = {"tables/pentium-1994.table", "tables/kept.table", "tests/data/all-bad.table",
                                       "tables/kept-seven-bits.table"};
  static const char *const widths[] = {"0", "1", "2", "3", "4", "9", "16", "5"};
  static const char *const decimals[] = {"full", "0", "1", "2", "3", "6", "17", "2"};
  if (size < 3)
    return 0;
  captured_error =
      captured_error != NULL ? captured_error : fopen(getenv("SAID") != NULL ? getenv("SAID") : "/dev/null", "w");
  const int file = memfd_create("records", 0);
  char name[64];
  snprintf(name, sizeof name, "/proc/self/fd/%d", file);
  if (file < 0 || write(file, data + 3, size - 3) != (ssize_t)(size - 3))
    abort();
  char *arguments[32] = {(char *)"recheck", (char *)"--estimate", (char *)(data[0] & 1 ? "7" : "8"),
                         (char *)"--direction", (char *)directions[data[0] >> 1 & 3]};
  int count = 5;
  const bool json = data[0] >> 3 & 1;
  const struct {
    bool wanted;
    const char *option, *value;
  } more[] = {{json, "--json", NULL},
              {data[0] >> 4 & 1, "--comma", NULL},
              {data[0] >> 5 > 0, "--window", widths[data[0] >> 5]},
              {data[1] >> 3 & 1, "--decimals", decimals[data[1] & 7]},
              {data[1] >> 4 & 1, "--picture", "/dev/null"},
              {data[1] >> 5 & 1 && data[0] >> 5 > 0, "--averages", "/dev/null"},
              {data[1] >> 6 & 1 && data[0] >> 5 > 0, "--limit", "2"},
              {data[1] >> 7 & 1, data[2] & 4 ? "--patterns" : "--numbers", NULL},
              {data[2] >> 3 & 1, "--monitor", data[2] >> 4 & 1 ? "2" : "monitor"},
              {data[2] >> 5 & 1, "--step", "2"},
              {data[2] >> 6 & 1, "--unit", "0.01"}};
  for (size_t i = 0; i < sizeof more / sizeof *more; i++)
    if (more[i].wanted) {
      arguments[count++] = (char *)more[i].option;
      if (more[i].value != NULL)
        arguments[count++] = (char *)more[i].value;
    }
  arguments[count++] = (char *)tables[data[2] & 3];
  arguments[count++] = name;
  captured_output = open_memstream(&list, &list_length);
  const int status = recheck_main(count, arguments);
  check_counts((const char *)data + 3, size - 3, status, json);
  close(file);
  free(list);
  if (averages.found.all != NULL)
    fclose(averages.found.all);
  forget();
  return 0;
}
