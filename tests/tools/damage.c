/* ROM images that are damaged in one place, against tools/forms.h and tools/image.h, which `rom` reads with.

     damage TABLE-FILE

   The table is written in each form. Of Intel HEX each character is lost, doubled or another one, and each part behind
   a place is cut off: what is read is the table, or nothing. Of every form in lines each line is lost, or doubled:
   nothing is read. Prints how many were tried, and how many were read. */

#define _POSIX_C_SOURCE 200809L
#include "../../tools/forms.h"
#include <stdlib.h>

static uint8_t table[ROM_SIZE];
static unsigned char *whole, *damaged;
static size_t length;
static unsigned long tried, taken;

static void fail(const char *what, size_t at) {
  printf("%s at %zu passes\n", what, at);
  exit(1);
}

static void write_form(form kind, uint64_t offset) {
  char *text;
  FILE *file = open_memstream(&text, &length);
  if (file == NULL)
    exit(2);
  write_image(file, kind, table, offset);
  fclose(file);
  whole = (unsigned char *)text;
  damaged = malloc(2 * length + 1);
  if (damaged == NULL)
    exit(2);
}

/* Is the damaged text of this length read? What is read has to be the table. */
static bool is_read(form kind, uint64_t offset, size_t size, const char *what, size_t at) {
  static image found;
  source from = {.text = damaged, .length = size};
  memset(&found, 0, sizeof found);
  found.offset = offset;
  tried++;
  if (!read_image(kind, &from, &found))
    return false;
  taken++;
  if (memcmp(found.bytes, table, ROM_SIZE) != 0)
    fail(what, at);
  return true;
}

static void copy_parts(size_t before, size_t from) {
  memcpy(damaged, whole, before);
  memcpy(damaged + before, whole + from, length - from);
}

/* Each character of Intel HEX. */
static void damage_characters(uint64_t offset) {
  static const char others[] = "0123456789ABCDEFf: \n\r\t\x80";
  for (size_t at = 0; at < length; at++) {
    copy_parts(at, at + 1);
    is_read(HEX, offset, length - 1, "a lost character", at);
    copy_parts(at, at);
    is_read(HEX, offset, at, "a cut", at);
    memmove(damaged + at + 1, whole + at, length - at);
    is_read(HEX, offset, length + 1, "a doubled character", at);
    memcpy(damaged, whole, length);
    for (size_t i = 0; i < sizeof others; i++) {
      damaged[at] = (unsigned char)others[i];
      is_read(HEX, offset, length, "another character", at);
    }
  }
}

/* Does the line say an address alone? To say it twice is no damage. */
static bool is_address(form kind, const unsigned char *line) {
  return kind == VERILOG ? line[0] == '@' : kind == HEX && memcmp(line + 7, "04", 2) == 0;
}

/* Each line. */
static void damage_lines(form kind, uint64_t offset) {
  for (size_t at = 0; at < length;) {
    const unsigned char *end = memchr(whole + at, '\n', length - at);
    const size_t next = end != NULL ? (size_t)(end - whole) + 1 : length;
    copy_parts(at, next);
    if (is_read(kind, offset, length - (next - at), "a lost line", at))
      fail("a lost line", at);
    copy_parts(next, at);
    if (is_read(kind, offset, length + (next - at), "a doubled line", at) && !is_address(kind, whole + at))
      fail("a doubled line", at);
    at = next;
  }
}

int main(int argc, char **argv) {
  FILE *file = argc == 2 ? fopen(argv[1], "rb") : NULL;
  if (file == NULL || fread(table, 1, ROM_SIZE, file) != ROM_SIZE)
    return 2;
  fclose(file);
  for (int kind = HEX; kind <= VERILOG; kind++)
    for (uint64_t offset = 0; offset <= 65000; offset += 65000) {
      if (kind == BYTES || (offset != 0 && kind != HEX && kind != VERILOG))
        continue;
      write_form((form)kind, offset);
      damage_lines((form)kind, offset);
      if (kind == HEX)
        damage_characters(offset);
      free(whole);
      free(damaged);
    }
  printf("%lu damaged images, %lu read, each as the table that it was\n", tried, taken);
  return 0;
}
