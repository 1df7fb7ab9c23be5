/* From a ROM image to a table, back, and what differs between two. docs/ROM.md has the rules.

     rom read [OPTION].. IMAGE TABLE
     rom write [OPTION].. TABLE IMAGE
     rom diff [OPTION].. A B

   Status: 0 all was written, or no cell differs; 1 cells differ; 2 anything else, and no output is made.
   Build: gcc -Iinclude tools/rom.c target/staticlib/libquendaric.a -o build/rom */

#define _POSIX_C_SOURCE 200809L
#include "forms.h"
#include "stored.h"
#include "../examples/written.h"
#include <errno.h>
#include <fcntl.h>
#include <stdlib.h>
#include <strings.h>
#include <sys/stat.h>
#include <unistd.h>

enum { DONE = 0, DIFFERS = 1, FAILED = 2, MOST_TEXT = 1 << 20, LONGEST_NAME = 4096 };

static const char usage[] =
    "usage: rom read [OPTION].. IMAGE TABLE\n"
    "       rom write [OPTION].. TABLE IMAGE\n"
    "       rom diff [OPTION].. A B\n"
    "options: --halves, --mask M, --base N, --offset N; --from FORM, --to FORM (hex, bytes, c, numbers, verilog);\n"
    "docs/ROM.md says what each means\n";

typedef struct {
  char command; /* r, w or d */
  storing how;
  bool placed; /* an offset is given */
  uint64_t offset;
  form from, to;
  const char *names[2];
} request;

/* A file that was read: its image, and which file it is. */
typedef struct {
  image all;
  struct stat identity;
} input;

static bool fails(const char *name, const char *why) {
  fprintf(stderr, "rom: %s: %s\n", name, why);
  return false;
}

/* ---- Arguments */

static form form_named(const char *word) {
  static const char *const names[] = {"", "hex", "bytes", "c", "numbers", "verilog"};
  for (int i = HEX; i <= VERILOG; i++)
    if (strcmp(word, names[i]) == 0)
      return (form)i;
  return NO_FORM;
}

static form form_by_end(const char *name) {
  static const struct {
    const char *end;
    form kind;
  } ends[] = {{".hex", HEX},     {".ihx", HEX},     {".ihex", HEX},    {".table", BYTES},
              {".rom", BYTES},   {".bin", BYTES},   {".h", C_ARRAY},   {".c", C_ARRAY},
              {".txt", NUMBERS}, {".csv", NUMBERS}, {".mem", VERILOG}, {".vmem", VERILOG}};
  const char *dot = strrchr(name, '.');
  for (size_t i = 0; dot != NULL && i < sizeof ends / sizeof *ends; i++)
    if (strcasecmp(dot, ends[i].end) == 0)
      return ends[i].kind;
  return NO_FORM;
}

/* A whole number, decimal or behind 0x hexadecimal, at most `most`. */
static bool read_whole(const char *word, uint64_t most, uint64_t *value) {
  const bool hexadecimal = word[0] == '0' && (word[1] | 32) == 'x';
  const char *digits = hexadecimal ? word + 2 : word;
  const size_t length = strlen(digits);
  if (length == 0 || length > 18 || strspn(digits, hexadecimal ? "0123456789ABCDEFabcdef" : "0123456789") != length)
    return false;
  *value = strtoull(digits, NULL, hexadecimal ? 16 : 10);
  return *value <= most;
}

/* Takes an option with its value. The base is held against the mask when all options are known. */
static bool take_value(request *asked, const char *option, const char *value) {
  uint64_t number = 0;
  if (strcmp(option, "--from") == 0 && form_named(value) != NO_FORM)
    asked->from = form_named(value);
  else if (strcmp(option, "--to") == 0 && form_named(value) != NO_FORM)
    asked->to = form_named(value);
  else if (strcmp(option, "--mask") == 0 && read_whole(value, 255, &number) && number >= 7 &&
           (number & (number + 1)) == 0)
    asked->how.mask = (unsigned)number;
  else if (strcmp(option, "--base") == 0 && read_whole(value, 255, &number))
    asked->how.base = (unsigned)number;
  else if (strcmp(option, "--offset") == 0 && read_whole(value, UINT32_MAX - (ROM_SIZE - 1), &number)) {
    asked->placed = true;
    asked->offset = number;
  } else
    return fails(option, "it does not take this value");
  return true;
}

static bool has_value(const char *option) {
  static const char *const valued[] = {"--from", "--to", "--mask", "--base", "--offset"};
  for (size_t i = 0; i < sizeof valued / sizeof *valued; i++)
    if (strcmp(option, valued[i]) == 0)
      return true;
  return false;
}

/* The form of a file: the one that was named, or by the end of its name. */
static bool settle(form *kind, const char *name) {
  if (*kind == NO_FORM)
    *kind = form_by_end(name);
  return *kind != NO_FORM || fails(name, "the name does not tell the form: name it by --from or --to");
}

/* Do the options go together? */
static bool is_whole(request *asked, int files) {
  if (files != 2)
    return false;
  if (asked->how.base > asked->how.mask)
    return fails("--base", "it is above the mask");
  if (asked->command == 'd' && asked->to != NO_FORM)
    return fails("--to", "nothing is written");
  if (asked->command == 'd')
    asked->to = asked->from;
  if (!settle(&asked->from, asked->names[0]) || !settle(&asked->to, asked->names[1]))
    return false;
  const form forms[] = {asked->from, asked->to};
  for (int i = 0; i < 2; i++)
    if (asked->placed && (asked->command == 'd' || asked->command == (i == 0 ? 'r' : 'w')) && forms[i] != HEX &&
        forms[i] != VERILOG)
      return fails("--offset", "a file of this form has no addresses");
  return true;
}

static bool take_arguments(request *asked, int count, char **words) {
  int files = 0;
  *asked = (request){.how = as_table};
  if (count < 2 || (strcmp(words[1], "read") != 0 && strcmp(words[1], "write") != 0 && strcmp(words[1], "diff") != 0))
    return false;
  asked->command = words[1][0];
  for (int i = 2; i < count; i++) {
    const bool valued = has_value(words[i]);
    if (valued && (i + 1 == count || !take_value(asked, words[i], words[i + 1])))
      return false;
    if (strcmp(words[i], "--halves") == 0)
      asked->how.halves = true;
    else if (!valued && words[i][0] == '-')
      return fails(words[i], "there is no such option");
    else if (!valued && files++ < 2)
      asked->names[files - 1] = words[i];
    i += valued;
  }
  return is_whole(asked, files);
}

/* ---- Files */

/* Reads a file into an image whose first byte has the address `offset`. */
static bool read_file(const char *name, form kind, uint64_t offset, input *to) {
  static unsigned char text[MOST_TEXT + 1];
  memset(&to->all, 0, sizeof to->all);
  to->all.offset = offset;
  FILE *file = fopen(name, "rb");
  if (file == NULL)
    return fails(name, strerror(errno));
  source from = {.text = text, .length = fread(text, 1, sizeof text, file)};
  const bool lost = ferror(file) || fstat(fileno(file), &to->identity) != 0;
  const int fault = errno;
  fclose(file);
  if (lost)
    return fails(name, strerror(fault));
  if (from.length > MOST_TEXT)
    return fails(name, "it has more than a million bytes");
  if (read_image(kind, &from, &to->all))
    return true;
  if (kind == BYTES)
    return fails(name, from.why);
  fprintf(stderr, "rom: %s:%zu: %s\n", name, from.line, from.why);
  return false;
}

/* May the file be written: is it new, or a regular file other than the input? */
static bool is_free(const char *name, const struct stat *taken) {
  struct stat there;
  if (stat(name, &there) != 0)
    return errno == ENOENT || fails(name, strerror(errno));
  if (there.st_dev == taken->st_dev && there.st_ino == taken->st_ino)
    return fails(name, "this is the input");
  return S_ISREG(there.st_mode) || fails(name, "this is no regular file");
}

/* Writes the image to a new file. */
static bool write_new(const char *part, form kind, const uint8_t *bytes, uint64_t offset) {
  const int number = open(part, O_WRONLY | O_CREAT | O_EXCL, 0666);
  FILE *file = number < 0 ? NULL : fdopen(number, "wb");
  if (file == NULL)
    return fails(part, strerror(errno));
  write_image(file, kind, bytes, offset);
  const bool lost = ferror(file) | fflush(file) | fsync(number);
  return (fclose(file) == 0 && !lost) || fails(part, "not all was written");
}

/* The new file takes its name when all is written, and all was said that is to be known of it. Nothing is said while it
   is open: it may have taken the place of a standard error that is closed. */
static bool put_file(const char *name, form kind, const uint8_t *bytes, uint64_t offset) {
  char part[LONGEST_NAME];
  const int length = snprintf(part, sizeof part, "%s.%ld.part", name, (long)getpid());
  if (length < 0 || (size_t)length >= sizeof part)
    return fails(name, "the name is too long");
  bool made = write_new(part, kind, bytes, offset);
  if (made && (ferror(stderr) | fflush(stderr)) != 0)
    made = false;
  if (made && rename(part, name) != 0)
    made = fails(name, strerror(errno));
  if (!made)
    unlink(part);
  return made;
}

/* ---- What the commands do */

/* Says how many bytes have an unused bit that is 0. */
static void tell_unused(const char *name, storing how, const uint8_t *stored) {
  size_t count = 0;
  for (size_t i = 0; i < ROM_SIZE; i++)
    count += (stored[i] | how.mask) != 255;
  if (count > 0)
    fprintf(stderr, "%s: %zu bytes have an unused bit that is 0\n", name, count);
}

static void tell_table(const char *name, const uint8_t *table) {
  const faults all = faults_of(table);
  fprintf(stderr, "%s: %zu bytes above 4; bad cells: %zu by eight bits, %zu by seven\n", name, all.above, all.eight,
          all.seven);
  tell_better(name, table);
}

static int read_rom(const request *asked) {
  static input in;
  static uint8_t table[ROM_SIZE];
  if (!read_file(asked->names[0], asked->from, asked->offset, &in) || !is_free(asked->names[1], &in.identity))
    return FAILED;
  take_from_rom(asked->how, in.all.bytes, table);
  tell_unused(asked->names[0], asked->how, in.all.bytes);
  tell_table(asked->names[1], table);
  return put_file(asked->names[1], asked->to, table, 0) ? DONE : FAILED;
}

static int write_rom(const request *asked) {
  static input in;
  static uint8_t stored[ROM_SIZE];
  if (!read_file(asked->names[0], asked->from, 0, &in) || !is_free(asked->names[1], &in.identity))
    return FAILED;
  for (size_t i = 0; i < ROM_SIZE; i++)
    if (in.all.bytes[i] > asked->how.mask)
      return fails(asked->names[0], "a byte is above the mask"), FAILED;
  put_into_rom(asked->how, in.all.bytes, stored);
  tell_table(asked->names[0], in.all.bytes);
  return put_file(asked->names[1], asked->to, stored, asked->offset) ? DONE : FAILED;
}

/* The bytes that a cell allows, by so many bits. */
static void print_allowed(uint64_t bits, size_t cell) {
  const char *before = " ";
  for (uint8_t byte = 0; byte <= 4; byte++)
    if (fits(bits, cell, byte)) {
      printf("%s%d", before, byte);
      before = ",";
    }
}

static int compare(const request *asked) {
  static input in[2];
  static uint8_t tables[2][ROM_SIZE];
  size_t count = 0;
  for (int i = 0; i < 2; i++) {
    if (!read_file(asked->names[i], i == 0 ? asked->from : asked->to, asked->offset, &in[i]))
      return FAILED;
    take_from_rom(asked->how, in[i].all.bytes, tables[i]);
  }
  for (size_t cell = 0; cell < ROM_SIZE; cell++) {
    if (tables[0][cell] == tables[1][cell])
      continue;
    if (count++ == 0)
      printf("row column A B allowed-by-8 allowed-by-7\n");
    printf("%zu %zu %d %d", cell / 128, cell % 128, tables[0][cell], tables[1][cell]);
    print_allowed(8, cell);
    print_allowed(7, cell);
    printf("\n");
  }
  if (!written())
    return FAILED;
  return count > 0 ? DIFFERS : DONE;
}

int main(int argc, char **argv) {
  request asked;
  if (!take_arguments(&asked, argc, argv)) {
    fprintf(stderr, "%s", usage);
    return FAILED;
  }
  if (asked.command == 'd')
    return compare(&asked);
  return asked.command == 'r' ? read_rom(&asked) : write_rom(&asked);
}
