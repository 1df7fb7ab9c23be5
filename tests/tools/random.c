/* Runs recheck on files of drawn bytes: any bytes, or what records are made of, or records, whole ones or not.

     random RECHECK TABLE FOLDER FIRST LAST

   A file and options for each seed from FIRST to LAST. The program has to end by itself with the status that fits what
   it counted, and to account for every line. */

#define _POSIX_C_SOURCE 200809L
#include <fcntl.h>
#include <inttypes.h>
#include <stdio.h>
#include <stdlib.h>
#include <string.h>
#include <sys/wait.h>
#include <unistd.h>

static uint64_t seed;
static char file_name[1024], said_name[1024];

static uint64_t draw(uint64_t below) {
  uint64_t z = seed += 0x9E3779B97F4A7C15u;
  z = (z ^ z >> 30) * 0xBF58476D1CE4E5B9u;
  z = (z ^ z >> 27) * 0x94D049BB133111EBu;
  return (z ^ z >> 31) % below;
}

/* A line of a record, in one of the forms that are taken, or nearly. */
static void put_record(FILE *file) {
  static const char *const between[] = {",", ";", " ", " , ", "\t", ";;", ",\""};
  static const char *const ends[] = {"\n", "\r\n", "\n\n", " \n", "", "\r"};
  static const char *const words[] = {"nan", "-inf", "1e999", "1e-999", "0",   "-0", ".",
                                      "e5",  "0x10", "4e",    "",       "1e5", "+3."};
  const char *separator = between[draw(draw(2) == 0 ? 7 : 2)];
  for (uint64_t i = 0, fields = 2 + draw(4); i < fields; i++) {
    if (i > 0)
      fputs(separator, file);
    switch (draw(12)) {
    case 0: fputs(words[draw(13)], file); break;
    case 1: fprintf(file, "%016" PRIX64, draw(UINT64_MAX)); break;
    case 2: fprintf(file, "%" PRIu64 ".%" PRIu64 "e%d", draw(100), draw(100000), (int)draw(700) - 350); break;
    default: fprintf(file, "%" PRIu64, draw(draw(10) == 0 ? UINT64_MAX : 5000)); break;
    }
  }
  fputs(ends[draw(draw(2) == 0 ? 6 : 2)], file);
}

/* Writes a file, and returns how many lines it has. */
static uint64_t write_file(void) {
  static const char alphabet[] = "0123456789+-.,;eEnaif xX\"\t\r\n";
  FILE *file = fopen(file_name, "w+b");
  const uint64_t length = draw(draw(50) == 0 ? 20000 : 300), kind = draw(5);
  uint64_t lines = 0;
  int c, last = '\n';
  if (file == NULL)
    exit(2);
  for (uint64_t i = 0; i < length; i++)
    if (kind == 0 || (kind == 3 && draw(20) == 0))
      putc((int)draw(256), file);
    else if (kind == 1)
      putc(alphabet[draw(sizeof alphabet - 1)], file);
    else if (kind == 4)
      fprintf(file, "%" PRIu64 ",%" PRIu64 ",%" PRIu64 "\n", draw(3) + i, draw(5000), 1 + draw(2000));
    else
      put_record(file);
  for (rewind(file); (c = getc(file)) != EOF; last = c)
    lines += c == '\n';
  fclose(file);
  return lines + (last != '\n');
}

/* Runs the program with drawn options. */
static int run(char *program, char *table) {
  char decimals[24], window[24], *arguments[24] = {program, "--estimate", draw(2) == 0 ? "7" : "8", table, file_name};
  int count = 5;
  snprintf(decimals, sizeof decimals, "%" PRIu64, draw(18));
  snprintf(window, sizeof window, "%" PRIu64, 1 + draw(draw(2) == 0 ? 4 : 4096));
  char *more[][2] = {{"--decimals", decimals}, {"--window", window}, {"--picture", "/dev/null"}, {"--json", NULL},
                     {"--comma", NULL},        {"--patterns", NULL}, {"--monitor", "2"},         {"--step", "2"}};
  for (size_t i = 0; i < sizeof more / sizeof *more; i++)
    for (int k = 0, is_taken = draw(i < 5 ? 2 : 8) == 0; k < 2 && is_taken && more[i][k] != NULL; k++)
      arguments[count++] = more[i][k];
  int status;
  const pid_t child = fork();
  if (child == 0) {
    dup2(open("/dev/null", O_WRONLY), 1);
    dup2(open(said_name, O_WRONLY | O_CREAT | O_TRUNC, 0600), 2);
    execv(program, arguments);
    _exit(99);
  }
  return child > 0 && waitpid(child, &status, 0) == child && WIFEXITED(status) ? WEXITSTATUS(status) : 98;
}

/* Does what was counted add up to the lines, and fit the status? */
static int is_whole(uint64_t lines, int status) {
  uint64_t all = 0, header, empty, repeated, records = 0, again = 0, right, wrong = 0, unreadable = 0;
  int found = 0, refused = 0;
  char line[4096];
  FILE *file = fopen(said_name, "rb");
  while (file != NULL && fgets(line, sizeof line, file) != NULL) {
    refused = refused || strncmp(line, "recheck: ", 9) == 0;
    if (sscanf(line,
               "lines: %" SCNu64 " = %" SCNu64 " header + %" SCNu64 " empty + %" SCNu64 " repeated + %" SCNu64
               " records",
               &all, &header, &empty, &repeated, &records) == 5)
      found += (refused || all == lines) && all == header + empty + repeated + records;
    if (sscanf(line, "records: %" SCNu64 " = %" SCNu64 " right + %" SCNu64 " wrong + %" SCNu64 " unreadable", &again,
               &right, &wrong, &unreadable) == 4)
      found += again == records && again == right + wrong + unreadable;
  }
  if (file != NULL)
    fclose(file);
  const int less = refused || unreadable > 0 || records == 0;
  return found == 2 && (status == 2 || (!less && status == (wrong > 0)));
}

int main(int argc, char **argv) {
  uint64_t statuses[3] = {0};
  if (argc != 6)
    return 2;
  snprintf(file_name, sizeof file_name, "%s/drawn", argv[3]);
  snprintf(said_name, sizeof said_name, "%s/drawn.said", argv[3]);
  for (uint64_t i = strtoull(argv[4], NULL, 10), last = strtoull(argv[5], NULL, 10); i <= last; i++) {
    seed = i;
    const uint64_t lines = write_file();
    const int status = run(argv[1], argv[2]);
    if (status < 0 || status > 2 || !is_whole(lines, status)) {
      printf("seed %" PRIu64 ": status %d, or lines that do not add up; see %s\n", i, status, said_name);
      return 1;
    }
    statuses[status]++;
  }
  printf("status 0: %" PRIu64 ", 1: %" PRIu64 ", 2: %" PRIu64 "\n", statuses[0], statuses[1], statuses[2]);
  return 0;
}
