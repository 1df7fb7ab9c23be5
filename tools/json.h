/* The JSON document. Unreadable lines and stretches are kept in temporary files until their place in it comes. */

#ifndef JSON_H
#define JSON_H

#include "digest.h"
#include "report.h"

static void put_json_number(const char *name, uint64_t number) { printf(", \"%s\": %" PRIu64, name, number); }

static void put_json_text(const char *name, const char *text) {
  printf(", \"%s\": ", name);
  put_json(stdout, text_of(text));
}

/* What stands before the wrong records. */
static void put_beginning(const options *chosen, const uint8_t table[QUENDARIC_TABLE_LENGTH]) {
  char digest[DIGEST_TEXT], unit[TEXT];
  digest_text(table, QUENDARIC_TABLE_LENGTH, digest);
  units_text(1, chosen->unit, unit);
  printf("{\"version\": \"%s\"", QUENDARIC_VERSION);
  put_json_text("table", chosen->table);
  put_json_text("digest", digest);
  put_json_number("estimate", chosen->estimate);
  put_json_text("direction", directions[chosen->direction]);
  put_json_text("unit", unit);
  printf(",\n\"list\": [");
}

/* A wrong record. */
static void put_object(const source *from, const record *one, field right, const bool marked[2], const char *monitor,
                       bool first) {
  static const char *const names[] = {"time", "current", "sensitivity"};
  printf("%s\n{\"file\": ", first ? "" : ",");
  put_json(stdout, text_of(from->name));
  put_json_number("line", one->line);
  printf(", \"monitor\": ");
  put_json_name(stdout, monitor);
  for (int i = TIME; i <= SENSITIVITY; i++) {
    printf(", \"%s\": ", names[i]);
    put_json(stdout, one->fields[i]);
  }
  printf(", \"right\": ");
  put_json(stdout, right);
  printf(", \"filed\": ");
  if (one->kind == NOT_FILED)
    printf("null");
  else
    put_json(stdout, one->fields[FILED]);
  printf(", \"marked\": %s, \"other\": %s}", marked[0] ? "true" : "false", marked[1] ? "true" : "false");
}

/* An unreadable line. */
static void put_unreadable(FILE *file, const char *name, uint64_t line, const char *fault, bool first) {
  fprintf(file, "%s\n{\"file\": ", first ? "" : ",");
  put_json(file, text_of(name));
  fprintf(file, ", \"line\": %" PRIu64 ", \"fault\": ", line);
  put_json(file, text_of(fault));
  putc('}', file);
}

/* Copies what was kept to standard output. */
static bool put_kept(FILE *file) {
  char bytes[4096];
  size_t count;
  if (file == NULL)
    return true;
  bool copied = fflush(file) == 0 && ferror(file) == 0 && fseek(file, 0, SEEK_SET) == 0;
  while (copied && (count = fread(bytes, 1, sizeof bytes, file)) > 0)
    copied = fwrite(bytes, 1, count, stdout) == count;
  return copied && ferror(file) == 0;
}

static void put_sources(const source files[], size_t count) {
  bool first = true;
  printf("],\n\"files\": [");
  for (size_t i = 0; i < count; i++) {
    const source *from = &files[i];
    if (!from->is_read)
      continue;
    printf("%s\n{\"file\": ", first ? "" : ",");
    put_json(stdout, text_of(from->name));
    put_json_text("separator", from->form.separator == '\t' ? "tab" : (const char[]){from->form.separator, '\0'});
    put_json_text("numbers", from->patterns ? "patterns" : "decimal");
    if (from->decimals >= 0)
      put_json_number("decimals", (uint64_t)from->decimals);
    else
      printf(", \"decimals\": null");
    printf(", \"open_end\": %s}", from->open_end ? "true" : "false");
    first = false;
  }
}

static void put_monitors(const monitors *all) {
  printf("],\n\"monitors\": [");
  for (size_t i = 0; i < all->count; i++) {
    printf("%s\n{\"name\": ", i == 0 ? "" : ",");
    put_json_name(stdout, all->list[i].name);
    put_json_number("records", all->list[i].records);
    put_json_number("wrong", all->list[i].wrong);
    putchar('}');
  }
}

static void put_marks(const char *prefix, const marks_count *by) {
  printf(", \"%smarked\": %" PRIu64 ", \"%smarked_right\": %" PRIu64 ", \"%swrong_unmarked\": %" PRIu64
         ", \"%sagainst\": %" PRIu64,
         prefix, by->marked, prefix, by->marked_right, prefix, by->wrong_unmarked, prefix, by->against);
}

static void put_totals(const totals *sums) {
  printf("],\n\"summary\": {\"lines\": %" PRIu64, sums->lines);
  put_json_number("header", sums->headers);
  put_json_number("empty", sums->empty);
  put_json_number("repeated", sums->repeated);
  put_json_number("records", sums->records);
  put_json_number("right", sums->right);
  put_json_number("wrong", sums->wrong);
  put_json_number("unreadable", sums->unreadable);
  put_json_number("by_mark", sums->by_mark);
  put_marks("", &sums->by[0]);
  put_marks("other_", &sums->by[1]);
  put_json_text("first", sums->first);
  put_json_text("last", sums->last);
  put_json_text("first_wrong", sums->first_wrong);
  put_json_text("last_wrong", sums->last_wrong);
}

static bool put_windows(const options *chosen, const windows *all) {
  printf("{\"width\": %zu, \"step\": %ld, \"limit\": ", all->width, chosen->step);
  put_json_name(stdout, chosen->limit_text);
  for (int i = 0; i < KINDS; i++)
    put_json_number(kind_names[i], all->found.windows[i]);
  put_json_number("missing", all->missing);
  put_json_number("doubled", all->doubled);
  put_json_number("back", all->back);
  put_json_number("outside", all->outside);
  put_json_number("untimed", all->untimed);
  put_json_number("large", all->large);
  put_json_number("unfiled", all->unfiled);
  printf(", \"list\": [");
  const bool copied = put_kept(all->found.all);
  printf("]}");
  return copied;
}

/* What stands behind the wrong records. Was all copied that was kept? */
static bool put_end(const options *chosen, const totals *sums, const windows *averages, const monitors *all,
                    const source files[], FILE *unreadable, int status) {
  printf("],\n\"unreadable\": [");
  bool copied = put_kept(unreadable);
  put_sources(files, chosen->files);
  put_monitors(all);
  put_totals(sums);
  printf(", \"windows\": ");
  if (averages->width > 0)
    copied = put_windows(chosen, averages) && copied;
  else
    printf("null");
  printf(", \"whole\": %s, \"status\": %d}}\n", status == 130 ? "false" : "true", status);
  return copied;
}

#endif
