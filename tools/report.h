/* The list of wrong records, in lines, and the summary on standard error. */

#ifndef REPORT_H
#define REPORT_H

#include "judge.h"
#include "monitors.h"
#include "options.h"

static char separator_for(const options *chosen) { return chosen->decimal_sign == ',' ? ';' : ','; }

static void put_names(const options *chosen, bool named) {
  const char c = separator_for(chosen);
  printf("time%ccurrent%csensitivity%cright%cfiled%cmarked%cother", c, c, c, c, c, c);
  if (named)
    printf("%cmonitor", c);
  putchar('\n');
}

static void put_line(const options *chosen, const record *one, field right, const bool marked[2], bool named,
                     const char *monitor) {
  const char c = separator_for(chosen);
  for (int i = TIME; i <= SENSITIVITY; i++) {
    put_field(stdout, one->fields[i], c);
    putchar(c);
  }
  put_field(stdout, right, c);
  putchar(c);
  put_field(stdout, one->fields[FILED], c);
  printf("%c%d%c%d", c, marked[0], c, marked[1]);
  if (named) {
    putchar(c);
    put_field(stdout, text_of(monitor != NULL ? monitor : ""), c);
  }
  putchar('\n');
}

/* What the check says of the table. */
static void tell_table(const options *chosen, const uint8_t table[QUENDARIC_TABLE_LENGTH]) {
  const quendaric_report report = quendaric_check_table_for(chosen->estimate, table, QUENDARIC_TABLE_LENGTH);
  fprintf(stderr, "table: %s, by the estimate of %" PRIu64 " bits: ", chosen->table, chosen->estimate);
  if (report.refusal == 0)
    fprintf(stderr, "passes\n");
  else if (report.refusal == QUENDARIC_REFUSED_BYTE)
    fprintf(stderr, "byte %" PRIu64 " is no digit\n", report.place);
  else
    fprintf(stderr, "bad cells: %" PRIu64 "\n", report.count);
}

/* What was found in a file, and what was assumed. */
static void tell_source(const source *from) {
  if (!from->is_read || !from->form.known)
    return;
  fprintf(stderr, "%s: fields are parted by %s, columns go by their %s; numbers are %s%s", from->name,
          separator_name(from->form.separator), from->form.by_names ? "names" : "order",
          from->patterns ? "patterns" : "decimal", from->found_patterns && from->patterns ? " (found)" : "");
  if (from->form.filed && from->decimals >= 0)
    fprintf(stderr, "; filed with %d decimal%s", from->decimals, from->decimals == 1 ? "" : "s");
  else if (from->form.filed)
    fprintf(stderr, "; filed in full");
  if (from->form.filed && from->found_decimals && from->shown > 0)
    fprintf(stderr, " (found, see line %" PRIu64 ")", from->shown);
  putc('\n', stderr);
  if (from->open_end)
    fprintf(stderr, "%s: the last line has no end; the file may be cut\n", from->name);
}

static void tell_marks(const options *chosen, const totals *sums) {
  for (int i = 0; i < 2; i++) {
    const marks_count *by = &sums->by[i];
    fprintf(stderr, "marked by %d bits: %" PRIu64 " = %" PRIu64 " wrong + %" PRIu64 " right\n",
            (int)(i == 0 ? chosen->estimate : 15 - chosen->estimate), by->marked, by->marked - by->marked_right,
            by->marked_right);
  }
  if (sums->by[0].wrong_unmarked > 0)
    fprintf(stderr, "wrong and not marked: %" PRIu64 "; by this estimate the table did not make them wrong\n",
            sums->by[0].wrong_unmarked);
  if (sums->by[0].wrong_unmarked > 0 && chosen->decimals == FIND_DECIMALS)
    fprintf(stderr, "(if what was filed is rounded otherwise than was found, say how: --decimals)\n");
  if (is_misfit(sums))
    fprintf(stderr,
            "what was filed fits %d bits better: %" PRIu64 " records speak against them, and %" PRIu64
            " against %d; is --estimate right?\n",
            (int)(15 - chosen->estimate), sums->by[1].against, sums->by[0].against, (int)chosen->estimate);
}

static void tell_totals(const options *chosen, const totals *sums) {
  fprintf(stderr,
          "lines: %" PRIu64 " = %" PRIu64 " header + %" PRIu64 " empty + %" PRIu64 " repeated + %" PRIu64 " records\n",
          sums->lines, sums->headers, sums->empty, sums->repeated, sums->records);
  fprintf(stderr, "records: %" PRIu64 " = %" PRIu64 " right + %" PRIu64 " wrong + %" PRIu64 " unreadable\n",
          sums->records, sums->right, sums->wrong, sums->unreadable);
  if (sums->records == 0)
    fprintf(stderr, "there is no record\n");
  if (sums->right + sums->wrong > 0)
    fprintf(stderr, "judged by what was filed: %" PRIu64 "; by the mark alone: %" PRIu64 "\ntimes: %s to %s\n",
            sums->right + sums->wrong - sums->by_mark, sums->by_mark, sums->first, sums->last);
  if (sums->wrong > 0)
    fprintf(stderr, "wrong: %s to %s\n", sums->first_wrong, sums->last_wrong);
  tell_marks(chosen, sums);
}

/* The monitors that have a wrong record. */
static void tell_monitors(const monitors *all) {
  size_t told = 0, more = 0;
  if (all->count == 0 || all->list[0].name == NULL)
    return;
  fprintf(stderr, "monitors: %zu\n", all->count);
  for (size_t i = 0; i < all->count; i++) {
    const monitor *one = &all->list[i];
    if (one->wrong > 0 && told++ < LISTED)
      fprintf(stderr, "  %s: %" PRIu64 " wrong of %" PRIu64 "\n", one->name, one->wrong, one->records);
    else
      more += one->wrong > 0;
  }
  if (more > 0)
    fprintf(stderr, "  and %zu more with a wrong record\n", more);
}

#endif
