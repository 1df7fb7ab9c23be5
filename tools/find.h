/* What is found in a file before it is judged: its columns, whether numbers are patterns, how many decimals were filed.
   A file is read on for it only as far as that is not yet settled; then it is read again from its beginning. */

#ifndef FIND_H
#define FIND_H

#include "decimals.h"
#include "options.h"
#include "records.h"
#include <sys/stat.h>

/* What decimal numbers were filed. */
typedef struct {
  int most; /* decimals, or -1 where none was filed */
  bool full;
  uint64_t shown; /* the first line that shows it */
} decimals_found;

/* filed[1] is of those that can be patterns too. */
typedef struct {
  bool some, all_patterns, letter; /* of the records so far */
  decimals_found filed[2];
} finding;

/* Does the decimal number say that numbers are filed in full? Else *decimals is how many it has. */
static bool is_in_full(const char *text, int *decimals) {
  size_t significant = 0;
  bool fraction = false;
  *decimals = 0;
  for (; *text != '\0' && *text != 'e' && *text != 'E'; text++) {
    fraction = fraction || *text == '.';
    significant += is_digit(*text) && (*text != '0' || significant > 0);
    *decimals += is_digit(*text) && fraction;
  }
  return *text != '\0' || significant >= 16 || *decimals > MOST_DECIMALS;
}

static void look_at_filed(decimals_found *found, field filed, char decimal_sign, uint64_t line) {
  static char copy[LINE + 1];
  int decimals;
  if (found->full || !copy_decimal(filed, decimal_sign, copy))
    return;
  found->full = is_in_full(copy, &decimals);
  if (found->full || decimals > found->most) {
    found->most = decimals;
    found->shown = line;
  }
}

static void look_at(const layout *form, finding *found, field line, uint64_t number) {
  field fields[COLUMNS + 1];
  uint64_t bits;
  fields[FILED] = (field){"", 0};
  if (!form->usable || part_fields(line, form, fields) != form->count)
    return;
  found->some = true;
  found->all_patterns =
      found->all_patterns && read_pattern(fields[CURRENT], &bits) && read_pattern(fields[SENSITIVITY], &bits);
  found->letter = found->letter || has_letter(fields[CURRENT]) || has_letter(fields[SENSITIVITY]);
  if (fields[FILED].length > 0)
    look_at_filed(&found->filed[read_pattern(fields[FILED], &bits)], fields[FILED], form->decimal_sign, number);
}

/* Are the numbers patterns, by what is known so far? */
static bool are_patterns(const options *chosen, const finding *found) {
  return chosen->numbers == FIND_NUMBERS ? found->some && found->all_patterns : chosen->numbers == PATTERNS;
}

/* Is all settled, whatever the rest of the file has? */
static bool is_settled(const options *chosen, const source *from, const finding *found) {
  const bool decimal =
      chosen->numbers == NUMBERS || (chosen->numbers == FIND_NUMBERS && found->some && !found->all_patterns);
  return from->form.known && (chosen->numbers != FIND_NUMBERS || decimal) &&
         (chosen->decimals != FIND_DECIMALS || !from->form.filed || found->filed[0].full ||
          (decimal && found->filed[1].full));
}

/* What both tell of decimals. */
static decimals_found joined_decimals(decimals_found a, decimals_found b) {
  const bool first = a.full != b.full ? a.full : a.most != b.most && !a.full ? a.most > b.most : a.shown < b.shown;
  return first ? a : b;
}

/* Puts down what was found. What is wrong with the file is returned, or NULL. */
static const char *put_down(const options *chosen, source *from, const finding *found) {
  from->patterns = are_patterns(chosen, found);
  from->found_patterns = chosen->numbers == FIND_NUMBERS;
  from->found_decimals = chosen->decimals == FIND_DECIMALS;
  from->decimals = chosen->decimals;
  if (from->found_decimals) {
    const decimals_found filed = from->patterns ? found->filed[0] : joined_decimals(found->filed[0], found->filed[1]);
    from->decimals = filed.full ? -1 : filed.most;
    from->shown = filed.shown;
  }
  if (from->found_patterns && from->patterns && !found->letter)
    return "every current and sensitivity has 16 digits and no letter: --patterns or --numbers says what they are";
  return NULL;
}

/* Looks at the lines that stand in the block. What is wrong with the file is returned, or NULL. */
static const char *look_at_block(const options *chosen, source *from, finding *found, reader *input, uint64_t *number) {
  field line;
  while (!is_settled(chosen, from, found) && next_line(input, &line)) {
    ++*number;
    if (line.length > LONGEST || is_all_blank(line))
      continue;
    if (from->form.known)
      look_at(&from->form, found, line, *number);
    else {
      const char *fault = take_first(&from->form, line, chosen->decimal_sign, chosen->monitor);
      if (fault != NULL)
        return fault;
      if (!from->form.header)
        look_at(&from->form, found, line, *number);
    }
  }
  return NULL;
}

/* Finds what is to be found in the file, of which nothing was read, and goes back to its beginning. What is wrong with
   it is returned, or NULL. */
static const char *find(const options *chosen, source *from, reader *input) {
  finding found = {.all_patterns = true, .filed = {{.most = -1}, {.most = -1}}};
  struct stat status;
  const bool regular = fstat(input->file, &status) == 0 && S_ISREG(status.st_mode);
  const off_t begin = regular ? lseek(input->file, 0, SEEK_CUR) : 0;
  uint64_t number = 0;
  bool in_block = true;
  refill(input);
  if (input->end >= 2 && memcmp(input->bytes, "\x1F\x8B", 2) == 0)
    return "it is compressed; zcat FILE | recheck .. reads it";
  const size_t mark = mark_length(input);
  take(input, mark);
  const char *fault = look_at_block(chosen, from, &found, input, &number);
  while (fault == NULL && !is_settled(chosen, from, &found) && !input->ended) {
    if (in_block && !regular) {
      input->copy = tmpfile();
      if (input->copy == NULL || fwrite(input->bytes, 1, input->end, input->copy) != input->end)
        return "it cannot be copied to a temporary file";
    }
    in_block = false;
    refill(input);
    fault = look_at_block(chosen, from, &found, input, &number);
  }
  /* what could not be read the first time may not be missed by the second */
  const bool failed = input->failed;
  while (input->copy != NULL && !input->ended) {
    input->begin = input->end;
    refill(input);
  }
  if (fault == NULL && !read_again(input, in_block, mark, begin))
    return "it cannot be read again";
  input->failed = input->failed || failed;
  if (fault == NULL && interrupted && !is_settled(chosen, from, &found))
    return "it was interrupted before all was found that is said of the whole file";
  return fault != NULL ? fault : put_down(chosen, from, &found);
}

#endif
