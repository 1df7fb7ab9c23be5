/* Offset and size of each field, and the size of each answer, by C's rules. layout.c has each compiler compare them.
   tools/prototypes makes this file: do not edit it. */
/* clang-format off */

FIELD(quendaric_cell, refusal, 0, 8);
FIELD(quendaric_cell, place, 8, 8);
FIELD(quendaric_cell, allowed, 16, 8);
FIELD(quendaric_cell, divisor, 24, 8);
FIELD(quendaric_cell, remainder, 32, 8);
SIZE(quendaric_cell, 40);

FIELD(quendaric_report, refusal, 0, 8);
FIELD(quendaric_report, place, 8, 8);
FIELD(quendaric_report, count, 16, 8);
FIELD(quendaric_report, row, 24, 8);
FIELD(quendaric_report, column, 32, 8);
FIELD(quendaric_report, divisor, 40, 8);
FIELD(quendaric_report, remainder, 48, 8);
SIZE(quendaric_report, 56);

FIELD(quendaric_limits, refusal, 0, 8);
FIELD(quendaric_limits, place, 8, 8);
FIELD(quendaric_limits, limits, 16, 6);
SIZE(quendaric_limits, 24);

FIELD(quendaric_made, refusal, 0, 8);
FIELD(quendaric_made, place, 8, 8);
SIZE(quendaric_made, 16);

FIELD(quendaric_repaired, refusal, 0, 8);
FIELD(quendaric_repaired, place, 8, 8);
FIELD(quendaric_repaired, count, 16, 8);
SIZE(quendaric_repaired, 24);

FIELD(quendaric_ran, refusal, 0, 8);
FIELD(quendaric_ran, place, 8, 8);
FIELD(quendaric_ran, quotient, 16, 8);
FIELD(quendaric_ran, remainder, 24, 8);
FIELD(quendaric_ran, digits, 32, 8);
SIZE(quendaric_ran, 40);

FIELD(quendaric_stepped, refusal, 0, 8);
FIELD(quendaric_stepped, place, 8, 8);
FIELD(quendaric_stepped, digit, 16, 8);
FIELD(quendaric_stepped, sum, 24, 8);
FIELD(quendaric_stepped, carry, 32, 8);
SIZE(quendaric_stepped, 40);

FIELD(quendaric_whole, refusal, 0, 8);
FIELD(quendaric_whole, place, 8, 8);
FIELD(quendaric_whole, quotient, 16, 8);
FIELD(quendaric_whole, remainder, 24, 8);
SIZE(quendaric_whole, 32);

FIELD(quendaric_binary64, refusal, 0, 8);
FIELD(quendaric_binary64, place, 8, 8);
FIELD(quendaric_binary64, pattern, 16, 8);
FIELD(quendaric_binary64, flags, 24, 8);
SIZE(quendaric_binary64, 32);

FIELD(quendaric_samples, refusal, 0, 8);
FIELD(quendaric_samples, place, 8, 8);
FIELD(quendaric_samples, flags, 16, 8);
FIELD(quendaric_samples, count, 24, 8);
SIZE(quendaric_samples, 32);

FIELD(quendaric_affected_count, refusal, 0, 8);
FIELD(quendaric_affected_count, place, 8, 8);
FIELD(quendaric_affected_count, count, 16, 8);
SIZE(quendaric_affected_count, 24);

FIELD(quendaric_affected_mark, refusal, 0, 8);
FIELD(quendaric_affected_mark, place, 8, 8);
FIELD(quendaric_affected_mark, affected, 16, 8);
SIZE(quendaric_affected_mark, 24);

FIELD(quendaric_averages, refusal, 0, 8);
FIELD(quendaric_averages, place, 8, 8);
SIZE(quendaric_averages, 16);

FIELD(quendaric_packed, refusal, 0, 8);
FIELD(quendaric_packed, place, 8, 8);
FIELD(quendaric_packed, quotient, 16, 8);
FIELD(quendaric_packed, remainder, 24, 8);
SIZE(quendaric_packed, 32);

FIELD(quendaric_visits, refusal, 0, 8);
FIELD(quendaric_visits, place, 8, 8);
SIZE(quendaric_visits, 16);

FIELD(quendaric_comparison, refusal, 0, 8);
FIELD(quendaric_comparison, place, 8, 8);
FIELD(quendaric_comparison, order, 16, 8);
SIZE(quendaric_comparison, 24);

FIELD(quendaric_root, refusal, 0, 8);
FIELD(quendaric_root, place, 8, 8);
FIELD(quendaric_root, root, 16, 8);
FIELD(quendaric_root, remainder, 24, 8);
SIZE(quendaric_root, 32);

FIELD(quendaric_linked, refusal, 0, 8);
FIELD(quendaric_linked, place, 8, 8);
SIZE(quendaric_linked, 16);
