/* The burned table is checked once. After that every division goes through the table that is built in: through every
   table that passes the check the quotients are the same (proved), and the check need not be repeated each second. */

#include "monitor.h"

/* The concentration in whole parts per billion. There is none where the sensitivity is not one of this cell, or the
   quotient is no reading (quendaric_reading): a refused call's pattern is 0, which reads as clean air. */
static bool concentration(uint64_t current, uint64_t sensitivity, uint64_t *ppb) {
  const quendaric_binary64 r = quendaric_divide_binary64_kept(current, sensitivity, QUENDARIC_NEAREST);
  if (!quendaric_is_within(sensitivity, quendaric_pattern(LEAST_SENSITIVITY), quendaric_pattern(MOST_SENSITIVITY)) ||
      !quendaric_reading(r, current, sensitivity, quendaric_pattern(LEAST_PPB), quendaric_pattern(MOST_PPB)))
    return false;
  const double quotient = quendaric_double(r.pattern);
  *ppb = quotient > 0 ? (uint64_t)(quotient + 0.5) : 0; /* a current drifts below zero in clean air */
  return true;
}

monitor monitor_start(const uint8_t *table, size_t length) {
  const monitor self = {quendaric_check_table(table, length), 0, false};
  return self;
}

monitor_second monitor_sample(monitor *self, uint64_t current, uint64_t sensitivity) {
  monitor_second shown = {false, 0, false, false};
  shown.reading = self->table.refusal == 0 && concentration(current, sensitivity, &shown.ppb);
  if (shown.reading) {
    self->missed = 0;
    self->alarm = shown.ppb >= ALARM_PPB;
  } else if (self->missed < MOST_MISSED)
    self->missed++;
  /* without a reading an alarm goes on */
  shown.alarm = self->alarm;
  shown.fault = self->table.refusal != 0 || self->missed == MOST_MISSED;
  return shown;
}
