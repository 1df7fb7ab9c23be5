/* What a hydrogen sulfide monitor does each second. */

#ifndef MONITOR_H
#define MONITOR_H

#include "quendaric.h"

enum {
  ALARM_PPB = 10000,
  MOST_MISSED = 3 /* seconds without a reading, before the fault is shown */
};

/* What the cell can be: in nA a part per billion, and in parts per billion. */
#define LEAST_SENSITIVITY 0.01
#define MOST_SENSITIVITY 10.0
#define LEAST_PPB -5000.0
#define MOST_PPB 500000.0

typedef struct {
  quendaric_report table; /* of the burned table, at start */
  unsigned missed;        /* seconds since the last reading */
  bool alarm;
} monitor;

/* What is shown. Where `reading` is false there is no number: not 0, and not the last one. */
typedef struct {
  bool reading;
  uint64_t ppb;
  bool alarm;
  bool fault;
} monitor_second;

/* Checks the burned table. Where it is refused, the monitor never shows a reading. */
monitor monitor_start(const uint8_t *table, size_t length);

/* The bits of the cell's current in nA, and of its sensitivity in nA a part per billion. */
monitor_second monitor_sample(monitor *self, uint64_t current, uint64_t sensitivity);

#endif
