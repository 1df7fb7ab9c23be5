/* What a target must be like for the proved functions: cross/calls.c holds a target against this when it is compiled. */

#ifndef QUENDARIC_TARGET_H
#define QUENDARIC_TARGET_H

#include "quendaric.h"

#define QUENDARIC_HOLDS(name, fact) typedef char quendaric_holds_##name[(fact) ? 1 : -1]

#ifndef QUENDARIC_ONE_FILE
/* A list: a pointer at byte 0 and a length of 64 bits at byte 8, however wide pointers are. */
typedef struct {
  const void *start;
  uint64_t length;
} quendaric_list;

QUENDARIC_HOLDS(list, sizeof(quendaric_list) == 16 && offsetof(quendaric_list, length) == 8);
#endif
QUENDARIC_HOLDS(pointer, sizeof(void *) == sizeof(size_t) && (sizeof(void *) == 4 || sizeof(void *) == 8));
QUENDARIC_HOLDS(bool, sizeof(bool) == 1);
QUENDARIC_HOLDS(answer, sizeof(quendaric_limits) == 24 && offsetof(quendaric_report, remainder) == 48);
/* A compiler that says neither, and is not for one of these, is told -D__LITTLE_ENDIAN__=1. */
#if defined(__BYTE_ORDER__) ? __BYTE_ORDER__ != __ORDER_LITTLE_ENDIAN__                                                \
    : !defined(_WIN32) && !defined(__i386__) && !defined(__x86_64__) && __LITTLE_ENDIAN__ + 0 != 1
#error "the proved functions are for little-endian targets only"
#endif

#endif
