/* Sizes and offsets of every answer, and the version's parts, against literals.

   Each is compared when this file is compiled, as C and as C++. The literals are those of layout.h. */

#include "quendaric.h"
#ifndef LAYOUT_ONLY /* tests/cross/run compiles this file where there may be no C library */
#include <stdio.h>
#include <string.h>
#endif

#ifdef __cplusplus
#define _Static_assert static_assert
#endif

#define SIZE(type, size) _Static_assert(sizeof(type) == (size), #type)
#define FIELD(type, field, offset, size)                                                                               \
  _Static_assert(offsetof(type, field) == (offset) && sizeof(((type *)0)->field) == (size), #type "." #field)

#include "layout.h"

#ifndef LAYOUT_ONLY
int main(void) {
  char version[32];
  snprintf(version, sizeof version, "%d.%d.%d", QUENDARIC_VERSION_MAJOR, QUENDARIC_VERSION_MINOR,
           QUENDARIC_VERSION_PATCH);
  if (strcmp(version, QUENDARIC_VERSION) != 0) {
    printf("the version %s has the parts %s\n", QUENDARIC_VERSION, version);
    return 1;
  }
  return 0;
}
#endif
