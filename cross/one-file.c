/* Quendaric VERSION, all calls in one file, for those who have no kit. Compile it beside your own program, with quendaric.h
   in the same folder or on the compiler's path, and define nothing:

       cc -O2 program.c quendaric.c

   This file is made, not written: review the proof, not this. tools/one-file makes it, by cross/after-passes.awk, cross/to-c.awk
   and cross/calls.c, from the module that the kit (KIT) compiled of the functions that it had proved, after the kit's clang
   had passed that module. A statement stands for each line of what is left of it. That all this is right, and what your
   compiler makes of it, is tested and not proved (docs/TRUSTED.md, section 4). Do not edit it.

   For C99 or C++11 and later, and little-endian targets. It has no state, allocates nothing, and asks for memcpy, memmove
   and memset alone. Compile it with -O2 or -O3: the stack that quendaric.h names was measured so, and without optimisation
   a call takes many times the time. In firmware compile it with -ffunction-sections and link with --gc-sections; on x86-64
   without a user mode, with -mno-red-zone.

   No licence has been granted: you may read this file, but not copy, change or ship it without asking its owners. */

#define QUENDARIC_ONE_FILE

/* The compiler's own, so that -ffreestanding makes no calls of them where a few instructions do. */
#ifdef __GNUC__
#define q_copy __builtin_memcpy
#define q_move __builtin_memmove
#define q_fill __builtin_memset
#else
#include <string.h>
#define q_copy memcpy
#define q_move memmove
#define q_fill memset
#endif

