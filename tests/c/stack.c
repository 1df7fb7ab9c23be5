/* The stack that each call uses, on a painted one, against what the header promises.

   Each call is made on drawn operands (tests/cross/draw.h), refused ones among them, and the bytes below its caller's that have changed
   are counted. It prints the most of each call; status 1 where one uses more than QUENDARIC_STACK. In GNU C; the caller's stack pointer
   must stay where it is (on x86-64: -maccumulate-outgoing-args). Run by tests/stack, and by tests/cross/measure on other targets. */

#ifndef SETS
#define SETS 1000
#define TABLE_SETS 1000
#endif
#include "../cross/draw.h"

#if defined(__riscv)
#define STACK_POINTER "mv %0, sp"
#elif defined(__x86_64__)
#define STACK_POINTER "mov %%rsp, %0"
#else
#define STACK_POINTER "mov %0, sp"
#endif

enum { PAINT = 0xA5, PAINTED = 12288 };

static volatile uint8_t *pointer; /* the caller's stack pointer */
static uint64_t most;

__attribute__((always_inline)) static inline void before_call(void) {
  __asm__ volatile(STACK_POINTER : "=r"(pointer));
  for (volatile uint8_t *at = pointer - PAINTED; at < pointer; at++)
    *at = PAINT;
}

__attribute__((always_inline)) static inline void after_call(void) {
  volatile uint8_t *low = pointer - PAINTED;
  while (low < pointer && *low == PAINT)
    low++;
  const uint64_t used = (uint64_t)(pointer - low);
  most = used > most ? used : most;
}

int main(void) {
  int status = !make_tables();
  for (size_t which = 0; which < sizeof turns / sizeof turns[0]; which++) {
    most = 0;
    for (long set = 0; set < turns[which].sets; set++) {
      begin(turns[which].name);
      turns[which].turn();
    }
    say("  "), say(turns[which].name), say(": "), say_number(most), say(" bytes of stack");
    if (most > QUENDARIC_STACK)
      status = 1, say(", MORE THAN PROMISED");
    say("\n");
  }
  return status;
}
