/* Header and archive in a program without a C library.

   For -ffreestanding and -nostdlib, as C and as C++. It divides 1 by 3 and back, from doubles to doubles, asks whether both
   are finite and readings, and ends with 0 where all is as it should be. */

#include "quendaric.h"

#ifdef __cplusplus
extern "C"
#endif
    __attribute__((noreturn, used)) void
    begin(void);

/* The stack is aligned as a function has it. */
__asm__(".globl _start\n_start:\n\tcall begin\n");

void begin(void) {
  const double one = 1.0, three = 3.0;
  const quendaric_binary64 third =
      quendaric_divide_binary64_kept(quendaric_pattern(one), quendaric_pattern(three), QUENDARIC_NEAREST);
  const quendaric_binary64 back =
      quendaric_divide_binary64_kept(third.pattern, quendaric_pattern(quendaric_double(third.pattern) / 3), 0);
  const int right =
      third.refusal == 0 && quendaric_double(third.pattern) == 1.0 / 3.0 && back.refusal == 0 &&
      quendaric_double(back.pattern) == three && quendaric_is_finite(third.pattern) &&
      quendaric_is_finite(back.pattern) &&
      quendaric_reading(third, quendaric_pattern(one), quendaric_pattern(three), 0, quendaric_pattern(one)) &&
      !quendaric_reading(back, third.pattern, quendaric_pattern(one), 0, quendaric_pattern(one));
  for (;;)
    __asm__ volatile("syscall" : : "a"(60), "D"(right ? 0 : 1) : "rcx", "r11", "memory");
}
