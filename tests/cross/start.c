/* The beginning and the end of a test program on a Cortex-M processor, with newlib's functions of memory
   (QUENDARIC_BARE), and under qemu's user mode for RISC-V, without a C library (QUENDARIC_RAW). */

#include <stddef.h>
#include <stdint.h>

int main(void);

#ifdef QUENDARIC_RAW
void *memcpy(void *restrict to, const void *restrict from, size_t length) {
  for (size_t i = 0; i < length; i++)
    ((volatile uint8_t *)to)[i] = ((const uint8_t *)from)[i];
  return to;
}
void *memset(void *to, int byte, size_t length) {
  for (size_t i = 0; i < length; i++)
    ((volatile uint8_t *)to)[i] = (uint8_t)byte;
  return to;
}
#endif

#ifdef QUENDARIC_BARE
void stack_top(void); /* the linker's, and no function */
__attribute__((noreturn)) static void ended(int status) {
  /* SYS_EXIT: ADP_Stopped_ApplicationExit, or ADP_Stopped_RunTimeErrorUnknown */
  register uint32_t operation __asm__("r0") = 0x18;
  register uint32_t reason __asm__("r1") = status == 0 ? 0x20026 : 0x20023;
  for (;;)
    __asm__ volatile("bkpt 0xab" : "+r"(operation) : "r"(reason) : "memory");
}
__attribute__((noreturn)) static void begin(void) {
#ifdef __ARM_FP
  *(volatile uint32_t *)0xE000ED88 |= 0xF00000; /* the floating-point unit may be used */
#endif
#ifndef UNALIGNED
  *(volatile uint32_t *)0xE000ED14 |= 8; /* an unaligned word is a fault */
#endif
  ended(main());
}
__attribute__((noreturn)) static void fault(void) { ended(1); }
__attribute__((section(".vectors"), used)) static void (*const vectors[])(void) = {stack_top, begin, fault, fault,
                                                                                   fault,     fault, fault, fault};
#elif defined(__riscv)
__attribute__((noreturn, used)) static void begin(void) {
  const long status = main();
  register long number __asm__("a7") = 93, a __asm__("a0") = status;
  for (;;)
    __asm__ volatile("ecall" : : "r"(number), "r"(a) : "memory");
}
__asm__(".globl _start\n_start:\n\t.option push\n\t.option norelax\n\tla gp, __global_pointer$\n"
        "\t.option pop\n\tcall begin\n");
#endif
