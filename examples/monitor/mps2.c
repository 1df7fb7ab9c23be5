/* The board mps2-an385, a Cortex-M3 with 4 MB each of code and data, as qemu has it: it prints by semihosting, and
   SysTick counts the seconds. */

#include "board.h"

#define SYST_CSR (*(volatile uint32_t *)0xE000E010)
#define SYST_RVR (*(volatile uint32_t *)0xE000E014)
#define SYST_CVR (*(volatile uint32_t *)0xE000E018)
#define CLOCK 25000000

int main(void);
__attribute__((noreturn)) void _start(void);
void stack_top(void); /* the linker's, and no function */

static volatile unsigned tenths;

static uint32_t host(uint32_t number, uintptr_t given) {
  register uint32_t operation __asm__("r0") = number;
  register uintptr_t argument __asm__("r1") = given;
  __asm__ volatile("bkpt 0xab" : "+r"(operation) : "r"(argument) : "memory");
  return operation;
}

void board_say(const char *text) { host(0x04, (uintptr_t)text); /* SYS_WRITE0 */ }

void board_wait(void) {
  const unsigned from = tenths;
  while (tenths - from < 10)
    __asm__ volatile("wfi");
}

static void tick(void) { tenths++; }

__attribute__((noreturn)) static void stop(int status) {
  for (;;)
    host(0x18, status == 0 ? 0x20026 : 0x20023); /* SYS_EXIT: ended by itself, or with an error */
}

__attribute__((noreturn)) static void fault(void) {
  board_say("processor fault\n");
  stop(2);
}

__attribute__((noreturn)) void _start(void) {
  SYST_RVR = CLOCK / 10 - 1, SYST_CVR = 0, SYST_CSR = 7;
  stop(main());
}

__attribute__((section(".vectors"), used)) static void (*const vectors[16])(void) = {
    [0] = stack_top, [1] = _start, [2] = fault, [3] = fault, [4] = fault, [5] = fault, [6] = fault, [15] = tick};
