/* What the test programs need of the machine that they run on: to print, and to end. On a bare Arm processor
   (QUENDARIC_BARE) by semihosting, on RISC-V without a C library (QUENDARIC_RAW) by Linux's system calls, in WebAssembly
   (QUENDARIC_WASM) by a function that tests/cross/wasm.mjs hands over, else by the C library. */

#ifndef PORT_H
#define PORT_H

#include <stddef.h>
#include <stdint.h>

#if defined(QUENDARIC_BARE)
static void say(const char *text) {
  register uint32_t operation __asm__("r0") = 4; /* SYS_WRITE0 */
  register const char *at __asm__("r1") = text;
  __asm__ volatile("bkpt 0xab" : "+r"(operation) : "r"(at) : "memory");
}
#elif defined(QUENDARIC_RAW)
static long length_of(const char *text) {
  long length = 0;
  while (text[length])
    length++;
  return length;
}
static void say(const char *text) {
  const long length = length_of(text);
  register long number __asm__("a7") = 64, a __asm__("a0") = 1, b __asm__("a1") = (long)text, c __asm__("a2") = length;
  __asm__ volatile("ecall" : "+r"(a) : "r"(number), "r"(b), "r"(c) : "memory");
}
#elif defined(QUENDARIC_WASM)
__attribute__((import_module("port"), import_name("say"))) void say(const char *text);
#else
#include <stdio.h>
static void say(const char *text) { fputs(text, stdout); }
#endif

static void say_number(uint64_t number) {
  char text[21];
  int at = 20;
  text[at] = 0;
  do {
    text[--at] = (char)('0' + number % 10);
    number /= 10;
  } while (number != 0);
  say(text + at);
}

__attribute__((unused)) static void say_hex(uint64_t number) {
  char text[17];
  for (int i = 0; i < 16; i++)
    text[i] = "0123456789abcdef"[number >> (60 - 4 * i) & 15];
  text[16] = 0;
  say(text);
}

#endif
