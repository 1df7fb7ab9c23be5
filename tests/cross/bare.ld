/* Code from CODE on, data from DATA on, the stack down from 64 kB behind. */
SECTIONS
{
  . = CODE;
  .text : { KEEP(*(.vectors)) *(.text .text.*) *(.rodata .rodata.*) }
  .ARM.exidx : { *(.ARM.exidx*) }
  . = DATA;
  .data : { *(.data .data.*) *(.bss .bss.* COMMON) }
  stack_top = DATA + 0x10000;
}
