/* Code from 0 on and data from 0x20000000 on. qemu loads both, so that nothing has to be copied at start. */
SECTIONS
{
  .text 0 : { KEEP(*(.vectors)) *(.text .text.*) *(.rodata .rodata.*) }
  .ARM.exidx : { *(.ARM.exidx*) }
  .data 0x20000000 : { *(.data .data.*) *(.bss .bss.* COMMON) }
  stack_top = 0x20400000;
}
