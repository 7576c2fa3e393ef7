/* Code from 00010000 on; constants, data and zeroed memory in pages of their own. */
ENTRY(_start)
PHDRS
{
  text PT_LOAD FLAGS(5);
  constants PT_LOAD FLAGS(4);
  data PT_LOAD FLAGS(6);
  zeros PT_LOAD FLAGS(6);
  stack PT_GNU_STACK FLAGS(6);
}
SECTIONS
{
  . = 0x10000;
  .text : { *(.text._start) *(.text .text.*) } :text
  . = ALIGN(0x1000);
  .rodata : { *(.rodata .rodata.* .srodata .srodata.*) } :constants
  . = ALIGN(0x1000);
  .data : { *(.data .data.* .sdata .sdata.*) } :data
  . = ALIGN(0x1000);
  .bss : { *(.bss .bss.* .sbss .sbss.* COMMON) } :zeros
  /DISCARD/ : { *(.comment) *(.eh_frame) }
}
