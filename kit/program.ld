/*
 * Code from 00010000 on; constants, data and zeroed memory in pages of their own, each filled up to a multiple of 16: a
 * segment ends at its last byte, and a C library reads whole words. What a C library has for each thread (errno, strtok's
 * place) stands with the data, once, and tp has its address. The number before it has the linker give it bytes of its own.
 */
ENTRY(_start)
PHDRS
{
  text PT_LOAD FLAGS(5);
  constants PT_LOAD FLAGS(4);
  data PT_LOAD FLAGS(6);
  zeros PT_LOAD FLAGS(6);
  stack PT_GNU_STACK FLAGS(6);
}
SECTIONS
{
  . = 0x10000;
  .text : { *(.text._start) *(.text .text.*) . = ALIGN(16); } :text
  . = ALIGN(0x1000);
  .rodata : { *(.rodata .rodata.* .srodata .srodata.*) . = ALIGN(16); } :constants
  . = ALIGN(0x1000);
  .tdata : { LONG(0) *(.tdata .tdata.* .tbss .tbss.*) . = ALIGN(16); } :data
  __tls_base = ADDR(.tdata);
  .data : { *(.data .data.* .sdata .sdata.*) . = ALIGN(16); } :data
  . = ALIGN(0x1000);
  .bss : { *(.bss .bss.* .sbss .sbss.* COMMON) . = ALIGN(16); } :zeros
  /DISCARD/ : { *(.comment) *(.eh_frame) }
}
