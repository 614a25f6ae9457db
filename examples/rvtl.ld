/* Lays a program out in main memory from its first address on, with 8 KiB for the stacks of 8 harts
   behind it. */
ENTRY(_start)
SECTIONS
{
  . = 0x80000000;
  .text : { *(.text.start) *(.text .text.*) }
  .rodata : { *(.rodata .rodata.* .srodata .srodata.*) }
  .data : { *(.data .data.* .sdata .sdata.*) }
  .bss : { *(.bss .bss.* .sbss .sbss.* COMMON) }
  . = ALIGN(16);
  . += 8192;
  stacks_end = .;
  /DISCARD/ : { *(.comment .note.* .riscv.attributes .eh_frame) }
}
