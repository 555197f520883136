/* All of a program in RAM, from its first address on. What stands behind the image is zeros when the chip starts. */
ENTRY(_start)
MEMORY { RAM (rwx) : ORIGIN = 0x80000000, LENGTH = 64K }
SECTIONS {
  .text : { *(.text.start) *(.text .text.*) } > RAM
  .data : { *(.rodata .rodata.*) *(.srodata .srodata.*) *(.data .data.*) *(.sdata .sdata.*)
            *(.sbss .sbss.*) *(.bss .bss.*) *(COMMON) . = ALIGN(8); } > RAM
  stack_end = ORIGIN(RAM) + LENGTH(RAM);
  /DISCARD/ : { *(.eh_frame) *(.comment) *(.note*) *(.riscv.attributes) }
}
