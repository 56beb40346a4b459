/* Everything in 8 MiB from 0x80000000 on, as the board virt has it. A card has its own numbers. */
MEMORY { code (rx) : ORIGIN = 0x80000000, LENGTH = 4M  data (rwx) : ORIGIN = 0x80400000, LENGTH = 4M }
ENTRY(_start)
SECTIONS {
  .text : { KEEP(*(.first)) *(.text*) *(.rodata*) *(.srodata*) } >code
  .data : ALIGN(8) { data_start = .; *(.data*) *(.sdata*) . = ALIGN(8); data_end = .; } >data AT>code
  data_kept = LOADADDR(.data);
  .bss (NOLOAD) : ALIGN(8) { zero_start = .; *(.bss*) *(.sbss*) *(COMMON) . = ALIGN(8); zero_end = .; } >data
  .noinit (NOLOAD) : ALIGN(8) { *(.noinit*) } >data
  stack_top = ORIGIN(data) + LENGTH(data);
}
