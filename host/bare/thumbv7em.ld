/* Code and constants in 4 MiB from 0 on, data in 4 MiB from 0x20000000 on, as the board mps2-an386 has them. A card has its own numbers. */
MEMORY { code (rx) : ORIGIN = 0, LENGTH = 4M  data (rwx) : ORIGIN = 0x20000000, LENGTH = 4M }
ENTRY(started)
SECTIONS {
  .text : { KEEP(*(.first)) *(.text*) *(.rodata*) } >code
  .ARM.exidx : { *(.ARM.exidx*) } >code
  .data : ALIGN(8) { data_start = .; *(.data*) . = ALIGN(8); data_end = .; } >data AT>code
  data_kept = LOADADDR(.data);
  .bss (NOLOAD) : ALIGN(8) { zero_start = .; *(.bss*) *(COMMON) . = ALIGN(8); zero_end = .; } >data
  .noinit (NOLOAD) : ALIGN(8) { *(.noinit*) } >data
  stack_top = ORIGIN(data) + LENGTH(data);
}
