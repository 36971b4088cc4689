/* Code from 0 and 512 kB of data from 0x20000000, as on many a Cortex-M and on qemu's boards mps2-an385 and mps2-an386; elsewhere say
 * --defsym=code_at=.., data_at=.. and data_size=.. */
MEMORY {
  FLASH (rx) : ORIGIN = DEFINED(code_at) ? code_at : 0, LENGTH = 512K
  RAM (rwx) : ORIGIN = DEFINED(data_at) ? data_at : 0x20000000, LENGTH = DEFINED(data_size) ? data_size : 512K
}
ENTRY(reset)
SECTIONS {
  .text : { KEEP(*(.vectors)) *(.text*) *(.rodata*) *(.ARM.extab*) . = ALIGN(8); } >FLASH
  .ARM.exidx : { __exidx_start = .; *(.ARM.exidx*) __exidx_end = .; } >FLASH
  .data : { data_begin = .; *(.data*) . = ALIGN(8); data_end = .; } >RAM AT >FLASH
  data_from = LOADADDR(.data);
  .bss (NOLOAD) : { bss_begin = .; *(.bss*) *(COMMON) . = ALIGN(8); bss_end = .; } >RAM
  stack_top = ORIGIN(RAM) + LENGTH(RAM);
}
