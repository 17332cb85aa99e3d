/* QEMU's virt. */
MEMORY {
    RAM (rwx) : ORIGIN = 0x80000000, LENGTH = 4M
}
ENTRY(_start)
SECTIONS {
    .text : { *(.text.start) *(.text*) *(.rodata*) *(.srodata*) . = ALIGN(8); } > RAM
    .data : { *(.data*) *(.sdata*) . = ALIGN(8); } > RAM
    .bss : { _bss = .; *(.sbss*) *(.bss*) *(COMMON) . = ALIGN(8); _bss_end = .; } > RAM
    _stack = ORIGIN(RAM) + LENGTH(RAM);
}
