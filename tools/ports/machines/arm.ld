ENTRY(reset)
SECTIONS {
    .text : { KEEP(*(.vectors)) *(.text*) *(.rodata*) *(.ARM.exidx*) . = ALIGN(8); } > FLASH
    _data_from = LOADADDR(.data);
    .data : { _data = .; *(.data*) . = ALIGN(8); _data_end = .; } > RAM AT> FLASH
    .bss : { _bss = .; *(.bss*) *(COMMON) . = ALIGN(8); _bss_end = .; end = .; } > RAM
    _stack = ORIGIN(RAM) + LENGTH(RAM);
}
