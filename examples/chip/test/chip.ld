/*
 * An nRF51 with 32 KiB of RAM, as QEMU's microbit can be told to have. The box has FLASH, OUTBOX and RAM; WORLD is the tester's own RAM,
 * which no chip has.
 */
MEMORY {
    FLASH (rx) : ORIGIN = 0x00000000, LENGTH = 128K
    OUTBOX (r) : ORIGIN = 0x00020000, LENGTH = 16K
    RAM (rwx) : ORIGIN = 0x20000000, LENGTH = 32K
    WORLD (rw) : ORIGIN = 0x20008000, LENGTH = 16K
}
ENTRY(power_up)
board_flash = ORIGIN(OUTBOX);
board_flash_end = ORIGIN(OUTBOX) + LENGTH(OUTBOX);
ram = ORIGIN(RAM);
ram_end = ORIGIN(RAM) + LENGTH(RAM);
world_end = ORIGIN(WORLD) + LENGTH(WORLD);
SECTIONS {
    .text : { KEEP(*(.vectors)) *(.text*) *(.rodata*) *(.ARM.exidx*) . = ALIGN(8); } > FLASH
    data_from = LOADADDR(.data);
    .data : { data = .; *(.data*) . = ALIGN(8); data_end = .; } > RAM AT> FLASH
    .bss : { bss = .; *(.bss*) *(COMMON) . = ALIGN(8); bss_end = .; } > RAM
    .world (NOLOAD) : { *(.world*) } > WORLD
}
