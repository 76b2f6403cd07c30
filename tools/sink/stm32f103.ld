/* 64 KB of flash, of which a bootloader may have the first BOOT_BYTES; 20 KB of RAM, the stack at its end. */
MEMORY {
    FLASH (rx) : ORIGIN = 0x08000000 + BOOT_BYTES, LENGTH = 64K - BOOT_BYTES
    RAM (rw) : ORIGIN = 0x20000000, LENGTH = 20K
}
ENTRY(vectors)
SECTIONS {
    .text : { vectors_begin = .; KEEP(*(.vectors)) *(.text*) *(.rodata*) . = ALIGN(4); } > FLASH
    data_from = LOADADDR(.data);
    .data : { data_begin = .; *(.data*) . = ALIGN(4); data_end = .; } > RAM AT > FLASH
    .bss (NOLOAD) : { bss_begin = .; *(.bss* COMMON) . = ALIGN(4); bss_end = .; } > RAM
    stack_top = ORIGIN(RAM) + LENGTH(RAM);
    ASSERT(bss_end + 2048 <= stack_top, "no room for the stack")
    /DISCARD/ : { *(.ARM.exidx*) *(.comment) }
}
