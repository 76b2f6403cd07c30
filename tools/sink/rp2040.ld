/* 2 MB of flash, of which the last two sectors count the boots; 264 KB of RAM. The boot block is first, then what
 * copies all else to RAM, where it runs: the flash is slow. The stack is at the RAM's end. */
MEMORY {
    FLASH (rx) : ORIGIN = 0x10000000, LENGTH = 2040K
    RAM (rwx) : ORIGIN = 0x20000000, LENGTH = 264K
}
ENTRY(boot)
rom_table = 0x14;
boot_log = ORIGIN(FLASH) + LENGTH(FLASH);
SECTIONS {
    .boot : { KEEP(*(.boot)) . = 252; LONG(0) } > FLASH
    .start : { KEEP(*(.start_vectors)) *(.start*) . = ALIGN(4); } > FLASH
    program_from = LOADADDR(.program);
    .program : {
        program_begin = .;
        KEEP(*(.vectors)) *(.text*) *(.rodata*) *(.data*) . = ALIGN(4);
        program_end = .;
    } > RAM AT > FLASH
    .bss (NOLOAD) : { bss_begin = .; *(.bss* COMMON) . = ALIGN(4); bss_end = .; } > RAM
    stack_top = ORIGIN(RAM) + LENGTH(RAM);
    ASSERT(SIZEOF(.boot) == 256, "the boot block has more than 252 bytes")
    ASSERT(start_vectors == ORIGIN(FLASH) + 256, "the vectors aren't behind the boot block")
    ASSERT(bss_end + 2048 <= stack_top, "no room for the stack")
    /DISCARD/ : { *(.ARM.exidx*) *(.comment) }
}
