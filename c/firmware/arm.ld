/* MPS2 AN385: code and constants from 0 on, data and stack in the memory at 20000000h. */
MEMORY {
    FLASH (rx) : ORIGIN = 0, LENGTH = 4M
    RAM (rw) : ORIGIN = 0x20000000, LENGTH = 4M
}
ENTRY(board_entry)
SECTIONS {
    .text : { KEEP(*(.vectors)) *(.text*) *(.rodata*) } > FLASH
    .data : { board_data = .; *(.data*) board_data_end = .; } > RAM AT> FLASH
    board_data_in_flash = LOADADDR(.data);
    .bss (NOLOAD) : { board_zero = .; *(.bss*) *(COMMON) board_zero_end = .; } > RAM
    .stack (NOLOAD) : { . = ALIGN(8); board_stack_end = .; . += 8K; board_stack_start = .; } > RAM
    /DISCARD/ : { *(.ARM.exidx*) *(.ARM.extab*) *(.comment) }
}
