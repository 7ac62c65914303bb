/* QEMU's 'virt': everything in the memory at 80000000h, where it starts. */
MEMORY {
    RAM (rwx) : ORIGIN = 0x80000000, LENGTH = 512K
}
ENTRY(board_entry)
SECTIONS {
    .text : { KEEP(*(.vectors)) *(.text*) *(.rodata*) *(.srodata*) } > RAM
    .data : { *(.data*) *(.sdata*) } > RAM
    .bss : { *(.bss*) *(.sbss*) *(COMMON) } > RAM
    .stack (NOLOAD) : { . = ALIGN(16); board_stack_end = .; . += 8K; board_stack_start = .; } > RAM
    /DISCARD/ : { *(.eh_frame*) *(.comment) }
}
