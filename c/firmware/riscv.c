/* QEMU's board 'virt' with an RV32: where it starts, its calls to the emulator, its counter. All of it runs from memory. */
#include "board.h"

__attribute__((used)) static _Noreturn void start(void) {
    board_stop((uint32_t)main());
}

__attribute__((used)) static _Noreturn void fault(void) {
    board_print("fault\n");
    board_stop(1);
}

/* The data lie where they are loaded, and the emulator clears what is not loaded. */
__asm__(".section .vectors, \"ax\"\n"
        ".globl board_entry\n"
        "board_entry: la sp, board_stack_start\n"
        "la t0, fault\n"
        "csrw mtvec, t0\n"
        "j start\n"
        ".text\n");

/* The three instructions that an emulator takes for a call, which stand together on one page. */
uintptr_t board_call(uintptr_t number, const void *block) {
    register uintptr_t a0 __asm__("a0") = number;
    register const void *a1 __asm__("a1") = block;
    __asm__ volatile(".balign 16\n"
                     ".option push\n"
                     ".option norvc\n"
                     "slli x0, x0, 0x1f\n"
                     "ebreak\n"
                     "srai x0, x0, 7\n"
                     ".option pop\n"
                     : "+r"(a0)
                     : "r"(a1)
                     : "memory");
    return a0;
}

static uint32_t counted_before;

/* Under -icount the emulator counts every instruction. */
static uint32_t instructions(void) {
    uint32_t count;
    __asm__ volatile("csrr %0, minstret" : "=r"(count)::"memory");
    return count;
}

void board_count_from_here(void) {
    counted_before = instructions();
}

uint32_t board_counted(void) {
    return instructions() - counted_before;
}
