/* What a board gives the program: files of the machine that emulates it (semihosting), a way to stop, and a count of instructions. arm.c and
 * riscv.c have it, each for its board; runtime.c has what the library and the compiler take from a runtime. */
#ifndef FIRMWARE_BOARD_H
#define FIRMWARE_BOARD_H

#include <stddef.h>
#include <stdint.h>

/* One call to the emulator, by its number and its block of arguments. */
uintptr_t board_call(uintptr_t number, const void *block);

/* Begins a stretch of instructions to count, and ends it: how many there were, to the grain of the board's counter. */
void board_count_from_here(void);
uint32_t board_counted(void);

/* The lowest byte of the room for the stack; the linker scripts have it. And where the stack stands. */
extern uint8_t board_stack_end[];
static inline uint8_t *board_stack(void) {
    uint8_t *at;
#ifdef __arm__
    __asm__ volatile("mov %0, sp" : "=r"(at)::"memory");
#else
    __asm__ volatile("mv %0, sp" : "=r"(at)::"memory");
#endif
    return at;
}

/* Over the calls of every board. */
int board_open(const char *name, int to_write);
uint32_t board_read(int file, void *to, uint32_t length);
void board_write(int file, const void *from, uint32_t length);
void board_print(const char *text);
void board_print_number(uint32_t number);
_Noreturn void board_stop(uint32_t status);

int main(void);

#endif
