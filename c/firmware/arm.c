/* An MPS2 board with a Cortex-M3 (AN385): where it starts, its calls to the emulator, its counter. */
#include "board.h"

extern uint8_t board_stack_start[], board_data[], board_data_end[], board_zero[], board_zero_end[];
extern const uint8_t board_data_in_flash[];

void board_entry(void);

void board_entry(void) {
    const uint8_t *from = board_data_in_flash;
    for (uint8_t *to = board_data; to < board_data_end; to++) {
        *to = *from++;
    }
    for (uint8_t *to = board_zero; to < board_zero_end; to++) {
        *to = 0;
    }
    board_stop((uint32_t)main());
}

static void fault(void) {
    board_print("fault\n");
    board_stop(1);
}

/* The stack, the start, and what stops it: a fault of the program is told and not run into. */
typedef void handler(void);
struct vectors {
    uint8_t *stack;
    handler *handlers[6];
};
__attribute__((section(".vectors"), used)) static const struct vectors vectors = {board_stack_start, {board_entry, fault, fault, fault, fault, fault}};

uintptr_t board_call(uintptr_t number, const void *block) {
    register uintptr_t r0 __asm__("r0") = number;
    register const void *r1 __asm__("r1") = block;
    __asm__ volatile("bkpt 0xab" : "+r"(r0) : "r"(r1) : "memory");
    return r0;
}

/* SysTick falls at 25 MHz. Under -icount shift=0 an instruction takes a nanosecond, so 40 of them are one count. */
struct systick {
    volatile uint32_t control, reload, value;
};
#define SYSTICK ((struct systick *)0xe000e010)
#define TOP 0xffffffu

void board_count_from_here(void) {
    SYSTICK->reload = TOP;
    SYSTICK->value = 0;
    SYSTICK->control = 5; /* on, by the processor's clock, without an interrupt */
    while (SYSTICK->value == 0) {
    } /* it begins at the top with its first count */
}

uint32_t board_counted(void) {
    return (TOP - SYSTICK->value) * 40;
}
