/* Measures over the file 'calls': the deepest stack that each call took, by painting it before and looking after, and the instructions of an event.
 * Prints a line for each: 'stack' with the call's number and bytes, 'events' with their count and instructions. */
#include "answers.h"
#include "board.h"

#define AT_ONCE 512
#define PAINT 0xa5

static uint8_t calls[AT_ONCE * CALL_BYTES];

typedef uint64_t answering(const uint8_t *call);
typedef uint32_t stepping(uint8_t kind, uint8_t x, uint8_t y, uint8_t z);

static uint64_t no_answer(const uint8_t *call) {
    (void)call;
    return 0;
}

static uint32_t no_step(uint8_t kind, uint8_t x, uint8_t y, uint8_t z) {
    (void)kind, (void)x, (void)y, (void)z;
    return 0;
}

/* Through these the compiler sees neither. */
static answering *volatile answer_none = no_answer, *volatile answer_all = answer_to;
static stepping *volatile step_none = no_step, *volatile step_all = step_kept;

/* How far the stack was touched below where it stood. */
static uint32_t depth_of(answering *answer, const uint8_t *call) {
    uint8_t *top = board_stack();
    for (volatile uint8_t *at = board_stack_end; at < top; at++) {
        *at = PAINT;
    }
    answer(call);
    const volatile uint8_t *lowest = board_stack_end;
    while (lowest < top && *lowest == PAINT) {
        lowest++;
    }
    return (uint32_t)(top - lowest);
}

static uint32_t counted(stepping *step, const uint8_t *call, uint32_t count) {
    board_count_from_here();
    for (; count > 0; count--, call += CALL_BYTES) {
        step(call[1], call[2], call[3], call[4]);
    }
    return board_counted();
}

static void print_line(const char *what, uint32_t first, uint32_t second) {
    board_print(what);
    board_print_number(first);
    board_print(" ");
    board_print_number(second);
    board_print("\n");
}

static uint32_t deepest[CALLS], events, instructions;

/* Events that stand together, and what else there is, up to the next of them: the calls that were taken. */
static uint32_t take(const uint8_t *call, uint32_t left) {
    uint32_t run = 0;
    while (run < left && call[run * CALL_BYTES] == IMAGE_STEP) {
        run++;
    }
    if (run > 0) {
        uint32_t none = counted(step_none, call, run);
        instructions += counted(step_all, call, run) - none;
        events += run;
        return run;
    }
    answer_all(call);
    return 1;
}

static void look_at(const uint8_t *call) {
    uint32_t depth = depth_of(answer_all, call);
    if (depth > deepest[call[0]]) {
        deepest[call[0]] = depth;
    }
}

int main(void) {
    uint32_t read;
    int file = board_open("calls", 0);
    do {
        read = board_read(file, calls, sizeof calls) / CALL_BYTES;
        for (uint32_t i = 0; i < read;) {
            i += take(calls + i * CALL_BYTES, read - i);
        }
    } while (read == AT_ONCE);
    file = board_open("calls", 0);
    do {
        read = board_read(file, calls, sizeof calls) / CALL_BYTES;
        for (uint32_t i = 0; i < read; i++) {
            look_at(calls + i * CALL_BYTES);
        }
    } while (read == AT_ONCE);
    if (depth_of(answer_none, calls) != 0) {
        board_print("no measure of the stack\n");
        return 1;
    }
    for (uint32_t number = IMAGE_FRESH; number < CALLS; number++) {
        if (deepest[number] > 0) {
            print_line("stack ", number, deepest[number]);
        }
    }
    print_line("events ", events, instructions);
    return 0;
}
