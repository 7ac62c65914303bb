/* Files, printing and stopping by semihosting, alike on every board. */
#include "board.h"

enum { OPEN = 0x01, WRITE_TEXT = 0x04, WRITE = 0x05, READ = 0x06, STOP = 0x20 };
enum { READING = 1, WRITING = 5 };

static uint32_t length_of(const char *text) {
    uint32_t length = 0;
    while (text[length] != 0) {
        length++;
    }
    return length;
}

int board_open(const char *name, int to_write) {
    const uintptr_t block[3] = {(uintptr_t)name, to_write ? WRITING : READING, length_of(name)};
    int file = (int)board_call(OPEN, block);
    if (file < 0) {
        board_print("no file ");
        board_print(name);
        board_print("\n");
        board_stop(1);
    }
    return file;
}

/* Gives how many bytes were read; fewer than asked for only at the end of the file. */
uint32_t board_read(int file, void *to, uint32_t length) {
    const uintptr_t block[3] = {(uintptr_t)file, (uintptr_t)to, length};
    return length - (uint32_t)board_call(READ, block);
}

void board_write(int file, const void *from, uint32_t length) {
    const uintptr_t block[3] = {(uintptr_t)file, (uintptr_t)from, length};
    if (board_call(WRITE, block) != 0) {
        board_print("not written\n");
        board_stop(1);
    }
}

void board_print(const char *text) {
    board_call(WRITE_TEXT, text);
}

void board_print_number(uint32_t number) {
    char digits[11];
    unsigned at = sizeof digits - 1;
    digits[at] = 0;
    do {
        digits[--at] = (char)('0' + number % 10);
        number /= 10;
    } while (number > 0);
    board_print(digits + at);
}

_Noreturn void board_stop(uint32_t status) {
    const uintptr_t block[2] = {0x20026, status}; /* the program has ended */
    board_call(STOP, block);
    for (;;) {
    }
}
