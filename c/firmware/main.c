/* The program: takes each call of the file 'calls' and writes its answer, eight bytes with the low one first, to the file 'answers'. */
#include "answers.h"
#include "board.h"

#define AT_ONCE 512

static uint8_t calls[AT_ONCE * CALL_BYTES], answers[AT_ONCE * 8];

int main(void) {
    int from = board_open("calls", 0), to = board_open("answers", 1);
    uint32_t read;
    do {
        read = board_read(from, calls, sizeof calls) / CALL_BYTES;
        for (uint32_t i = 0; i < read; i++) {
            uint64_t answer = answer_to(calls + i * CALL_BYTES);
            for (uint32_t k = 0; k < 8; k++) {
                answers[8 * i + k] = (uint8_t)(answer >> (8 * k));
            }
        }
        board_write(to, answers, 8 * read);
    } while (read == AT_ONCE);
    return 0;
}
