/* A caller's fault that memcheck has to tell of, with c/memcheck.c linked too: `faults unwritten` runs a trace of which a byte was never written,
 * `faults short` lends a buffer that is not as long as it is told, and `faults none` does neither. */
#include <stdlib.h>
#include <string.h>

#include "../gunwaleish.h"

int main(int argc, char **argv) {
    static const uint8_t good[13] = {4, 0, 0, 0, 0, 1, 0, 6, 0, 0, 0, 1, 0};
    const char *fault = argc > 1 ? argv[1] : "none";
    uint8_t *trace = (uint8_t *)malloc(sizeof good);
    uint8_t *answers = (uint8_t *)malloc(strcmp(fault, "short") == 0 ? 3 : 4);
    if (trace == NULL || answers == NULL) {
        return 2;
    }
    memcpy(trace, good, strcmp(fault, "unwritten") == 0 ? sizeof good - 1 : sizeof good);
    uint64_t report = gunwaleish_run_trace(trace, sizeof good, answers, 4);
    free(trace);
    free(answers);
    return gunwaleish_number(report) > 0;
}
