/* A microcontroller that listens to its arbiter: samples of the four upstream lines go into a listener, which holds every byte that the chip gives
 * against the model. Written from gunwaleish.h alone. Here the samples are made up: controller 0 asks for the bus and reads CONTR three times, and the
 * last time the chip has forgotten its grant. */
#include <stdio.h>

#include "gunwaleish.h"

#define ADDRESS 0x71
#define MOST 4096

static uint8_t samples[MOST];
static size_t length;

/* One sample: controller 0's lines as given, those of controller 1 at rest. */
static void lines(unsigned scl, unsigned sda) {
    samples[length++] = (uint8_t)(scl | sda << 1 | 0x0c);
}

static void start(void) {
    lines(1, 1);
    lines(1, 0);
}

static void stop(void) {
    lines(0, 0);
    lines(1, 0);
    lines(1, 1);
}

/* Eight bits, the highest first, and the acknowledgement. */
static void byte(uint8_t value) {
    for (unsigned clock = 0; clock < 9; clock++) {
        unsigned bit = clock < 8 ? value >> (7 - clock) & 1u : 0;
        lines(0, bit);
        lines(1, bit);
    }
}

static void written(uint8_t reg, uint8_t value) {
    start();
    byte(ADDRESS << 1);
    byte(reg);
    byte(value);
    stop();
}

/* The register is named, and after a second START the chip gives its byte. */
static void read_back(uint8_t reg, uint8_t given) {
    start();
    byte(ADDRESS << 1);
    byte(reg);
    lines(0, 1);
    start();
    byte(ADDRESS << 1 | 1);
    byte(given);
    stop();
}

int main(void) {
    uint8_t watch[GUNWALEISH_WATCH_BYTES];
    if (gunwaleish_watch_fresh(GUNWALEISH_PCA9641, ADDRESS, 1000, 0, watch, sizeof watch) != 0) {
        return 1;
    }
    written(GUNWALEISH_REGISTER_CONTR, GUNWALEISH_CONTR_LOCK_REQ);
    read_back(GUNWALEISH_REGISTER_CONTR, GUNWALEISH_CONTR_LOCK_REQ | GUNWALEISH_CONTR_LOCK_GRANT);
    read_back(GUNWALEISH_REGISTER_CONTR, GUNWALEISH_CONTR_LOCK_REQ | GUNWALEISH_CONTR_LOCK_GRANT);
    read_back(GUNWALEISH_REGISTER_CONTR, GUNWALEISH_CONTR_LOCK_REQ);
    size_t at = 0;
    uint64_t told = 0;
    while (at < length) {
        uint64_t result = gunwaleish_watch_listen(samples + at, length - at, watch, sizeof watch);
        if (gunwaleish_number(result) != 0) {
            return 1;
        }
        at += (size_t)gunwaleish_taken(result);
        if (gunwaleish_watch_count(watch, GUNWALEISH_WATCH_DIFFERENCES) > told) {
            struct gunwaleish_heard read = gunwaleish_watch_read(watch, GUNWALEISH_WATCH_LAST_READ_0);
            told = gunwaleish_watch_count(watch, GUNWALEISH_WATCH_DIFFERENCES);
            printf("sample %llu: controller %u, register %u: heard %02Xh, expected %02Xh\n", (unsigned long long)read.sample, read.master, read.reg,
                   read.heard, read.expected);
        }
    }
    printf("%llu samples, %llu events, %llu READs, %llu of them differ, %llu faults\n",
           (unsigned long long)gunwaleish_watch_count(watch, GUNWALEISH_WATCH_SAMPLES),
           (unsigned long long)gunwaleish_watch_count(watch, GUNWALEISH_WATCH_EVENTS),
           (unsigned long long)gunwaleish_watch_count(watch, GUNWALEISH_WATCH_READS), (unsigned long long)told,
           (unsigned long long)gunwaleish_watch_count(watch, GUNWALEISH_WATCH_FAULTS));
    return 0;
}
