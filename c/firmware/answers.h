/* What the program asks: one call of six bytes, its number and five arguments. rust/model/src/bin/firmware.rs writes them. */
#ifndef FIRMWARE_ANSWERS_H
#define FIRMWARE_ANSWERS_H

#include <stdint.h>

#define CALL_BYTES 6

enum calls {
    PUT = 0,
    GET = 1,
    LENGTH = 2,
    IMAGE_FRESH = 3,
    IMAGE_STEP = 4,
    IMAGE_READ = 5,
    IMAGE_ADVANCE = 6,
    SHELF_FRESH = 7,
    SHELF_STEP = 8,
    SHELF_SHOW = 9,
    SHEET_BOX = 10,
    SHEET_EVENTS = 11,
    SHEET_WAIT = 12,
    ADDRESS_OF = 13,
    PINS_OF = 14,
    CALLS = 15
};

/* Its answer. library.c answers by the proved library, plain.c by a stepper in plain C, which knows a device's own calls alone. */
uint64_t answer_to(const uint8_t *call);

/* One event on the device that is kept. */
uint32_t step_kept(uint8_t kind, uint8_t x, uint8_t y, uint8_t z);

#endif
