/* The smallest of firmwares: one device as an image, and the three calls on it. It answers what plain.c does. */
#include "../gunwaleish.h"
#include "answers.h"

static uint8_t image[GUNWALEISH_IMAGE_BYTES];

uint32_t step_kept(uint8_t kind, uint8_t x, uint8_t y, uint8_t z) {
    return gunwaleish_image_step(kind, x, y, z, image, sizeof image);
}

uint64_t answer_to(const uint8_t *call) {
    const uint8_t *a = call + 1;
    switch (call[0]) {
    case IMAGE_FRESH: return gunwaleish_image_fresh(a[0], image, sizeof image);
    case IMAGE_STEP: return step_kept(a[0], a[1], a[2], a[3]);
    default: return gunwaleish_image_read(a[0], a[1], image, sizeof image);
    }
}
