/* A kind of part given for an event, or an event for a kind of part. With MISTAKE 0 nothing is mistaken; each of the others a compiler has to tell of. */
#include "../gunwaleish.h"

uint64_t mistaken(enum gunwaleish_kind_of_part kind, enum gunwaleish_event_number event, uint8_t *image, uint8_t *row);

uint64_t mistaken(enum gunwaleish_kind_of_part kind, enum gunwaleish_event_number event, uint8_t *image, uint8_t *row) {
    uint64_t said = gunwaleish_image_fresh(kind, image, GUNWALEISH_IMAGE_BYTES);
    said += gunwaleish_image_step(event, 0, 0, 0, image, GUNWALEISH_IMAGE_BYTES);
    said += gunwaleish_shelf_step(0, event, 0, 0, 0, row, GUNWALEISH_RECORD_BYTES);
#if MISTAKE == 1
    said += gunwaleish_image_step(GUNWALEISH_PCA9641, 0, 0, 0, image, GUNWALEISH_IMAGE_BYTES);
#elif MISTAKE == 2
    said += gunwaleish_image_step(kind, 0, 0, 0, image, GUNWALEISH_IMAGE_BYTES);
#elif MISTAKE == 3
    said += gunwaleish_shelf_step(0, kind, 0, 0, 0, row, GUNWALEISH_RECORD_BYTES);
#elif MISTAKE == 4
    said += gunwaleish_image_event(kind, image, GUNWALEISH_IMAGE_BYTES);
#elif MISTAKE == 5
    said += gunwaleish_image_fresh(GUNWALEISH_EVENT_WRITE, image, GUNWALEISH_IMAGE_BYTES);
#elif MISTAKE == 6
    said += gunwaleish_write_trace(0, 0, 0, 0, event, image, 0, row, GUNWALEISH_RECORD_BYTES);
#elif MISTAKE == 7
    said += gunwaleish_sheet_wait(image, GUNWALEISH_SHEET_BYTES, image, GUNWALEISH_SHEET_BYTES, 0, event);
#endif
    return said;
}
