/* A firmware's state, and its calls on it: one device as an image, a shelf of up to 16, two order sheets. All of it is bytes in buffers of its own. */
#include "../gunwaleish.h"
#include "answers.h"

/* Each with a little more room than the longest that is right, for lengths that are not. */
static uint8_t image[GUNWALEISH_IMAGE_BYTES + 2], row[GUNWALEISH_MOST_ROW + GUNWALEISH_RECORD_BYTES], slots[2 * GUNWALEISH_MOST_RECORDS + 4];
static uint8_t board[GUNWALEISH_SHEET_BYTES + 5], house[GUNWALEISH_SHEET_BYTES + 5], events[GUNWALEISH_SHEET_EVENTS_BYTES + 4];

enum buffers { IMAGE, ROW, SLOTS, BOARD, HOUSE, EVENTS, BUFFERS };
static uint8_t *const buffers[BUFFERS] = {image, row, slots, board, house, events};
static uint32_t lengths[BUFFERS] = {GUNWALEISH_IMAGE_BYTES};

uint32_t step_kept(uint8_t kind, uint8_t x, uint8_t y, uint8_t z) {
    return gunwaleish_image_step(kind, x, y, z, image, lengths[IMAGE]);
}

static uint32_t two_bytes(const uint8_t *from) {
    return from[0] | (uint32_t)from[1] << 8;
}

static uint64_t sheets_answer(const uint8_t *call) {
    const uint8_t *a = call + 1;
    switch (call[0]) {
    case SHEET_BOX: return gunwaleish_sheet_box(board, lengths[BOARD], house, lengths[HOUSE], a[0], a[1]);
    case SHEET_EVENTS: return gunwaleish_sheet_events(board, lengths[BOARD], house, lengths[HOUSE], events, lengths[EVENTS]);
    default: return gunwaleish_sheet_wait(board, lengths[BOARD], house, lengths[HOUSE], a[0], a[1]);
    }
}

uint64_t answer_to(const uint8_t *call) {
    const uint8_t *a = call + 1;
    switch (call[0]) {
    case PUT: buffers[a[0]][two_bytes(a + 1)] = a[3]; return 0;
    case GET: return buffers[a[0]][two_bytes(a + 1)];
    case LENGTH: lengths[a[0]] = two_bytes(a + 1); return 0;
    case IMAGE_FRESH: return gunwaleish_image_fresh(a[0], image, lengths[IMAGE]);
    case IMAGE_STEP: return step_kept(a[0], a[1], a[2], a[3]);
    case IMAGE_READ: return gunwaleish_image_read(a[0], a[1], image, lengths[IMAGE]);
    case IMAGE_ADVANCE: return gunwaleish_image_advance(two_bytes(a) | two_bytes(a + 2) << 16, image, lengths[IMAGE]);
    case SHELF_FRESH: return gunwaleish_shelf_fresh(slots, lengths[SLOTS], row, lengths[ROW]);
    case SHELF_STEP: return gunwaleish_shelf_step(a[0], a[1], a[2], a[3], a[4], row, lengths[ROW]);
    case SHELF_SHOW: return gunwaleish_shelf_show(a[0], row, lengths[ROW]);
    case ADDRESS_OF: return gunwaleish_address_of(a[0], a[1], a[2], a[3]);
    case PINS_OF: return gunwaleish_pins_of(a[0]);
    default: return sheets_answer(call);
    }
}
