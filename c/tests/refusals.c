/* Every refusal of every call, by its name in the header, in the order in which the header has them. What a refused call was lent is as it was. */
#include "expect.h"

#define ROOM (GUNWALEISH_WATCH_BYTES + 2)
#define LONG_EVENTS (4 * (GUNWALEISH_MOST_EVENTS + 1))

static uint8_t room[ROOM];
static uint8_t before[ROOM];
static uint8_t events[LONG_EVENTS];
static uint8_t samples[GUNWALEISH_MOST_SAMPLES + 1];

/* A call that is refused, and leaves the lent room. */
static void refused(const char *what, uint64_t packed, unsigned number) {
    expect(what, packed, number);
    expect("and the room", memcmp(room, before, sizeof room) == 0, 1);
}

static void fill(void) {
    memset(room, 0xa5, sizeof room);
    memset(before, 0xa5, sizeof before);
}

/* A trace of one TICK on a PCA9641 at 70h. */
static const uint8_t good[13] = {4, 0, 0, 0, 0, 1, 0, 6, 0, 0, 0, 1, 0};
static uint8_t trace[14];

static uint64_t run(uint64_t length, unsigned place, uint8_t byte) {
    memcpy(trace, good, sizeof good);
    trace[place] = byte;
    return gunwaleish_run_trace(trace, length, room, sizeof room);
}

static void traces(void) {
    fill();
    refused("trace, first count", run(13, 0, 3), GUNWALEISH_WRONG_COUNT);
    refused("trace, pins", run(13, 1, 4), GUNWALEISH_NO_SUCH_STRAPPING);
    refused("trace, events", run(13, 6, 0x11), GUNWALEISH_TOO_MANY_EVENTS);
    refused("trace, count of the kind", run(13, 11, 2), GUNWALEISH_WRONG_COUNT);
    refused("trace, kind", run(13, 12, 2), GUNWALEISH_NO_SUCH_PART);
    for (uint64_t length = 0; length < 13; length++) {
        refused("trace, cut", run(length, 0, 4), GUNWALEISH_TRACE_CUT);
    }
    refused("trace, bytes after it", run(14, 13, 0), GUNWALEISH_BYTES_AFTER_END);
    refused("trace, room", gunwaleish_run_trace(good, sizeof good, room, 3), GUNWALEISH_TOO_LITTLE_ROOM);
}

static void written(void) {
    fill();
    refused("writer, pins", gunwaleish_write_trace(1, 0, 0, 0, GUNWALEISH_PCA9641, events, 4, room, sizeof room), GUNWALEISH_NO_SUCH_STRAPPING);
    refused("writer, fours", gunwaleish_write_trace(0, 0, 0, 0, GUNWALEISH_PCA9641, events, 5, room, sizeof room), GUNWALEISH_TRACE_CUT);
    refused("writer, events", gunwaleish_write_trace(0, 0, 0, 0, GUNWALEISH_PCA9641, events, sizeof events, room, sizeof room), GUNWALEISH_TOO_MANY_EVENTS);
    refused("writer, kind", gunwaleish_write_trace(0, 0, 0, 0, (enum gunwaleish_kind_of_part)2, events, 4, room, sizeof room), GUNWALEISH_NO_SUCH_PART);
    refused("writer, room", gunwaleish_write_trace(0, 0, 0, 0, GUNWALEISH_PCA9641, events, 4, room, 12), GUNWALEISH_TOO_LITTLE_ROOM);
}

static uint64_t convert(uint64_t length, unsigned place, uint8_t byte, uint64_t lent) {
    memcpy(trace, good, sizeof good);
    trace[place] = byte;
    return gunwaleish_convert_trace(trace, length, room, lent);
}

static void converted(void) {
    fill();
    refused("old trace, first count", convert(11, 0, 3, ROOM), GUNWALEISH_WRONG_COUNT);
    refused("old trace, pins", convert(11, 4, 4, ROOM), GUNWALEISH_NO_SUCH_STRAPPING);
    refused("old trace, events", convert(11, 6, 0x11, ROOM), GUNWALEISH_TOO_MANY_EVENTS);
    refused("old trace, cut", convert(10, 0, 4, ROOM), GUNWALEISH_TRACE_CUT);
    refused("a new trace", convert(13, 0, 4, ROOM), GUNWALEISH_BYTES_AFTER_END);
    refused("old trace, room", convert(11, 0, 4, 12), GUNWALEISH_TOO_LITTLE_ROOM);
}

/* Adds samples in which one bus stands at these levels; the other one is high. */
static uint64_t level(uint64_t length, unsigned scl, unsigned sda) {
    samples[length] = (uint8_t)(scl | sda << 1 | 0x0c);
    return length + 1;
}

/* A START, and then as many clocks as named, with the bits of an address that ends in a written transfer to 70h, and of COMMAND 01h. */
static uint64_t clocks(unsigned count) {
    const unsigned bits = 0xe0u << 10 | 1u << 9 | 1u << 1 | 1u; /* each byte with its ninth bit */
    uint64_t length = level(level(0, 1, 1), 1, 0);
    for (unsigned clock = 0; clock < count; clock++) {
        unsigned bit = bits >> (17 - clock) & 1;
        length = level(level(level(length, 0, bit), 1, bit), 0, bit);
    }
    return length;
}

static void captured(void) {
    fill();
    refused("capture, samples", gunwaleish_import_capture(samples, sizeof samples, 0x70, room, sizeof room), GUNWALEISH_TOO_MANY_SAMPLES);
    refused("capture, address", gunwaleish_import_capture(samples, 0, 0x78, room, sizeof room), GUNWALEISH_ADDRESS_OUTSIDE);
    refused("capture, cut", gunwaleish_import_capture(samples, clocks(5), 0x70, room, sizeof room), GUNWALEISH_BYTE_CUT);
    refused("capture, room", gunwaleish_import_capture(samples, clocks(18), 0x70, room, 3), GUNWALEISH_TOO_LITTLE_ROOM);
    expect("capture, room enough", gunwaleish_import_capture(samples, clocks(18), 0x70, room, 4), 256 * 1);
}

static void listeners(void) {
    const uint64_t whole = GUNWALEISH_WATCH_BYTES;
    fill();
    for (uint64_t length = whole - 1; length <= whole + 1; length += 2) {
        refused("listener, length", gunwaleish_watch_fresh(GUNWALEISH_PCA9641, 0x70, 0, 0, room, length), GUNWALEISH_OTHER_WATCH_LENGTH);
        refused("listening, length", gunwaleish_watch_listen(samples, 1, room, length), GUNWALEISH_OTHER_WATCH_LENGTH);
    }
    refused("listener, kind", gunwaleish_watch_fresh((enum gunwaleish_kind_of_part)2, 0x78, 0, 0, room, whole), GUNWALEISH_NO_SUCH_PART);
    refused("listener, below", gunwaleish_watch_fresh(GUNWALEISH_PCA9641, 0x78, 0, 2, room, whole), GUNWALEISH_NEITHER_BELOW);
    refused("listener, address", gunwaleish_watch_fresh(GUNWALEISH_PCA9641, 0x78, 0, 1, room, whole), GUNWALEISH_ADDRESS_OUTSIDE);
    refused("listening, damaged", gunwaleish_watch_listen(samples, 1, room, whole), GUNWALEISH_WATCH_OUT_OF_RANGE);
    expect("listener", gunwaleish_watch_fresh(GUNWALEISH_PCA9641, 0x70, 0, 1, room, whole), GUNWALEISH_DONE);
    memcpy(before, room, sizeof before);
    room[whole - 4] = before[whole - 4] = 2;
    refused("listening, master", gunwaleish_watch_listen(samples, 1, room, whole), GUNWALEISH_WATCH_OUT_OF_RANGE);
}

/* Two sheets: every box ticked on the board sheet, none on the house sheet. */
static uint8_t board[GUNWALEISH_SHEET_BYTES + 1];
static const uint8_t house[GUNWALEISH_SHEET_BYTES] = {2, 0, 0, 0, 0, 2, 0, 0, 0, 0, 2, 0, 0, 0, 0};

/* The board sheet with one byte replaced. */
static const uint8_t *board_with(unsigned place, uint8_t byte) {
    static const uint8_t ticked[GUNWALEISH_SHEET_BYTES] = {2, 1, 50, 1, 20, 2, 1, 0, 1, 1, 2, 1, 0, 1, 1};
    memcpy(board, ticked, sizeof ticked);
    board[place] = byte;
    return board;
}

/* What all three calls with sheets say of the sheets themselves. */
static void sheet_faults(const char *what, unsigned place, uint8_t byte, uint64_t length, unsigned number) {
    const uint8_t *sheet = board_with(place, byte);
    expect(what, gunwaleish_sheet_box(sheet, length, house, sizeof house, 0, 0), number);
    refused(what, gunwaleish_sheet_events(sheet, length, house, sizeof house, room, sizeof room), number);
    expect(what, gunwaleish_sheet_wait(sheet, length, house, sizeof house, 0, GUNWALEISH_PCA9641), number);
    expect("of the house sheet", gunwaleish_sheet_box(house, sizeof house, sheet, length, 0, 0), number);
}

static void sheets(void) {
    const uint64_t whole = GUNWALEISH_SHEET_BYTES;
    fill();
    sheet_faults("sheet, cut", 0, 2, whole - 1, GUNWALEISH_SHEET_CUT);
    sheet_faults("sheet, count", 5, 3, whole, GUNWALEISH_WRONG_BOX_COUNT);
    sheet_faults("sheet, box", 1, 2, whole, GUNWALEISH_BAD_BOX);
    sheet_faults("sheet, bytes after it", 15, 0, whole + 1, GUNWALEISH_BYTES_AFTER_SHEET);
    expect("section 3", gunwaleish_sheet_box(board_with(0, 2), whole, house, whole, 3, 0), GUNWALEISH_NO_SUCH_BOX);
    expect("controller 2", gunwaleish_sheet_box(board, whole, house, whole, GUNWALEISH_SECTION_IDLE, 2), GUNWALEISH_NO_SUCH_BOX);
    expect("an empty box", gunwaleish_sheet_box(house, whole, house, whole, GUNWALEISH_SECTION_RESERVE, 0), GUNWALEISH_EMPTY_BOX);
    refused("events of an empty box", gunwaleish_sheet_events(house, whole, house, whole, room, sizeof room), GUNWALEISH_EMPTY_BOX);
    refused("events, room", gunwaleish_sheet_events(board, whole, house, whole, room, 47), GUNWALEISH_TOO_LITTLE_ROOM);
    expect("the wait of controller 2", gunwaleish_sheet_wait(board, whole, house, whole, 2, GUNWALEISH_PCA9641), GUNWALEISH_NO_SUCH_BOX);
    expect("on another part", gunwaleish_sheet_wait(board, whole, house, whole, 0, (enum gunwaleish_kind_of_part)2), GUNWALEISH_NO_SUCH_PART);
    expect("by an empty box", gunwaleish_sheet_wait(house, whole, house, whole, 0, GUNWALEISH_PCA9641), GUNWALEISH_EMPTY_BOX);
}

static void images(void) {
    const struct gunwaleish_event tick = gunwaleish_event_tick();
    const uint64_t whole = GUNWALEISH_IMAGE_BYTES;
    fill();
    for (uint64_t length = whole - 1; length <= whole + 1; length += 2) {
        refused("fresh, length", gunwaleish_image_fresh(GUNWALEISH_PCA9641, room, length), GUNWALEISH_OTHER_LENGTH);
        refused("step, length", gunwaleish_image_event(tick, room, length), GUNWALEISH_OTHER_LENGTH);
        refused("advance, length", gunwaleish_image_advance(1, room, length), GUNWALEISH_OTHER_LENGTH);
        refused("read, length", gunwaleish_image_read(0, 0, room, length), GUNWALEISH_OTHER_LENGTH);
    }
    refused("fresh, kind", gunwaleish_image_fresh((enum gunwaleish_kind_of_part)2, room, whole), GUNWALEISH_NO_SUCH_PART);
    refused("step, damaged", gunwaleish_image_event(tick, room, whole), GUNWALEISH_IMAGE_OUT_OF_RANGE);
    refused("advance, damaged", gunwaleish_image_advance(1, room, whole), GUNWALEISH_IMAGE_OUT_OF_RANGE);
    refused("read, damaged", gunwaleish_image_read(0, 0, room, whole), GUNWALEISH_IMAGE_OUT_OF_RANGE);
    expect("fresh", gunwaleish_image_fresh(GUNWALEISH_PCA9641, room, whole), GUNWALEISH_DONE);
    memcpy(before, room, sizeof before);
    refused("advance, ticks", gunwaleish_image_advance(GUNWALEISH_MOST_TICKS + 1, room, whole), GUNWALEISH_TOO_MANY_TICKS);
    refused("read, master", gunwaleish_image_read(2, 0, room, whole), GUNWALEISH_NO_SUCH_REGISTER);
    refused("read, register", gunwaleish_image_read(0, 8, room, whole), GUNWALEISH_NO_SUCH_REGISTER);
}

/* A row, and what both calls on it say of it; of these it may have one record too many. */
static uint8_t row[GUNWALEISH_MOST_ROW + GUNWALEISH_RECORD_BYTES];
static uint8_t row_before[sizeof row];

static void row_refused(const char *what, uint64_t length, uint8_t name, unsigned number) {
    memcpy(row_before, row, sizeof row);
    expect(what, gunwaleish_shelf_event(name, gunwaleish_event_stop(0), row, length), number);
    expect(what, gunwaleish_shelf_show(name, row, length), number);
    expect("and the row", memcmp(row, row_before, sizeof row) == 0, 1);
}

static void shelves(void) {
    const uint64_t record = GUNWALEISH_RECORD_BYTES;
    uint8_t slots[2 * (GUNWALEISH_MOST_RECORDS + 1)];
    for (uint8_t place = 0; place <= GUNWALEISH_MOST_RECORDS; place++) {
        slots[2 * place] = (uint8_t)(0x40 + place);
        slots[2 * place + 1] = GUNWALEISH_TPT29641;
    }
    expect("row, length", gunwaleish_shelf_fresh(slots, 4, row, record), GUNWALEISH_OTHER_ROW_LENGTH);
    expect("row, slots in twos", gunwaleish_shelf_fresh(slots, 3, row, record), GUNWALEISH_OTHER_ROW_LENGTH);
    expect("row, none", gunwaleish_shelf_fresh(slots, 0, row, 0), GUNWALEISH_EMPTY_ROW);
    expect("row, 17", gunwaleish_shelf_fresh(slots, sizeof slots, row, sizeof row), GUNWALEISH_LONG_ROW);
    expect("row of 16", gunwaleish_shelf_fresh(slots, sizeof slots - 2, row, sizeof row - record), GUNWALEISH_DONE);
    row_refused("row, length", record + 1, 0x40, GUNWALEISH_OTHER_ROW_LENGTH);
    row_refused("row, none", 0, 0x40, GUNWALEISH_EMPTY_ROW);
    row_refused("row, name", 16 * record, 0x60, GUNWALEISH_NOT_IN_ROW);
    memcpy(row + 16 * record, row, record);
    row_refused("row, 17", 17 * record, 0x40, GUNWALEISH_LONG_ROW);
    row[record] = 0x40;
    row_refused("row, equal addresses", 16 * record, 0x40, GUNWALEISH_EQUAL_ADDRESSES);
    row[GUNWALEISH_IMAGE_BYTES] = 0xff; /* the last field of the first image */
    row_refused("row, damaged", 16 * record, 0x40, GUNWALEISH_IMAGE_OUT_OF_RANGE);
    slots[3] = 2;
    expect("row, kind", gunwaleish_shelf_fresh(slots, 4, row, 2 * record), GUNWALEISH_NO_SUCH_PART);
    slots[2] = slots[0];
    expect("row, equal slots", gunwaleish_shelf_fresh(slots, 4, row, 2 * record), GUNWALEISH_EQUAL_ADDRESSES);
}

static void orders(void) {
    fill();
    refused("scripts, fours", gunwaleish_list_orders(events, 5, events, 0, UINT64_MAX, room, sizeof room), GUNWALEISH_TRACE_CUT);
    refused("scripts, long", gunwaleish_list_orders(events, 28, events, 0, UINT64_MAX, room, sizeof room), GUNWALEISH_LONG_SCRIPT);
    refused("scripts, room", gunwaleish_list_orders(events, 8, events, 4, UINT64_MAX, room, 2), GUNWALEISH_TOO_LITTLE_ROOM);
}

/* A trace that is refused is counted under its number, and nothing else is added. */
static void counted(unsigned place, uint8_t byte, uint64_t length, unsigned number, unsigned total) {
    uint64_t totals[GUNWALEISH_TOTALS] = {0};
    uint64_t wanted[GUNWALEISH_TOTALS] = {0};
    memcpy(trace, good, sizeof good);
    trace[place] = byte;
    wanted[GUNWALEISH_TOTAL_TRACES] = 1;
    wanted[total] = 1;
    expect("a refused trace", gunwaleish_share_add(trace, length, totals, GUNWALEISH_TOTALS), number);
    expect("is counted", memcmp(totals, wanted, sizeof totals) == 0, 1);
}

static void shares(void) {
    uint64_t totals[GUNWALEISH_TOTALS] = {GUNWALEISH_MOST_TRACES};
    const uint64_t other[GUNWALEISH_TOTALS] = {1};
    counted(12, 2, 13, GUNWALEISH_NO_SUCH_PART, GUNWALEISH_TOTAL_REFUSED_3);
    counted(0, 4, 12, GUNWALEISH_TRACE_CUT, GUNWALEISH_TOTAL_REFUSED_5);
    counted(6, 0x11, 13, GUNWALEISH_TOO_MANY_EVENTS, GUNWALEISH_TOTAL_REFUSED_6);
    counted(13, 0, 14, GUNWALEISH_BYTES_AFTER_END, GUNWALEISH_TOTAL_REFUSED_7);
    counted(1, 4, 13, GUNWALEISH_NO_SUCH_STRAPPING, GUNWALEISH_TOTAL_REFUSED_8);
    counted(0, 3, 13, GUNWALEISH_WRONG_COUNT, GUNWALEISH_TOTAL_REFUSED_10);
    expect("totals, traces", gunwaleish_share_add(good, sizeof good, totals, GUNWALEISH_TOTALS), GUNWALEISH_TOO_MANY_TRACES);
    expect("joined, traces", gunwaleish_share_join(other, GUNWALEISH_TOTALS, totals, GUNWALEISH_TOTALS), GUNWALEISH_TOO_MANY_TRACES);
    expect("totals, length", gunwaleish_share_add(good, sizeof good, totals, GUNWALEISH_TOTALS - 1), GUNWALEISH_OTHER_TOTALS_LENGTH);
    expect("joined, length", gunwaleish_share_join(other, GUNWALEISH_TOTALS - 1, totals, GUNWALEISH_TOTALS), GUNWALEISH_OTHER_TOTALS_LENGTH);
    expect("and the totals", totals[GUNWALEISH_TOTAL_TRACES], GUNWALEISH_MOST_TRACES);
}

int main(void) {
    traces();
    written();
    converted();
    captured();
    listeners();
    sheets();
    images();
    shelves();
    orders();
    shares();
    expect("straps 1,0,0,0", gunwaleish_address_of(1, 0, 0, 0), GUNWALEISH_NO_SUCH_STRAPPING);
    expect("address 07h", gunwaleish_pins_of(0x07), GUNWALEISH_ADDRESS_OUTSIDE);
    expect("address 78h", gunwaleish_pins_of(0x78), GUNWALEISH_ADDRESS_OUTSIDE);
    return ended("refusals");
}
