/* Holds the header's sizes, and its words for order sheets, totals and straps, to the library: the most of each is taken, and one more is not. */
#include "expect.h"

#define ONE_MORE (4 * (GUNWALEISH_MOST_EVENTS + 1))

static uint8_t events[ONE_MORE];
static uint8_t trace[GUNWALEISH_MOST_TRACE];
static uint8_t answers[GUNWALEISH_MOST_ANSWERS];
static uint8_t text[GUNWALEISH_MOST_TEXT];
static uint8_t samples[GUNWALEISH_MOST_SAMPLES + 1];

/* The longest trace: of TICKs. Its listing is the longest too. */
static void traces(void) {
    for (size_t at = 0; at < sizeof events; at += 4) {
        events[at] = GUNWALEISH_EVENT_TICK;
    }
    uint64_t made = gunwaleish_write_trace(0, 0, 0, 0, GUNWALEISH_PCA9641, events, ONE_MORE - 4, trace, sizeof trace);
    expect("the longest trace", gunwaleish_length(made), sizeof trace);
    expect("none longer", gunwaleish_number(gunwaleish_write_trace(0, 0, 0, 0, GUNWALEISH_PCA9641, events, ONE_MORE, trace, sizeof trace)),
           GUNWALEISH_TOO_MANY_EVENTS);
    uint64_t report = gunwaleish_run_trace(trace, sizeof trace, answers, sizeof answers);
    expect("its events", gunwaleish_events(report), GUNWALEISH_MOST_EVENTS);
    expect("room for its answers", gunwaleish_number(gunwaleish_run_trace(trace, sizeof trace, answers, sizeof answers - 1)), GUNWALEISH_TOO_LITTLE_ROOM);
    expect("its listing", gunwaleish_listing(trace, sizeof trace, text, sizeof text), sizeof text);
}

/* Both buses at these levels. */
static size_t level(size_t at, unsigned scl, unsigned sda) {
    samples[at] = (uint8_t)(scl | sda << 1 | scl << 2 | sda << 3);
    return at + 1;
}

/* The capture with the most events: both masters read as many bytes of the device at 70h as there is time for, and send a STOP. */
static void captures(void) {
    const unsigned bytes = (GUNWALEISH_MOST_SAMPLES - 2 - 4) / 18;
    size_t at = level(level(0, 1, 1), 1, 0);
    for (unsigned byte = 0; byte < bytes; byte++) {
        for (unsigned clock = 0; clock < 9; clock++) {
            unsigned bit = byte == 0 && clock < 8 ? 0xe1u >> (7 - clock) & 1 : 0;
            at = level(level(at, 0, bit), 1, bit);
        }
    }
    at = level(level(level(at, 0, 0), 1, 0), 1, 1);
    uint64_t result = gunwaleish_import_capture(samples, at, 0x70, answers, sizeof answers);
    expect("the densest capture", gunwaleish_captured(result), GUNWALEISH_MOST_CAPTURED);
    expect("room for its events", GUNWALEISH_MOST_CAPTURED_BYTES, 4 * GUNWALEISH_MOST_CAPTURED);
    memset(samples, 0x0f, sizeof samples);
    expect("the longest capture", gunwaleish_import_capture(samples, sizeof samples - 1, 0x70, answers, sizeof answers), GUNWALEISH_DONE);
    expect("none longer", gunwaleish_import_capture(samples, sizeof samples, 0x70, answers, sizeof answers), GUNWALEISH_TOO_MANY_SAMPLES);
}

/* A stream of five bytes on both buses at once, which read the device's ID as 00h, and a STOP inside a sixth: every place of a listener's buffer. */
static void listeners(void) {
    uint8_t watch[GUNWALEISH_WATCH_BYTES];
    size_t at = level(level(0, 1, 1), 1, 0);
    for (unsigned clock = 0; clock < 9 * 6 - 5; clock++) {
        unsigned bit = clock < 8 ? 0xe1u >> (7 - clock) & 1 : 0;
        at = level(level(at, 0, bit), 1, bit);
    }
    const size_t stop = level(at, 1, 1) - 1;
    uint64_t taken = 0;
    gunwaleish_watch_fresh(GUNWALEISH_TPT29641, 0x70, 50, 0, watch, sizeof watch);
    while (taken <= stop) {
        taken += gunwaleish_taken(gunwaleish_watch_listen(samples + taken, stop + 1 - taken, watch, sizeof watch));
    }
    const struct gunwaleish_heard first = gunwaleish_watch_read(watch, GUNWALEISH_WATCH_FIRST_DIFFERENCE);
    const struct gunwaleish_heard last0 = gunwaleish_watch_read(watch, GUNWALEISH_WATCH_LAST_READ_0);
    const struct gunwaleish_heard last1 = gunwaleish_watch_read(watch, GUNWALEISH_WATCH_LAST_READ_1);
    expect("samples heard", gunwaleish_watch_count(watch, GUNWALEISH_WATCH_SAMPLES), stop + 1);
    expect("events heard", gunwaleish_watch_count(watch, GUNWALEISH_WATCH_EVENTS), 2 * 4 + 2 + stop / 50);
    expect("READs heard", gunwaleish_watch_count(watch, GUNWALEISH_WATCH_READS), 2 * 4);
    expect("that differ", gunwaleish_watch_count(watch, GUNWALEISH_WATCH_DIFFERENCES), 2 * 4);
    expect("faults", gunwaleish_watch_count(watch, GUNWALEISH_WATCH_FAULTS), 2);
    expect("the first fault", gunwaleish_watch_count(watch, GUNWALEISH_WATCH_FIRST_FAULT), stop);
    expect("the first difference", first.sample, 2 + 18 * 2 - 1);
    expect("is master 0's", first.master, 0);
    expect("of ID", first.reg, GUNWALEISH_REGISTER_ID);
    expect("as it was heard", first.heard, 0);
    expect("and not", first.expected, 0x38);
    expect("the last READ of master 0", last0.sample, 2 + 18 * 5 - 1);
    expect("is its own", last0.master, 0);
    expect("and that of master 1", last1.sample, 2 + 18 * 5 - 1);
    expect("its own too", last1.master, 1);
}

static void images(void) {
    uint8_t image[GUNWALEISH_IMAGE_BYTES];
    gunwaleish_image_fresh(GUNWALEISH_TPT29641, image, sizeof image);
    expect("the longest advance", gunwaleish_number(gunwaleish_image_advance(GUNWALEISH_MOST_TICKS, image, sizeof image)), GUNWALEISH_DONE);
    expect("none longer", gunwaleish_number(gunwaleish_image_advance(GUNWALEISH_MOST_TICKS + 1, image, sizeof image)), GUNWALEISH_TOO_MANY_TICKS);
}

static void orders(void) {
    uint8_t listed[GUNWALEISH_MOST_ORDERS];
    const uint64_t longest = GUNWALEISH_MOST_SCRIPT_BYTES;
    uint64_t result = gunwaleish_list_orders(events, longest, events, longest, UINT64_MAX, listed, sizeof listed);
    expect("the most orders", gunwaleish_listed(result), GUNWALEISH_MOST_ORDERS);
    expect("a longer script", gunwaleish_list_orders(events, longest + 4, events, 0, 0, listed, sizeof listed), GUNWALEISH_LONG_SCRIPT);
}

/* A pair of sheets: on the board sheet controller 0's reserve and both idle timers, on the house sheet the other boxes. */
static void sheets(void) {
    static uint8_t board[GUNWALEISH_SHEET_BYTES] = {2, 1, 50, 0, 0, 2, 0, 0, 0, 0, 2, 1, 1, 1, 1};
    static const uint8_t house[GUNWALEISH_SHEET_BYTES] = {2, 0, 0, 1, 20, 2, 1, 0, 1, 1, 2, 0, 0, 0, 0};
    uint8_t ordered[GUNWALEISH_SHEET_EVENTS_BYTES];
    const uint64_t whole = GUNWALEISH_SHEET_BYTES;
    uint64_t reserve = gunwaleish_sheet_box(board, whole, house, whole, GUNWALEISH_SECTION_RESERVE, 0);
    uint64_t priority = gunwaleish_sheet_box(board, whole, house, whole, GUNWALEISH_SECTION_PRIORITY, 1);
    uint64_t idle = gunwaleish_sheet_box(board, whole, house, whole, GUNWALEISH_SECTION_IDLE, 1);
    expect("the reserve's sheet", gunwaleish_sheet(reserve), GUNWALEISH_BOARD_SHEET);
    expect("the reserve", gunwaleish_offset(reserve), 1);
    expect("the priority's sheet", gunwaleish_sheet(priority), GUNWALEISH_HOUSE_SHEET);
    expect("the priority", gunwaleish_offset(priority), 8);
    expect("the idle timer", gunwaleish_offset(idle), 13);
    expect("no sheet", gunwaleish_sheet(gunwaleish_sheet_box(board, whole, house, whole, 3, 0)), GUNWALEISH_NO_SHEET);
    expect("its events", gunwaleish_ordered(gunwaleish_sheet_events(board, whole, house, whole, ordered, sizeof ordered)), GUNWALEISH_SHEET_EVENTS);
    expect("a live holder", gunwaleish_wait_grade(gunwaleish_sheet_wait(board, whole, house, whole, 1, GUNWALEISH_PCA9641)), GUNWALEISH_WAIT_LIVE);
    board[2] = 0;
    uint64_t silent = gunwaleish_sheet_wait(board, whole, house, whole, 1, GUNWALEISH_TPT29641);
    expect("a silent holder", gunwaleish_wait_grade(silent), GUNWALEISH_WAIT_SILENT);
    expect("its ticks", gunwaleish_wait_ticks(silent), 151);
    board[12] = 0;
    expect("no bound", gunwaleish_wait_grade(gunwaleish_sheet_wait(board, whole, house, whole, 1, GUNWALEISH_PCA9641)), GUNWALEISH_WAIT_UNBOUNDED);
    expect("no grade", gunwaleish_wait_grade(gunwaleish_sheet_wait(board, whole, house, whole, 2, GUNWALEISH_PCA9641)), GUNWALEISH_NO_GRADE);
}

/* A trace of so many TICKs after the events of the script. */
static uint64_t counted(const struct gunwaleish_event *script, size_t length, unsigned ticks, uint64_t *totals) {
    memcpy(events, script, length);
    for (size_t at = length; at < length + 4 * ticks; at += 4) {
        const struct gunwaleish_event tick = gunwaleish_event_tick();
        memcpy(events + at, &tick, 4);
    }
    uint64_t made = gunwaleish_write_trace(0, 0, 0, 0, GUNWALEISH_PCA9641, events, length + 4 * ticks, trace, sizeof trace);
    return gunwaleish_share_add(trace, gunwaleish_length(made), totals, GUNWALEISH_TOTALS);
}

/* Of three traces one has master 0 connected, one has it waiting for master 1, and in one nobody asks. */
static void shares(void) {
    const uint64_t wanted[GUNWALEISH_TOTALS] = {
        [GUNWALEISH_TOTAL_TRACES] = 3,      [GUNWALEISH_TOTAL_TICKS] = 35,    [GUNWALEISH_TOTAL_OWNED_0] = 7,    [GUNWALEISH_TOTAL_OWNED_1] = 11,
        [GUNWALEISH_TOTAL_OWNED_BY_NONE] = 17, [GUNWALEISH_TOTAL_CONNECTED_0] = 7, [GUNWALEISH_TOTAL_WAITED_0] = 11, [GUNWALEISH_TOTAL_LONGEST_0] = 11,
    };
    uint64_t totals[GUNWALEISH_TOTALS] = {0};
    const struct gunwaleish_event both[] = {
        gunwaleish_event_command(0, GUNWALEISH_REGISTER_CONTR), gunwaleish_event_write(0, GUNWALEISH_CONTR_LOCK_REQ | GUNWALEISH_CONTR_BUS_CONNECT),
        gunwaleish_event_stop(0),
    };
    const struct gunwaleish_event waits[] = {
        gunwaleish_event_command(1, GUNWALEISH_REGISTER_CONTR), gunwaleish_event_write(1, GUNWALEISH_CONTR_LOCK_REQ), gunwaleish_event_stop(1),
        gunwaleish_event_command(0, GUNWALEISH_REGISTER_CONTR), gunwaleish_event_write(0, GUNWALEISH_CONTR_LOCK_REQ), gunwaleish_event_stop(0),
    };
    counted(both, sizeof both, 7, totals);
    counted(waits, sizeof waits, 11, totals);
    counted(waits, 0, 17, totals);
    for (unsigned place = 0; place < GUNWALEISH_TOTALS; place++) {
        expect("a total", totals[place], wanted[place]);
    }
    totals[GUNWALEISH_TOTAL_TRACES] = GUNWALEISH_MOST_TRACES - 1;
    expect("the last trace", counted(waits, 0, 1, totals), GUNWALEISH_DONE);
    expect("and no more", counted(waits, 0, 1, totals), GUNWALEISH_TOO_MANY_TRACES);
}

/* The same with the masters in each other's place, for the totals of controller 1. */
static void other_shares(void) {
    uint64_t totals[GUNWALEISH_TOTALS] = {0};
    const struct gunwaleish_event script[] = {
        gunwaleish_event_command(1, GUNWALEISH_REGISTER_CONTR), gunwaleish_event_write(1, GUNWALEISH_CONTR_LOCK_REQ | GUNWALEISH_CONTR_BUS_CONNECT),
        gunwaleish_event_stop(1),
    };
    const struct gunwaleish_event waits[] = {
        gunwaleish_event_command(0, GUNWALEISH_REGISTER_CONTR), gunwaleish_event_write(0, GUNWALEISH_CONTR_LOCK_REQ), gunwaleish_event_stop(0),
        gunwaleish_event_command(1, GUNWALEISH_REGISTER_CONTR), gunwaleish_event_write(1, GUNWALEISH_CONTR_LOCK_REQ), gunwaleish_event_stop(1),
    };
    counted(script, sizeof script, 7, totals);
    counted(waits, sizeof waits, 11, totals);
    counted(waits, sizeof waits, 5, totals);
    expect("connected 1", totals[GUNWALEISH_TOTAL_CONNECTED_1], 7);
    expect("waited 1", totals[GUNWALEISH_TOTAL_WAITED_1], 16);
    expect("longest 1", totals[GUNWALEISH_TOTAL_LONGEST_1], 11);
}

static void straps(void) {
    const uint8_t low = GUNWALEISH_STRAP_VSS, high = GUNWALEISH_STRAP_VDD, down = GUNWALEISH_STRAP_PULL_DOWN, up = GUNWALEISH_STRAP_PULL_UP;
    uint64_t pins = gunwaleish_pins_of(0x0f);
    expect("all to VSS", gunwaleish_address(gunwaleish_address_of(low, low, low, low)), 0x70);
    expect("AD1 pulled down", gunwaleish_address(gunwaleish_address_of(low, low, down, low)), 0x10);
    expect("the pins of 0Fh", gunwaleish_address(gunwaleish_address_of(high, high, high, up)), 0x0f);
    expect("AD3 of 0Fh", gunwaleish_pin(pins, 3), high);
    expect("AD0 of 0Fh", gunwaleish_pin(pins, 0), up);
    expect("no pin AD4", gunwaleish_pin(pins, 4), 0xff);
}

int main(void) {
    traces();
    captures();
    listeners();
    images();
    orders();
    sheets();
    shares();
    other_shares();
    straps();
    return ended("sizes");
}
