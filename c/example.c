/* Lists a trace, says in words what part it is for, who owns the bus at its end and why its claim was won, steps its events one by one on an
 * image of the device, writes the trace again, takes its part away as in an old trace and has it converted, asks for the bus on a shelf of
 * three arbiters, counts the bus share of some traces, and shows straps both ways. With a capture it says what that has for the device at 71h, and
 * with two order sheets what they order, how long each controller can wait, and who owns the bus if the two start up in any order.
 * Usage: example TRACE-FILE [CAPTURE-FILE [BOARD-SHEET HOUSE-SHEET]] */
#include <stdio.h>
#include <string.h>

#include "gunwaleish.h"

/* One byte more than the longest trace or capture or a sheet, so that a longer file is refused, with 7 or 13, and not cut to fit. */
static uint8_t trace[GUNWALEISH_MOST_TRACE + 1];
static uint8_t samples[GUNWALEISH_MOST_SAMPLES + 1];
static uint8_t board[GUNWALEISH_SHEET_BYTES + 1];
static uint8_t house[GUNWALEISH_SHEET_BYTES + 1];
static uint8_t events[GUNWALEISH_MOST_CAPTURED_BYTES];
static uint8_t answers[GUNWALEISH_MOST_ANSWERS];
static uint8_t written[GUNWALEISH_MOST_TRACE];
static uint8_t text[GUNWALEISH_MOST_TEXT];

static const char *const owners[4] = {"nobody", "master 0", "master 1", "?"};
static const char *const grounds[4] = {"no claim", "sole requester", "priority", "last granted"};
static const char *const parts[2] = {"PCA9641", "TPT29641"};
static const char *const waits[4] = {", which is no figure: refused", " at most, behind a holder that sends its STOPs",
                                     " at most, behind a silent holder on an idle bus alone", ", which is no figure: without limit"};
static const char *const sections[3] = {"Downstream reserve, ms", "Priority", "Idle timer"};

/* Whether the first bytes of what was written are those of the trace. */
static const char *compared(size_t written_length, size_t length) {
    return written_length == length && memcmp(written, trace, length) == 0 ? "the same" : "not the same";
}

/* An accepted trace has its pins from byte 1 on and its events from byte 7 on. */
static void show_written(size_t length, size_t events, uint8_t kind) {
    uint64_t result = gunwaleish_write_trace(trace[1], trace[2], trace[3], trace[4], kind, trace + GUNWALEISH_TRACE_HEAD, 4 * events,
                                             written, sizeof written);
    size_t again = gunwaleish_length(result);
    printf("its pins, part and events written again: %zu bytes, %s\n", again, compared(again, length));
}

/* An old trace names no part: it ends after its events. Converted, it names the PCA9641. */
static void show_converted(size_t length) {
    size_t old_length = length - GUNWALEISH_TRACE_TAIL;
    uint64_t refused = gunwaleish_run_trace(trace, old_length, answers, sizeof answers);
    uint64_t result = gunwaleish_convert_trace(trace, old_length, written, sizeof written);
    size_t again = gunwaleish_length(result);
    printf("without its part: refused, number %u; converted: %zu bytes, %s\n", gunwaleish_number(refused), again, compared(again, length));
}

/* The four bytes of an answer as gunwaleish_image_step packs them. */
static uint32_t packed(const uint8_t *four) {
    return four[0] | (uint32_t)four[1] << 8 | (uint32_t)four[2] << 16 | (uint32_t)four[3] << 24;
}

/* The same events, one by one, on a device that stands as an image: the same answers. Then a minute of ticks, and what a damaged image is answered. */
static void show_image(const uint8_t *event, size_t events, uint8_t kind) {
    uint8_t image[GUNWALEISH_IMAGE_BYTES];
    size_t same = 0;
    gunwaleish_image_fresh(kind, image, sizeof image);
    for (size_t step = 0; step < events; step++, event += 4) {
        uint32_t answer = gunwaleish_image_step(event[0], event[1], event[2], event[3], image, sizeof image);
        same += answer == packed(answers + 4 * step);
    }
    printf("stepped on an image of %zu bytes: %zu of %zu answers the same; STATUS of master 1 is %02Xh\n", sizeof image, same, events,
           gunwaleish_register(gunwaleish_image_read(1, 2, image, sizeof image)));
    uint32_t minute = gunwaleish_image_advance(60000, image, sizeof image);
    printf("a minute later, at once: number %u, %u ticks changed more than counts; a tick past the most: number %u\n",
           gunwaleish_number(minute), (unsigned)gunwaleish_changing(minute),
           gunwaleish_number(gunwaleish_image_advance(GUNWALEISH_MOST_TICKS + 1, image, sizeof image)));
    unsigned shorter = gunwaleish_number(gunwaleish_image_step(6, 0, 0, 0, image, sizeof image - 1));
    image[GUNWALEISH_IMAGE_BYTES - 1] = 2;
    unsigned damaged = gunwaleish_number(gunwaleish_image_step(6, 0, 0, 0, image, sizeof image));
    printf("an image that is a byte short: refused, number %u; one that is damaged: number %u\n", shorter, damaged);
}

static void show_trace(size_t length) {
    uint64_t listed = gunwaleish_listing(trace, length, text, sizeof text);
    if (listed <= sizeof text) {
        fwrite(text, 1, (size_t)listed, stdout);
    }
    uint64_t report = gunwaleish_run_trace(trace, length, answers, sizeof answers);
    if (gunwaleish_number(report) != GUNWALEISH_DONE) {
        printf("refused, number %u\n", gunwaleish_number(report));
        return;
    }
    size_t events = gunwaleish_events(report);
    uint8_t kind = gunwaleish_kind(report);
    printf("%s at address %02Xh, %zu events\n", parts[kind & 1], gunwaleish_address(report), events);
    if (events > 0) {
        const uint8_t *last = answers + 4 * (events - 1);
        uint8_t bus = last[GUNWALEISH_ANSWER_BUS];
        printf("at the end the bus is owned by %s; ground of the claim: %s\n", owners[gunwaleish_owner(bus)], grounds[gunwaleish_ground(bus)]);
    }
    show_image(trace + GUNWALEISH_TRACE_HEAD, events, kind);
    show_written(length, events, kind);
    show_converted(length);
}

static void show_address(uint8_t ad3, uint8_t ad2, uint8_t ad1, uint8_t ad0) {
    uint32_t packed = gunwaleish_address_of(ad3, ad2, ad1, ad0);
    printf("straps %u,%u,%u,%u: ", ad3, ad2, ad1, ad0);
    if (gunwaleish_number(packed) != GUNWALEISH_DONE) {
        printf("no address, number %u\n", gunwaleish_number(packed));
    } else {
        printf("%02Xh\n", gunwaleish_address(packed));
    }
}

static void show_pins(uint8_t address) {
    uint64_t packed = gunwaleish_pins_of(address);
    printf("address %02Xh: ", address);
    if (gunwaleish_number(packed) != GUNWALEISH_DONE) {
        printf("no strapping, number %u\n", gunwaleish_number(packed));
    } else {
        printf("straps %u,%u,%u,%u\n", gunwaleish_pin(packed, 3), gunwaleish_pin(packed, 2), gunwaleish_pin(packed, 1), gunwaleish_pin(packed, 0));
    }
}

static void show_capture(size_t length, uint8_t address) {
    uint64_t result = gunwaleish_import_capture(samples, length, address, events, sizeof events);
    printf("capture of %zu samples for %02Xh: ", length, address);
    if (gunwaleish_number(result) != GUNWALEISH_DONE) {
        printf("refused, number %u\n", gunwaleish_number(result));
    } else {
        printf("%zu events\n", gunwaleish_captured(result));
    }
}

/* One box: its value and the sheet it comes from, or why there is none. */
static void show_box(size_t board_length, size_t house_length, uint8_t section, uint8_t controller) {
    uint64_t packed = gunwaleish_sheet_box(board, board_length, house, house_length, section, controller);
    size_t value_at = gunwaleish_offset(packed) + 1;
    printf("%s, controller %u: ", sections[section], controller);
    if (gunwaleish_number(packed) == GUNWALEISH_EMPTY_BOX) {
        printf("empty on both sheets, number %u\n", gunwaleish_number(packed));
    } else if (gunwaleish_number(packed) != GUNWALEISH_DONE) {
        printf("refused, number %u\n", gunwaleish_number(packed));
    } else if (gunwaleish_sheet(packed) == GUNWALEISH_BOARD_SHEET) {
        printf("%u, board sheet\n", board[value_at]);
    } else {
        printf("%u, house sheet\n", house[value_at]);
    }
}

/* How long a controller can wait behind the other, the holder, by two sheets of 15 bytes. */
static void show_wait(uint8_t controller, uint8_t kind) {
    uint64_t packed = gunwaleish_sheet_wait(board, GUNWALEISH_SHEET_BYTES, house, GUNWALEISH_SHEET_BYTES, controller, kind);
    printf("controller %u on a %s waits, number %u: %u ms%s\n", controller, parts[kind], gunwaleish_number(packed), gunwaleish_wait_ticks(packed),
           waits[gunwaleish_wait_grade(packed)]);
}

/* The waits by the sheets; then with 00h for controller 0 on the board sheet, its idle timer on and off; and of a controller that there is not. */
static void show_waits(void) {
    show_wait(0, GUNWALEISH_PCA9641);
    show_wait(1, GUNWALEISH_PCA9641);
    memcpy(board, "\2\1\0\1\24\2\0\0\0\0\2\1\1\0\0", GUNWALEISH_SHEET_BYTES);
    show_wait(1, GUNWALEISH_PCA9641);
    show_wait(1, GUNWALEISH_TPT29641);
    board[12] = 0;
    show_wait(1, GUNWALEISH_PCA9641);
    show_wait(2, GUNWALEISH_PCA9641);
}

/* How many orders of two start-up scripts end with each owner, with no owner though somebody asks, and neither. */
static void show_orders(const char *what, const uint8_t *script0, size_t length0, const uint8_t *script1, size_t length1, size_t limit) {
    uint8_t listed[GUNWALEISH_MOST_ORDERS];
    size_t owned[4] = {0, 0, 0, 0};
    size_t stuck = 0;
    uint64_t result = gunwaleish_list_orders(script0, length0, script1, length1, limit, listed, sizeof listed);
    if (gunwaleish_number(result) != GUNWALEISH_DONE) {
        printf("%s: refused, number %u\n", what, gunwaleish_number(result));
        return;
    }
    for (size_t order = 0; order < gunwaleish_listed(result); order++) {
        unsigned owner = gunwaleish_owner(listed[order]);
        owned[owner]++;
        /* There is a claim exactly if somebody asks. */
        stuck += owner == 0 && gunwaleish_ground(listed[order]) != GUNWALEISH_NO_CLAIM;
    }
    printf("%s: %zu orders; master 0 owns in %zu, master 1 in %zu, nobody in %zu, though somebody asks in %zu of them\n", what,
           gunwaleish_listed(result), owned[1], owned[2], owned[0], stuck);
}

/* Every box, and the events that a trace is then written of. */
static void show_sheets(size_t board_length, size_t house_length) {
    uint8_t ordered[GUNWALEISH_SHEET_EVENTS_BYTES];
    for (uint8_t section = GUNWALEISH_SECTION_RESERVE; section <= GUNWALEISH_SECTION_IDLE; section++) {
        show_box(board_length, house_length, section, 0);
        show_box(board_length, house_length, section, 1);
    }
    uint64_t result = gunwaleish_sheet_events(board, board_length, house, house_length, ordered, sizeof ordered);
    if (gunwaleish_number(result) != GUNWALEISH_DONE) {
        printf("no events: refused, number %u\n", gunwaleish_number(result));
        return;
    }
    uint64_t start = gunwaleish_write_trace(0, 0, 0, 1, GUNWALEISH_PCA9641, ordered, sizeof ordered, written, sizeof written);
    uint64_t report = gunwaleish_run_trace(written, gunwaleish_length(start), answers, sizeof answers);
    const uint8_t *last = answers + 4 * (gunwaleish_ordered(result) - 1);
    printf("%zu events; after them the bus at %02Xh is owned by %s\n", gunwaleish_ordered(result), gunwaleish_address(report),
           owners[gunwaleish_owner(last[GUNWALEISH_ANSWER_BUS])]);
    const size_t half = sizeof ordered / 2;
    show_orders("in any order", ordered, half, ordered + half, half, SIZE_MAX);
    show_orders("the first of them", ordered, half, ordered + half, half, 26);
    show_orders("master 1's last STOP forgotten", ordered, half, ordered + half, half - 4, SIZE_MAX);
    show_orders("with a byte missing", ordered, half, ordered + half, half - 1, SIZE_MAX);
    show_orders("all as one script", ordered, sizeof ordered, ordered, 0, SIZE_MAX);
    show_waits();
}

/* The owner that a packed answer shows. */
static const char *owner_in(uint32_t answer) {
    return owners[gunwaleish_owner(gunwaleish_answer(answer, GUNWALEISH_ANSWER_BUS))];
}

/* A shelf of three: master 0 asks for the bus of the one at 71h, which stands at place 1, and a TICK reaches all. */
static void show_shelf(void) {
    const uint8_t slots[6] = {0x70, GUNWALEISH_PCA9641, 0x71, GUNWALEISH_TPT29641, 0x72, GUNWALEISH_PCA9641};
    uint8_t equal[6];
    uint8_t row[3 * GUNWALEISH_RECORD_BYTES];
    gunwaleish_shelf_fresh(slots, sizeof slots, row, sizeof row);
    gunwaleish_shelf_step(0x71, 0, 0, 1, 0, row, sizeof row);
    gunwaleish_shelf_step(0x71, 1, 0, 5, 0, row, sizeof row);
    uint32_t stop = gunwaleish_shelf_step(0x71, 3, 0, 0, 0, row, sizeof row);
    uint32_t tick = gunwaleish_shelf_step(0, 6, 0, 0, 0, row, sizeof row);
    printf("a shelf of three, a STOP at 71h: owned by %s there; then a TICK, answered for place 0: by %s; CONTR at 71h is %02Xh\n", owner_in(stop),
           owner_in(tick),
           gunwaleish_register(gunwaleish_image_read(0, 1, row + GUNWALEISH_RECORD_BYTES + 1, GUNWALEISH_IMAGE_BYTES)));
    for (uint8_t place = 0; place < 3; place++) {
        printf("place %u: %s%s", place, owner_in(gunwaleish_shelf_show(place, row, sizeof row)), place < 2 ? "; " : "\n");
    }
    memcpy(equal, slots, sizeof equal);
    equal[4] = 0x70;
    printf("a STOP at 73h: refused, number %u; place 3: number %u; two at 70h: number %u\n",
           gunwaleish_number(gunwaleish_shelf_step(0x73, 3, 0, 0, 0, row, sizeof row)),
           gunwaleish_number(gunwaleish_shelf_show(3, row, sizeof row)),
           gunwaleish_number(gunwaleish_shelf_fresh(equal, sizeof equal, row, sizeof row)));
}

/* Master 0 asks for the bus between two TICKs: nobody owns it at the first, and master 0 at the second. */
static const uint8_t asking[20] = {6, 0, 0, 0, 0, 0, 1, 0, 1, 0, 5, 0, 3, 0, 0, 0, 6, 0, 0, 0};

/* The bus share of the trace and of the asking, each counted by itself, then joined; a trace that is refused; and one too many. */
static void show_share(size_t length) {
    uint64_t totals[GUNWALEISH_TOTALS] = {0};
    uint64_t other[GUNWALEISH_TOTALS] = {0};
    uint64_t made = gunwaleish_write_trace(0, 0, 0, 0, GUNWALEISH_PCA9641, asking, sizeof asking, written, sizeof written);
    gunwaleish_share_add(trace, length, totals, GUNWALEISH_TOTALS);
    gunwaleish_share_add(written, gunwaleish_length(made), other, GUNWALEISH_TOTALS);
    unsigned cut = gunwaleish_number(gunwaleish_share_add(written, gunwaleish_length(made) - 1, other, GUNWALEISH_TOTALS));
    gunwaleish_share_join(other, GUNWALEISH_TOTALS, totals, GUNWALEISH_TOTALS);
    printf("bus share of %llu traces with %llu ticks: master 0 owned %llu, master 1 %llu, nobody %llu; cut short, number %u: %llu\n",
           (unsigned long long)totals[GUNWALEISH_TOTAL_TRACES], (unsigned long long)totals[GUNWALEISH_TOTAL_TICKS],
           (unsigned long long)totals[GUNWALEISH_TOTAL_OWNED_0], (unsigned long long)totals[GUNWALEISH_TOTAL_OWNED_1],
           (unsigned long long)totals[GUNWALEISH_TOTAL_OWNED_BY_NONE], cut, (unsigned long long)totals[GUNWALEISH_TOTAL_REFUSED_5]);
    totals[GUNWALEISH_TOTAL_TRACES] = GUNWALEISH_MOST_TRACES;
    unsigned past = gunwaleish_number(gunwaleish_share_add(trace, length, totals, GUNWALEISH_TOTALS));
    unsigned joined = gunwaleish_number(gunwaleish_share_join(other, GUNWALEISH_TOTALS, totals, GUNWALEISH_TOTALS));
    unsigned shorter = gunwaleish_number(gunwaleish_share_add(trace, length, totals, GUNWALEISH_TOTALS - 1));
    printf("a trace past 65,535: refused, number %u; joined past them: number %u; totals that are one short: number %u\n", past, joined, shorter);
}

/* Reads a file into a buffer. Gives 0 if it cannot be opened. */
static int read_file(const char *name, uint8_t *bytes, size_t room, size_t *length) {
    FILE *file = fopen(name, "rb");
    if (file == NULL) {
        return 0;
    }
    *length = fread(bytes, 1, room, file);
    fclose(file);
    return 1;
}

int main(int argc, char **argv) {
    size_t lengths[4] = {0, 0, 0, 0};
    uint8_t *const buffers[4] = {trace, samples, board, house};
    const size_t rooms[4] = {sizeof trace, sizeof samples, sizeof board, sizeof house};
    int readable = argc == 2 || argc == 3 || argc == 5;
    for (int file = 0; readable && file + 1 < argc; file++) {
        readable = read_file(argv[file + 1], buffers[file], rooms[file], &lengths[file]);
    }
    if (!readable) {
        fprintf(stderr, "usage: example TRACE-FILE [CAPTURE-FILE [BOARD-SHEET HOUSE-SHEET]], which can be read\n");
        return 2;
    }
    show_trace(lengths[0]);
    if (argc > 2) {
        show_capture(lengths[1], 0x71);
    }
    if (argc > 3) {
        show_sheets(lengths[2], lengths[3]);
    }
    show_shelf();
    show_share(lengths[0]);
    show_address(1, 1, 1, 3);
    show_address(1, 0, 0, 0);
    show_pins(0x0F);
    show_pins(0x78);
    return 0;
}
