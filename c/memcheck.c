/* For programs that are run under valgrind's memcheck: link this file too, and nothing else changes.
 *
 * Where the library holds an enum whose case has no content, the content's bytes were never written. The compiler may test case and content at
 * once, and memcheck cannot see that the outcome is then the same whatever those bytes are: it tells of them, and marks what was computed as unwritten
 * too, up to the answers. No answer rests on them: each call is proved to give what its promise fixes by the call's inputs alone.
 *
 * So memcheck is asked here, before each call, whether all that the call reads was written and all that it is lent is there; it tells if not. It is silent
 * inside the call. After it, what the call wrote counts as written. Nothing of the caller's faults is lost. */
#include <valgrind/memcheck.h>

#include "gunwaleish.h"

#define WRAPPED(name) I_WRAP_SONAME_FNNAME_ZU(NONE, name)
#define READS(bytes, length) ((void)VALGRIND_CHECK_MEM_IS_DEFINED((bytes), (length)))
#define LENT(bytes, length) ((void)VALGRIND_CHECK_MEM_IS_ADDRESSABLE((bytes), (length)))
#define VALUE(number) ((void)VALGRIND_CHECK_VALUE_IS_DEFINED(number))
#define WROTE(bytes, length) ((void)VALGRIND_MAKE_MEM_DEFINED((bytes), (length)))

/* A call of the library itself, in silence; its result counts as written. */
#define CALLED(result, call, ...)                 \
    do {                                          \
        OrigFn original;                          \
        VALGRIND_GET_ORIG_FN(original);           \
        VALGRIND_DISABLE_ERROR_REPORTING;         \
        call(result, original, __VA_ARGS__);      \
        VALGRIND_ENABLE_ERROR_REPORTING;          \
        WROTE(&(result), sizeof(result));         \
    } while (0)

/* Bytes read, and bytes lent, with their lengths. */
static void in(const void *bytes, uint64_t length) {
    VALUE(length);
    READS(bytes, length);
}

static void lent(void *bytes, uint64_t length) {
    VALUE(length);
    LENT(bytes, length);
}

static void byte(uint8_t value) {
    VALUE(value);
}

uint64_t WRAPPED(gunwaleish_run_trace)(const uint8_t *trace, uint64_t trace_len, uint8_t *answers, uint64_t answers_len) {
    uint64_t result;
    in(trace, trace_len);
    lent(answers, answers_len);
    CALLED(result, CALL_FN_W_WWWW, trace, trace_len, answers, answers_len);
    WROTE(answers, 4 * gunwaleish_events(result));
    return result;
}

uint64_t WRAPPED(gunwaleish_write_trace)(uint8_t ad3, uint8_t ad2, uint8_t ad1, uint8_t ad0, uint8_t kind, const uint8_t *events, uint64_t events_len,
                                         uint8_t *trace, uint64_t trace_len) {
    uint64_t result;
    byte(ad3), byte(ad2), byte(ad1), byte(ad0), byte(kind);
    in(events, events_len);
    lent(trace, trace_len);
    CALLED(result, CALL_FN_W_9W, ad3, ad2, ad1, ad0, kind, events, events_len, trace, trace_len);
    WROTE(trace, gunwaleish_length(result));
    return result;
}

uint64_t WRAPPED(gunwaleish_convert_trace)(const uint8_t *old, uint64_t old_len, uint8_t *trace, uint64_t trace_len) {
    uint64_t result;
    in(old, old_len);
    lent(trace, trace_len);
    CALLED(result, CALL_FN_W_WWWW, old, old_len, trace, trace_len);
    WROTE(trace, gunwaleish_length(result));
    return result;
}

uint64_t WRAPPED(gunwaleish_listing)(const uint8_t *trace, uint64_t trace_len, uint8_t *text, uint64_t text_len) {
    uint64_t result;
    in(trace, trace_len);
    lent(text, text_len);
    CALLED(result, CALL_FN_W_WWWW, trace, trace_len, text, text_len);
    WROTE(text, result <= text_len ? result : 0);
    return result;
}

uint64_t WRAPPED(gunwaleish_import_capture)(const uint8_t *samples, uint64_t samples_len, uint8_t address, uint8_t *events, uint64_t events_len) {
    uint64_t result;
    byte(address);
    in(samples, samples_len);
    lent(events, events_len);
    CALLED(result, CALL_FN_W_5W, samples, samples_len, address, events, events_len);
    WROTE(events, 4 * gunwaleish_captured(result));
    return result;
}

uint32_t WRAPPED(gunwaleish_watch_fresh)(uint8_t kind, uint8_t address, uint32_t every, uint8_t below, uint8_t *watch, uint64_t watch_len) {
    uint64_t result;
    byte(kind), byte(address), byte(below);
    VALUE(every);
    lent(watch, watch_len);
    CALLED(result, CALL_FN_W_6W, kind, address, every, below, watch, watch_len);
    WROTE(watch, gunwaleish_number(result) == GUNWALEISH_DONE ? watch_len : 0);
    return (uint32_t)result;
}

uint64_t WRAPPED(gunwaleish_watch_listen)(const uint8_t *samples, uint64_t samples_len, uint8_t *watch, uint64_t watch_len) {
    uint64_t result;
    in(samples, samples_len);
    in(watch, watch_len);
    CALLED(result, CALL_FN_W_WWWW, samples, samples_len, watch, watch_len);
    WROTE(watch, watch_len);
    return result;
}

uint64_t WRAPPED(gunwaleish_sheet_box)(const uint8_t *board, uint64_t board_len, const uint8_t *house, uint64_t house_len, uint8_t section,
                                       uint8_t controller) {
    uint64_t result;
    byte(section), byte(controller);
    in(board, board_len);
    in(house, house_len);
    CALLED(result, CALL_FN_W_6W, board, board_len, house, house_len, section, controller);
    return result;
}

uint64_t WRAPPED(gunwaleish_sheet_events)(const uint8_t *board, uint64_t board_len, const uint8_t *house, uint64_t house_len, uint8_t *events,
                                          uint64_t events_len) {
    uint64_t result;
    in(board, board_len);
    in(house, house_len);
    lent(events, events_len);
    CALLED(result, CALL_FN_W_6W, board, board_len, house, house_len, events, events_len);
    WROTE(events, 4 * gunwaleish_ordered(result));
    return result;
}

uint64_t WRAPPED(gunwaleish_sheet_wait)(const uint8_t *board, uint64_t board_len, const uint8_t *house, uint64_t house_len, uint8_t controller,
                                        uint8_t kind) {
    uint64_t result;
    byte(controller), byte(kind);
    in(board, board_len);
    in(house, house_len);
    CALLED(result, CALL_FN_W_6W, board, board_len, house, house_len, controller, kind);
    return result;
}

uint32_t WRAPPED(gunwaleish_image_fresh)(uint8_t kind, uint8_t *image, uint64_t image_len) {
    uint64_t result;
    byte(kind);
    lent(image, image_len);
    CALLED(result, CALL_FN_W_WWW, kind, image, image_len);
    WROTE(image, gunwaleish_number(result) == GUNWALEISH_DONE ? image_len : 0);
    return (uint32_t)result;
}

uint32_t WRAPPED(gunwaleish_image_step)(uint8_t event, uint8_t x, uint8_t y, uint8_t z, uint8_t *image, uint64_t image_len) {
    uint64_t result;
    byte(event), byte(x), byte(y), byte(z);
    in(image, image_len);
    CALLED(result, CALL_FN_W_6W, event, x, y, z, image, image_len);
    WROTE(image, image_len);
    return (uint32_t)result;
}

uint32_t WRAPPED(gunwaleish_image_advance)(uint32_t ticks, uint8_t *image, uint64_t image_len) {
    uint64_t result;
    VALUE(ticks);
    in(image, image_len);
    CALLED(result, CALL_FN_W_WWW, ticks, image, image_len);
    WROTE(image, image_len);
    return (uint32_t)result;
}

uint32_t WRAPPED(gunwaleish_image_read)(uint8_t master, uint8_t register_number, const uint8_t *image, uint64_t image_len) {
    uint64_t result;
    byte(master), byte(register_number);
    in(image, image_len);
    CALLED(result, CALL_FN_W_WWWW, master, register_number, image, image_len);
    return (uint32_t)result;
}

uint32_t WRAPPED(gunwaleish_shelf_fresh)(const uint8_t *slots, uint64_t slots_len, uint8_t *row, uint64_t row_len) {
    uint64_t result;
    in(slots, slots_len);
    lent(row, row_len);
    CALLED(result, CALL_FN_W_WWWW, slots, slots_len, row, row_len);
    WROTE(row, gunwaleish_number(result) == GUNWALEISH_DONE ? row_len : 0);
    return (uint32_t)result;
}

uint32_t WRAPPED(gunwaleish_shelf_step)(uint8_t name, uint8_t event, uint8_t x, uint8_t y, uint8_t z, uint8_t *row, uint64_t row_len) {
    uint64_t result;
    byte(name), byte(event), byte(x), byte(y), byte(z);
    in(row, row_len);
    CALLED(result, CALL_FN_W_7W, name, event, x, y, z, row, row_len);
    WROTE(row, row_len);
    return (uint32_t)result;
}

uint32_t WRAPPED(gunwaleish_shelf_show)(uint8_t place, const uint8_t *row, uint64_t row_len) {
    uint64_t result;
    byte(place);
    in(row, row_len);
    CALLED(result, CALL_FN_W_WWW, place, row, row_len);
    return (uint32_t)result;
}

uint64_t WRAPPED(gunwaleish_list_orders)(const uint8_t *script0, uint64_t script0_len, const uint8_t *script1, uint64_t script1_len, uint64_t limit,
                                         uint8_t *listed, uint64_t listed_len) {
    uint64_t result;
    VALUE(limit);
    in(script0, script0_len);
    in(script1, script1_len);
    lent(listed, listed_len);
    CALLED(result, CALL_FN_W_7W, script0, script0_len, script1, script1_len, limit, listed, listed_len);
    WROTE(listed, gunwaleish_listed(result));
    return result;
}

uint32_t WRAPPED(gunwaleish_share_add)(const uint8_t *trace, uint64_t trace_len, uint64_t *totals, uint64_t totals_len) {
    uint64_t result;
    in(trace, trace_len);
    in(totals, 8 * totals_len);
    CALLED(result, CALL_FN_W_WWWW, trace, trace_len, totals, totals_len);
    WROTE(totals, 8 * totals_len);
    return (uint32_t)result;
}

uint32_t WRAPPED(gunwaleish_share_join)(const uint64_t *other, uint64_t other_len, uint64_t *totals, uint64_t totals_len) {
    uint64_t result;
    in(other, 8 * other_len);
    in(totals, 8 * totals_len);
    CALLED(result, CALL_FN_W_WWWW, other, other_len, totals, totals_len);
    WROTE(totals, 8 * totals_len);
    return (uint32_t)result;
}
