/* The proved model of a PCA9641 bus arbiter, and of its second source TPT29641, for C (C99 on) and C++ (C++11 on).
 *
 * A program can be written from this file alone. It has, in this order: the version; the kinds of part; the events, and one builder for each;
 * the registers and their bits; the answers; the numbers of outcomes and refusals; sizes; the calls; and what takes a call's result apart.
 * It needs nothing but <stddef.h> and <stdint.h>, which a compiler without a system has too.
 *
 * Link with libgunwaleish.a, which `tools/library` writes to build/lib/. The library allocates nothing, keeps nothing between two calls and may be
 * called from several threads and from an interrupt, each with buffers of its own.
 *
 * What a caller owes, since C cannot say it: a pointer is never null, also with length 0; the bytes it points to are there for that
 * length; and the range that a call writes overlaps none that it reads, an image, a row and totals apart, which are one range for both. Any bytes
 * are taken as a trace, as events, as samples, as a sheet, as an image, as a row, as slots or as a script, and any numbers as totals. A pointer to
 * numbers counts in numbers, and is aligned as C has it. A length has 64 bits on every target, also where a pointer has 32.
 */
#ifndef GUNWALEISH_H
#define GUNWALEISH_H

#include <stddef.h>
#include <stdint.h>

#ifdef __cplusplus
extern "C" {
#endif

/* ---- the version ---- */

/* The version of this header. */
#define GUNWALEISH_VERSION_MAJOR 1
#define GUNWALEISH_VERSION_MINOR 1
#define GUNWALEISH_VERSION_PATCH 0
#define GUNWALEISH_VERSION (65536 * GUNWALEISH_VERSION_MAJOR + 256 * GUNWALEISH_VERSION_MINOR + GUNWALEISH_VERSION_PATCH)

/* The version of the library that is linked, packed as GUNWALEISH_VERSION is. It belongs to this header if the two are equal. */
uint32_t gunwaleish_version(void);

/* ---- kinds of part ---- */

/* The library takes a kind of part and an event's number as one byte each. Here each of the two is an enum of its own, so that a compiler tells if
 * one is given for the other: a C++ compiler refuses it, gcc warns with -Wextra (-Wenum-conversion), clang always. The enum has one byte too. */
#if defined(__cplusplus) || (defined(__STDC_VERSION__) && __STDC_VERSION__ >= 202311L)
#define GUNWALEISH_BYTE_ENUM(tag) enum tag : uint8_t
#elif defined(__GNUC__)
#define GUNWALEISH_BYTE_ENUM(tag) enum __attribute__((__packed__)) tag
#else
#define GUNWALEISH_BYTE_ENUM(tag) enum tag
#endif

/* The kinds of part, which a `kind` below always is. A TPT29641 differs in two things: its idle timer ends a grant at 151 idle ticks, not at 101,
 * and its write pointer rolls from 7 to 0, where that of a PCA9641 stays at 7. There is no default: a trace names its part. */
GUNWALEISH_BYTE_ENUM(gunwaleish_kind_of_part) {
    GUNWALEISH_PCA9641 = 0,
    GUNWALEISH_TPT29641 = 1
};

/* ---- events ---- */

/* What happens at one instant is an event, four bytes: its number and three fields x, y and z. Fields that an event does not use are 0. m is a
 * master, 0 or 1, which is the controller at that upstream port; a level is 0 low or 1 high.
 *
 *   number          x     y    z       what happens
 *   0 COMMAND       m     c    0       opens m's port for writing and sets its pointer: c is GUNWALEISH_AUTO_INCREMENT or 0, plus a register. Not
 *                                      acknowledged if bits 6 to 3 of c are not 0: both stay as they were, the port is open but not for writing
 *   1 WRITE         m     v    0       writes v at the pointer, which then rises with auto-increment. The port must be open for writing. Register 0
 *                                      does not acknowledge
 *   2 READ          m     0    0       reads the byte at the pointer, which then rises with auto-increment, and from 7 goes to 0. The port is then
 *                                      open, but not for writing
 *   3 STOP          m     0    0       ends the transfer: the port goes to rest, and no claim of m is granted before. The port must be open
 *   4 PAIR          v0    v1   0       both masters' WRITE at one instant. Both ports must be open for writing
 *   5 LINES         SCL   SDA  INT_IN  the outside levels of the downstream bus, what a connected master does included; a fall of INT_IN is an
 *                                      interrupt for both
 *   6 TICK          0     0    0       one millisecond passes
 *   7 PULSE         SDA   0    0       the level of SDA at one clock of an initialisation, which must be running: 1 ends it and closes the switch,
 *                                      the ninth 0 is its failure
 *   8 RESET         0     0    0       the reset pin
 *   9 GENERAL CALL  m     b    0       b to all devices: 06h is the soft reset, every other byte is not acknowledged and does nothing
 *
 * So a master asks for the bus with COMMAND 01h, WRITE of GUNWALEISH_CONTR_LOCK_REQ, STOP. If nobody claims or owns it, the one who asks claims it; if
 * both ask at once, priority decides, and then who was granted last. Who claims is granted the bus as soon as its port is at rest and no soft reset holds
 * SCL low. The grant ends when LOCK_REQ is written 0, at a reset, or by a loss: with a reserve of 1 to 255 ms in RT once that many ticks have passed and
 * the bus is idle (no transfer on it, both lines high), with RT 00h only if the idle timer is on, at 101 or 151 idle ticks. The partner's request is next. */
GUNWALEISH_BYTE_ENUM(gunwaleish_event_number) {
    GUNWALEISH_EVENT_COMMAND = 0,
    GUNWALEISH_EVENT_WRITE = 1,
    GUNWALEISH_EVENT_READ = 2,
    GUNWALEISH_EVENT_STOP = 3,
    GUNWALEISH_EVENT_PAIR = 4,
    GUNWALEISH_EVENT_LINES = 5,
    GUNWALEISH_EVENT_TICK = 6,
    GUNWALEISH_EVENT_PULSE = 7,
    GUNWALEISH_EVENT_RESET = 8,
    GUNWALEISH_EVENT_GENERAL_CALL = 9
};

/* In a COMMAND: the pointer rises after each byte. */
#define GUNWALEISH_AUTO_INCREMENT 0x80

/* In a GENERAL CALL: the soft reset. */
#define GUNWALEISH_SOFT_RESET 0x06

/* An event. Its four bytes stand in it as they stand in a trace, one after the other. So an array of events is event bytes too, for the calls that take
 * these: gunwaleish_write_trace(.., (const uint8_t *)events, sizeof events, ..). */
struct gunwaleish_event {
    enum gunwaleish_event_number number;
    uint8_t x;
    uint8_t y;
    uint8_t z;
};

/* If a compiler stops here, its enums are longer than a byte: have it make them as short as they can be (often -fshort-enums). */
typedef char gunwaleish_enums_have_one_byte[sizeof(enum gunwaleish_kind_of_part) == 1 && sizeof(struct gunwaleish_event) == 4 ? 1 : -1];

/* An event of any four bytes, also such as a device refuses. */
static inline struct gunwaleish_event gunwaleish_event_of(uint8_t number, uint8_t x, uint8_t y, uint8_t z) {
    struct gunwaleish_event event;
    event.number = (enum gunwaleish_event_number)number;
    event.x = x;
    event.y = y;
    event.z = z;
    return event;
}

/* The ten events. */
static inline struct gunwaleish_event gunwaleish_event_command(uint8_t master, uint8_t code) {
    return gunwaleish_event_of(GUNWALEISH_EVENT_COMMAND, master, code, 0);
}

static inline struct gunwaleish_event gunwaleish_event_write(uint8_t master, uint8_t value) {
    return gunwaleish_event_of(GUNWALEISH_EVENT_WRITE, master, value, 0);
}

static inline struct gunwaleish_event gunwaleish_event_read(uint8_t master) {
    return gunwaleish_event_of(GUNWALEISH_EVENT_READ, master, 0, 0);
}

static inline struct gunwaleish_event gunwaleish_event_stop(uint8_t master) {
    return gunwaleish_event_of(GUNWALEISH_EVENT_STOP, master, 0, 0);
}

static inline struct gunwaleish_event gunwaleish_event_pair(uint8_t value0, uint8_t value1) {
    return gunwaleish_event_of(GUNWALEISH_EVENT_PAIR, value0, value1, 0);
}

static inline struct gunwaleish_event gunwaleish_event_lines(uint8_t scl, uint8_t sda, uint8_t int_in) {
    return gunwaleish_event_of(GUNWALEISH_EVENT_LINES, scl, sda, int_in);
}

static inline struct gunwaleish_event gunwaleish_event_tick(void) {
    return gunwaleish_event_of(GUNWALEISH_EVENT_TICK, 0, 0, 0);
}

static inline struct gunwaleish_event gunwaleish_event_pulse(uint8_t sda) {
    return gunwaleish_event_of(GUNWALEISH_EVENT_PULSE, sda, 0, 0);
}

static inline struct gunwaleish_event gunwaleish_event_reset(void) {
    return gunwaleish_event_of(GUNWALEISH_EVENT_RESET, 0, 0, 0);
}

static inline struct gunwaleish_event gunwaleish_event_general_call(uint8_t master, uint8_t code) {
    return gunwaleish_event_of(GUNWALEISH_EVENT_GENERAL_CALL, master, code, 0);
}

/* ---- registers ---- */

/* Each master has eight of its own. A reset leaves 7Fh in INT_MSK and 0 in all others, the bits that are computed apart. */
enum gunwaleish_registers {
    GUNWALEISH_REGISTER_ID = 0,            /* 38h, read only */
    GUNWALEISH_REGISTER_CONTR = 1,         /* control: a GUNWALEISH_CONTR_ a bit */
    GUNWALEISH_REGISTER_STATUS = 2,        /* a GUNWALEISH_STATUS_ a bit */
    GUNWALEISH_REGISTER_RT = 3,            /* the reserve in ms; 00h is without limit. Not stored while its master is granted, though acknowledged */
    GUNWALEISH_REGISTER_INT_STATUS = 4,    /* interrupts: a GUNWALEISH_INT_ a bit; bits 5 to 0 stay until they are written 1 */
    GUNWALEISH_REGISTER_INT_MSK = 5,       /* the same bits: an interrupt whose bit is 0 here asserts the master's output */
    GUNWALEISH_REGISTER_MAIL_LOW = 6,      /* read: one's own mailbox. Written: the partner's, dropped while that one is full */
    GUNWALEISH_REGISTER_MAIL_HIGH = 7      /* the same; a write fills the partner's box, and a read empties one's own */
};

#define GUNWALEISH_ID 0x38

/* The bits of CONTR. */
enum gunwaleish_contr_bits {
    GUNWALEISH_CONTR_LOCK_REQ = 0x01,      /* asks for the bus; cleared while granted it ends the grant in that byte, and so does a loss clear it */
    GUNWALEISH_CONTR_LOCK_GRANT = 0x02,    /* read only: the bus is this master's */
    GUNWALEISH_CONTR_BUS_CONNECT = 0x04,   /* closes the switch while granted; cleared whenever a grant ends */
    GUNWALEISH_CONTR_BUS_INIT = 0x08,      /* initialises the bus before the switch closes */
    GUNWALEISH_CONTR_SMBUS_SWRST = 0x10,   /* a soft reset that this master sends holds SCL low for 35 ticks */
    GUNWALEISH_CONTR_IDLE_TIMER_DIS = 0x20, /* 1, whatever the name says, has the idle timer end a grant with reserve 00h */
    GUNWALEISH_CONTR_SMBUS_DIS = 0x40,     /* 35 ticks of SCL low clear BUS_CONNECT; the grant stays */
    GUNWALEISH_CONTR_PRIORITY = 0x80       /* wins where both ask at once and the other's is 0 */
};

/* The bits of STATUS. Written, bit 5 sets the test interrupt, and bits 7 and 6 set the drives of SDA and SCL, 0 pulling low, if the writer is granted
 * with BUS_CONNECT 0. */
enum gunwaleish_status_bits {
    GUNWALEISH_STATUS_OTHER_LOCK = 0x01,   /* the partner is granted */
    GUNWALEISH_STATUS_BUS_INIT_FAIL = 0x02, /* the last initialisation failed; one flag for both masters */
    GUNWALEISH_STATUS_BUS_HUNG = 0x04,     /* SCL low for 500 ticks, or SDA low for 501 without a change of SCL; one flag for both */
    GUNWALEISH_STATUS_MBOX_EMPTY = 0x08,   /* the partner's mailbox is empty */
    GUNWALEISH_STATUS_MBOX_FULL = 0x10,    /* one's own mailbox is full */
    GUNWALEISH_STATUS_TEST_INT = 0x20,     /* reads 0 */
    GUNWALEISH_STATUS_SCL = 0x40,          /* the level of SCL */
    GUNWALEISH_STATUS_SDA = 0x80           /* the level of SDA */
};

/* The bits of INT_STATUS, and of INT_MSK. */
enum gunwaleish_int_bits {
    GUNWALEISH_INT_INT_IN = 0x01,          /* INT_IN fell */
    GUNWALEISH_INT_LOST = 0x02,            /* the grant was lost: its reserve ran out on an idle bus, or the idle timer ended it */
    GUNWALEISH_INT_GRANTED = 0x04,         /* the bus was granted */
    GUNWALEISH_INT_TEST = 0x08,            /* one's own test */
    GUNWALEISH_INT_MAIL_EMPTIED = 0x10,    /* the partner emptied its mailbox */
    GUNWALEISH_INT_MAIL_FULL = 0x20,       /* one's own mailbox was filled */
    GUNWALEISH_INT_HUNG = 0x40             /* is BUS_HUNG, and no write clears it */
};

/* ---- answers ---- */

/* An event is answered by four bytes. All but the first two show the device after the step, also after an event that was refused. */
enum gunwaleish_answer_bytes {
    GUNWALEISH_ANSWER_OUTCOME = 0,         /* a number of gunwaleish_outcomes, or of a refusal of the call */
    GUNWALEISH_ANSWER_BYTE_READ = 1,       /* the byte that a READ handed out, else 00h */
    GUNWALEISH_ANSWER_BUS = 2,             /* owner, switch, initialisation and ground; a GUNWALEISH_BUS_ a part */
    GUNWALEISH_ANSWER_PINS = 3             /* a GUNWALEISH_PINS_ a bit */
};

/* The parts of the third answer byte. The switch is two bits up, the ground five; bit 7 is 0. */
#define GUNWALEISH_BUS_OWNER 0x03          /* who is granted, a number of gunwaleish_owners */
#define GUNWALEISH_BUS_SWITCH 0x0c         /* whose switch is closed, a number of gunwaleish_owners; only the owner's ever is */
#define GUNWALEISH_BUS_SWITCH_SHIFT 2
#define GUNWALEISH_BUS_INITIALISING 0x10   /* an initialisation is running */
#define GUNWALEISH_BUS_GROUND 0x60         /* a number of gunwaleish_grounds */
#define GUNWALEISH_BUS_GROUND_SHIFT 5

/* Whose the bus or the switch is: not the master's number, but one more. */
enum gunwaleish_owners {
    GUNWALEISH_OWNER_NONE = 0,
    GUNWALEISH_OWNER_0 = 1,
    GUNWALEISH_OWNER_1 = 2
};

/* On what ground the present claim was won. It is fixed when the claim is made, shown from then on, and kept while the grant lasts. */
enum gunwaleish_grounds {
    GUNWALEISH_NO_CLAIM = 0,               /* nobody claims or owns the bus */
    GUNWALEISH_SOLE_REQUESTER = 1,         /* the partner did not ask */
    GUNWALEISH_PRIORITY = 2,               /* both asked, and the priorities differed */
    GUNWALEISH_LAST_GRANTED = 3            /* both asked with equal priorities: the partner was granted last, or nobody before */
};

/* The bits of the fourth answer byte. */
enum gunwaleish_pins_bits {
    GUNWALEISH_PINS_INT0_ASSERTED = 0x01,
    GUNWALEISH_PINS_INT1_ASSERTED = 0x02,
    GUNWALEISH_PINS_SCL_HIGH = 0x04,
    GUNWALEISH_PINS_SDA_HIGH = 0x08
};

/* ---- outcomes and refusals ---- */

/* What became of one event: the first byte of its answer. The last three refuse it, and nothing has changed. */
enum gunwaleish_outcomes {
    GUNWALEISH_DONE = 0,                   /* done; of a call: not refused */
    GUNWALEISH_NOT_ACKNOWLEDGED = 1,       /* a byte was not acknowledged */
    GUNWALEISH_UNKNOWN_EVENT = 2,          /* the first byte is no event's number */
    GUNWALEISH_FIELD_OUT_OF_RANGE = 3,     /* a field is out of range, or one that is not used is not 0 */
    GUNWALEISH_OUT_OF_SEQUENCE = 4         /* the event cannot come now: WRITE, PAIR or STOP without the port open for it, PULSE outside an initialisation */
};

/* Why a whole call was refused: the low byte of its result, which gunwaleish_number gives, and 0 for a call that was not. A number says one thing of a
 * trace and may say another of an order sheet, an image, a start-up script, a shelf's row or totals: it has a name for each. Each call below says which
 * of them it gives and in which order. A refused call writes nothing; only gunwaleish_share_add counts the trace that it refuses. */
enum gunwaleish_refusals {
    GUNWALEISH_NO_SUCH_PART = 3,           /* the kind of part is neither 0 nor 1 */
    GUNWALEISH_NO_SUCH_REGISTER = 3,       /* of a register read out of an image: a master above 1 or a register above 7 */
    GUNWALEISH_BAD_BOX = 3,                /* of an order sheet: a tick or value out of range, or a value in a box that is not ticked */
    GUNWALEISH_TOO_MANY_TICKS = 3,         /* of an advance: more than 65,535 ticks */
    GUNWALEISH_NEITHER_BELOW = 3,          /* of a listener: the bus below is neither listened to, 1, nor not, 0 */
    GUNWALEISH_TRACE_CUT = 5,              /* bytes are missing at the end, or event bytes do not come in fours */
    GUNWALEISH_SHEET_CUT = 5,              /* of an order sheet: under 15 bytes */
    GUNWALEISH_EMPTY_ROW = 5,              /* of a shelf: its row has no record */
    GUNWALEISH_TOO_MANY_EVENTS = 6,        /* more than 4,096 events */
    GUNWALEISH_LONG_SCRIPT = 6,            /* of a start-up script: more than six events */
    GUNWALEISH_LONG_ROW = 6,               /* of a shelf: its row has more than 16 records */
    GUNWALEISH_TOO_MANY_TRACES = 6,        /* of totals: there are 65,535 traces in them, or two of them have more together */
    GUNWALEISH_BYTES_AFTER_END = 7,        /* bytes after the trace's end */
    GUNWALEISH_BYTES_AFTER_SHEET = 7,      /* bytes after an order sheet's end */
    GUNWALEISH_NO_SUCH_STRAPPING = 8,      /* a pin code above 3, or a strapping without an address */
    GUNWALEISH_TOO_LITTLE_ROOM = 9,        /* the buffer is too short */
    GUNWALEISH_OTHER_LENGTH = 9,           /* of an image: the buffer has not 38 bytes, but fewer or more */
    GUNWALEISH_OTHER_ROW_LENGTH = 9,       /* of a shelf: the row's bytes are not 39 for each record, or the slots' not two for each */
    GUNWALEISH_OTHER_TOTALS_LENGTH = 9,    /* of totals: the buffer has not 17 numbers, but fewer or more */
    GUNWALEISH_OTHER_WATCH_LENGTH = 9,     /* of a listener: the buffer has not 142 bytes, but fewer or more */
    GUNWALEISH_WRONG_COUNT = 10,           /* the first byte, the count of pins, is not 4, or the count of the kind of part is not 1 */
    GUNWALEISH_WRONG_BOX_COUNT = 10,       /* of an order sheet: the count of a section is not 2 */
    GUNWALEISH_ADDRESS_OUTSIDE = 11,       /* the address is not one of 08h to 77h */
    GUNWALEISH_BYTE_CUT = 12,              /* a START or STOP inside a byte of a capture, or its end */
    GUNWALEISH_TOO_MANY_SAMPLES = 13,      /* more than 32,768 samples */
    GUNWALEISH_EMPTY_BOX = 14,             /* a box is ticked neither on the board sheet nor on the house sheet */
    GUNWALEISH_NO_SUCH_BOX = 15,           /* an order sheet has no such section or controller */
    GUNWALEISH_IMAGE_OUT_OF_RANGE = 16,    /* a field of an image is outside the range that a run from power-up gives it */
    GUNWALEISH_WATCH_OUT_OF_RANGE = 16,    /* a field of a listener's buffer is outside its range */
    GUNWALEISH_EQUAL_ADDRESSES = 17,       /* two records of a row have the same address */
    GUNWALEISH_NOT_IN_ROW = 18             /* the address or place that is named is not in the row */
};

/* ---- sizes, and the words of order sheets and totals ---- */

/* The sections of an order sheet. */
enum gunwaleish_sections {
    GUNWALEISH_SECTION_RESERVE = 0,        /* "Downstream reserve, ms": any byte; a ticked 0 orders a reserve without limit */
    GUNWALEISH_SECTION_PRIORITY = 1,       /* 0 or 1 */
    GUNWALEISH_SECTION_IDLE = 2            /* the idle timer: 0 off, 1 on */
};

/* The sheet that a box comes from, as gunwaleish_sheet gives it. */
enum gunwaleish_sheets {
    GUNWALEISH_NO_SHEET = 0,
    GUNWALEISH_BOARD_SHEET = 1,
    GUNWALEISH_HOUSE_SHEET = 2
};

/* What two order sheets promise a controller that waits, as gunwaleish_wait_grade gives it. The holder is the other controller. */
enum gunwaleish_grades {
    GUNWALEISH_NO_GRADE = 0,               /* the call is refused */
    GUNWALEISH_WAIT_LIVE = 1,              /* bounded behind a live holder, one that sends its STOPs */
    GUNWALEISH_WAIT_SILENT = 2,            /* bounded only behind a silent holder on an idle bus, while the holder's CONTR keeps its idle timer on */
    GUNWALEISH_WAIT_UNBOUNDED = 3          /* not bounded: the holder's reserve is without limit and its idle timer off */
};

/* The bytes of an order sheet: three sections, each with the count 2 and a box for each controller. A box is two bytes, its tick and its
 * value, which is 0 where it is not ticked. Then the events that a complete pair of sheets orders, and their bytes. */
#define GUNWALEISH_SHEET_BYTES 15
#define GUNWALEISH_SHEET_EVENTS 12
#define GUNWALEISH_SHEET_EVENTS_BYTES (4 * GUNWALEISH_SHEET_EVENTS)

/* A trace: the count 4 and the pins AD3 to AD0; the count of events in two bytes, low first, and four bytes an event; the count 1 and the
 * kind of part. These are the bytes before and after the events. */
#define GUNWALEISH_TRACE_HEAD 7
#define GUNWALEISH_TRACE_TAIL 2

/* The most events of a trace, the answer bytes of such a trace, its own bytes, and the longest listing. */
#define GUNWALEISH_MOST_EVENTS 4096
#define GUNWALEISH_MOST_ANSWERS (4 * GUNWALEISH_MOST_EVENTS)
#define GUNWALEISH_MOST_TRACE (GUNWALEISH_TRACE_HEAD + 4 * GUNWALEISH_MOST_EVENTS + GUNWALEISH_TRACE_TAIL)
#define GUNWALEISH_MOST_TEXT (8 + 9 * GUNWALEISH_MOST_EVENTS)

/* The most samples of a capture, the most events that it gives, and their bytes. */
#define GUNWALEISH_MOST_SAMPLES 32768
#define GUNWALEISH_MOST_CAPTURED 3640
#define GUNWALEISH_MOST_CAPTURED_BYTES (4 * GUNWALEISH_MOST_CAPTURED)

/* The bytes of a device's image, which docs/IMAGE.md lays out, and the most ticks of one advance of it. */
#define GUNWALEISH_IMAGE_BYTES 38
#define GUNWALEISH_MOST_TICKS 65535

/* The bytes of a listener's buffer, which docs/CAPTURES.md lays out. The first of them are the image of its device. */
#define GUNWALEISH_WATCH_BYTES 142

/* Where a listener's buffer has what it counted, for gunwaleish_watch_count, and READs, for gunwaleish_watch_read. */
enum gunwaleish_watch_places {
    GUNWALEISH_WATCH_SAMPLES = 58,
    GUNWALEISH_WATCH_EVENTS = 66,
    GUNWALEISH_WATCH_READS = 74,
    GUNWALEISH_WATCH_DIFFERENCES = 82,     /* READs whose byte on SDA was not the model's answer */
    GUNWALEISH_WATCH_FAULTS = 90,          /* STARTs and STOPs inside a byte */
    GUNWALEISH_WATCH_FIRST_FAULT = 98,     /* the sample of the first one, if there was one */
    GUNWALEISH_WATCH_FIRST_DIFFERENCE = 106, /* a READ, if there was one */
    GUNWALEISH_WATCH_LAST_READ_0 = 118,    /* the last READ of master 0 */
    GUNWALEISH_WATCH_LAST_READ_1 = 130     /* and of master 1 */
};

/* A record of a shelf's row: a byte for its address, and the image of its device. The most records of a row, and their bytes. */
#define GUNWALEISH_RECORD_BYTES (1 + GUNWALEISH_IMAGE_BYTES)
#define GUNWALEISH_MOST_RECORDS 16
#define GUNWALEISH_MOST_ROW (GUNWALEISH_MOST_RECORDS * GUNWALEISH_RECORD_BYTES)

/* The most events of a start-up script, their bytes, and the orders of two such scripts. */
#define GUNWALEISH_MOST_SCRIPT 6
#define GUNWALEISH_MOST_SCRIPT_BYTES (4 * GUNWALEISH_MOST_SCRIPT)
#define GUNWALEISH_MOST_ORDERS 924

/* The totals of the bus share are so many numbers of 64 bits, over so many traces at most. */
#define GUNWALEISH_TOTALS 17
#define GUNWALEISH_MOST_TRACES 65535

/* What each of them is, by its place. Ticks are accepted TICKs, and each counts for the state after it. */
enum gunwaleish_totals {
    GUNWALEISH_TOTAL_TRACES = 0,           /* all traces, the refused ones among them */
    GUNWALEISH_TOTAL_TICKS = 1,            /* owned by 0, owned by 1 and owned by none add up to them */
    GUNWALEISH_TOTAL_OWNED_0 = 2,
    GUNWALEISH_TOTAL_OWNED_1 = 3,
    GUNWALEISH_TOTAL_OWNED_BY_NONE = 4,
    GUNWALEISH_TOTAL_CONNECTED_0 = 5,      /* its switch is closed */
    GUNWALEISH_TOTAL_CONNECTED_1 = 6,
    GUNWALEISH_TOTAL_WAITED_0 = 7,         /* its request stands, and it is not granted */
    GUNWALEISH_TOTAL_WAITED_1 = 8,
    GUNWALEISH_TOTAL_LONGEST_0 = 9,        /* its longest wait, in ticks after each of which it waited, in one trace */
    GUNWALEISH_TOTAL_LONGEST_1 = 10,
    GUNWALEISH_TOTAL_REFUSED_3 = 11,       /* the traces that were refused, by their number */
    GUNWALEISH_TOTAL_REFUSED_5 = 12,
    GUNWALEISH_TOTAL_REFUSED_6 = 13,
    GUNWALEISH_TOTAL_REFUSED_7 = 14,
    GUNWALEISH_TOTAL_REFUSED_8 = 15,
    GUNWALEISH_TOTAL_REFUSED_10 = 16
};

/* How an address pin is strapped: tied to one of the supplies, or pulled to one by a resistor. AD3 is always a tie. */
enum gunwaleish_straps {
    GUNWALEISH_STRAP_VSS = 0,
    GUNWALEISH_STRAP_VDD = 1,
    GUNWALEISH_STRAP_PULL_DOWN = 2,
    GUNWALEISH_STRAP_PULL_UP = 3
};

/* What gunwaleish_pin gives for a pin that is not there. */
#define GUNWALEISH_NO_PIN 0xff

/* ---- a trace ---- */

/* Runs a trace from power-up and writes four answer bytes an event. The result is packed: number + 256 * address + 65536 * events +
 * 4294967296 * the kind of part. Bytes past the answers stay. Refusals, in the order of the trace's bytes: 10 for the first count, 8 for the
 * pins, 6 above 4,096 events, 10 for the count of the kind, 3 for a kind that is neither 0 nor 1, and 5 wherever the bytes end too early; then 7
 * for bytes after the end, and 9 if the buffer is shorter than the answers. They leave the buffer, and report address 0, 0 events and kind 0. */
uint64_t gunwaleish_run_trace(const uint8_t *trace, uint64_t trace_len, uint8_t *answers, uint64_t answers_len);

/* Writes the trace of four pins, a kind of part and events, four bytes each, as they are given, also those that a device will refuse. The
 * result is packed: number + 256 * the trace's length. Refusals, in this order: 8 for the pins, 5 event bytes not in fours, 6 above 4,096
 * events, 3 for a kind that is neither 0 nor 1, 9 if the buffer is shorter than the trace, which has 9 bytes and the events'. A refusal
 * writes nothing, and the length is 0. Bytes past the trace stay. */
uint64_t gunwaleish_write_trace(uint8_t ad3, uint8_t ad2, uint8_t ad1, uint8_t ad0, enum gunwaleish_kind_of_part kind, const uint8_t *events,
                                uint64_t events_len, uint8_t *trace, uint64_t trace_len);

/* Writes an old trace, which ends after its events, with the kind of part added: 01 00, a PCA9641, as there was no other. The result is
 * packed: number + 256 * the new trace's length. Refusals, in the order of the bytes: 10 for the first count, 8 for the pins, 6 above 4,096 events,
 * and 5 wherever the bytes end too early; then 7 for bytes after the events, as a new trace has them, and 9 if the buffer has not two bytes more
 * than the old trace. A refusal writes nothing, and the length is 0. Bytes past the trace stay. */
uint64_t gunwaleish_convert_trace(const uint8_t *old, uint64_t old_len, uint8_t *trace, uint64_t trace_len);

/* The length of a trace's listing, which is text: address and count of events, then one answer a line, in capital hex; or R and the number of a
 * trace that is refused. It is written, with no null byte at its end, only if it fits; bytes after it stay. No trace is refused here. */
uint64_t gunwaleish_listing(const uint8_t *trace, uint64_t trace_len, uint8_t *text, uint64_t text_len);

/* ---- a capture ---- */

/* Writes the events that a logic analyser's capture has for the device of this address, four bytes each. A sample is one byte: bits 0 to 3
 * are SCL0, SDA0, SCL1 and SDA1, and the others are ignored. The result is packed: number + 256 * the count of events. Refusals, in this
 * order: 13 above 32,768 samples, 11 for the address, 12 a START or STOP inside a byte or the capture ending inside one, 9 if the buffer is
 * shorter than the events. A refusal writes nothing, and the count is 0. Bytes past the events stay. The call takes some 15 KB of stack. */
uint64_t gunwaleish_import_capture(const uint8_t *samples, uint64_t samples_len, uint8_t address, uint8_t *events, uint64_t events_len);

/* ---- a listener ---- */

/* A listener keeps both upstream buses and the device's model in one buffer, and is given samples as they come, in chunks of any length: bits 0 to 3 as
 * in a capture, and if `below` is 1 (and not 0) bits 4 to 6 are downstream SCL, SDA and INT_IN, whose changes are LINES events. After every `every`
 * samples there is a TICK; with 0 there is none. Each event is stepped on the model, and for each READ the byte on SDA is held against its answer.
 *
 * Refusals of a fresh one, in this order: 9 for a buffer of another length, 3 for a kind that is neither 0 nor 1 or such a `below`, 11 for the address.
 * A refusal leaves the buffer as it was. */
uint32_t gunwaleish_watch_fresh(enum gunwaleish_kind_of_part kind, uint8_t address, uint32_t every, uint8_t below, uint8_t *watch, uint64_t watch_len);

/* Listens to samples: to all of them (but 4,294,967,295 at most), or up to and with the first in which a READ differed or a fault was counted, so that each
 * can be told; call again with the rest. The result is packed: number + 256 * the samples taken. Refused by 9 for a buffer of another length, and then by 16 for one with a
 * field out of its range; then nothing was taken, and the buffer is as it was. */
uint64_t gunwaleish_watch_listen(const uint8_t *samples, uint64_t samples_len, uint8_t *watch, uint64_t watch_len);

/* ---- two order sheets ---- */

/* Looks up the box of a section and a controller (0 or 1): the board sheet's if it is ticked there, also with 0, else the house sheet's. The
 * result is packed: number + 256 * the sheet it comes from (1 board, 2 house) + 65536 * the byte of that sheet at which the box starts. That
 * byte is its tick, and the next one its value. Refusals, in this order, all of the board sheet before those of the house sheet: 5 under 15
 * bytes, 10 for a count, 3 for a box, 7 for bytes after the end; then 15 for the section or the controller, 14 if the box is ticked on neither
 * sheet. All above the number is 0 then: an empty box is no value. The two sheets are only read, and may be the same. */
uint64_t gunwaleish_sheet_box(const uint8_t *board, uint64_t board_len, const uint8_t *house, uint64_t house_len, uint8_t section,
                              uint8_t controller);

/* Writes the twelve events that a complete pair of sheets orders, four bytes each: for controller 0, then 1, COMMAND 03h, WRITE of its
 * reserve, STOP, COMMAND 01h, WRITE of 01h plus 80h for priority and 20h for the idle timer, STOP. They fit a fresh device: to a controller
 * that owns the bus the WRITE of its reserve is acknowledged and not stored. The result is packed: number + 256 * the count of events.
 * Refusals: those of the sheets, as above; 14 if one of the six boxes is ticked on neither; 9 if the buffer has under 48 bytes. A refusal
 * writes nothing, and the count is 0. Bytes past the events stay. */
uint64_t gunwaleish_sheet_events(const uint8_t *board, uint64_t board_len, const uint8_t *house, uint64_t house_len, uint8_t *events,
                                 uint64_t events_len);

/* How long a controller (0 or 1) can wait by a complete pair of sheets, on a part of this kind. The result is packed: number + 256 * the grade +
 * 65536 * the ticks, a millisecond each. What counts is what is ordered for the other controller, the holder: with a reserve of 1 to 255 the grade is
 * 1, and the ticks are the reserve and one; with 00h, which is without limit, the grade is 2 and the ticks are the part's idle limit, 101 or 151,
 * counted from the holder's grant, if its idle timer is ordered on, and else the grade is 3 and the ticks are 0, which is no figure. The waiting
 * one's request stands all that time, no reset comes and the holder's RT is not written anew; docs/SHEETS.md has it in full. Refusals: those of
 * the sheets, as above; then 15 for the controller, 3 for the kind of part, 14 if one of the six boxes is ticked on neither. Grade and ticks are 0
 * then. */
uint64_t gunwaleish_sheet_wait(const uint8_t *board, uint64_t board_len, const uint8_t *house, uint64_t house_len, uint8_t controller,
                               enum gunwaleish_kind_of_part kind);

/* ---- a standing device ---- */

/* A device that stands between its events is an image of 38 bytes in a buffer of the caller's. Nothing else is kept anywhere. Make it with
 * gunwaleish_image_fresh; the calls keep every field in its range, so 16 tells that something else wrote there. A refusal leaves the buffer as
 * it was. Refusals, in this order: 9 if the buffer has another length than 38, 16 if a field is outside its range, then the call's own. */

/* Makes the image of a device of this kind after power-up, whatever stood in the buffer. Gives the number: 0, 9, or 3 for a kind that is neither
 * 0 nor 1. */
uint32_t gunwaleish_image_fresh(enum gunwaleish_kind_of_part kind, uint8_t *image, uint64_t image_len);

/* Steps the device by one event, given by its four bytes. Gives the four answer bytes, the first lowest; gunwaleish_answer takes them apart. The
 * buffer has the new image. 9 and 16 answer the number, 00, 00, 00. An event refused with 2, 3 or 4 leaves the image and shows the device. */
uint32_t gunwaleish_image_step(enum gunwaleish_event_number event, uint8_t x, uint8_t y, uint8_t z, uint8_t *image, uint64_t image_len);

/* The same, with an event that a builder made. */
static inline uint32_t gunwaleish_image_event(struct gunwaleish_event event, uint8_t *image, uint64_t image_len) {
    return gunwaleish_image_step(event.number, event.x, event.y, event.z, image, image_len);
}

/* Takes so many ticks at once: the image is as after as many TICK events. Packed: number + 256 * how many of the ticks changed anything but counts,
 * which are reserve, hold, idle and both low counts; from any state that a run reaches these are at most three. Number 0, 9, 16, or 3 past 65,535
 * ticks, with 0 above it and the image as it was. No ticks change nothing. */
uint32_t gunwaleish_image_advance(uint32_t ticks, uint8_t *image, uint64_t image_len);

/* What the master reads of its register, without an event: no mailbox is emptied, and no pointer moves. Packed: number + 256 * the byte; number 0,
 * 9, 16, or 3 for a master above 1 or a register above 7. */
uint32_t gunwaleish_image_read(uint8_t master, uint8_t register_number, const uint8_t *image, uint64_t image_len);

/* ---- a shelf of standing devices ---- */

/* A shelf is a row of 1 to 16 records in a buffer of the caller's, each its address and the image of its device, 39 bytes, with no two
 * addresses the same. Places count from 0. Make it with gunwaleish_shelf_fresh. A refusal leaves the buffer as it was. Refusals, in this order: 9
 * if the buffer's length is no multiple of 39, 16 if a field of an image is outside its range, 5 an empty row, 6 above 16 records, 17 two
 * equal addresses, 18 the name is not in the row. They answer the number, 00, 00, 00. The calls never leave a row that is refused with 16. */

/* Makes a row of fresh devices, whatever stood in the buffer. Each place is a slot of two bytes, its address and its kind of part. Gives the
 * number. Refusals, in this order: 9 if the slots are not in twos or the row has not 39 bytes for each, 5, 6, 17, 3 for a kind that is neither 0
 * nor 1. An address is a name: any byte is one. */
uint32_t gunwaleish_shelf_fresh(const uint8_t *slots, uint64_t slots_len, uint8_t *row, uint64_t row_len);

/* Steps the devices that an event reaches. For COMMAND, WRITE, READ, STOP and PAIR the name is an address; for LINES and PULSE it is a place; TICK,
 * RESET and GENERAL CALL reach all, and for these and for a number that is no event's the name is not looked at. Gives the four answer bytes of the device
 * that is reached, and of place 0 where all are, the first byte lowest; gunwaleish_answer takes them apart. */
uint32_t gunwaleish_shelf_step(uint8_t name, enum gunwaleish_event_number event, uint8_t x, uint8_t y, uint8_t z, uint8_t *row, uint64_t row_len);

/* The same, with an event that a builder made. */
static inline uint32_t gunwaleish_shelf_event(uint8_t name, struct gunwaleish_event event, uint8_t *row, uint64_t row_len) {
    return gunwaleish_shelf_step(name, event.number, event.x, event.y, event.z, row, row_len);
}

/* The device at a place as it stands, without an event: the four answer bytes, with outcome 0 and no byte read. Its registers are read with
 * gunwaleish_image_read out of the image at row + 39 * place + 1. */
uint32_t gunwaleish_shelf_show(uint8_t place, const uint8_t *row, uint64_t row_len);

/* ---- the orders of two start-up scripts ---- */

/* Tries two start-up scripts, four bytes an event, in all the orders that keep each script's own order, each on a PCA9641 fresh from power-up,
 * and writes for each the third answer byte after its last event, of which gunwaleish_owner, gunwaleish_switch and gunwaleish_ground give the
 * parts. At each point script 0's next event is tried first, and then script 1's: with a 0 for an event of script 0 and a 1 for one of script
 * 1, two events and one come as 001, 010, 100. Two empty scripts have one order. The result is packed: number + 256 * how many were listed,
 * the smaller of the limit and the number of orders, which is at most 924. Refusals, in this order: 5 event bytes of a script not in fours, 6
 * a script above six events, 9 if the buffer is shorter than what is to be listed. A refusal writes nothing, and lists 0. Bytes past what is
 * listed stay. The two scripts are only read, and may be the same. */
uint64_t gunwaleish_list_orders(const uint8_t *script0, uint64_t script0_len, const uint8_t *script1, uint64_t script1_len, uint64_t limit,
                                uint8_t *listed, uint64_t listed_len);

/* ---- the bus share over many traces ---- */

/* The bus share over many traces is 17 totals in a buffer of the caller's, all 0 at first. Any numbers are taken: a sum of made-up ones stops at the
 * top of 64 bits, which no sum over traces reaches. A buffer with another count of numbers is refused with 9 and stays as it was. */

/* Adds a trace, which runs from power-up: the ticks that each controller owned the bus, was connected and waited. Gives 0, or the number of a
 * trace that is refused: it adds one to the traces and one to those refused with its number, and nothing else. With 65,535 traces in the totals it
 * is 6, whatever the trace, and the totals are kept. */
uint32_t gunwaleish_share_add(const uint8_t *trace, uint64_t trace_len, uint64_t *totals, uint64_t totals_len);

/* Joins the totals of other traces to these, so that traces can be counted in several places, in several threads too: the totals are then those of
 * all the traces counted in one, in whatever order. Gives 0, or 6 if that is more than 65,535 traces, and the totals are kept. */
uint32_t gunwaleish_share_join(const uint64_t *other, uint64_t other_len, uint64_t *totals, uint64_t totals_len);

/* ---- straps ---- */

/* The address of a strapping, a number of gunwaleish_straps a pin. Packed: number + 256 * address; number 0 or 8. */
uint32_t gunwaleish_address_of(uint8_t ad3, uint8_t ad2, uint8_t ad1, uint8_t ad0);

/* The strapping of an address. Packed: number + 256 * AD3 + 256^2 * AD2 + 256^3 * AD1 + 256^4 * AD0; number 0 or 11. */
uint64_t gunwaleish_pins_of(uint8_t address);

/* ---- the parts of a result ---- */

/* Each of these is defined for every argument. The first gives the number of any result, 0 if the call was not refused. */
static inline unsigned gunwaleish_number(uint64_t packed) {
    return (unsigned)(packed & 0xff);
}

/* Out of what gunwaleish_run_trace or gunwaleish_address_of gave. */
static inline uint8_t gunwaleish_address(uint64_t packed) {
    return (uint8_t)(packed >> 8 & 0xff);
}

/* Out of what gunwaleish_run_trace gave. */
static inline size_t gunwaleish_events(uint64_t packed) {
    return (size_t)(packed >> 16 & 0xffff);
}

/* The kind of part, out of what gunwaleish_run_trace gave. */
static inline enum gunwaleish_kind_of_part gunwaleish_kind(uint64_t packed) {
    return (enum gunwaleish_kind_of_part)(packed >> 32 & 0xff);
}

/* Out of what gunwaleish_write_trace or gunwaleish_convert_trace gave. */
static inline size_t gunwaleish_length(uint64_t packed) {
    return (size_t)(packed >> 8);
}

/* Out of what gunwaleish_import_capture gave. */
static inline size_t gunwaleish_captured(uint64_t packed) {
    return (size_t)(packed >> 8);
}

/* The samples taken, out of what gunwaleish_watch_listen gave. */
static inline uint64_t gunwaleish_taken(uint64_t packed) {
    return packed >> 8;
}

/* What a listener counted, by its place in the buffer. */
static inline uint64_t gunwaleish_watch_count(const uint8_t *watch, enum gunwaleish_watch_places place) {
    uint64_t count = 0;
    unsigned i;
    for (i = 8; i-- > 0;) {
        count = count << 8 | watch[(unsigned)place + i];
    }
    return count;
}

/* A READ that was heard: its sample, the master, the register, the byte on SDA, and the byte that the model answers. */
struct gunwaleish_heard {
    uint64_t sample;
    uint8_t master;
    uint8_t reg;
    uint8_t heard;
    uint8_t expected;
};

/* One of a listener's READs, by its place in the buffer. */
static inline struct gunwaleish_heard gunwaleish_watch_read(const uint8_t *watch, enum gunwaleish_watch_places place) {
    struct gunwaleish_heard read;
    read.sample = gunwaleish_watch_count(watch, place);
    read.master = watch[(unsigned)place + 8];
    read.reg = watch[(unsigned)place + 9];
    read.heard = watch[(unsigned)place + 10];
    read.expected = watch[(unsigned)place + 11];
    return read;
}

/* The sheet, and the byte of it at which the box starts, out of what gunwaleish_sheet_box gave. */
static inline unsigned gunwaleish_sheet(uint64_t packed) {
    return (unsigned)(packed >> 8 & 0xff);
}

static inline size_t gunwaleish_offset(uint64_t packed) {
    return (size_t)(packed >> 16);
}

/* Out of what gunwaleish_sheet_events gave. */
static inline size_t gunwaleish_ordered(uint64_t packed) {
    return (size_t)(packed >> 8);
}

/* A GUNWALEISH_WAIT_ of the above, and the ticks, out of what gunwaleish_sheet_wait gave. */
static inline unsigned gunwaleish_wait_grade(uint64_t packed) {
    return (unsigned)(packed >> 8 & 0xff);
}

static inline unsigned gunwaleish_wait_ticks(uint64_t packed) {
    return (unsigned)(packed >> 16 & 0xffff);
}

/* One byte of the answer that gunwaleish_image_step, gunwaleish_shelf_step or gunwaleish_shelf_show gave, by its place, a GUNWALEISH_ANSWER_
 * of the above. There are four. */
static inline uint8_t gunwaleish_answer(uint32_t packed, unsigned place) {
    return (uint8_t)(place > 3 ? 0 : packed >> (8 * place) & 0xff);
}

/* How many ticks changed anything but counts, out of what gunwaleish_image_advance gave. */
static inline uint32_t gunwaleish_changing(uint32_t packed) {
    return packed >> 8;
}

/* The byte out of what gunwaleish_image_read gave. */
static inline uint8_t gunwaleish_register(uint32_t packed) {
    return (uint8_t)(packed >> 8 & 0xff);
}

/* Out of what gunwaleish_list_orders gave. */
static inline size_t gunwaleish_listed(uint64_t packed) {
    return (size_t)(packed >> 8);
}

/* The code of pin AD3, AD2, AD1 or AD0, out of what gunwaleish_pins_of gave. There are no other pins. */
static inline uint8_t gunwaleish_pin(uint64_t packed, unsigned ad) {
    return (uint8_t)(ad > 3 ? GUNWALEISH_NO_PIN : packed >> (8 * (4 - ad)) & 0xff);
}

/* The parts of an answer's third byte: owner and switch, each 0 none, 1 master 0, 2 master 1; and the ground of the present claim. */
static inline unsigned gunwaleish_owner(uint8_t bus) {
    return (unsigned)(bus & GUNWALEISH_BUS_OWNER);
}

static inline unsigned gunwaleish_switch(uint8_t bus) {
    return (unsigned)(bus & GUNWALEISH_BUS_SWITCH) >> GUNWALEISH_BUS_SWITCH_SHIFT;
}

static inline unsigned gunwaleish_ground(uint8_t bus) {
    return (unsigned)(bus & GUNWALEISH_BUS_GROUND) >> GUNWALEISH_BUS_GROUND_SHIFT;
}

#ifdef __cplusplus
}
#endif

#endif
