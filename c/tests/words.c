/* Holds the header's words to the library: the version, the ten events, the registers and the bits of CONTR, STATUS, INT_STATUS and the answers.
 * Each is looked at where it has its effect. */
#include "expect.h"

static uint8_t image[GUNWALEISH_IMAGE_BYTES];

static uint8_t reg(uint8_t master, uint8_t number) {
    return gunwaleish_register(gunwaleish_image_read(master, number, image, sizeof image));
}

static uint32_t put(struct gunwaleish_event event) {
    return gunwaleish_image_event(event, image, sizeof image);
}

static unsigned pins(uint32_t answer) {
    return gunwaleish_answer(answer, GUNWALEISH_ANSWER_PINS);
}

static unsigned bus(uint32_t answer) {
    return gunwaleish_answer(answer, GUNWALEISH_ANSWER_BUS);
}

static uint32_t write_register(uint8_t master, uint8_t number, uint8_t value) {
    put(gunwaleish_event_command(master, number));
    put(gunwaleish_event_write(master, value));
    return put(gunwaleish_event_stop(master));
}

static void ticks(uint32_t count) {
    gunwaleish_image_advance(count, image, sizeof image);
}

static void fresh(void) {
    expect("a fresh image", gunwaleish_image_fresh(GUNWALEISH_PCA9641, image, sizeof image), GUNWALEISH_DONE);
}

static void version(void) {
    expect("the version", gunwaleish_version(), GUNWALEISH_VERSION);
    expect("its major", gunwaleish_version() >> 16, GUNWALEISH_VERSION_MAJOR);
    expect("its minor", gunwaleish_version() >> 8 & 0xff, GUNWALEISH_VERSION_MINOR);
    expect("its patch", gunwaleish_version() & 0xff, GUNWALEISH_VERSION_PATCH);
}

/* A builder gives the four bytes of document 01, and they stand one after the other. */
static void built(const char *what, struct gunwaleish_event event, unsigned number, unsigned x, unsigned y, unsigned z) {
    uint8_t bytes[4];
    memcpy(bytes, &event, sizeof bytes);
    expect(what, bytes[0] | (uint32_t)bytes[1] << 8 | (uint32_t)bytes[2] << 16 | (uint32_t)bytes[3] << 24, number | x << 8 | y << 16 | z << 24);
}

static void builders(void) {
    built("COMMAND", gunwaleish_event_command(1, GUNWALEISH_REGISTER_RT | GUNWALEISH_AUTO_INCREMENT), 0, 1, 0x83, 0);
    built("WRITE", gunwaleish_event_write(1, 0xa5), 1, 1, 0xa5, 0);
    built("READ", gunwaleish_event_read(1), 2, 1, 0, 0);
    built("STOP", gunwaleish_event_stop(1), 3, 1, 0, 0);
    built("PAIR", gunwaleish_event_pair(0x12, 0x34), 4, 0x12, 0x34, 0);
    built("LINES, SCL", gunwaleish_event_lines(1, 0, 0), 5, 1, 0, 0);
    built("LINES, SDA", gunwaleish_event_lines(0, 1, 0), 5, 0, 1, 0);
    built("LINES, INT_IN", gunwaleish_event_lines(0, 0, 1), 5, 0, 0, 1);
    built("TICK", gunwaleish_event_tick(), 6, 0, 0, 0);
    built("PULSE", gunwaleish_event_pulse(1), 7, 1, 0, 0);
    built("RESET", gunwaleish_event_reset(), 8, 0, 0, 0);
    built("GENERAL CALL", gunwaleish_event_general_call(1, GUNWALEISH_SOFT_RESET), 9, 1, 6, 0);
    built("any four bytes", gunwaleish_event_of(200, 201, 202, 203), 200, 201, 202, 203);
}

/* An array of events is event bytes: written into a trace, and run. */
static void arrays(void) {
    const struct gunwaleish_event events[] = {
        gunwaleish_event_command(1, GUNWALEISH_REGISTER_CONTR),
        gunwaleish_event_write(1, GUNWALEISH_CONTR_LOCK_REQ),
        gunwaleish_event_stop(1),
    };
    uint8_t trace[GUNWALEISH_TRACE_HEAD + sizeof events + GUNWALEISH_TRACE_TAIL];
    uint8_t answers[sizeof events];
    uint64_t made = gunwaleish_write_trace(0, 0, 0, 0, GUNWALEISH_TPT29641, (const uint8_t *)events, sizeof events, trace, sizeof trace);
    uint64_t report = gunwaleish_run_trace(trace, gunwaleish_length(made), answers, sizeof answers);
    expect("an array written", made, 256 * sizeof trace);
    expect("its address", gunwaleish_address(report), 0x70);
    expect("its events", gunwaleish_events(report), 3);
    expect("its kind", gunwaleish_kind(report), GUNWALEISH_TPT29641);
    expect("its owner", gunwaleish_owner(answers[sizeof answers - 4 + GUNWALEISH_ANSWER_BUS]), GUNWALEISH_OWNER_1);
}

static void outcomes(void) {
    fresh();
    expect("a TICK", gunwaleish_number(put(gunwaleish_event_tick())), GUNWALEISH_DONE);
    expect("the first answer byte", gunwaleish_answer(put(gunwaleish_event_command(1, 0x08)), GUNWALEISH_ANSWER_OUTCOME), GUNWALEISH_NOT_ACKNOWLEDGED);
    expect("COMMAND 08h", gunwaleish_number(put(gunwaleish_event_command(0, 0x08))), GUNWALEISH_NOT_ACKNOWLEDGED);
    expect("event 10", gunwaleish_number(put(gunwaleish_event_of(10, 0, 0, 0))), GUNWALEISH_UNKNOWN_EVENT);
    expect("master 2", gunwaleish_number(put(gunwaleish_event_read(2))), GUNWALEISH_FIELD_OUT_OF_RANGE);
    expect("a PULSE at rest", gunwaleish_number(put(gunwaleish_event_pulse(1))), GUNWALEISH_OUT_OF_SEQUENCE);
}

/* What a reset leaves in each register. */
static void registers(void) {
    fresh();
    expect("ID", reg(0, GUNWALEISH_REGISTER_ID), GUNWALEISH_ID);
    expect("CONTR", reg(0, GUNWALEISH_REGISTER_CONTR), 0);
    expect("STATUS", reg(0, GUNWALEISH_REGISTER_STATUS), GUNWALEISH_STATUS_SDA | GUNWALEISH_STATUS_SCL | GUNWALEISH_STATUS_MBOX_EMPTY);
    expect("RT", reg(0, GUNWALEISH_REGISTER_RT), 0);
    expect("INT_STATUS", reg(0, GUNWALEISH_REGISTER_INT_STATUS), 0);
    expect("INT_MSK", reg(0, GUNWALEISH_REGISTER_INT_MSK), 0x7f);
    write_register(0, GUNWALEISH_REGISTER_RT, 50);
    expect("RT written", reg(0, GUNWALEISH_REGISTER_RT), 50);
    write_register(0, GUNWALEISH_REGISTER_MAIL_LOW, 0x12);
    write_register(0, GUNWALEISH_REGISTER_MAIL_HIGH, 0x34);
    expect("mail, low", reg(1, GUNWALEISH_REGISTER_MAIL_LOW), 0x12);
    expect("mail, high", reg(1, GUNWALEISH_REGISTER_MAIL_HIGH), 0x34);
    expect("mail full", reg(1, GUNWALEISH_REGISTER_STATUS) & GUNWALEISH_STATUS_MBOX_FULL, GUNWALEISH_STATUS_MBOX_FULL);
    expect("mail not empty", reg(0, GUNWALEISH_REGISTER_STATUS) & GUNWALEISH_STATUS_MBOX_EMPTY, 0);
    expect("mail told", reg(1, GUNWALEISH_REGISTER_INT_STATUS), GUNWALEISH_INT_MAIL_FULL);
    put(gunwaleish_event_command(1, GUNWALEISH_REGISTER_MAIL_LOW | GUNWALEISH_AUTO_INCREMENT));
    expect("low read", gunwaleish_answer(put(gunwaleish_event_read(1)), GUNWALEISH_ANSWER_BYTE_READ), 0x12);
    expect("high read", gunwaleish_answer(put(gunwaleish_event_read(1)), GUNWALEISH_ANSWER_BYTE_READ), 0x34);
    put(gunwaleish_event_stop(1));
    expect("emptying told", reg(0, GUNWALEISH_REGISTER_INT_STATUS), GUNWALEISH_INT_MAIL_EMPTIED);
}

/* A grant with a reserve, told, and its loss. */
static void grants(void) {
    fresh();
    write_register(0, GUNWALEISH_REGISTER_INT_MSK, 0x7f & ~(GUNWALEISH_INT_GRANTED | GUNWALEISH_INT_LOST));
    write_register(0, GUNWALEISH_REGISTER_RT, 2);
    uint32_t stop = write_register(0, GUNWALEISH_REGISTER_CONTR, GUNWALEISH_CONTR_LOCK_REQ | GUNWALEISH_CONTR_BUS_CONNECT);
    expect("owner", gunwaleish_owner((uint8_t)bus(stop)), GUNWALEISH_OWNER_0);
    expect("switch", gunwaleish_switch((uint8_t)bus(stop)), GUNWALEISH_OWNER_0);
    expect("the switch's bits", bus(stop) & GUNWALEISH_BUS_SWITCH, GUNWALEISH_OWNER_0 << GUNWALEISH_BUS_SWITCH_SHIFT);
    expect("the ground's bits", bus(stop) & GUNWALEISH_BUS_GROUND, GUNWALEISH_SOLE_REQUESTER << GUNWALEISH_BUS_GROUND_SHIFT);
    expect("ground", gunwaleish_ground((uint8_t)bus(stop)), GUNWALEISH_SOLE_REQUESTER);
    expect("INT0 and the lines", pins(stop), GUNWALEISH_PINS_INT0_ASSERTED | GUNWALEISH_PINS_SCL_HIGH | GUNWALEISH_PINS_SDA_HIGH);
    expect("granted told", reg(0, GUNWALEISH_REGISTER_INT_STATUS), GUNWALEISH_INT_GRANTED);
    expect("CONTR granted", reg(0, GUNWALEISH_REGISTER_CONTR),
           GUNWALEISH_CONTR_LOCK_REQ | GUNWALEISH_CONTR_LOCK_GRANT | GUNWALEISH_CONTR_BUS_CONNECT);
    expect("the other owns", reg(1, GUNWALEISH_REGISTER_STATUS) & GUNWALEISH_STATUS_OTHER_LOCK, GUNWALEISH_STATUS_OTHER_LOCK);
    write_register(0, GUNWALEISH_REGISTER_INT_STATUS, GUNWALEISH_INT_GRANTED);
    put(gunwaleish_event_tick());
    expect("lost at the second tick", bus(put(gunwaleish_event_tick())), GUNWALEISH_OWNER_NONE);
    expect("lost told", reg(0, GUNWALEISH_REGISTER_INT_STATUS), GUNWALEISH_INT_LOST);
    write_register(1, GUNWALEISH_REGISTER_INT_MSK, 0x7f & ~GUNWALEISH_INT_TEST);
    uint32_t test = write_register(1, GUNWALEISH_REGISTER_STATUS, GUNWALEISH_STATUS_TEST_INT);
    expect("both outputs", pins(test), GUNWALEISH_PINS_INT0_ASSERTED | GUNWALEISH_PINS_INT1_ASSERTED | GUNWALEISH_PINS_SCL_HIGH | GUNWALEISH_PINS_SDA_HIGH);
    expect("test told", reg(1, GUNWALEISH_REGISTER_INT_STATUS), GUNWALEISH_INT_TEST);
}

/* Both ask at once: the ground of the claim by their priorities. */
static void claims(uint8_t more, unsigned owner, unsigned ground) {
    fresh();
    put(gunwaleish_event_command(0, GUNWALEISH_REGISTER_CONTR));
    put(gunwaleish_event_command(1, GUNWALEISH_REGISTER_CONTR));
    put(gunwaleish_event_pair(GUNWALEISH_CONTR_LOCK_REQ, (uint8_t)(GUNWALEISH_CONTR_LOCK_REQ | more)));
    put(gunwaleish_event_stop(0));
    uint8_t stood = (uint8_t)bus(put(gunwaleish_event_stop(1)));
    expect("the owner of two", gunwaleish_owner(stood), owner);
    expect("its ground", gunwaleish_ground(stood), ground);
}

/* The bits of CONTR that act later: the idle timer, the 35 ticks, the hold of a soft reset, the initialisation. */
static void settings(void) {
    fresh();
    write_register(0, GUNWALEISH_REGISTER_CONTR, GUNWALEISH_CONTR_LOCK_REQ | GUNWALEISH_CONTR_IDLE_TIMER_DIS);
    ticks(100);
    expect("100 idle ticks", bus(put(gunwaleish_event_of(255, 0, 0, 0))) & GUNWALEISH_BUS_OWNER, GUNWALEISH_OWNER_0);
    expect("101 idle ticks", bus(put(gunwaleish_event_tick())), GUNWALEISH_OWNER_NONE);
    fresh();
    write_register(0, GUNWALEISH_REGISTER_CONTR, GUNWALEISH_CONTR_LOCK_REQ | GUNWALEISH_CONTR_BUS_CONNECT | GUNWALEISH_CONTR_SMBUS_DIS);
    put(gunwaleish_event_lines(0, 1, 1));
    ticks(34);
    expect("SCL low for 35", gunwaleish_switch((uint8_t)bus(put(gunwaleish_event_tick()))), GUNWALEISH_OWNER_NONE);
    ticks(465);
    expect("SCL low for 500", reg(1, GUNWALEISH_REGISTER_STATUS) & (GUNWALEISH_STATUS_BUS_HUNG | GUNWALEISH_STATUS_SCL), GUNWALEISH_STATUS_BUS_HUNG);
    expect("hung told", reg(1, GUNWALEISH_REGISTER_INT_STATUS), GUNWALEISH_INT_HUNG);
    fresh();
    write_register(1, GUNWALEISH_REGISTER_CONTR, GUNWALEISH_CONTR_SMBUS_SWRST);
    expect("SCL held", pins(put(gunwaleish_event_general_call(1, GUNWALEISH_SOFT_RESET))), GUNWALEISH_PINS_SDA_HIGH);
    ticks(34);
    expect("the 35th tick", pins(put(gunwaleish_event_tick())) & GUNWALEISH_PINS_SCL_HIGH, GUNWALEISH_PINS_SCL_HIGH);
    put(gunwaleish_event_lines(1, 1, 0));
    expect("INT_IN told", reg(0, GUNWALEISH_REGISTER_INT_STATUS), GUNWALEISH_INT_INT_IN);
    write_register(1, GUNWALEISH_REGISTER_CONTR, GUNWALEISH_CONTR_LOCK_REQ | GUNWALEISH_CONTR_BUS_CONNECT | GUNWALEISH_CONTR_BUS_INIT);
    for (int clock = 1; clock < 9; clock++) {
        expect("initialising", bus(put(gunwaleish_event_pulse(0))) & GUNWALEISH_BUS_INITIALISING, GUNWALEISH_BUS_INITIALISING);
    }
    expect("the ninth", bus(put(gunwaleish_event_pulse(0))) & (GUNWALEISH_BUS_INITIALISING | GUNWALEISH_BUS_SWITCH), 0);
    expect("its failure", reg(0, GUNWALEISH_REGISTER_STATUS) & GUNWALEISH_STATUS_BUS_INIT_FAIL, GUNWALEISH_STATUS_BUS_INIT_FAIL);
}

int main(void) {
    version();
    builders();
    arrays();
    outcomes();
    registers();
    grants();
    claims(0, GUNWALEISH_OWNER_0, GUNWALEISH_LAST_GRANTED);
    claims(GUNWALEISH_CONTR_PRIORITY, GUNWALEISH_OWNER_1, GUNWALEISH_PRIORITY);
    settings();
    return ended("words");
}
