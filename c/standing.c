/* Drives one standing device through the life of a bus that two controllers share, written from the header alone: controller 0 asks, controller 1 waits,
 * controller 0 loses the bus at the end of its reserve, controller 1 stalls in a transfer, and controller 0 recovers the bus. Between two events
 * nothing is kept but the image of 38 bytes, as in a microcontroller. */
#include <stdio.h>
#include <string.h>

#include "gunwaleish.h"

static uint8_t image[GUNWALEISH_IMAGE_BYTES];
static unsigned long now; /* in ticks, which are milliseconds */

/* What master reads of its register, without an event. */
static unsigned reg(uint8_t master, uint8_t number) {
    return gunwaleish_register(gunwaleish_image_read(master, number, image, sizeof image));
}

static const char *holder(uint32_t answer) {
    static const char *const names[] = {"nobody", "controller 0", "controller 1", "?"};
    return names[gunwaleish_owner(gunwaleish_answer(answer, GUNWALEISH_ANSWER_BUS))];
}

/* One event; what is refused is told, and so is a change of the owner. */
static uint32_t put(struct gunwaleish_event event) {
    static unsigned before = GUNWALEISH_OWNER_NONE;
    uint32_t answer = gunwaleish_image_event(event, image, sizeof image);
    unsigned owner = gunwaleish_owner(gunwaleish_answer(answer, GUNWALEISH_ANSWER_BUS));
    if (gunwaleish_number(answer) > GUNWALEISH_NOT_ACKNOWLEDGED) {
        printf("%4lu ms: refused, number %u\n", now, gunwaleish_number(answer));
    }
    if (owner != before) {
        printf("%4lu ms: the bus is owned by %s\n", now, holder(answer));
    }
    before = owner;
    return answer;
}

/* A register is written by three events. The STOP belongs to it: no claim is granted while the port is open. */
static uint32_t write_register(uint8_t master, uint8_t number, uint8_t value) {
    put(gunwaleish_event_command(master, number));
    put(gunwaleish_event_write(master, value));
    return put(gunwaleish_event_stop(master));
}

/* Time passes at once, all but its last millisecond; that one is an event, so that its answer tells how the bus stands. */
static void wait_for(uint32_t ticks) {
    gunwaleish_image_advance(ticks - 1, image, sizeof image);
    now += ticks;
    put(gunwaleish_event_tick());
}

/* The way in: interrupts for a grant and a loss, the reserve, the request. */
static uint32_t ask(uint8_t master, uint8_t reserve, uint8_t more) {
    write_register(master, GUNWALEISH_REGISTER_INT_MSK, 0x7f & ~(GUNWALEISH_INT_GRANTED | GUNWALEISH_INT_LOST));
    write_register(master, GUNWALEISH_REGISTER_RT, reserve);
    return write_register(master, GUNWALEISH_REGISTER_CONTR, (uint8_t)(GUNWALEISH_CONTR_LOCK_REQ | more));
}

static void tell(uint8_t master) {
    unsigned status = reg(master, GUNWALEISH_REGISTER_STATUS);
    unsigned told = reg(master, GUNWALEISH_REGISTER_INT_STATUS);
    printf("%4lu ms: controller %u reads CONTR %02Xh, STATUS %02Xh%s%s, INT_STATUS %02Xh%s%s\n", now, master, reg(master, GUNWALEISH_REGISTER_CONTR),
           status, status & GUNWALEISH_STATUS_OTHER_LOCK ? ", the other owns" : "", status & GUNWALEISH_STATUS_BUS_HUNG ? ", the bus is hung" : "",
           told, told & GUNWALEISH_INT_GRANTED ? ", granted" : "", told & GUNWALEISH_INT_LOST ? ", lost" : "");
}

/* Controller 0 asks with a reserve of 50 ms, controller 1 waits, and at the 50th ms the bus passes on. */
static void lose(void) {
    uint32_t answer = ask(0, 50, GUNWALEISH_CONTR_BUS_CONNECT);
    printf("%4lu ms: INT0 is %s\n", now,
           gunwaleish_answer(answer, GUNWALEISH_ANSWER_PINS) & GUNWALEISH_PINS_INT0_ASSERTED ? "asserted" : "not asserted");
    write_register(0, GUNWALEISH_REGISTER_INT_STATUS, GUNWALEISH_INT_GRANTED);
    ask(1, 20, GUNWALEISH_CONTR_BUS_CONNECT);
    tell(1);
    wait_for(49);
    wait_for(1);
    tell(0);
}

/* Controller 1 begins a transfer and stalls in it with SDA low: its reserve is over, but the bus does not fall idle. */
static void stall(void) {
    put(gunwaleish_event_lines(1, 0, 1));
    ask(0, 50, GUNWALEISH_CONTR_BUS_CONNECT);
    wait_for(600);
    tell(0);
}

/* The way back: a soft reset takes the grant and both controllers' settings; then controller 0's own, with an initialisation of the bus. */
static void recover(void) {
    put(gunwaleish_event_general_call(0, GUNWALEISH_SOFT_RESET));
    ask(0, 50, GUNWALEISH_CONTR_BUS_CONNECT | GUNWALEISH_CONTR_BUS_INIT);
    for (uint8_t clock = 1; clock <= 3; clock++) {
        uint32_t answer = put(gunwaleish_event_pulse(clock == 3));
        uint8_t bus = gunwaleish_answer(answer, GUNWALEISH_ANSWER_BUS);
        printf("%4lu ms: clock %u, SDA %s: %s\n", now, clock, clock == 3 ? "high" : "low",
               bus & GUNWALEISH_BUS_INITIALISING ? "initialising" : gunwaleish_switch(bus) == GUNWALEISH_OWNER_0 ? "connected" : "open");
    }
    put(gunwaleish_event_lines(1, 1, 1));
    tell(0);
}

/* The image is all there is: a copy of it goes on where it stood, and one that something else wrote in is refused. */
static void keep(void) {
    uint8_t kept[GUNWALEISH_IMAGE_BYTES];
    memcpy(kept, image, sizeof kept);
    uint32_t here = gunwaleish_image_event(gunwaleish_event_tick(), image, sizeof image);
    uint32_t there = gunwaleish_image_event(gunwaleish_event_tick(), kept, sizeof kept);
    printf("kept and taken up again: %s\n", here == there && memcmp(image, kept, sizeof kept) == 0 ? "the same" : "not the same");
    memset(kept, 0xff, sizeof kept);
    printf("erased: refused, number %u\n", gunwaleish_number(gunwaleish_image_event(gunwaleish_event_tick(), kept, sizeof kept)));
}

int main(void) {
    uint32_t version = gunwaleish_version();
    if (version != GUNWALEISH_VERSION) {
        fprintf(stderr, "the header is of another version than the library\n");
        return 1;
    }
    printf("gunwaleish %u.%u.%u\n", (unsigned)(version >> 16), (unsigned)(version >> 8 & 0xff), (unsigned)(version & 0xff));
    if (gunwaleish_number(gunwaleish_image_fresh(GUNWALEISH_PCA9641, image, sizeof image)) != GUNWALEISH_DONE) {
        return 1;
    }
    lose();
    stall();
    recover();
    keep();
    return 0;
}
