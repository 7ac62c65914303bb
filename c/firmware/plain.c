/* The yardstick of docs/IMAGE.md: document 01's rules in plain C, with requests #102, #105 and #107, as one writes them for a microcontroller. One
 * struct, one function for each part of a step, every event through all of them. It is no part of the library, and nothing of it is proved; it is
 * held to the independent model over the same events. It tests no range and takes any struct for a device. */
#include "answers.h"

enum { PRIORITY = 0x80, SMBUS_DIS = 0x40, IDLE_TIMER = 0x20, SMBUS_SWRST = 0x10, BUS_INIT = 0x08, BUS_CONNECT = 0x04, LOCK_GRANT = 0x02, LOCK_REQ = 0x01 };
enum { AT_REST, OPEN, WRITING };
enum { APART, CLOSED, INITIALISING };
enum { NOBODY = 2 };

struct side {
    uint8_t contr, rt, ints, mask, low, high, full, port, pointer, rises;
};

struct device {
    struct side sides[2];
    uint8_t kind, out_scl, out_sda, int_in, drive_scl, drive_sda, busy, hold, idle, reserve;
    uint8_t claimant, granted, ground, last, state, zeros, state_of, init_fail; /* masters, or NOBODY */
    uint16_t scl_low, sda_low;
};

static struct device kept;

static int scl(const struct device *d) { return d->out_scl && d->drive_scl && d->hold == 0; }
static int sda(const struct device *d) { return d->out_sda && d->drive_sda; }
static int is_idle(const struct device *d) { return !d->busy && scl(d) && sda(d); }
static int is_hung(const struct device *d) { return d->scl_low == 500 || d->sda_low == 501; }
static int owns(const struct device *d, unsigned m) { return d->granted && d->claimant == m; }
static uint8_t idle_limit(const struct device *d) { return d->kind ? 151 : 101; }
static uint8_t ints_of(const struct device *d, unsigned m) { return (uint8_t)(d->sides[m].ints | is_hung(d) << 6); }
static int asserted(const struct device *d, unsigned m) { return (ints_of(d, m) & ~d->sides[m].mask) != 0; }

/* All but the kind and the outside levels. */
static void reset(struct device *d, uint8_t hold) {
    static const struct side fresh = {.mask = 0x7f};
    struct device was = *d;
    *d = (struct device){.sides = {fresh, fresh}, .drive_scl = 1, .drive_sda = 1, .claimant = NOBODY, .last = NOBODY};
    d->kind = was.kind;
    d->out_scl = was.out_scl;
    d->out_sda = was.out_sda;
    d->int_in = was.int_in;
    d->hold = hold;
}

static void release(struct device *d) {
    d->drive_scl = d->drive_sda = 1;
}

static void end_grant(struct device *d) {
    d->sides[d->claimant].contr &= (uint8_t)~BUS_CONNECT;
    release(d);
    d->claimant = NOBODY;
    d->granted = d->ground = 0;
}

static uint8_t register_of(const struct device *d, unsigned m, unsigned number) {
    const struct side *own = &d->sides[m], *other = &d->sides[1 - m];
    switch (number) {
    case 0: return 0x38;
    case 1: return (uint8_t)(own->contr | (owns(d, m) ? LOCK_GRANT : 0));
    case 2: return (uint8_t)(sda(d) << 7 | scl(d) << 6 | own->full << 4 | !other->full << 3 | is_hung(d) << 2 | d->init_fail << 1 | owns(d, 1 - m));
    case 3: return own->rt;
    case 4: return ints_of(d, m);
    case 5: return own->mask;
    case 6: return own->low;
    default: return own->high;
    }
}

static uint8_t read_byte(struct device *d, unsigned m) {
    struct side *own = &d->sides[m];
    uint8_t byte = register_of(d, m, own->pointer);
    if (own->pointer == 7 && own->full) {
        own->full = 0;
        d->sides[1 - m].ints |= 0x10;
    }
    own->port = OPEN;
    if (own->rises) {
        own->pointer = (own->pointer + 1) & 7;
    }
    return byte;
}

static void write_contr(struct device *d, unsigned m, uint8_t value) {
    d->sides[m].contr = value & (uint8_t)~LOCK_GRANT;
    if (owns(d, m)) {
        if (value & BUS_CONNECT) {
            release(d);
        }
        if (!(value & LOCK_REQ)) {
            end_grant(d);
        }
    }
}

static void write_status(struct device *d, unsigned m, uint8_t value) {
    if (value & 0x20) {
        d->sides[m].ints |= 0x08;
    }
    if (owns(d, m) && !(d->sides[m].contr & BUS_CONNECT)) {
        d->drive_sda = value >> 7;
        d->drive_scl = value >> 6 & 1;
    }
}

static void write_mail(struct side *partner, unsigned pointer, uint8_t value) {
    if (partner->full) {
        return;
    }
    if (pointer == 6) {
        partner->low = value;
    } else {
        partner->high = value;
        partner->full = 1;
        partner->ints |= 0x20;
    }
}

/* 0, or 1 for a byte that is not acknowledged. */
static uint8_t write_byte(struct device *d, unsigned m, uint8_t value) {
    struct side *own = &d->sides[m];
    uint8_t pointer = own->pointer;
    switch (pointer) {
    case 0: break;
    case 1: write_contr(d, m, value); break;
    case 2: write_status(d, m, value); break;
    case 3:
        if (!owns(d, m)) {
            own->rt = value;
        }
        break;
    case 4: own->ints &= (uint8_t)~value; break;
    case 5: own->mask = value & 0x7f; break;
    default: write_mail(&d->sides[1 - m], pointer, value);
    }
    if (own->rises) {
        own->pointer = pointer < 7 ? pointer + 1 : d->kind ? 0 : 7;
    }
    return pointer == 0;
}

static uint8_t command(struct side *own, uint8_t code) {
    if (code & 0x78) {
        own->port = OPEN;
        return 1;
    }
    own->port = WRITING;
    own->rises = code >> 7;
    own->pointer = code & 7;
    return 0;
}

/* Both bytes see the state before; a bit that one clears and the other sets ends set, so who clears INT_STATUS comes first. */
static uint8_t pair(struct device *d, uint8_t v0, uint8_t v1) {
    uint8_t refused;
    if (d->sides[0].port != WRITING || d->sides[1].port != WRITING) {
        return 4;
    }
    if (d->sides[1].pointer == 4) {
        refused = write_byte(d, 1, v1);
        return refused | write_byte(d, 0, v0);
    }
    refused = write_byte(d, 0, v0);
    return refused | write_byte(d, 1, v1);
}

static void tick(struct device *d) {
    int low_scl = !scl(d), low_sda = !sda(d);
    if (is_idle(d) && d->idle < idle_limit(d)) {
        d->idle++;
    }
    d->scl_low += low_scl && d->scl_low < 500;
    d->sda_low += low_sda && d->sda_low < 501;
    d->reserve -= d->reserve > 0;
    d->hold -= d->hold > 0;
}

static void lines(struct device *d, uint8_t scl_level, uint8_t sda_level, uint8_t int_in) {
    if (d->int_in && !int_in) {
        d->sides[0].ints |= 1;
        d->sides[1].ints |= 1;
    }
    d->out_scl = scl_level;
    d->out_sda = sda_level;
    d->int_in = int_in;
}

static uint8_t stop(struct side *own) {
    if (own->port == AT_REST) {
        return 4;
    }
    own->port = AT_REST;
    return 0;
}

/* Part 1. The outcome; 4 changes nothing. */
static uint8_t effect(struct device *d, uint8_t kind, uint8_t x, uint8_t y, uint8_t z, uint8_t *byte) {
    struct side *own = &d->sides[x & 1];
    switch (kind) {
    case 0: return command(own, y);
    case 1: return own->port == WRITING ? write_byte(d, x, y) : 4;
    case 2: *byte = read_byte(d, x); return 0;
    case 3: return stop(own);
    case 4: return pair(d, x, y);
    case 5: lines(d, x, y, z); return 0;
    case 6: tick(d); return 0;
    case 7: return d->state == INITIALISING ? 0 : 4;
    case 8: reset(d, 0); return 0;
    default:
        if (y != 6) {
            return 1;
        }
        reset(d, own->contr & SMBUS_SWRST ? 35 : 0);
        return 0;
    }
}

/* Part 2. */
static void read_lines(struct device *d, int scl_before, int sda_before, int is_reset) {
    int scl_now = scl(d), sda_now = sda(d);
    if (!is_reset && scl_before && scl_now && sda_before != sda_now) {
        d->busy = !sda_now;
    }
    if (scl_now) {
        d->scl_low = 0;
    }
    if (sda_now || scl_before != scl_now) {
        d->sda_low = 0;
    }
    if (!is_idle(d)) {
        d->idle = 0;
    }
}

/* Parts 3 and 4. */
static void losses(struct device *d, int is_tick) {
    struct side *owner = &d->sides[d->claimant & 1];
    if (!d->granted) {
        return;
    }
    if (owner->rt == 0 ? owner->contr & IDLE_TIMER && d->idle == idle_limit(d) : d->reserve == 0 && is_idle(d)) {
        owner->contr &= (uint8_t)~LOCK_REQ;
        owner->ints |= 0x02;
        end_grant(d);
    } else if (is_tick && d->scl_low == 35 && owner->contr & SMBUS_DIS) {
        owner->contr &= (uint8_t)~BUS_CONNECT;
    }
}

/* Part 5: four rows of three winners. */
static void claim(struct device *d) {
    static const uint8_t winners[4][3] = {{1, 0, 0}, {1, 1, 1}, {0, 0, 0}, {1, 0, 1}}; /* last granted 0, 1, nobody */
    uint8_t c0 = d->sides[0].contr, c1 = d->sides[1].contr;
    if (d->granted || (d->claimant != NOBODY && d->sides[d->claimant].contr & LOCK_REQ)) {
        return;
    }
    if (c0 & c1 & LOCK_REQ) {
        d->claimant = winners[(c0 & PRIORITY) >> 6 | c1 >> 7][d->last];
        d->ground = (c0 ^ c1) & PRIORITY ? 2 : 3;
    } else {
        d->claimant = c0 & LOCK_REQ ? 0 : c1 & LOCK_REQ ? 1 : NOBODY;
        d->ground = d->claimant != NOBODY;
    }
}

/* Part 6. */
static void grant(struct device *d) {
    struct side *own = &d->sides[d->claimant & 1];
    if (d->claimant != NOBODY && !d->granted && d->hold == 0 && own->port == AT_REST) {
        d->granted = 1;
        d->reserve = own->rt;
        d->idle = 0;
        d->last = d->claimant;
        own->ints |= 0x04;
    }
}

/* Part 7. A pulse is 0 or 1, and 2 if the event is none. */
static void connection(struct device *d, uint8_t pulse) {
    struct side *own = &d->sides[d->claimant & 1];
    if (!d->granted || !(own->contr & BUS_CONNECT)) {
        d->state = APART;
    } else if (d->state == APART || d->state_of != d->claimant) {
        d->state = own->contr & BUS_INIT ? INITIALISING : CLOSED;
        d->state_of = d->claimant;
        d->zeros = 0;
        d->init_fail &= d->state == CLOSED;
    } else if (d->state == INITIALISING && pulse == 1) {
        own->contr &= (uint8_t)~BUS_INIT;
        d->state = CLOSED;
    } else if (d->state == INITIALISING && pulse == 0 && ++d->zeros == 9) {
        own->contr &= (uint8_t) ~(BUS_INIT | BUS_CONNECT);
        d->init_fail = 1;
        d->state = APART;
    }
}

static uint32_t answer(const struct device *d, uint8_t outcome, uint8_t byte) {
    uint32_t bus = (uint32_t)d->ground << 5 | (d->state == INITIALISING) << 4;
    if (d->granted) {
        bus |= d->claimant + 1u;
    }
    if (d->state == CLOSED) {
        bus |= (d->state_of + 1u) << 2;
    }
    return outcome | (uint32_t)byte << 8 | bus << 16 | (uint32_t)(asserted(d, 0) | asserted(d, 1) << 1 | scl(d) << 2 | sda(d) << 3) << 24;
}

/* 0, or the refusal of an event that does not read as one. */
static uint8_t unreadable(uint8_t kind, uint8_t x, uint8_t y, uint8_t z) {
    static const uint8_t most[10][3] = {{1, 255}, {1, 255}, {1}, {1}, {255, 255}, {1, 1, 1}, {0}, {1}, {0}, {1, 255}};
    if (kind > 9) {
        return 2;
    }
    return x > most[kind][0] || y > most[kind][1] || z > most[kind][2] ? 3 : 0;
}

uint32_t step_kept(uint8_t kind, uint8_t x, uint8_t y, uint8_t z) {
    struct device *d = &kept;
    uint8_t outcome = unreadable(kind, x, y, z), byte = 0;
    int scl_before = scl(d), sda_before = sda(d);
    if (outcome == 0) {
        outcome = effect(d, kind, x, y, z, &byte);
        if (outcome != 4) {
            read_lines(d, scl_before, sda_before, kind == 8 || (kind == 9 && outcome == 0));
            losses(d, kind == 6);
            claim(d);
            grant(d);
            connection(d, kind == 7 ? x : 2);
        }
    }
    return answer(d, outcome, byte);
}

static void fresh(uint8_t kind) {
    kept.kind = kind;
    kept.out_scl = kept.out_sda = kept.int_in = 1;
    reset(&kept, 0);
}

uint64_t answer_to(const uint8_t *call) {
    const uint8_t *a = call + 1;
    switch (call[0]) {
    case IMAGE_FRESH: fresh(a[0]); return 0;
    case IMAGE_STEP: return step_kept(a[0], a[1], a[2], a[3]);
    default: return (uint64_t)register_of(&kept, a[0], a[1]) << 8;
    }
}
