/* What the library and the compiler take from a runtime, and nothing else: a firmware that is linked with its compiler's own needs no such file.
 * build/lib/TARGET/libgunwaleish-firmware.needs has the list. Written for size; the empty lines of assembler keep the compiler from seeing a copy
 * in a copy. */
#include <stddef.h>
#include <stdint.h>

void *memcpy(void *to, const void *from, size_t length);
void *memmove(void *to, const void *from, size_t length);
void *memset(void *to, int byte, size_t length);

void *memcpy(void *to, const void *from, size_t length) {
    uint8_t *at = to;
    const uint8_t *read = from;
    while (length-- > 0) {
        *at++ = *read++;
        __asm__ volatile("" ::: "memory");
    }
    return to;
}

void *memmove(void *to, const void *from, size_t length) {
    uint8_t *at = to;
    const uint8_t *read = from;
    if (at <= read) {
        return memcpy(to, from, length);
    }
    while (length-- > 0) {
        at[length] = read[length];
        __asm__ volatile("" ::: "memory");
    }
    return to;
}

void *memset(void *to, int byte, size_t length) {
    uint8_t *at = to;
    while (length-- > 0) {
        *at++ = (uint8_t)byte;
        __asm__ volatile("" ::: "memory");
    }
    return to;
}

struct divided {
    uint64_t quotient, rest;
};

/* Bit by bit, from the top. Nothing is divided by 0 here. */
static struct divided divide(uint64_t number, uint64_t by) {
    struct divided done = {0, 0};
    for (int bit = 63; bit >= 0; bit--) {
        done.rest = done.rest << 1 | (number >> bit & 1);
        if (done.rest >= by) {
            done.rest -= by;
            done.quotient |= (uint64_t)1 << bit;
        }
    }
    return done;
}

#ifdef __arm__

/* The Arm run-time ABI's names. A fill has its byte last. */
void __aeabi_memcpy(void *to, const void *from, size_t length);
void __aeabi_memclr(void *to, size_t length);
void __aeabi_memset(void *to, size_t length, int byte);
uint64_t __aeabi_lmul(uint64_t a, uint64_t b);

void __aeabi_memcpy(void *to, const void *from, size_t length) {
    memcpy(to, from, length);
}

void __aeabi_memclr(void *to, size_t length) {
    memset(to, 0, length);
}

void __aeabi_memset(void *to, size_t length, int byte) {
    memset(to, byte, length);
}

#define ALIAS(name, of) __asm__(".globl " name "\n.thumb_set " name ", " of "\n")
ALIAS("__aeabi_memcpy4", "__aeabi_memcpy");
ALIAS("__aeabi_memcpy8", "__aeabi_memcpy");
ALIAS("__aeabi_memmove", "memmove");
ALIAS("__aeabi_memmove4", "memmove");
ALIAS("__aeabi_memmove8", "memmove");
ALIAS("__aeabi_memclr4", "__aeabi_memclr");
ALIAS("__aeabi_memclr8", "__aeabi_memclr");
ALIAS("__aeabi_memset4", "__aeabi_memset");
ALIAS("__aeabi_memset8", "__aeabi_memset");

/* The product's low 64 bits, of halves of 16 bits, which a Cortex-M0 multiplies. */
uint64_t __aeabi_lmul(uint64_t a, uint64_t b) {
    uint64_t product = 0;
    for (; a != 0; a >>= 1, b <<= 1) {
        product += a & 1 ? b : 0;
    }
    return product;
}

/* Gives the quotient in r0 and r1 and the rest in r2 and r3, which C has no word for. */
void divide_into(struct divided *done, uint64_t number, uint64_t by);
__attribute__((used)) void divide_into(struct divided *done, uint64_t number, uint64_t by) {
    *done = divide(number, by);
}

__attribute__((naked, used)) void __aeabi_uldivmod(void) {
    __asm__("push {r4, lr}\n"
            "sub sp, #32\n"
            "str r2, [sp, #0]\n"
            "str r3, [sp, #4]\n"
            "movs r2, r0\n"
            "movs r3, r1\n"
            "add r0, sp, #8\n"
            "bl divide_into\n"
            "ldr r0, [sp, #8]\n"
            "ldr r1, [sp, #12]\n"
            "ldr r2, [sp, #16]\n"
            "ldr r3, [sp, #20]\n"
            "add sp, #32\n"
            "pop {r4, pc}\n");
}

#else

uint64_t __udivdi3(uint64_t number, uint64_t by);

uint64_t __udivdi3(uint64_t number, uint64_t by) {
    return divide(number, by).quotient;
}

#endif
