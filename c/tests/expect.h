/* What the tests in C share: an expectation, told if it is not met. */
#ifndef EXPECT_H
#define EXPECT_H

#include <stdio.h>
#include <string.h>

#include "../gunwaleish.h"

static unsigned expected;
static unsigned failed;

static void expect(const char *what, uint64_t said, uint64_t wanted) {
    expected++;
    if (said != wanted) {
        failed++;
        fprintf(stderr, "%s: %llu, wanted %llu\n", what, (unsigned long long)said, (unsigned long long)wanted);
    }
}

/* The end of a test: how many expectations there were, and 1 if one was not met. */
static int ended(const char *test) {
    printf("%s: %u of %u as expected\n", test, expected - failed, expected);
    return failed > 0;
}

#endif
