/* Plays the calls of examples/worked.calls on the chart of examples/worked.chart, and compares what they come to. */
#include "settle.h"

#include <stdio.h>
#include <stdlib.h>
#include <string.h>

static const uint8_t chart[] = {
    0, 1, 0, 4, 0, 1, 0, 2, 0, 4, 0, 16, 0, 20, 0, 52, 0, 1, 0, 0, 0, 3, 0, 1, 0, 0,
    0, 0, 0, 0, 0, 4, 0, 0, 0, 0, 0, 0, 0, 2, 0, 2, 0, 0, 0, 0, 0, 0, 0, 0, 0, 4,
};

/* Ends the program unless the outcome is this one. */
static void expect(const char *call, settle_outcome outcome, bool accepted, uint32_t count, const uint64_t *numbers) {
    if (outcome.accepted == accepted && outcome.count == count
        && memcmp(outcome.numbers, numbers, count * sizeof *numbers) == 0) {
        return;
    }
    fprintf(stderr, "%s came to something else\n", call);
    exit(EXIT_FAILURE);
}

#define ACCEPTED(call, ...) expect(#call, call, true, sizeof((uint64_t[]){__VA_ARGS__}) / 8, (uint64_t[]){__VA_ARGS__})
#define REFUSED(call, ...) expect(#call, call, false, sizeof((uint64_t[]){__VA_ARGS__}) / 8, (uint64_t[]){__VA_ARGS__})

/* A register is made, or not. */
static void make(settle_register *r) {
    REFUSED(settle_close(r), SETTLE_NO_REGISTER);
    REFUSED(settle_weigh(r, false, 0, 3, (int32_t[]){0}, 0), SETTLE_NO_REGISTER);
    REFUSED(settle_new(r, chart, sizeof chart - 1, 30), 1, 14, 0);
    REFUSED(settle_new(r, chart, sizeof chart, 0), 11);
    ACCEPTED(settle_new(r, chart, sizeof chart, 30), 4);
}

/* A pairing shows 6 as an upper bound. */
static void bound_above(settle_register *r) {
    const int32_t pairing[] = {0, 3, 3, 1, 3, 1};
    ACCEPTED(settle_weigh(r, false, 0, 3, pairing, 6), 15);
    REFUSED(settle_weigh(r, false, 0, 3, pairing, 5), 101, 5);
    ACCEPTED(settle_open(r, false), 0);
    ACCEPTED(settle_claim(r, 0, 3, 6), 1);
    ACCEPTED(settle_close(r), 1);
    ACCEPTED(settle_show(r, 0, 3, pairing, 6), 0);
    ACCEPTED(settle_enter(r), 1);
}

/* Potentials show 6 as a lower bound. */
static void bound_below(settle_register *r) {
    const int32_t above[] = {7, 30, 0, 0, 0, 0, 0, 0}, potentials[] = {6, 30, 0, 0, 0, 0, 0, 0};
    ACCEPTED(settle_open(r, true), 0);
    ACCEPTED(settle_claim(r, 0, 3, 6), 1);
    ACCEPTED(settle_close(r), 1);
    REFUSED(settle_enter(r), 61, 0, 3);
    REFUSED(settle_show(r, 0, 3, above, 8), 54, 113, 3);
    ACCEPTED(settle_show(r, 0, 3, potentials, 8), 0);
    ACCEPTED(settle_enter(r), 1);
    REFUSED(settle_abandon(r), 70);
}

/* What the register says afterwards. */
static void ask(settle_register *r) {
    ACCEPTED(settle_ask(r, 0, 3), 6, 6, SETTLE_SETTLED);
    ACCEPTED(settle_ask(r, 0, 1), 30, 30, SETTLE_APART);
    ACCEPTED(settle_ask(r, 0, 2), 0, 30, SETTLE_OPEN);
    REFUSED(settle_ask(r, 0, settle_sections(r)), 80);
}

/* A test that is sat twice, under the same chart. */
static void sit_twice(settle_register *r) {
    const int32_t second_short[] = {6, 0, 3, 3, 1, 3, 1, 0, 3, 3};
    ACCEPTED(settle_new_twice(r, chart, sizeof chart, chart, sizeof chart, 30), 4);
    ACCEPTED(settle_ask(r, 0, 3), 0, 30, SETTLE_OPEN);
    REFUSED(settle_weigh(r, false, 0, 3, second_short, 10), 1, 104, 1);
    REFUSED(settle_weigh(r, false, 0, 3, second_short, 0), 141, 0);
}

int main(void) {
    settle_register r = {NULL};
    make(&r);
    bound_above(&r);
    bound_below(&r);
    ask(&r);
    sit_twice(&r);
    settle_free(&r);
    settle_free(&r);
    if (r.at != NULL || settle_sections(&r) != 0) {
        fputs("a register is left\n", stderr);
        return EXIT_FAILURE;
    }
    puts("the worked example came out as it must");
}
