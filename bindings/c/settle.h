/* A register of lower and upper bounds on the distances of a chart's sections.
 *
 * docs/BINDINGS.md says how a program is linked with the library, and docs/REGISTER.md what the calls do.
 * The functions and what they promise are in crates/settle_c/src.
 *
 * What every function asks of its caller: no pointer is null, not that of settle_free either; chart bytes and words
 * are as many as is said, and where there are none their pointer is not null either. One call at a time has a
 * register, on one thread, and none is made in a signal handler, nor in a process forked from one that has several
 * threads. A call needs a stack of 128 KiB; two sittings were seen to run with 96 KiB, and not with 80.
 */
#ifndef SETTLE_H
#define SETTLE_H

#include <stdbool.h>
#include <stddef.h>
#include <stdint.h>

#ifdef __cplusplus
extern "C" {
#endif

/* A register, or none where the pointer is null: start with {NULL}. Only the functions below read or write it.
 * A copy of it is no second register: use one of the two from then on.
 */
typedef struct {
    void *at;
} settle_register;

/* What a call comes to. Accepted: numbers[0] is its answer, and settle_ask answers the lower entry, the upper
 * entry and one of the words below. Refused: numbers[0] is the refusal's number, and what it carries follows; only
 * settle_weigh is refused by a fault with no number before it. Of the numbers, the first count have a meaning, and
 * the others are 0.
 */
typedef struct {
    bool accepted;
    uint32_t count;
    uint64_t numbers[4];
} settle_outcome;

/* What settle_ask says of a pair. */
enum { SETTLE_APART = 0, SETTLE_SETTLED = 1, SETTLE_OPEN = 2 };

/* The refusals that are not of a call: no memory for a register, and no register to make a call on. */
enum { SETTLE_NO_MEMORY = 90, SETTLE_NO_REGISTER = 91 };

/* Makes a register of the chart in a file with these bytes, over the top, and answers how many sections it has.
 * What the register was before is freed. Refused: the number and the place of docs/CHART-FILES.md and then 0,
 * or 11, or 90; then the register is as it was. The bytes are not needed afterwards.
 */
settle_outcome settle_new(settle_register *, const uint8_t *chart, size_t chart_len, uint32_t top);

/* The same for a test that is sat twice. Refused: also the second chart's number, place and then 1, or 12. */
settle_outcome settle_new_twice(settle_register *, const uint8_t *first, size_t first_len,
                                const uint8_t *second, size_t second_len, uint32_t top);

/* Frees the register, if there is one. */
void settle_free(settle_register *);

/* How many sections the chart has; 0 without a register. */
size_t settle_sections(settle_register *);

/* The calls of docs/REGISTER.md. Of a fault, 54 carries its number and its place, with its sitting before them
 * where one of two finds it. Without a register each is refused with 91.
 */
settle_outcome settle_open(settle_register *, bool lower);
settle_outcome settle_claim(settle_register *, size_t s, size_t t, uint32_t value);
settle_outcome settle_close(settle_register *);
settle_outcome settle_show(settle_register *, size_t s, size_t t, const int32_t *words, size_t count);
settle_outcome settle_enter(settle_register *);
settle_outcome settle_abandon(settle_register *);
settle_outcome settle_ask(settle_register *, size_t s, size_t t);

/* Weighs a showing in the table of a side as it is, and answers its strongest claim. Refused, by count:
 * 1: the number 91, there is no register; 2: the number and the place of the fault; 3: the sitting that finds the
 * fault, 0 or 1, and then the fault's number and place.
 */
settle_outcome settle_weigh(settle_register *, bool lower, size_t s, size_t t, const int32_t *words, size_t count);

#ifdef __cplusplus
}
#endif

#endif
