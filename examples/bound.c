/* What does a loop of ten turns cost at most, if each turn goes left or right and never both ways?
 *
 *     cc -Iinclude examples/bound.c "$(tests/archive)/libboundary.a" -o bound && ./bound
 *
 * It is the chart of charts/branch.txt. Each of left and right may be come to ten times, and ceilings can say no more than that: so the high
 * total pays both in full. That they are come to ten times together is a fact, and a certificate shows what follows from it. */
#include <stdio.h>

#include "veilbuzz.h"

enum node { HEAD, FORK, LEFT, RIGHT, TAIL, AFTER, NODES };

static const uint8_t chart[] = {
    0x01, 0x40, 0x44, 0x00, 0x00, 0x60, 0x00, 0x00, /* 16-byte lines, one set of four ways, empty; six nodes, the entry is 0 */
    0x40, 0x00, 0x00, 0x00, 0x20, 0x01, 0x00, 0x50, /* head: reads 0x00, on to fork and to after */
    0x00, 0x00, 0x00, 0x00, 0x20, 0x02, 0x00, 0x30, /* fork: a bare step, on to left and to right */
    0x40, 0x00, 0x00, 0x04, 0x10, 0x04, 0x00, 0x00, /* left: reads 0x10, on to tail */
    0x40, 0x00, 0x00, 0x08, 0x10, 0x04, 0x00, 0x00, /* right: reads 0x20, on to tail */
    0x40, 0x00, 0x00, 0x0C, 0x10, 0x00, 0x00, 0x00, /* tail: reads 0x30, and round again to head */
    0x40, 0x00, 0x00, 0x00, 0x00, 0x00, 0x00, 0x00  /* after: reads 0x00, and ends */
};

static const uint16_t hit = 1, miss = 10;
static const uint16_t floors[NODES] = {11, 10, 0, 0, 10, 1};
static const uint16_t ceilings[NODES] = {11, 10, 10, 10, 10, 1};

/* One fact: left + right <= 10. */
static const int64_t coefficients[NODES] = {0, 0, 1, 1, 0, 0};
static const int64_t limits[] = {10};

/* The certificate, worked out by hand, in whole numbers, so that the denominator is 1.
 *
 * All blocks stay once they are loaded: each visit of head, left, right, tail and after counts 1, a hit, and fork nothing. A turn makes three
 * touches, and the fact counts one for each turn; so its multiplier is 3, which is taken from a visit of left or right:
 *
 *                              head  fork  left  right  tail  after
 *     one visit counts            1     0     1      1     1      1
 *     it is left with             1     0    -2     -2     1      1
 *
 * A turn is now left with 1 + 0 - 2 + 1, which is nothing. So what a walk is left with, from head on, depends on where it has come to and not
 * on how many turns it has made. That is the potential of each node; none could be smaller. */
static const int64_t multipliers[] = {3};
static int64_t potentials[NODES] = {1, 1, -1, -1, 0, 2};
static const uint64_t denominator = 1;

/* The largest potential is 2, that of after; with the multiplier times the limit, 3 * 10, it makes 32, as many touches as ten turns and the way
 * out have. Four blocks have to be loaded once, for 9 each: 68. */

/* Room for any chart, so that nothing is refused for want of it. */
static uint32_t blocks[VEILBUZZ_MOST_BLOCKS];
static uint8_t must[VEILBUZZ_MOST_AGES];
static uint8_t may[VEILBUZZ_MOST_AGES];
static uint8_t marks[VEILBUZZ_MOST_NODES];
static uint8_t classes[VEILBUZZ_MOST_CLASSES];

static uint64_t answer[VEILBUZZ_LONGEST_ANSWER];

static unsigned long long told(int place) {
    return (unsigned long long)answer[place];
}

/* Tells a refusal in words: what was found, and what to do. */
static void tell(FILE *to) {
    const uint64_t refusal = answer[VEILBUZZ_ANSWER_NUMBER], place = answer[VEILBUZZ_ANSWER_PLACE];
    fprintf(to, "refused %llu at %llu\n", (unsigned long long)refusal, (unsigned long long)place);
    fprintf(to, "  %s\n  %s\n", veilbuzz_refusal_found(refusal), veilbuzz_refusal_mend(refusal));
}

static int refused(const char *what) {
    fprintf(stderr, "%s: ", what);
    tell(stderr);
    return 1;
}

static uint64_t bound(void) {
    return veilbuzz_bound(chart, sizeof chart, must, sizeof must, may, sizeof may, marks, sizeof marks, hit, miss, VEILBUZZ_SIDE_HIGH,
                          coefficients, NODES, limits, 1, multipliers, 1, potentials, NODES, denominator, answer, VEILBUZZ_LONGEST_ANSWER);
}

int main(void) {
    if (veilbuzz_analyse(chart, sizeof chart, VEILBUZZ_ENOUGH_PASSES, blocks, VEILBUZZ_MOST_BLOCKS, must, sizeof must, may, sizeof may,
                         marks, sizeof marks, classes, sizeof classes, answer, VEILBUZZ_LONGEST_ANSWER) != 0)
        return refused("analyse");

    if (veilbuzz_total(chart, sizeof chart, must, sizeof must, may, sizeof may, marks, sizeof marks, hit, miss, floors, NODES, ceilings,
                       NODES, answer, VEILBUZZ_LONGEST_ANSWER) != 0)
        return refused("total");
    printf("by the ceiling of each node: a walk costs no more than %llu\n", told(VEILBUZZ_TOTAL_HIGH));

    if (bound() != 0)
        return refused("bound");
    printf("left and right no more than 10 times together: no more than %llu\n", told(VEILBUZZ_BOUND_BOUND));

    /* Left and tail together are left with more than that, which is refusal 25 at left, where the arrow begins. */
    potentials[TAIL] -= 1;
    if (bound() == 25) {
        printf("the potential of tail one too small: ");
        tell(stdout);
    }
    return 0;
}
