/* Are power on and ten hauls of the winch of charts/winch-as-built.txt done within 120 microseconds, at 8 MHz?
 *
 *     cc -Iinclude examples/deadline.c "$(tests/archive)/libboundary.a" -o deadline && ./deadline
 *
 * A hit takes one cycle and a miss 20, and power on takes 2 microseconds before the first of them; the wait for the tick is not counted.
 * 8 MHz is a period of 0.125 microseconds, a power of two: no product is rounded, and here no sum is either, so each figure is exact. In the
 * cache as it is built the answer is no. With sets and ways swapped it looks like yes: so a net was lost. */
#include <stdio.h>

#include "veilbuzz.h"

enum { NODES = 20 };

/* The two caches differ in the second and the third byte alone. The loop is nodes 8 to 18. */
static uint8_t chart[8 + 8 * NODES] = {
    0x01, 0x43, 0x20, 0x00, 0x01, 0x40, 0x00, 0x00, /* 16-byte lines, 8 sets of 2 ways, unknown; 20 nodes, the entry is 0 */
    0x00, 0x00, 0x00, 0x00, 0x10, 0x01, 0x00, 0x00, /* power on */
    0x88, 0x00, 0x00, 0x00, 0x10, 0x02, 0x00, 0x00, /* writes sounder: no echo yet */
    0x48, 0x00, 0x00, 0x20, 0x10, 0x03, 0x00, 0x00, /* reads shallowest depth */
    0x48, 0x00, 0x00, 0x40, 0x10, 0x04, 0x00, 0x00, /* reads tension */
    0x48, 0x00, 0x00, 0x60, 0x10, 0x05, 0x00, 0x00, /* reads brake table, to hold */
    0x48, 0x00, 0x00, 0x64, 0x10, 0x06, 0x00, 0x00, /* reads brake table, to haul */
    0x88, 0x00, 0x00, 0x80, 0x10, 0x07, 0x00, 0x00, /* writes motor: stop */
    0x88, 0x00, 0x00, 0xA0, 0x10, 0x08, 0x00, 0x00, /* writes log: started */
    0x48, 0x00, 0x00, 0x00, 0x10, 0x09, 0x00, 0x00, /* the loop begins: reads sounder */
    0x48, 0x00, 0x00, 0x20, 0x10, 0x0A, 0x00, 0x00, /* reads shallowest depth */
    0x00, 0x00, 0x00, 0x00, 0x20, 0x0B, 0x00, 0xE0, /* clear ground, or rock? */
    0x48, 0x00, 0x00, 0x40, 0x10, 0x0C, 0x00, 0x00, /* clear: reads tension */
    0x48, 0x00, 0x00, 0x60, 0x10, 0x0D, 0x00, 0x00, /* clear: reads brake table */
    0x88, 0x00, 0x00, 0x80, 0x10, 0x11, 0x00, 0x00, /* clear: writes motor: hold */
    0x48, 0x00, 0x00, 0x40, 0x10, 0x0F, 0x00, 0x00, /* rock: reads tension */
    0x48, 0x00, 0x00, 0x64, 0x10, 0x10, 0x00, 0x00, /* rock: reads brake table */
    0x88, 0x00, 0x00, 0x81, 0x10, 0x11, 0x00, 0x00, /* rock: writes motor: haul */
    0x88, 0x00, 0x00, 0xA2, 0x10, 0x12, 0x00, 0x00, /* writes log */
    0x00, 0x00, 0x00, 0x00, 0x10, 0x08, 0x00, 0x00, /* waits for the tick, and round again */
    0x48, 0x00, 0x00, 0xC0, 0x10, 0x00, 0x00, 0x00  /* an old self-test that nothing calls */
};

/* How often a walk comes to each node, which is known here: so these are floors and ceilings. Each turn of the loop sees rock. */
static const uint16_t visits[NODES] = {1, 1, 1, 1, 1, 1, 1, 1, 10, 10, 10, 0, 0, 0, 10, 10, 10, 10, 10, 0};
static const uint16_t hit = 1, miss = 20;                       /* cycles */
static const double period = 0.125, overhead = 2, latest = 120; /* microseconds */

/* Room for any chart, so that nothing is refused for want of it. */
static uint32_t blocks[VEILBUZZ_MOST_BLOCKS];
static uint8_t must[VEILBUZZ_MOST_AGES];
static uint8_t may[VEILBUZZ_MOST_AGES];
static uint8_t marks[VEILBUZZ_MOST_NODES];
static uint8_t classes[VEILBUZZ_MOST_CLASSES];

static double figures[VEILBUZZ_FIGURES_LENGTH];
static uint64_t answer[VEILBUZZ_LONGEST_ANSWER];

/* Tells a refusal in words: what was found, and what to do. */
static void tell(FILE *to) {
    const uint64_t refusal = answer[VEILBUZZ_ANSWER_NUMBER], place = answer[VEILBUZZ_ANSWER_PLACE];
    fprintf(to, "refused %llu at %llu\n", (unsigned long long)refusal, (unsigned long long)place);
    fprintf(to, "  %s\n  %s\n", veilbuzz_refusal_found(refusal), veilbuzz_refusal_mend(refusal));
}

static int refused(const char *what) {
    fprintf(stderr, "%s: ", what);
    tell(stderr);
    return 1;
}

static uint64_t judge(uint64_t kind, double from, double to) {
    return veilbuzz_deadline(chart, sizeof chart, must, sizeof must, may, sizeof may, marks, sizeof marks, hit, miss, visits, NODES, visits,
                             NODES, period, overhead, kind, from, to, figures, VEILBUZZ_FIGURES_LENGTH, answer, VEILBUZZ_LONGEST_ANSWER);
}

/* Prints how long the walk takes in a cache of this shape, and whether that is soon enough. */
static int print(const char *name, uint8_t set_bits, uint8_t ways) {
    chart[1] = (uint8_t)(chart[1] >> 4 << 4 | set_bits);
    chart[2] = (uint8_t)(ways << 4);
    if (veilbuzz_analyse(chart, sizeof chart, VEILBUZZ_ENOUGH_PASSES, blocks, VEILBUZZ_MOST_BLOCKS, must, sizeof must, may, sizeof may,
                         marks, sizeof marks, classes, sizeof classes, answer, VEILBUZZ_LONGEST_ANSWER) != 0)
        return refused("analyse");
    if (judge(VEILBUZZ_DEADLINE_LATEST, 0, latest) != 0)
        return refused("deadline");
    printf("%s, %u sets of %u ways: ", name, 1u << set_bits, (unsigned)ways);
    printf("%.3f to %.3f us, ", figures[VEILBUZZ_FIGURES_LOW], figures[VEILBUZZ_FIGURES_HIGH]);
    printf("%.0f us %s\n", latest, answer[VEILBUZZ_DEADLINE_MET] == 1 ? "is met" : "is not met");
    return 0;
}

int main(void) {
    if (print("as built", 3, 2) != 0 || print("swapped", 1, 8) != 0)
        return 1;

    /* No time is 120 at the least and 0 at the most, which is refusal 18. */
    if (judge(VEILBUZZ_DEADLINE_WINDOW, latest, 0) == 18) {
        printf("from %.0f to 0 us: ", latest);
        tell(stdout);
    }
    return 0;
}
