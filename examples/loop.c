/* The loop of docs/RULES.md, from its bytes on: the chart is read and analysed, the table is checked, and a walk's cost is bounded.
 *
 *     cc -Iinclude examples/loop.c "$(tests/archive)/libboundary.a" -o loop && ./loop
 *
 * A step leads to a read that loops on itself and then leads on to a read of the same line; the cache is empty at the start. */
#include <stdio.h>

#include "veilbuzz.h"

static const uint8_t chart[] = {
    0x01, 0x40, 0x24, 0x00, 0x00, 0x30, 0x00, 0x00, /* 16-byte lines, one set of two ways, empty; three nodes, the entry is 0 */
    0x00, 0x00, 0x00, 0x00, 0x10, 0x01, 0x00, 0x00, /* node 0: a bare step, on to 1 */
    0x40, 0x00, 0x00, 0x00, 0x20, 0x01, 0x00, 0x20, /* node 1: reads 0, on to 1 and to 2 */
    0x40, 0x00, 0x00, 0x00, 0x00, 0x00, 0x00, 0x00  /* node 2: reads 0, and ends */
};

/* Room for any chart, so that nothing is refused for want of it. */
static uint32_t blocks[VEILBUZZ_MOST_BLOCKS];
static uint8_t must[VEILBUZZ_MOST_AGES];
static uint8_t may[VEILBUZZ_MOST_AGES];
static uint8_t marks[VEILBUZZ_MOST_NODES];
static uint8_t classes[VEILBUZZ_MOST_CLASSES];

static uint64_t header[VEILBUZZ_HEADER_LENGTH];
static uint64_t answer[VEILBUZZ_LONGEST_ANSWER];

/* The words in the order of the numbers VEILBUZZ_CLASS_UNREACHED to VEILBUZZ_CLASS_KEPT. */
static const char *const words[] = {"unreached", "always hits", "always misses", "cannot be told", "none", "stays once loaded"};

static unsigned long long number(const uint64_t *list, int place) {
    return (unsigned long long)list[place];
}

/* Tells a refusal in words: what was found, and what to do. */
static void tell(FILE *to) {
    const uint64_t refusal = answer[VEILBUZZ_ANSWER_NUMBER], place = answer[VEILBUZZ_ANSWER_PLACE];
    fprintf(to, "refused %llu at %llu\n", (unsigned long long)refusal, (unsigned long long)place);
    fprintf(to, "  %s\n  %s\n", veilbuzz_refusal_found(refusal), veilbuzz_refusal_mend(refusal));
}

static int refused(const char *what) {
    fprintf(stderr, "%s: ", what);
    tell(stderr);
    return 1;
}

int main(void) {
    /* How often a walk comes to each node, at least and at most: once, one to ten times, once. */
    static const uint16_t floors[] = {1, 1, 1};
    static const uint16_t ceilings[] = {1, 10, 1};
    const uint16_t hit = 1, miss = 10;
    size_t node, nodes;

    if (veilbuzz_read(chart, sizeof chart, header, VEILBUZZ_HEADER_LENGTH, answer, VEILBUZZ_LONGEST_ANSWER) != 0)
        return refused("read");
    nodes = (size_t)header[VEILBUZZ_HEADER_NODES];
    printf("%llu nodes, %llu blocks, ", number(header, VEILBUZZ_HEADER_NODES), number(answer, VEILBUZZ_READ_BLOCKS));
    printf("%u sets of %llu ways\n", 1u << header[VEILBUZZ_HEADER_SET_BITS], number(header, VEILBUZZ_HEADER_WAYS));

    if (veilbuzz_analyse(chart, sizeof chart, VEILBUZZ_ENOUGH_PASSES, blocks, VEILBUZZ_MOST_BLOCKS, must, sizeof must, may, sizeof may,
                         marks, sizeof marks, classes, sizeof classes, answer, VEILBUZZ_LONGEST_ANSWER) != 0)
        return refused("analyse");
    printf("settled in %llu passes\n", number(answer, VEILBUZZ_ANALYSE_PASSES));
    for (node = 0; node < nodes; node++) {
        const uint8_t *const both = classes + VEILBUZZ_MOST_TOUCHES * node;
        printf("node %u: %s, %s\n", (unsigned)node, words[both[0]], words[both[1]]);
    }

    if (veilbuzz_check(chart, sizeof chart, must, sizeof must, may, sizeof may, marks, sizeof marks, answer, VEILBUZZ_LONGEST_ANSWER) != 0)
        return refused("check");
    printf("the table %s\n", answer[VEILBUZZ_CHECK_YES] == 1 ? "passes" : "does not pass");

    if (veilbuzz_total(chart, sizeof chart, must, sizeof must, may, sizeof may, marks, sizeof marks, hit, miss, floors, nodes, ceilings,
                       nodes, answer, VEILBUZZ_LONGEST_ANSWER) != 0)
        return refused("total");
    printf("a walk costs %llu to %llu\n", number(answer, VEILBUZZ_TOTAL_LOW), number(answer, VEILBUZZ_TOTAL_HIGH));

    /* The first byte alone is no chart: it has fewer than 8 bytes, which is refusal 1. */
    if (veilbuzz_read(chart, 1, header, VEILBUZZ_HEADER_LENGTH, answer, VEILBUZZ_LONGEST_ANSWER) == 1) {
        printf("its first byte: ");
        tell(stdout);
    }
    return 0;
}
