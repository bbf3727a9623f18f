/* Makes the loop of docs/RULES.md from its fields, prints its bytes, and then its report as the program prints it.
 *
 *     cc -Iinclude examples/make.c "$(tests/archive)/libboundary.a" -o make && ./make
 *
 * A step leads to a read that loops on itself and then leads on to a read of the same line; the cache is empty at the start. */
#include <stdio.h>

#include "veilbuzz.h"

enum { NODES = 3 };

/* The nodes, field by field: node 0 stands first in each list. What is not used is 0. */
static const uint64_t kinds[NODES] = {VEILBUZZ_KIND_STEP, VEILBUZZ_KIND_READ, VEILBUZZ_KIND_READ};
static const uint64_t addresses[NODES] = {0, 0x00, 0x00};
static const uint64_t sizes[NODES] = {0, VEILBUZZ_SIZE_ONE, VEILBUZZ_SIZE_ONE};
static const uint64_t outs[NODES] = {1, 2, 0};
static const uint64_t firsts[NODES] = {1, 1, 0};
static const uint64_t seconds[NODES] = {0, 2, 0};

/* Room for any chart, so that nothing is refused for want of it. */
static uint8_t chart[VEILBUZZ_LONGEST_CHART];
static uint32_t blocks[VEILBUZZ_MOST_BLOCKS];
static uint8_t must[VEILBUZZ_MOST_AGES];
static uint8_t may[VEILBUZZ_MOST_AGES];
static uint8_t marks[VEILBUZZ_MOST_NODES];
static uint8_t classes[VEILBUZZ_MOST_CLASSES];
static uint64_t answer[VEILBUZZ_LONGEST_ANSWER];

/* The words in the order of the numbers VEILBUZZ_CLASS_UNREACHED to VEILBUZZ_CLASS_KEPT. */
static const char *const words[] = {"unreached", "hit", "miss", "unsure", "none", "kept"};

static unsigned long long told(int place) {
    return (unsigned long long)answer[place];
}

/* Tells a refusal in words: what was found, and what to do. */
static void tell(FILE *to) {
    const uint64_t refusal = answer[VEILBUZZ_ANSWER_NUMBER], place = answer[VEILBUZZ_ANSWER_PLACE];
    fprintf(to, "refused %llu at %llu\n", (unsigned long long)refusal, (unsigned long long)place);
    fprintf(to, "  %s\n  %s\n", veilbuzz_refusal_found(refusal), veilbuzz_refusal_mend(refusal));
}

static int refused(const char *what) {
    fprintf(stderr, "%s: ", what);
    tell(stderr);
    return 1;
}

int main(void) {
    const uint64_t line_bits = 4, set_bits = 0, ways = 2, entry = 0; /* 16-byte lines, one set of two ways */
    size_t length, place, node;

    if (veilbuzz_write(line_bits, set_bits, ways, VEILBUZZ_START_EMPTY, NODES, entry, kinds, NODES, addresses, NODES, sizes, NODES, outs,
                       NODES, firsts, NODES, seconds, NODES, chart, sizeof chart, answer, VEILBUZZ_LONGEST_ANSWER) != 0)
        return refused("write");
    length = (size_t)answer[VEILBUZZ_WRITE_BYTES];
    for (place = 0; place < length; place++)
        printf("%02X%s", chart[place], place % 8 == 7 ? "\n" : "");

    if (veilbuzz_analyse(chart, length, VEILBUZZ_ENOUGH_PASSES, blocks, VEILBUZZ_MOST_BLOCKS, must, sizeof must, may, sizeof may, marks,
                         sizeof marks, classes, sizeof classes, answer, VEILBUZZ_LONGEST_ANSWER) != 0)
        return refused("analyse");
    printf("nodes %d blocks %llu passes %llu\n", NODES, told(VEILBUZZ_ANALYSE_BLOCKS), told(VEILBUZZ_ANALYSE_PASSES));
    for (node = 0; node < NODES; node++) {
        const uint8_t *const both = classes + VEILBUZZ_MOST_TOUCHES * node;
        printf("%u %s %s\n", (unsigned)node, words[both[0]], words[both[1]]);
    }
    return 0;
}
