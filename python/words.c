/* What include/veilbuzz.h has only inline or by name, as functions and constants of the shared library that python/library makes: for callers
 * that cannot read a C header. */
#include "veilbuzz.h"

extern const uint64_t veilbuzz_most_nodes, veilbuzz_most_blocks, veilbuzz_most_ways, veilbuzz_longest_chart, veilbuzz_enough_passes;

const char *veilbuzz_version(void);
const char *veilbuzz_found(uint64_t number);
const char *veilbuzz_mend(uint64_t number);

const uint64_t veilbuzz_most_nodes = VEILBUZZ_MOST_NODES;
const uint64_t veilbuzz_most_blocks = VEILBUZZ_MOST_BLOCKS;
const uint64_t veilbuzz_most_ways = VEILBUZZ_MOST_WAYS;
const uint64_t veilbuzz_longest_chart = VEILBUZZ_LONGEST_CHART;
const uint64_t veilbuzz_enough_passes = VEILBUZZ_ENOUGH_PASSES;

const char *veilbuzz_version(void) {
    return VEILBUZZ_VERSION;
}

const char *veilbuzz_found(uint64_t number) {
    return veilbuzz_refusal_found(number);
}

const char *veilbuzz_mend(uint64_t number) {
    return veilbuzz_refusal_mend(number);
}
