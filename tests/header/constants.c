/* Each constant of include/veilbuzz.h names what its name says. Nothing else uses all of them, and nothing checks them against the proved
 * source; so here every number that is told differs from its neighbours. */
#include <stdio.h>
#include <stdlib.h>
#include <string.h>

#include "veilbuzz.h"

static uint8_t chart[VEILBUZZ_LONGEST_CHART + 8];
static uint32_t blocks[VEILBUZZ_MOST_BLOCKS];
static uint8_t must[VEILBUZZ_MOST_AGES], may[VEILBUZZ_MOST_AGES];
static uint8_t marks[VEILBUZZ_MOST_NODES], classes[VEILBUZZ_MOST_CLASSES];
static uint64_t header[VEILBUZZ_HEADER_LENGTH], fields[VEILBUZZ_FIELDS_LENGTH], answer[VEILBUZZ_LONGEST_ANSWER];
static double figures[VEILBUZZ_FIGURES_LENGTH];
static uint64_t lists[VEILBUZZ_FIELDS_LENGTH][VEILBUZZ_MOST_NODES]; /* of each field, as veilbuzz_write takes them */
static uint8_t written[VEILBUZZ_LONGEST_CHART];
static struct {
    uint64_t side;
    int64_t coefficients[2 * 7], limits[2], multipliers[2], potentials[7];
    uint64_t denominator;
} given; /* as veilbuzz_bound takes it, of the seven nodes below */
static int wrong;

static void is(const char *what, uint64_t told, uint64_t expected) {
    if (told != expected) {
        printf("%s is %llu and not %llu\n", what, (unsigned long long)told, (unsigned long long)expected);
        wrong++;
    }
}
#define IS(what, expected) is(#what, (what), (expected))

static uint64_t bits(double number) {
    uint64_t bits;
    memcpy(&bits, &number, sizeof bits);
    return bits;
}
#define IS_JUST(what, expected) is("of " #what " what stands in its 64 bits", bits(what), bits(expected))

/* Eight bytes, the most significant first. */
static void word(size_t place, uint64_t value) {
    int byte;
    for (byte = 0; byte < 8; byte++)
        chart[8 * place + byte] = (uint8_t)(value >> (56 - 8 * byte));
}

/* Lines of 32 bytes, eight sets of two ways; `entry` is below 4096. */
static void head(uint64_t start, uint64_t nodes, uint64_t entry) {
    memset(chart, 0, sizeof chart);
    word(0, (uint64_t)1 << 56 | (uint64_t)5 << 52 | (uint64_t)3 << 48 | (uint64_t)2 << 44 | start << 42 | nodes << 20 | entry << 8);
}

static void node(size_t n, uint64_t kind, uint64_t address, uint64_t arrows, uint64_t first) {
    word(n + 1, kind << 62 | address << 30 | arrows << 28 | first << 16);
}

static uint64_t read_chart(size_t nodes) {
    return veilbuzz_read(chart, 8 + 8 * nodes, header, VEILBUZZ_HEADER_LENGTH, answer, VEILBUZZ_LONGEST_ANSWER);
}

static uint64_t read_node(size_t nodes, size_t n) {
    return veilbuzz_node(chart, 8 + 8 * nodes, n, fields, VEILBUZZ_FIELDS_LENGTH, answer, VEILBUZZ_LONGEST_ANSWER);
}

static uint64_t list_blocks(size_t nodes, size_t length) {
    return veilbuzz_blocks(chart, 8 + 8 * nodes, blocks, length, answer, VEILBUZZ_LONGEST_ANSWER);
}

/* Writes what `header` and `lists` have. */
static uint64_t write_chart(size_t nodes, size_t length, size_t room) {
    return veilbuzz_write(header[VEILBUZZ_HEADER_LINE_BITS], header[VEILBUZZ_HEADER_SET_BITS], header[VEILBUZZ_HEADER_WAYS],
                          header[VEILBUZZ_HEADER_START], header[VEILBUZZ_HEADER_NODES], header[VEILBUZZ_HEADER_ENTRY],
                          lists[VEILBUZZ_FIELDS_KIND], nodes, lists[VEILBUZZ_FIELDS_ADDRESS], nodes, lists[VEILBUZZ_FIELDS_SIZE], nodes,
                          lists[VEILBUZZ_FIELDS_OUTS], nodes, lists[VEILBUZZ_FIELDS_FIRST], nodes, lists[VEILBUZZ_FIELDS_SECOND], nodes,
                          written, length, answer, room);
}

static uint64_t analyse(size_t nodes, size_t allowance) {
    return veilbuzz_analyse(chart, 8 + 8 * nodes, allowance, blocks, VEILBUZZ_MOST_BLOCKS, must, sizeof must, may, sizeof may, marks,
                            sizeof marks, classes, sizeof classes, answer, VEILBUZZ_LONGEST_ANSWER);
}

/* The verdict on the seven nodes below, a hit for 1 and a miss for 10, by a sheet of which neither number is taken for the other. */
static uint64_t judge(const uint16_t *floors, const uint16_t *ceilings, uint64_t kind, double earliest, double latest) {
    IS(veilbuzz_deadline(chart, 64, must, 14, may, 14, marks, 7, 1, 10, floors, 7, ceilings, 7, 0.5, 3, kind, earliest, latest, figures,
                         VEILBUZZ_FIGURES_LENGTH, answer, VEILBUZZ_LONGEST_ANSWER), 0);
    return answer[VEILBUZZ_DEADLINE_MET];
}

/* The bound on the seven nodes below that `given` shows, a hit for 1 and a miss for 10. */
static uint64_t bound(size_t room) {
    return veilbuzz_bound(chart, 64, must, 14, may, 14, marks, 7, 1, 10, given.side, given.coefficients, 14, given.limits, 2,
                          given.multipliers, 2, given.potentials, 7, given.denominator, answer, room);
}

/* Two facts: of node 0, and of no node at all. A walk is left with 10 at node 4, with 1 more at node 5, and then with nothing more. */
static void at_most(int64_t visits, int64_t denominator) {
    static const int64_t potentials[] = {11, 0, 0, 0, 10, 11, 11};
    size_t n;
    memset(&given, 0, sizeof given);
    given.side = VEILBUZZ_SIDE_HIGH;
    given.coefficients[0] = 1;
    given.limits[0] = visits;
    given.multipliers[0] = denominator;
    for (n = 0; n < 7; n++)
        given.potentials[n] = potentials[n] * denominator;
    given.denominator = (uint64_t)denominator;
}

/* The same of no fewer visits, where all that is counted is below 0. */
static void at_least(int64_t visits) {
    size_t n;
    at_most(-visits, 1);
    given.side = VEILBUZZ_SIDE_LOW;
    given.coefficients[0] = -1;
    for (n = 0; n < 7; n++)
        given.potentials[n] = -given.potentials[n];
}

/* The class of a node's first touch, 0, or second, 1. */
static uint8_t class_of(size_t n, size_t touch) {
    return classes[VEILBUZZ_MOST_TOUCHES * n + touch];
}

/* Seven nodes: 4 misses, 5 hits, 6 has no reference, 0 loops on itself and is kept, and no walk comes to 1, 2 and 3. */
static void seven(uint64_t start) {
    head(start, 7, 4);
    node(4, 1, 0x00, 1, 5);
    node(5, 1, 0x00, 1, 6);
    node(6, 0, 0x00, 1, 0);
    node(0, 1, 0x20, 1, 0);
}

static void answers(void) {
    static const uint16_t floors[] = {1, 0, 0, 0, 1, 1, 1}, ceilings[] = {9, 0, 0, 0, 1, 1, 1};
    seven(VEILBUZZ_START_EMPTY);
    IS(analyse(7, VEILBUZZ_ENOUGH_PASSES), 0);
    IS(answer[VEILBUZZ_ANALYSE_PASSES], 3);
    IS(answer[VEILBUZZ_ANALYSE_BLOCKS], 2);
    IS(class_of(0, 0), VEILBUZZ_CLASS_KEPT);
    IS(class_of(1, 0), VEILBUZZ_CLASS_UNREACHED);
    IS(class_of(1, 1), VEILBUZZ_CLASS_UNREACHED);
    IS(class_of(4, 0), VEILBUZZ_CLASS_MISS);
    IS(class_of(4, 1), VEILBUZZ_CLASS_NONE);
    IS(class_of(5, 0), VEILBUZZ_CLASS_HIT);
    IS(class_of(6, 0), VEILBUZZ_CLASS_NONE);
    IS(class_of(6, 1), VEILBUZZ_CLASS_NONE);
    IS(veilbuzz_check(chart, 64, must, 14, may, 14, marks, 7, answer, VEILBUZZ_LONGEST_ANSWER), 0);
    IS(answer[VEILBUZZ_CHECK_YES], 1);
    IS(veilbuzz_total(chart, 64, must, 14, may, 14, marks, 7, 1, 10, floors, 7, ceilings, 7, answer, VEILBUZZ_LONGEST_ANSWER), 0);
    IS(answer[VEILBUZZ_TOTAL_LOW], 12);
    IS(answer[VEILBUZZ_TOTAL_HIGH], 29);
    IS(judge(floors, ceilings, VEILBUZZ_DEADLINE_NONE, -1, -1), 1); /* what is refused where it is looked at */
    IS_JUST(figures[VEILBUZZ_FIGURES_LOW], 12 * 0.5 + 3);
    IS_JUST(figures[VEILBUZZ_FIGURES_HIGH], 29 * 0.5 + 3);
    IS(judge(floors, ceilings, VEILBUZZ_DEADLINE_LATEST, -1, 17.5), 1);
    IS(judge(floors, ceilings, VEILBUZZ_DEADLINE_LATEST, -1, 17.25), 0);
    IS(judge(floors, ceilings, VEILBUZZ_DEADLINE_WINDOW, 9, 17.5), 1);
    IS(judge(floors, ceilings, VEILBUZZ_DEADLINE_WINDOW, 9.25, 17.5), 0);
    IS(judge(floors, ceilings, VEILBUZZ_DEADLINE_WINDOW, 9, 17.25), 0);
    IS(veilbuzz_deadline(chart, 64, must, 14, may, 14, marks, 7, 1, 10, floors, 7, ceilings, 7, 0.5, 3, VEILBUZZ_DEADLINE_WINDOW, 17.5, 9,
                         figures, VEILBUZZ_FIGURES_LENGTH, answer, VEILBUZZ_LONGEST_ANSWER), 18);
    IS(answer[VEILBUZZ_ANSWER_NUMBER], 18);
    IS(answer[VEILBUZZ_ANSWER_PLACE], 0);
    IS(answer[VEILBUZZ_DEADLINE_MET], 0);
    IS_JUST(figures[VEILBUZZ_FIGURES_LOW], 0.0);
    IS_JUST(figures[VEILBUZZ_FIGURES_HIGH], 0.0);
    at_most(9, 1);
    IS(bound(VEILBUZZ_LONGEST_ANSWER), 0);
    IS(answer[VEILBUZZ_BOUND_BOUND], 29);
    given.potentials[6] = 10;
    IS(bound(VEILBUZZ_LONGEST_ANSWER), 25);
    IS(answer[VEILBUZZ_ANSWER_NUMBER], 25);
    IS(answer[VEILBUZZ_ANSWER_PLACE], 5);
    IS(answer[VEILBUZZ_BOUND_BOUND], 0);
    at_least(3);
    IS(bound(VEILBUZZ_LONGEST_ANSWER), 0);
    IS(answer[VEILBUZZ_BOUND_BOUND], 13); /* of a walk that may end anywhere: 10 at node 4, and 3 */
    chart[8 * (3 + 1) + 7] = 1; /* a size at node 3, a bare step */
    IS(read_chart(7), 9);
    IS(answer[VEILBUZZ_ANSWER_NUMBER], 9);
    IS(answer[VEILBUZZ_ANSWER_PLACE], 3);
}

static void headers(void) {
    seven(VEILBUZZ_START_EMPTY);
    IS(read_chart(7), 0);
    IS(header[VEILBUZZ_HEADER_LINE_BITS], 5);
    IS(header[VEILBUZZ_HEADER_SET_BITS], 3);
    IS(header[VEILBUZZ_HEADER_WAYS], 2);
    IS(header[VEILBUZZ_HEADER_START], VEILBUZZ_START_EMPTY);
    IS(header[VEILBUZZ_HEADER_NODES], 7);
    IS(header[VEILBUZZ_HEADER_ENTRY], 4);
    IS(analyse(7, VEILBUZZ_ENOUGH_PASSES), 0);
    IS(class_of(4, 0), VEILBUZZ_CLASS_MISS); /* from an empty cache */
    seven(VEILBUZZ_START_UNKNOWN);
    IS(read_chart(7), 0);
    IS(header[VEILBUZZ_HEADER_START], VEILBUZZ_START_UNKNOWN);
    IS(analyse(7, VEILBUZZ_ENOUGH_PASSES), 0);
    IS(class_of(4, 0), VEILBUZZ_CLASS_KEPT); /* from one that may have the block */
}

/* Three blocks of one set, which has two ways: by node 3 the first of them is still there, by nodes 1 and 2 it is pushed out. */
static void unsure(void) {
    static const uint16_t floors[] = {0, 0, 0, 0}, ceilings[] = {5, 0, 0, 0};
    head(VEILBUZZ_START_EMPTY, 4, 0);
    node(0, 1, 0x000, 2, 1);
    chart[8 * (0 + 1) + 7] = 3 << 4; /* the second arrow leads to 3 */
    node(1, 1, 0x100, 1, 2);
    node(2, 1, 0x200, 1, 0);
    node(3, 0, 0x000, 1, 0);
    IS(analyse(4, VEILBUZZ_ENOUGH_PASSES), 0);
    IS(class_of(0, 0), VEILBUZZ_CLASS_UNSURE);
    IS(veilbuzz_total(chart, 40, must, 12, may, 12, marks, 4, 1, 10, floors, 4, ceilings, 4, answer, VEILBUZZ_LONGEST_ANSWER), 0);
    IS(answer[VEILBUZZ_TOTAL_HIGH], 50);
}

/* A node with six different fields, a write, a bare step, and one that there is not. */
static void nodes(void) {
    head(VEILBUZZ_START_EMPTY, 7, 4);
    node(2, 1, 0x40, 2, 5);
    chart[8 * (2 + 1) + 7] = 3 << 4; /* the second arrow leads to 3 */
    IS(read_node(7, 2), 0);
    IS(answer[VEILBUZZ_NODE_THERE], 1);
    IS(fields[VEILBUZZ_FIELDS_KIND], VEILBUZZ_KIND_READ);
    IS(fields[VEILBUZZ_FIELDS_ADDRESS], 0x40);
    IS(fields[VEILBUZZ_FIELDS_SIZE], VEILBUZZ_SIZE_ONE);
    IS(fields[VEILBUZZ_FIELDS_OUTS], 2);
    IS(fields[VEILBUZZ_FIELDS_FIRST], 5);
    IS(fields[VEILBUZZ_FIELDS_SECOND], 3);
    node(6, 2, 0x40, 0, 0);
    IS(read_node(7, 6), 0);
    IS(fields[VEILBUZZ_FIELDS_KIND], VEILBUZZ_KIND_WRITE);
    IS(read_node(7, 5), 0);
    IS(answer[VEILBUZZ_NODE_THERE], 1);
    IS(fields[VEILBUZZ_FIELDS_KIND], VEILBUZZ_KIND_STEP);
    IS(read_node(7, 7), 0);
    IS(answer[VEILBUZZ_NODE_THERE], 0);
}

/* How many blocks a reference of such a size touches. */
static uint64_t touched(uint64_t address, uint8_t size) {
    head(VEILBUZZ_START_EMPTY, 1, 0);
    node(0, 1, address, 0, 0);
    chart[8 * (0 + 1) + 7] = size;
    IS(list_blocks(1, VEILBUZZ_MOST_BLOCKS), 0);
    return answer[VEILBUZZ_BLOCKS_COUNT];
}

/* The last byte of a line is its byte 0x1F. */
static void sizes(void) {
    IS(touched(0x1F, VEILBUZZ_SIZE_ONE), 1);
    IS(touched(0x1F, VEILBUZZ_SIZE_TWO), 2);
    IS(touched(0x1E, VEILBUZZ_SIZE_TWO), 1);
    IS(touched(0x1D, VEILBUZZ_SIZE_FOUR), 2);
    IS(touched(0x1C, VEILBUZZ_SIZE_FOUR), 1);
}

/* Reads the seven nodes to `header` and `lists`. */
static void take_apart(void) {
    size_t n, k;
    read_chart(7);
    for (n = 0; n < 7; n++) {
        read_node(7, n);
        for (k = 0; k < VEILBUZZ_FIELDS_LENGTH; k++)
            lists[k][n] = fields[k];
    }
}

/* What is taken apart is written again as it was, and the numbers that veilbuzz_write begins with are those of `header`, in its order. */
static void there_and_back(void) {
    seven(VEILBUZZ_START_EMPTY);
    node(3, 2, 0x7E, 2, 6);
    chart[8 * (3 + 1) + 7] = 5 << 4 | VEILBUZZ_SIZE_TWO;
    take_apart();
    IS(write_chart(7, VEILBUZZ_LONGEST_CHART, VEILBUZZ_LONGEST_ANSWER), 0);
    IS(answer[VEILBUZZ_WRITE_BYTES], 64);
    IS(memcmp(written, chart, 64) == 0, 1);
    lists[VEILBUZZ_FIELDS_ADDRESS][4] = (uint64_t)1 << 32;
    IS(write_chart(7, VEILBUZZ_LONGEST_CHART, VEILBUZZ_LONGEST_ANSWER), 9);
    IS(answer[VEILBUZZ_ANSWER_PLACE], 4);
    IS(answer[VEILBUZZ_WRITE_BYTES], 0);
}

/* Four bytes over the end of a line, and once more: both touches miss, and then both hit. */
static void touches(void) {
    static const uint16_t once[] = {1, 1};
    head(VEILBUZZ_START_EMPTY, 2, 0);
    node(0, 1, 0x1E, 1, 1);
    node(1, 1, 0x1E, 0, 0);
    chart[8 * (0 + 1) + 7] |= 2;
    chart[8 * (1 + 1) + 7] |= 2;
    IS(analyse(2, VEILBUZZ_ENOUGH_PASSES), 0);
    IS(answer[VEILBUZZ_ANALYSE_BLOCKS], VEILBUZZ_MOST_TOUCHES);
    IS(class_of(0, 0), VEILBUZZ_CLASS_MISS);
    IS(class_of(0, 1), VEILBUZZ_CLASS_MISS);
    IS(class_of(1, 0), VEILBUZZ_CLASS_HIT);
    IS(class_of(1, 1), VEILBUZZ_CLASS_HIT);
    IS(veilbuzz_total(chart, 24, must, 4, may, 4, marks, 2, 1, 10, once, 2, once, 2, answer, VEILBUZZ_LONGEST_ANSWER), 0);
    IS(answer[VEILBUZZ_TOTAL_HIGH], 22);
}

/* With one place fewer than its length 11 is returned, and no list has changed; with just so many a list has the number that is told last. */
static void lengths(void) {
    static const uint16_t times[] = {1, 0, 0, 0, 1, 1, 1};
    static const uint64_t each[] = {VEILBUZZ_READ_LENGTH,  VEILBUZZ_NODE_LENGTH,     VEILBUZZ_BLOCKS_LENGTH,
                                    VEILBUZZ_WRITE_LENGTH, VEILBUZZ_ANALYSE_LENGTH,  VEILBUZZ_CHECK_LENGTH,
                                    VEILBUZZ_TOTAL_LENGTH, VEILBUZZ_DEADLINE_LENGTH, VEILBUZZ_BOUND_LENGTH};
    uint64_t longest = 0;
    size_t less, fewer, k;
    seven(VEILBUZZ_START_EMPTY);
    analyse(7, VEILBUZZ_ENOUGH_PASSES);
    take_apart();
    for (less = 2; less-- > 0;) {
        const uint64_t number = less ? 11 : 0;
        for (fewer = 2; fewer-- > 0;) {
            const int short_of = less || fewer;
            memset(header, 0xFF, sizeof header);
            memset(answer, 0xFF, sizeof answer);
            IS(veilbuzz_read(chart, 64, header, VEILBUZZ_HEADER_LENGTH - less, answer, VEILBUZZ_READ_LENGTH - fewer), short_of ? 11 : 0);
            IS(header[0], short_of ? UINT64_MAX : 5);
            IS(header[VEILBUZZ_HEADER_LENGTH - 1], short_of ? UINT64_MAX : 4);
            IS(answer[0], short_of ? UINT64_MAX : 0);
            IS(answer[VEILBUZZ_READ_LENGTH - 1], short_of ? UINT64_MAX : 2);
            memset(fields, 0xFF, sizeof fields);
            memset(answer, 0xFF, sizeof answer);
            IS(veilbuzz_node(chart, 64, 4, fields, VEILBUZZ_FIELDS_LENGTH - less, answer, VEILBUZZ_NODE_LENGTH - fewer),
               short_of ? 11 : 0);
            IS(fields[0], short_of ? UINT64_MAX : VEILBUZZ_KIND_READ);
            IS(fields[VEILBUZZ_FIELDS_LENGTH - 1], short_of ? UINT64_MAX : 0);
            IS(answer[0], short_of ? UINT64_MAX : 0);
            IS(answer[VEILBUZZ_NODE_LENGTH - 1], short_of ? UINT64_MAX : 1);
            memset(figures, 0xFF, sizeof figures);
            memset(answer, 0xFF, sizeof answer);
            IS(veilbuzz_deadline(chart, 64, must, 14, may, 14, marks, 7, 1, 10, times, 7, times, 7, 0.5, 3, VEILBUZZ_DEADLINE_NONE, 0, 0,
                                 figures, VEILBUZZ_FIGURES_LENGTH - less, answer, VEILBUZZ_DEADLINE_LENGTH - fewer), short_of ? 11 : 0);
            IS(bits(figures[0]), short_of ? UINT64_MAX : bits(9));
            IS(bits(figures[VEILBUZZ_FIGURES_LENGTH - 1]), short_of ? UINT64_MAX : bits(13.5));
            IS(answer[0], short_of ? UINT64_MAX : 0);
            IS(answer[VEILBUZZ_DEADLINE_LENGTH - 1], short_of ? UINT64_MAX : 1);
        }
        memset(answer, 0xFF, sizeof answer);
        memset(blocks, 0xFF, sizeof blocks);
        IS(veilbuzz_blocks(chart, 64, blocks, 2, answer, VEILBUZZ_BLOCKS_LENGTH - less), number);
        IS(answer[0], less ? UINT64_MAX : 0);
        IS(answer[VEILBUZZ_BLOCKS_LENGTH - 1], less ? UINT64_MAX : 2);
        IS(blocks[1], less ? UINT32_MAX : 1);
        memset(answer, 0xFF, sizeof answer);
        memset(written, 0xFF, sizeof written);
        IS(write_chart(7, 64, VEILBUZZ_WRITE_LENGTH - less), number);
        IS(answer[0], less ? UINT64_MAX : 0);
        IS(answer[VEILBUZZ_WRITE_LENGTH - 1], less ? UINT64_MAX : 64);
        IS(written[0], less ? 0xFF : 1);
        memset(answer, 0xFF, sizeof answer);
        memset(classes, 0xFF, sizeof classes);
        IS(veilbuzz_analyse(chart, 64, VEILBUZZ_ENOUGH_PASSES, blocks, 2, must, 14, may, 14, marks, 7, classes, 14, answer,
                            VEILBUZZ_ANALYSE_LENGTH - less), number);
        IS(answer[0], less ? UINT64_MAX : 0);
        IS(answer[VEILBUZZ_ANALYSE_LENGTH - 1], less ? UINT64_MAX : 2);
        IS(class_of(4, 0), less ? 0xFF : VEILBUZZ_CLASS_MISS);
        memset(answer, 0xFF, sizeof answer);
        IS(veilbuzz_check(chart, 64, must, 14, may, 14, marks, 7, answer, VEILBUZZ_CHECK_LENGTH - less), number);
        IS(answer[0], less ? UINT64_MAX : 0);
        IS(answer[VEILBUZZ_CHECK_LENGTH - 1], less ? UINT64_MAX : 1);
        memset(answer, 0xFF, sizeof answer);
        IS(veilbuzz_total(chart, 64, must, 14, may, 14, marks, 7, 1, 10, times, 7, times, 7, answer, VEILBUZZ_TOTAL_LENGTH - less), number);
        IS(answer[0], less ? UINT64_MAX : 0);
        IS(answer[VEILBUZZ_TOTAL_LENGTH - 1], less ? UINT64_MAX : 21);
        memset(answer, 0xFF, sizeof answer);
        at_most(9, 1);
        IS(bound(VEILBUZZ_BOUND_LENGTH - less), number);
        IS(answer[0], less ? UINT64_MAX : 0);
        IS(answer[VEILBUZZ_BOUND_LENGTH - 1], less ? UINT64_MAX : 29);
    }
    for (k = 0; k < sizeof each / sizeof *each; k++)
        if (each[k] > longest)
            longest = each[k];
    IS(VEILBUZZ_LONGEST_ANSWER, longest);
}

/* The most that the functions take, and no more. */
static void limits(void) {
    size_t n;
    head(VEILBUZZ_START_EMPTY, VEILBUZZ_MOST_NODES, 0);
    IS(read_chart(VEILBUZZ_MOST_NODES), 0);
    for (n = 0; n < VEILBUZZ_MOST_BLOCKS; n++)
        node(n, 1, 32 * n, 0, 0);
    IS(read_chart(VEILBUZZ_MOST_NODES), 0);
    IS(answer[VEILBUZZ_READ_BLOCKS], VEILBUZZ_MOST_BLOCKS);
    IS(list_blocks(VEILBUZZ_MOST_NODES, VEILBUZZ_MOST_BLOCKS), 0);
    IS(list_blocks(VEILBUZZ_MOST_NODES, VEILBUZZ_MOST_BLOCKS - 1), 11);
    node(n, 1, 32 * n, 0, 0);
    IS(read_chart(VEILBUZZ_MOST_NODES), 10);
    memset(lists, 0, sizeof lists);
    IS(write_chart(VEILBUZZ_MOST_NODES, VEILBUZZ_LONGEST_CHART, VEILBUZZ_LONGEST_ANSWER), 0);
    IS(answer[VEILBUZZ_WRITE_BYTES], VEILBUZZ_LONGEST_CHART);
    IS(write_chart(VEILBUZZ_MOST_NODES, VEILBUZZ_LONGEST_CHART - 1, VEILBUZZ_LONGEST_ANSWER), 11);
    head(VEILBUZZ_START_EMPTY, VEILBUZZ_MOST_NODES + 1, 0);
    IS(read_chart(VEILBUZZ_MOST_NODES + 1), 5);
}

/* Sets a number of `given`, and sees what comes of it. Node 1, to which no walk comes, can have any coefficient and any potential. */
#define GIVEN(number, to, returned)                   \
    do {                                              \
        at_most(9, 1);                                \
        given.number = (to);                          \
        IS(bound(VEILBUZZ_LONGEST_ANSWER), returned); \
    } while (0)

/* The ends of each range, and what is one past them. */
static void ranges(void) {
    seven(VEILBUZZ_START_EMPTY);
    analyse(7, VEILBUZZ_ENOUGH_PASSES);
    GIVEN(coefficients[1], VEILBUZZ_MOST_COEFFICIENT, 0);
    GIVEN(coefficients[1], -VEILBUZZ_MOST_COEFFICIENT, 0);
    GIVEN(coefficients[1], VEILBUZZ_MOST_COEFFICIENT + 1, 24);
    GIVEN(coefficients[1], -VEILBUZZ_MOST_COEFFICIENT - 1, 24);
    GIVEN(limits[1], VEILBUZZ_MOST_LIMIT, 0);
    GIVEN(limits[1], -VEILBUZZ_MOST_LIMIT, 0);
    GIVEN(limits[1], VEILBUZZ_MOST_LIMIT + 1, 24);
    GIVEN(limits[1], -VEILBUZZ_MOST_LIMIT - 1, 24);
    GIVEN(multipliers[1], VEILBUZZ_MOST_MULTIPLIERS - 1, 0); /* the other multiplier is 1 */
    GIVEN(multipliers[1], VEILBUZZ_MOST_MULTIPLIERS, 24);
    GIVEN(multipliers[1], -1, 24);
    GIVEN(potentials[1], VEILBUZZ_MOST_POTENTIAL, 0);
    GIVEN(potentials[1], -VEILBUZZ_MOST_POTENTIAL, 0);
    GIVEN(potentials[1], VEILBUZZ_MOST_POTENTIAL + 1, 24);
    GIVEN(potentials[1], -VEILBUZZ_MOST_POTENTIAL - 1, 24);
    GIVEN(denominator, 0, 24);
    GIVEN(denominator, VEILBUZZ_MOST_DENOMINATOR + 1, 24);
    GIVEN(side, 2, 24);
    at_most(9, (int64_t)VEILBUZZ_MOST_DENOMINATOR);
    IS(bound(VEILBUZZ_LONGEST_ANSWER), 0);
    IS(answer[VEILBUZZ_BOUND_BOUND], 29);
}

/* The limits are the second program's, which are handed in. */
static void same(char **numbers) {
    static const uint64_t named[] = {VEILBUZZ_MOST_NODES, VEILBUZZ_MOST_BLOCKS,  VEILBUZZ_MOST_WAYS,     VEILBUZZ_MOST_TOUCHES,
                                     VEILBUZZ_MOST_AGES,  VEILBUZZ_MOST_CLASSES, VEILBUZZ_LONGEST_CHART, VEILBUZZ_ENOUGH_PASSES};
    size_t k;
    for (k = 0; k < sizeof named / sizeof *named; k++)
        is("a limit of include/veilbuzz.h", named[k], strtoull(numbers[k], NULL, 10));
}

int main(int count, char **numbers) {
    answers();
    headers();
    unsure();
    nodes();
    sizes();
    there_and_back();
    touches();
    lengths();
    limits();
    ranges();
    if (count != 9) {
        printf("constants: hand in the eight limits\n");
        return 2;
    }
    same(numbers + 1);
    printf("the constants of include/veilbuzz.h: %d wrong\n", wrong);
    return wrong != 0;
}
