/* Veilbuzz for C: does a memory reference always hit the cache, always miss, miss once at the most, or can it not be told?
 *
 * Link with the archive that tests/archive makes:  cc -Iinclude mine.c "$(tests/archive)/libboundary.a"
 * or, where ./install has put it into a folder:    cc -I PREFIX/include mine.c -L PREFIX/lib -lveilbuzz
 * In the repository, from which this comes, examples/loop.c, examples/make.c, examples/deadline.c and examples/bound.c are whole programs; docs/HEX.md has the chart's bits,
 * docs/REFUSALS.md each refusal at length.
 *
 * What the functions answer and leave is proved of their source, for any bytes and any lengths: each ends, and writes only what is said
 * here. That the compiled code and these declarations agree with that source is tried by tests (docs/ASSURANCE.md). The functions
 * allocate nothing, keep nothing between two calls and call nothing but memcpy and memset; calls with buffers of their own may run at
 * the same time.
 *
 * What a caller has to keep, since C cannot say it:
 *   - behind each pointer there are as many elements as the length after it says, set to something and aligned: uint16_t to 2 bytes,
 *     uint32_t to 4, uint64_t, int64_t and double to 8. Where the length is 0 nothing is looked at, and the pointer may be NULL;
 *   - a buffer that is written overlaps no other of the same call; those that are only read may overlap. Where it does overlap, nothing is
 *     promised: what is answered and left may be anything, and passes may go on for the whole allowance;
 *   - while a call runs, nobody else writes to what it was lent, and nobody else reads what it writes;
 *   - veilbuzz_deadline, which alone has floating-point numbers, finds the settings that a C program starts with: what is rounded goes to
 *     the nearest number, and to the even one of two that are as near; subnormal numbers are not taken for 0; and no exception traps,
 *     though flags may be raised. With -ffast-math or -Ofast, even if the linker alone is given it, a whole program can start otherwise.
 * Costs, floors and ceilings have 16 bits: C cuts a larger number without a word, unless -Wconversion is given. All numbers that
 * veilbuzz_write takes have 64 bits, more than any field of a chart: one that is too large for its field arrives whole, and is refused and not
 * cut. So have those of facts and certificates, which are refused out of their ranges.
 *
 * Below, N is the chart's number of nodes, B its number of blocks, and A the ways in a set. A reference to one, two or four bytes touches the
 * block of its first byte, and then that of its last byte if that is another; a bare step touches none.
 */
#ifndef VEILBUZZ_H
#define VEILBUZZ_H

#include <float.h>
#include <stddef.h>
#include <stdint.h>

#if SIZE_MAX != UINT64_MAX
#error "Veilbuzz is for machines with a size_t of 64 bits"
#endif
#if FLT_RADIX != 2 || DBL_MANT_DIG != 53
#error "Veilbuzz is for machines whose double is binary64 of IEEE 754"
#endif

#ifdef __cplusplus
extern "C" {
#endif

/* The version, which is that of the Rust crate and of the desk too. */
#define VEILBUZZ_VERSION "0.2.0"

/* Limits: what is enough for every chart. */
enum {
    VEILBUZZ_MOST_NODES = 1024,
    VEILBUZZ_MOST_BLOCKS = 64,
    VEILBUZZ_MOST_WAYS = 8,
    VEILBUZZ_MOST_TOUCHES = 2, /* of a node */
    VEILBUZZ_MOST_AGES = VEILBUZZ_MOST_NODES * VEILBUZZ_MOST_BLOCKS,
    VEILBUZZ_MOST_CLASSES = VEILBUZZ_MOST_TOUCHES * VEILBUZZ_MOST_NODES,
    VEILBUZZ_LONGEST_CHART = 8 + 8 * VEILBUZZ_MOST_NODES, /* bytes */
    VEILBUZZ_ENOUGH_PASSES = VEILBUZZ_MOST_NODES * (1 + 2 * VEILBUZZ_MOST_BLOCKS * VEILBUZZ_MOST_WAYS) + 1
};

/* Ranges of the numbers that veilbuzz_bound takes (rule 18.8), in which no sum of it is too large. Those that an enum cannot hold are macros. */
enum {
    VEILBUZZ_MOST_COEFFICIENT = 1 << 24, /* of each coefficient: from minus this up to this */
    VEILBUZZ_MOST_LIMIT = 1 << 24        /* of each limit, likewise */
};
#define VEILBUZZ_MOST_MULTIPLIERS (INT64_C(1) << 36)  /* of all multipliers together; each is from 0 on */
#define VEILBUZZ_MOST_POTENTIAL (INT64_C(1) << 60)    /* of each potential: from minus this up to this */
#define VEILBUZZ_MOST_DENOMINATOR (UINT64_C(1) << 32) /* of the denominator: from 1 up to this */

/* An answer: numbers, in these places of `answer`. The first two are the same for every function; what comes after them is a function's
 * own, and is 0 after a refusal, 12 apart. A longer `answer` keeps its tail. Where `answer` is shorter than its function's answer, the
 * `header` of veilbuzz_read shorter than a header, the `fields` of veilbuzz_node shorter than a node's, or the `figures` of
 * veilbuzz_deadline shorter than two figures, the function does nothing: it returns 11, whatever else might be refused, and nothing that
 * was lent has changed, neither of these lists nor any other buffer. */
enum {
    VEILBUZZ_ANSWER_NUMBER = 0, /* the refusal's number, 0 for none; also what the function returns */
    VEILBUZZ_ANSWER_PLACE = 1,  /* the node at fault for refusals 9, 10, 16, 17 and 25, else 0 */
    VEILBUZZ_LONGEST_ANSWER = 4 /* room for the answer of any function */
};
enum {
    VEILBUZZ_READ_BLOCKS = 2, /* B */
    VEILBUZZ_READ_LENGTH = 3
};
enum {
    VEILBUZZ_NODE_THERE = 2, /* 1 where there is such a node */
    VEILBUZZ_NODE_LENGTH = 3
};
enum {
    VEILBUZZ_BLOCKS_COUNT = 2, /* B */
    VEILBUZZ_BLOCKS_LENGTH = 3
};
enum {
    VEILBUZZ_WRITE_BYTES = 2, /* the chart's length, 8 + 8 N */
    VEILBUZZ_WRITE_LENGTH = 3
};
enum {
    VEILBUZZ_ANALYSE_PASSES = 2, /* the passes made, the last one included, which changed nothing; after 12 the allowance */
    VEILBUZZ_ANALYSE_BLOCKS = 3, /* B; also after 12 */
    VEILBUZZ_ANALYSE_LENGTH = 4
};
enum {
    VEILBUZZ_CHECK_YES = 2, /* 1 where the table passes */
    VEILBUZZ_CHECK_LENGTH = 3
};
enum {
    VEILBUZZ_TOTAL_LOW = 2,  /* the low total */
    VEILBUZZ_TOTAL_HIGH = 3, /* the high total */
    VEILBUZZ_TOTAL_LENGTH = 4
};
enum {
    VEILBUZZ_DEADLINE_MET = 2, /* 1 where the deadline is met */
    VEILBUZZ_DEADLINE_LENGTH = 3
};
enum {
    VEILBUZZ_BOUND_BOUND = 2, /* the bound of the side that was asked for */
    VEILBUZZ_BOUND_LENGTH = 3
};

/* The header that veilbuzz_read tells: six numbers, in these places of `header`. A longer one keeps its tail. */
enum {
    VEILBUZZ_HEADER_LINE_BITS = 0, /* L: a line has 2^L bytes */
    VEILBUZZ_HEADER_SET_BITS = 1,  /* S: the cache has 2^S sets */
    VEILBUZZ_HEADER_WAYS = 2,      /* A: a set has A ways */
    VEILBUZZ_HEADER_START = 3,     /* VEILBUZZ_START_UNKNOWN or VEILBUZZ_START_EMPTY */
    VEILBUZZ_HEADER_NODES = 4,     /* N */
    VEILBUZZ_HEADER_ENTRY = 5,     /* the entry node */
    VEILBUZZ_HEADER_LENGTH = 6
};

/* The fields of a node that veilbuzz_node tells: six numbers, in these places of `fields`. A longer one keeps its tail. */
enum {
    VEILBUZZ_FIELDS_KIND = 0,    /* VEILBUZZ_KIND_STEP, VEILBUZZ_KIND_READ or VEILBUZZ_KIND_WRITE */
    VEILBUZZ_FIELDS_ADDRESS = 1, /* of the first byte; 0 at a bare step */
    VEILBUZZ_FIELDS_SIZE = 2,    /* VEILBUZZ_SIZE_ONE, VEILBUZZ_SIZE_TWO or VEILBUZZ_SIZE_FOUR; 0 at a bare step */
    VEILBUZZ_FIELDS_OUTS = 3,    /* how many arrows lead out */
    VEILBUZZ_FIELDS_FIRST = 4,   /* the node that the first arrow leads to; 0 where there is none */
    VEILBUZZ_FIELDS_SECOND = 5,  /* that of the second, likewise */
    VEILBUZZ_FIELDS_LENGTH = 6
};

/* The figures that veilbuzz_deadline tells: two numbers of microseconds, in these places of `figures`. A longer one keeps its tail. */
enum {
    VEILBUZZ_FIGURES_LOW = 0,  /* that of the low total */
    VEILBUZZ_FIGURES_HIGH = 1, /* that of the high total */
    VEILBUZZ_FIGURES_LENGTH = 2
};

/* Which deadline it is that veilbuzz_deadline is given, and which of its two limits are looked at. */
enum {
    VEILBUZZ_DEADLINE_NONE = 0,   /* no deadline; neither */
    VEILBUZZ_DEADLINE_LATEST = 1, /* a latest time; `latest` alone */
    VEILBUZZ_DEADLINE_WINDOW = 2  /* an earliest and a latest time; both */
};

/* Which bound veilbuzz_bound is asked for. */
enum {
    VEILBUZZ_SIDE_HIGH = 0, /* what a walk costs at most */
    VEILBUZZ_SIDE_LOW = 1   /* what it costs at least */
};

/* What the cache holds when a walk begins. */
enum {
    VEILBUZZ_START_UNKNOWN = 0,
    VEILBUZZ_START_EMPTY = 1
};

/* What a node does. */
enum {
    VEILBUZZ_KIND_STEP = 0, /* a bare step: no reference */
    VEILBUZZ_KIND_READ = 1,
    VEILBUZZ_KIND_WRITE = 2
};

/* How many bytes a reference is to, by its size code. */
enum {
    VEILBUZZ_SIZE_ONE = 0,
    VEILBUZZ_SIZE_TWO = 1,
    VEILBUZZ_SIZE_FOUR = 2
};

/* What `classes` says of each touch that a node can make: the first that applies of unreached, where the node's mark is 0; none, where it
 * makes no such touch, so for both at a bare step and for the second at a reference within one line; hit, where the block's must age is
 * below A; miss, where its may age is A; kept, where fewer than A other blocks of its cache set are touched after it and before this touch,
 * those of all walks that have touched it counted together (rule 16.1); unsure. What counts is what is so just before the touch: on
 * arrival, and for the second after the first.
 * Of all touches of one block that are called kept, at any nodes, all but at most one on the whole of a walk hit: the block may still have to
 * be loaded, and once it is, it stays. */
enum {
    VEILBUZZ_CLASS_UNREACHED = 0, /* no walk comes here */
    VEILBUZZ_CLASS_HIT = 1,       /* the touch always hits */
    VEILBUZZ_CLASS_MISS = 2,      /* the touch always misses */
    VEILBUZZ_CLASS_UNSURE = 3,    /* it cannot be told */
    VEILBUZZ_CLASS_NONE = 4,      /* there is no such touch */
    VEILBUZZ_CLASS_KEPT = 5       /* the touch hits, but for one at most of those of its block that are called so */
};

/* The refusals, section 11 of docs/RULES.md, 23 to 25 of certificates (section 18), looked for one after another as they stand here; what
 * is found first is given. No function gives 19 to 22 yet. Only whether `answer`, `header`, `fields` and `figures` are too short is looked
 * at before all others. Where several nodes are at fault, the first one is told. What veilbuzz_write is given is a chart's fields and not
 * its bytes, so that 1, 2 and 7 cannot apply; 3 to 6, 9 and 10 it gives as veilbuzz_read does, with the same place, and so too where a
 * number is too large for its field.
 *
 *   no.  place        given if
 *    1   0            the chart has fewer than 8 bytes
 *    2   0            its edition is not 1
 *    3   0            L not 2 to 8, S not 0 to 8, or A not 1 to 8
 *    4   0            its start code is neither 0 nor 1
 *    5   0            N is 0 or above VEILBUZZ_MOST_NODES
 *    6   0            its entry is not below N
 *    7   0            a spare bit of the header is set
 *    8   0            it is not 8 + 8 N bytes long; a list of fields that veilbuzz_write is given has not just N numbers
 *    9   that node    a record, or what is to be one, is not as rules 2.1, 2.3, 2.4, 2.9, 2.11 and 2.12 have it
 *   10   that node    it has more blocks than VEILBUZZ_MOST_BLOCKS: the node, in node order, that brings the first too many
 *   11   0            a buffer has fewer places than are used, and is neither floors, ceilings, one of the six lists that
 *                     veilbuzz_write is given nor one of the four of facts and a certificate
 *   12   0            every pass of the allowance has changed something
 *   13   0            the table does not pass
 *   14   0            there are not just N floors, or not just N ceilings
 *   15   0            the miss cost is below the hit cost
 *   16   that node    a floor is above its ceiling
 *   17   that node    a floor above 0 stands at a node without a mark
 *   18   0            the times are impossible: a period of 0; a period, an overhead, or a limit that is looked at, which is a NaN,
 *                     infinite or below 0; a window whose latest time is before its earliest; no such kind
 *   23   0            of F limits: there are not just F * N coefficients, not just F multipliers, or not just N potentials
 *   24   0            a coefficient, a limit, a multiplier, all multipliers together, a potential or the denominator is out of its
 *                     range; no such side
 *   25   that node    the certificate does not hold at a node: the node is the entry, and its own potential is too small; or it is
 *                     marked, and too small is that of a node that an arrow leads to from it
 */

/* A refusal in words: what was found, in short, and what to do. NULL for a number that nothing is refused with: 0, those from 19 to 22 and
 * those from 26 on. The words are no part of the proof; Rust, Python and the desk have the same ones, which is tested. */
static inline const char *veilbuzz_refusal_found(uint64_t number) {
    switch (number) {
    case 1:
        return "the chart has fewer than 8 bytes";
    case 2:
        return "the edition is not 1";
    case 3:
        return "there is no such cache: L is not 2 to 8, S not 0 to 8, or A not 1 to 8";
    case 4:
        return "the start code is neither 0 nor 1";
    case 5:
        return "the number of nodes, N, is not 1 to 1024";
    case 6:
        return "the entry is not below N, the number of nodes";
    case 7:
        return "a spare bit of the header is set";
    case 8:
        return "the chart is not 8 + 8 N bytes long, or a list of fields not N numbers";
    case 9:
        return "a record breaks its rules";
    case 10:
        return "the chart has over 64 blocks";
    case 11:
        return "a lent buffer has fewer places than are used";
    case 12:
        return "the passes that were allowed are too few";
    case 13:
        return "the table does not pass";
    case 14:
        return "there are not just N floors, or not just N ceilings";
    case 15:
        return "the miss cost is below the hit cost";
    case 16:
        return "a floor is above its ceiling";
    case 17:
        return "a floor above 0 stands at a node without a mark";
    case 18:
        return "the times are impossible: a period of 0, a time below 0 or not finite, a window that ends before it begins, "
               "or no such kind of deadline";
    case 23:
        return "a list of the facts or of the certificate has the wrong length";
    case 24:
        return "a number of the facts or of the certificate is out of its range, or there is no such side";
    case 25:
        return "the certificate does not hold at that node: its own potential, if it is the entry, or that of an arrow's target is too small";
    default:
        return NULL;
    }
}

static inline const char *veilbuzz_refusal_mend(uint64_t number) {
    switch (number) {
    case 1:
        return "give the whole file";
    case 2:
        return "the first byte has to be 01; './desk chart' makes a chart of a text";
    case 3:
        return "look at the cache's shape: a line has 2^L bytes, and there are 2^S sets of A ways";
    case 4:
        return "0 is unknown, 1 is empty";
    case 5:
        return "mend the count, or split the chart as docs/REFUSALS.md tells";
    case 6:
        return "name a node that there is";
    case 7:
        return "clear it";
    case 8:
        return "cut it, or add the missing records; one number for each node in each list";
    case 9:
        return "mend that node's record; if both its arrows lead to one node: one arrow, or the other target; "
               "if its last byte is past the last address: a smaller size";
    case 10:
        return "split the chart as docs/REFUSALS.md tells";
    case 11:
        return "lend N, 2 * N, B, N * B or 8 + 8 * N elements, as the function says; in C also as many as its answer, header, "
               "fields or figures have";
    case 12:
        return "allow 1049601 passes, which are enough for every chart";
    case 13:
        return "lend the one that the analysis wrote for this chart";
    case 14:
        return "one number for each node";
    case 15:
        return "swap them, if they were swapped";
    case 16:
        return "mend that node's two bounds";
    case 17:
        return "no walk comes there: make it 0";
    case 18:
        return "give times in microseconds, of 8 MHz a period of 0.125; swap the window's limits, if they were swapped";
    case 23:
        return "of F limits: F * N coefficients, F multipliers and N potentials";
    case 24:
        return "a denominator of 1 to 2^32; coefficients and limits of -2^24 to 2^24; no multiplier below 0, "
               "and all together no more than 2^36; potentials of -2^60 to 2^60";
    case 25:
        return "make the certificate for this chart, these costs, these facts and this side";
    default:
        return NULL;
    }
}

/* Reads a chart, as a caller does first who wants to know N and B: refusals 1 to 10, and 11 for `header` and `answer`. Where none of them
 * applies, the header is told in the first six places of `header`, and B in `answer`. After a refusal `header` is as it was. */
uint64_t veilbuzz_read(const uint8_t *chart, size_t chart_length,
                       uint64_t *header, size_t header_length,
                       uint64_t *answer, size_t answer_length);

/* Reads one node of a chart: refusals 1 to 10, and 11 for `fields` and `answer`. Where none of them applies and `node` is below N, its
 * fields are told in the first six places of `fields`, and answer[VEILBUZZ_NODE_THERE] is 1. Where `node` is not below N there is no such
 * node: that is no refusal, and answer[VEILBUZZ_NODE_THERE] is 0. Then, and after a refusal, `fields` is as it was. The whole chart is read
 * for the one node, which takes as long as veilbuzz_read. */
uint64_t veilbuzz_node(const uint8_t *chart, size_t chart_length,
                       size_t node,
                       uint64_t *fields, size_t fields_length,
                       uint64_t *answer, size_t answer_length);

/* Lists the blocks of a chart: refusals 1 to 11. It uses, and writes, the first B of `blocks`: the block numbers, ascending, as
 * veilbuzz_analyse writes them; and tells B in `answer`. A longer buffer keeps its tail. After a refusal `blocks` is as it was. */
uint64_t veilbuzz_blocks(const uint8_t *chart, size_t chart_length,
                         uint32_t *blocks, size_t blocks_length,
                         uint64_t *answer, size_t answer_length);

/* Writes a chart: refusals 3 to 6 and 8 to 11. It is given the six numbers of a header, in the order of `header` above, and six lists with
 * the fields of the nodes, in the order of `fields`: in each list one number for each of the N nodes, node 0 first. The edition is 1 and
 * spare bits are 0: they are not given. It uses, and writes, the first 8 + 8 * N of `chart`, and tells how many these are in `answer`. A
 * longer buffer keeps its tail, and VEILBUZZ_LONGEST_CHART bytes are enough for any chart. After a refusal `chart` is as it was.
 * There and back: veilbuzz_read and veilbuzz_node tell of what it wrote just what it was given; and from what these two tell of a chart it
 * writes just the bytes of that chart. */
uint64_t veilbuzz_write(uint64_t line, uint64_t sets, uint64_t ways, uint64_t start, uint64_t nodes, uint64_t entry,
                        const uint64_t *kinds, size_t kinds_length,
                        const uint64_t *addresses, size_t addresses_length,
                        const uint64_t *sizes, size_t sizes_length,
                        const uint64_t *outs, size_t outs_length,
                        const uint64_t *firsts, size_t firsts_length,
                        const uint64_t *seconds, size_t seconds_length,
                        uint8_t *chart, size_t chart_length,
                        uint64_t *answer, size_t answer_length);

/* Analyses a chart with at most `allowance` passes: refusals 1 to 12. It uses, and writes, the first
 *   B      of `blocks`: the block numbers, ascending
 *   N * B  of `must` and of `may`: on arrival at node n the age of blocks[k] is never above must[n * B + k] nor below may[n * B + k]; an
 *          age is 0 for the youngest, A for a block that is not there; the rows of unmarked nodes are 0
 *   N      of `marks`: 1 where a walk comes, else 0
 *   2 * N  of `classes`: two for each node, the first touch's first; see above
 * Marks and ages are the tightest of all tables that pass (rules 7.7 and 7.8), and passes are made and counted by rules 9.1 to 9.5.
 * Longer buffers keep their tails, and what these held before does not matter. After refusals 1 to 11 none of the five has changed. After
 * 12 the blocks are written and the other used parts are 0, which then says nothing of the chart. */
uint64_t veilbuzz_analyse(const uint8_t *chart, size_t chart_length,
                          size_t allowance,
                          uint32_t *blocks, size_t blocks_length,
                          uint8_t *must, size_t must_length,
                          uint8_t *may, size_t may_length,
                          uint8_t *marks, size_t marks_length,
                          uint8_t *classes, size_t classes_length,
                          uint64_t *answer, size_t answer_length);

/* Says whether a table passes (rule 7.7), whoever made it: refusals 1 to 11. What it returns is 0 for a table that passes and for one
 * that does not: answer[VEILBUZZ_CHECK_YES] alone tells them apart. Only the first N * B of `must` and `may` and the first N of `marks`
 * matter, laid out as above. It writes `answer` alone. */
uint64_t veilbuzz_check(const uint8_t *chart, size_t chart_length,
                        const uint8_t *must, size_t must_length,
                        const uint8_t *may, size_t may_length,
                        const uint8_t *marks, size_t marks_length,
                        uint64_t *answer, size_t answer_length);

/* The two totals of a table that passes: refusals 1 to 11 and 13 to 17. They are sums over the touches of marked nodes (rules 10.2 to
 * 10.4): the high one of ceilings, each times `hit` where the touch's class is hit or kept and times `miss` where it is another; and to it
 * comes `miss` less `hit`, once for each block that is touched at a node with a ceiling above 0 where that touch is called kept. The low
 * one is of floors, each times `miss` where the class is miss and times `hit` where it is not. So take a walk from the chart's entry and
 * start that comes to each node no fewer times than its floor and no more than its ceiling, and pays for each touch, `hit` if it hits and
 * `miss` if it misses, and nothing at a bare step: what it costs lies between the low and the high total, both included. That is of one
 * walk: where a part of a program has a chart of its own and is come to several times, each time is a walk. The table is read as
 * veilbuzz_check reads it. It writes `answer` alone. */
uint64_t veilbuzz_total(const uint8_t *chart, size_t chart_length,
                        const uint8_t *must, size_t must_length,
                        const uint8_t *may, size_t may_length,
                        const uint8_t *marks, size_t marks_length,
                        uint16_t hit, uint16_t miss,
                        const uint16_t *floors, size_t floors_length,
                        const uint16_t *ceilings, size_t ceilings_length,
                        uint64_t *answer, size_t answer_length);

/* Whether the two totals, in microseconds, meet a deadline: refusals 1 to 11 and 13 to 17 as veilbuzz_total gives them, and after them 18.
 * `hit` and `miss` count cycles. The clock sheet is `period`, how long a cycle takes, and `overhead`, what is added once, both in
 * microseconds; totals are of touches, so all else that takes time has to be in the overhead. A figure is a total times the period, rounded,
 * and that plus the overhead, rounded once more (rule 17.3): two roundings of binary64 to the nearest, ties to even, which are never fused
 * to one. A total is below 2^53, and so it is a double as it stands. Where the period is a power of two from 2^-30 to 1 the product is
 * exact, and with an overhead of 0 so is the figure: 411 cycles at 8 MHz, a period of 0.125, take 51.375. Else each rounding can put a
 * figure up or down by half of the last place that a double has; and a period may be no double to begin with, as 0.1 is none.
 * Without a deadline it is always met; a latest time is met where the high figure is no more than `latest`; a window where also the low one
 * is no less than `earliest` (rule 17.4). What it returns is 0 for a deadline that is met and for one that is not:
 * answer[VEILBUZZ_DEADLINE_MET] alone tells them apart. The low and the high figure are told in the first two places of `figures`; after a
 * refusal both are 0.0. No figure is a NaN or below 0; one that is too large for a double is infinity, which is after any latest time.
 * -0.0 is 0: as a period it is refused, as an overhead or a limit it is not. The table is read as veilbuzz_check reads it. It writes
 * `figures` and `answer` alone. */
uint64_t veilbuzz_deadline(const uint8_t *chart, size_t chart_length,
                           const uint8_t *must, size_t must_length,
                           const uint8_t *may, size_t may_length,
                           const uint8_t *marks, size_t marks_length,
                           uint16_t hit, uint16_t miss,
                           const uint16_t *floors, size_t floors_length,
                           const uint16_t *ceilings, size_t ceilings_length,
                           double period, double overhead,
                           uint64_t kind, double earliest, double latest,
                           double *figures, size_t figures_length,
                           uint64_t *answer, size_t answer_length);

/* A bound on the cost of each walk that keeps to facts, as a certificate shows it: refusals 1 to 11, 13 and 15 as veilbuzz_total gives
 * them, and after them 23 to 25.
 * A walk keeps a fact if its visits of the nodes, each times the fact's coefficient at the node, come to no more than the fact's limit
 * (rule 18.1). Of F facts there are F `limits`, and F * N `coefficients`: the N of the first fact, node 0 first, then those of the second, and
 * so on. Both may be below 0. That a node is come to no more than c times is a fact: 1 at that node, 0 at all others, and the limit c; no
 * fewer than f times: -1 there, and the limit -f; two nodes together no more than 10 times: 1 at both, and the limit 10. F may be 0. Whether
 * walks keep the facts nobody looks at: that is the caller's to know.
 * A certificate is one of `multipliers` for each fact, none below 0, one of `potentials` for each node, which may be below 0, and a
 * `denominator` D: multipliers and potentials count D-ths. Anybody may make it, say from the dual of a linear program, since all of it is
 * checked. It is for one `side`. A visit of a node is left with D times what one visit counts in the high total, first loads apart, or for
 * the low side with minus D times what it counts in the low total, in either case 0 at a node without a mark; and of that is taken away, for
 * each fact, the multiplier times the coefficient at the node (rule 18.3). The certificate holds at a node if (rule 18.4)
 *   - the node is not the entry, or its potential is no less than what a visit of it is left with; and
 *   - the node has no mark, or for each arrow out of it the potential of the arrow's target is no less than the node's own and what a visit
 *     of the target is left with, both together.
 * Let Z be the largest potential of a marked node, and to it for each fact the multiplier times the limit. The high bound is Z / D, rounded
 * down, and 0 where Z is below 0; and to it comes `miss` less `hit`, once for each block that is touched at a marked node where that touch is
 * called kept, but for nodes that a fact rules out: a limit of 0 or less, no coefficient below 0, and one above 0 at that node. The low bound
 * is -Z / D, rounded up, and 0 where Z is above 0 (rules 18.5 to 18.7).
 * So take a walk from the chart's entry and start that keeps all facts, and pays for each touch as it does for veilbuzz_total: it costs no
 * more than the high bound, and no less than the low one. A certificate that does not hold at some node is refused and never repaired; one
 * that is needlessly large gives a bound that is true and too wide. With floors and ceilings as facts, D 1, potentials of 0, and as the
 * multiplier of each ceiling, or of each floor, what one visit counts there, the bounds are just the two totals. The table is read as
 * veilbuzz_check reads it. It writes `answer` alone. */
uint64_t veilbuzz_bound(const uint8_t *chart, size_t chart_length,
                        const uint8_t *must, size_t must_length,
                        const uint8_t *may, size_t may_length,
                        const uint8_t *marks, size_t marks_length,
                        uint16_t hit, uint16_t miss,
                        uint64_t side,
                        const int64_t *coefficients, size_t coefficients_length,
                        const int64_t *limits, size_t limits_length,
                        const int64_t *multipliers, size_t multipliers_length,
                        const int64_t *potentials, size_t potentials_length,
                        uint64_t denominator,
                        uint64_t *answer, size_t answer_length);

#ifdef __cplusplus
}
#endif

#endif
