/* Makes the calls that 'record' wrote, from standard input, and compares what is returned and what each buffer then holds:
 *
 *     record 40000 >cases && calls <cases
 *
 * It knows nothing of charts. A case is the function's number, the numbers that it takes, of a double its bits, the one to be returned, and
 * then each buffer, in the order of the parameters: whether it is read, written or not even looked at, its element's size, the byte that
 * its filling begins with, its length, how much of it is used, and the used part (after the call where it is written, else before it). Each
 * buffer is lent in memory of just its size, and one of no size as NULL. */
#include <stdio.h>
#include <stdlib.h>
#include <string.h>

#include "veilbuzz.h"
#include "watched.h"

enum function { READ = 1, ANALYSE, CHECK, TOTAL, NODE, BLOCKS, WRITE, DEADLINE, BOUND };
enum access { READS, WRITES, IGNORES };
enum { MOST_NUMBERS = 7, MOST_BUFFERS = 9, SHOWN = 10 };

struct buffer {
    int access;
    size_t size, length, used; /* of an element, in elements, in elements */
    uint8_t fill;
    uint8_t *known; /* the used part */
    void *lent;
};

/* As many as a function's parameters have. */
static const size_t number_counts[] = {0, 0, 1, 0, 2, 1, 0, 6, 7, 4};
static const size_t buffer_counts[] = {0, 3, 7, 5, 7, 3, 3, 8, 8, 9};

static unsigned long cases, differences;

static void stop(const char *why) {
    fprintf(stderr, "calls: %s in case %lu\n", why, cases);
    exit(2);
}

static void take(void *into, size_t size) {
    if (size != 0 && fread(into, size, 1, stdin) != 1)
        stop("the file ends");
}

static uint64_t take_number(void) {
    uint64_t number;
    take(&number, sizeof number);
    return number;
}

static uint8_t *reserve(size_t size) {
    uint8_t *memory = size == 0 ? NULL : malloc(size);
    if (memory == NULL && size != 0)
        stop("there is no memory");
    return memory;
}

static uint8_t filling(const struct buffer *buffer, size_t place) {
    return (uint8_t)(buffer->fill + place);
}

/* Takes a buffer from the file and makes it ready to be lent. */
static void prepare(struct buffer *buffer) {
    uint8_t shape[3], *lent;
    size_t whole, used, place;
    take(shape, sizeof shape);
    buffer->access = shape[0];
    buffer->size = shape[1];
    buffer->fill = shape[2];
    buffer->length = (size_t)take_number();
    buffer->used = (size_t)take_number();
    whole = buffer->length * buffer->size;
    used = buffer->used * buffer->size;
    buffer->known = reserve(used);
    take(buffer->known, used);
    buffer->lent = lent = reserve(whole);
    for (place = 0; place < whole; place++)
        lent[place] = place < used && buffer->access != WRITES ? buffer->known[place] : filling(buffer, place);
    if (buffer->access == WRITES)
        forget(lent, whole);
    else if (buffer->access == IGNORES)
        forbid(lent, whole);
    else if (used < whole)
        forbid(lent + used, whole - used);
}

static void differs(const char *what, size_t place, unsigned long long got, unsigned long long expected) {
    differences++;
    if (differences <= SHOWN)
        printf("case %lu: %s %lu is %llu and not %llu\n", cases, what, (unsigned long)place, got, expected);
}

/* Compares a buffer with what it has to hold, byte by byte, and gives it back. */
static void compare(const struct buffer *buffer, size_t number) {
    static const char *const names[] = {"byte of buffer 0,", "byte of buffer 1,", "byte of buffer 2,", "byte of buffer 3,", "byte of buffer 4,",
                                        "byte of buffer 5,", "byte of buffer 6,", "byte of buffer 7,", "byte of buffer 8,"};
    const size_t whole = buffer->length * buffer->size, used = buffer->used * buffer->size;
    const uint8_t *left = buffer->lent;
    size_t place;
    if (buffer->access != IGNORES)
        demand(left, used);
    allow(left, whole);
    for (place = 0; place < whole; place++) {
        const uint8_t expected = place < used ? buffer->known[place] : filling(buffer, place);
        if (left[place] != expected) {
            differs(names[number], place, left[place], expected);
            break;
        }
    }
    free(buffer->lent);
    free(buffer->known);
}

/* The double that has these bits. */
static double of(uint64_t bits) {
    double number;
    memcpy(&number, &bits, sizeof number);
    return number;
}

static uint64_t call(int function, const uint64_t *n, const struct buffer *b) {
    switch (function) {
    case READ:
        return veilbuzz_read(b[0].lent, b[0].length, b[1].lent, b[1].length, b[2].lent, b[2].length);
    case ANALYSE:
        return veilbuzz_analyse(b[0].lent, b[0].length, (size_t)n[0], b[1].lent, b[1].length, b[2].lent, b[2].length, b[3].lent,
                                b[3].length, b[4].lent, b[4].length, b[5].lent, b[5].length, b[6].lent, b[6].length);
    case CHECK:
        return veilbuzz_check(b[0].lent, b[0].length, b[1].lent, b[1].length, b[2].lent, b[2].length, b[3].lent, b[3].length,
                              b[4].lent, b[4].length);
    case TOTAL:
        return veilbuzz_total(b[0].lent, b[0].length, b[1].lent, b[1].length, b[2].lent, b[2].length, b[3].lent, b[3].length,
                              (uint16_t)n[0], (uint16_t)n[1], b[4].lent, b[4].length, b[5].lent, b[5].length, b[6].lent, b[6].length);
    case NODE:
        return veilbuzz_node(b[0].lent, b[0].length, (size_t)n[0], b[1].lent, b[1].length, b[2].lent, b[2].length);
    case BLOCKS:
        return veilbuzz_blocks(b[0].lent, b[0].length, b[1].lent, b[1].length, b[2].lent, b[2].length);
    case DEADLINE:
        return veilbuzz_deadline(b[0].lent, b[0].length, b[1].lent, b[1].length, b[2].lent, b[2].length, b[3].lent, b[3].length,
                                 (uint16_t)n[0], (uint16_t)n[1], b[4].lent, b[4].length, b[5].lent, b[5].length, of(n[2]), of(n[3]), n[4],
                                 of(n[5]), of(n[6]), b[6].lent, b[6].length, b[7].lent, b[7].length);
    case BOUND:
        return veilbuzz_bound(b[0].lent, b[0].length, b[1].lent, b[1].length, b[2].lent, b[2].length, b[3].lent, b[3].length,
                              (uint16_t)n[0], (uint16_t)n[1], n[2], b[4].lent, b[4].length, b[5].lent, b[5].length, b[6].lent, b[6].length,
                              b[7].lent, b[7].length, n[3], b[8].lent, b[8].length);
    default:
        return veilbuzz_write(n[0], n[1], n[2], n[3], n[4], n[5], b[0].lent, b[0].length, b[1].lent, b[1].length, b[2].lent, b[2].length,
                              b[3].lent, b[3].length, b[4].lent, b[4].length, b[5].lent, b[5].length, b[6].lent, b[6].length, b[7].lent,
                              b[7].length);
    }
}

static void make_call(int function) {
    uint64_t numbers[MOST_NUMBERS] = {0};
    struct buffer buffers[MOST_BUFFERS];
    uint64_t expected, returned;
    size_t number;
    for (number = 0; number < number_counts[function]; number++)
        numbers[number] = take_number();
    expected = take_number();
    for (number = 0; number < buffer_counts[function]; number++)
        prepare(&buffers[number]);
    returned = call(function, numbers, buffers);
    if (returned != expected)
        differs("function", (size_t)function, returned, expected);
    for (number = 0; number < buffer_counts[function]; number++)
        compare(&buffers[number], number);
}

int main(void) {
    uint8_t function;
    while (fread(&function, 1, 1, stdin) == 1) {
        if (function < READ || function > BOUND)
            stop("there is no such function");
        make_call(function);
        cases++;
    }
    printf("%lu cases, %lu differences\n", cases, differences);
    return cases == 0 || differences != 0;
}
