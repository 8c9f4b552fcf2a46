/* The loops of `combine` in plain C, over the same rows; see combine.py. */
#include <stdint.h>
#include <stdio.h>
#include <time.h>

#include "../recorder/record/job_words.h"

#ifndef BYTES
#define BYTES 65536
#endif
#ifndef TURNS
#define TURNS 256
#endif

static uint8_t left[BYTES] __attribute__((aligned(16)));
static uint8_t right[BYTES] __attribute__((aligned(16)));
static uint8_t out[BYTES] __attribute__((aligned(16)));

typedef void (*loop)(const void *, const void *, void *);

PAIR;

/* A loop for each operation on each type. */
#define LOOP(word, constant, mpi, ctype, op, statement)                                                               \
    __attribute__((noinline)) static void op##_of_##word(const void *l, const void *r, void *o) {                     \
        const ctype *a_row = l, *b_row = r;                                                                           \
        ctype *out_row = o;                                                                                           \
        for (size_t i = 0; i < BYTES / sizeof(ctype); i++) {                                                          \
            ctype a = a_row[i], b = b_row[i];                                                                         \
            statement;                                                                                                \
            out_row[i] = a;                                                                                           \
        }                                                                                                             \
    }
#define LOOPS(op, constant, types, statement) types(LOOP, op, statement)
EACH_OPERATION(LOOPS)

#define ROW(word, constant, mpi, ctype, op, statement) { #op, #word, op##_of_##word },
#define ROWS(op, constant, types, statement) types(ROW, op, statement)

static const struct {
    const char *op, *type;
    loop run;
} TABLE[] = { EACH_OPERATION(ROWS) };

static void fill(uint8_t *row, uint64_t x) {
    for (int block = 0; block < BYTES / 8; block++) {
        x = x * 6364136223846793005u + 1442695040888963407u;
        for (int i = 0; i < 8; i++)
            row[8 * block + i] = (uint8_t)(x >> (56 - 8 * i));
    }
}

static void turn(loop run) {
    run(left, right, out);
    left[0] ^= out[BYTES - 1];
}

static uint32_t checksum(void) {
    uint32_t sum = 0;
    for (int i = 0; i < BYTES; i++)
        sum = sum * 31 + out[i];
    return sum;
}

/* One combination, and then the time of many. */
static void report(const char *op, const char *type, loop run) {
    fill(left, 1);
    fill(right, 2);
    fill(out, 3);
    turn(run);
    uint32_t first = checksum();
    struct timespec start, end;
    clock_gettime(CLOCK_MONOTONIC, &start);
    for (int i = 0; i < TURNS; i++)
        turn(run);
    clock_gettime(CLOCK_MONOTONIC, &end);
    long took = (end.tv_sec - start.tv_sec) * 1000000 + (end.tv_nsec - start.tv_nsec) / 1000;
    printf("%s %s %u %ld %u\n", op, type, first, took, checksum());
}

int main(void) {
    for (size_t i = 0; i < sizeof TABLE / sizeof *TABLE; i++) report(TABLE[i].op, TABLE[i].type, TABLE[i].run);
}
