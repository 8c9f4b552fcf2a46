/* What is left to a rank that waits and never comes: one thread plays rank 0, and rank 1's record waits without a thread. A post leaves the
   combination, tests leave it WZ_LOOKS times, then each makes one, and what is left at the end goes with the engine. */
#include <stdio.h>
#include <stdlib.h>

#include "check.h"
#include "combiner.h"

enum { LONG = 4096, MOST_TESTS = WZ_LOOKS + 8 }; /* a sum of two ranks has two combinations */

static wz_shared shared;
static int32_t rows[2][LONG];
static wz_request requests[2];

static struct record *record_of_one(void) { return &shared.at->records[1]; }

static int stage_of_one(void) { return load(&record_of_one()->stage); }

/* A sum of that many elements. */
static void gives(uint8_t rank, uint32_t count) {
    for (int at = 0; at < LONG; at++) rows[rank][at] = rank + at;
    DONE(wz_iallreduce(&shared, rank, 0, rows[rank], rows[rank], count, WZ_INT32, WZ_SUM, &requests[rank]));
}

/* Rank 1's record, as it stands where its thread sleeps in wz_wait. */
static void one_waits(void) {
    static struct operation operation;
    static size_t count;
    operation = operation_of(WAITS, 1, apply_test);
    operation.request = &requests[1];
    operation.out = rows[1];
    operation.room = sizeof rows[1];
    operation.count = &count;
    record_of_one()->operation = &operation;
    shared.at->waiting++;
    store(&record_of_one()->stage, WAITING);
}

/* Both give, and the combination is left to rank 1, which is called. */
static void post_leaves(uint32_t count) {
    gives(1, count);
    one_waits();
    gives(0, count);
    HOLDS(shared.at->is_left && shared.at->outside == 0 && stage_of_one() == CALLED);
}

/* Rank 0's tests alone complete both sums. */
static void tests_complete(void) {
    for (int test = 0; stage_of_one() != ANSWERED || requests[0].generation != 0; test++) {
        HOLDS(test < MOST_TESTS);
        HOLDS(wz_try(&shared, 0, &requests[0]) <= WZ_DONE);
    }
    HOLDS(record_of_one()->answer == WZ_DONE && shared.at->waiting == 0);
}

static void tests_leave_and_make(void) {
    for (int test = 0; test < WZ_LOOKS; test++) {
        HOLDS(wz_try(&shared, 0, &requests[0]) == WZ_PENDING);
        HOLDS(shared.at->is_left && stage_of_one() == CALLED);
    }
    HOLDS(wz_try(&shared, 0, &requests[0]) <= WZ_DONE);
    HOLDS(!shared.at->is_left);
    tests_complete();
    for (int at = 0; at < LONG; at++) HOLDS(rows[0][at] == 1 + 2 * at && rows[1][at] == 1 + 2 * at);
}

/* A combination of no bytes is left, and then no row is long any longer. */
static void left_without_bytes(void) {
    wz_request own;
    DONE(wz_iallreduce(&shared, 0, 1, rows[0], rows[0], LONG, WZ_INT32, WZ_SUM, &own));
    post_leaves(0);
    DONE(wz_try(&shared, 0, &own));
    DONE(wz_ibarrier(&shared, 0, 1, &own));
    tests_complete();
    DONE(wz_try(&shared, 0, &own));
}

static void open_two(void) {
    const uint8_t sizes[] = { 2, 1 }, members[] = { 0, 1, 0 };
    wz_limits limits = wz_greatest_limits(2);
    DONE(wz_shared_open(&shared, &limits, sizes, 2, members, 3));
}

int main(void) {
    open_two();
    post_leaves(LONG);
    tests_leave_and_make();
    left_without_bytes();
    post_leaves(LONG);
    DONE(wz_shared_close(&shared));
    puts("left: all as it should be");
    return 0;
}
