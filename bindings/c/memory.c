/* Each allocation of each call is refused in turn: the call answers WZ_NO_MEMORY with nothing changed, and once there is memory it is done.
   And what memory of long rows an engine keeps for later ones, until it is closed.
   To be linked with -Wl,--wrap of malloc, realloc, calloc, aligned_alloc and free. One thread plays all ranks. */
#include <malloc.h>
#include <stdio.h>
#include <stdlib.h>
#include <string.h>

#include "check.h"
#include "worzsunab_threads.h"

/* The allocation that is refused, counted from 1 on; 0: none. */
static long refused;
/* How many calls were refused memory. */
static long refusals;

/* How many blocks of at least LONG bytes there are. */
static long long_blocks;

enum { LONG = 1 << 18 };

void *__real_malloc(size_t size);
void *__real_realloc(void *old, size_t size);
void *__real_calloc(size_t many, size_t size);
void *__real_aligned_alloc(size_t alignment, size_t size);
void *__wrap_malloc(size_t size);
void *__wrap_realloc(void *old, size_t size);
void *__wrap_calloc(size_t many, size_t size);
void *__wrap_aligned_alloc(size_t alignment, size_t size);
void __real_free(void *block);
void __wrap_free(void *block);

static bool is_refused(void) { return refused > 0 && --refused == 0; }

static bool is_long(void *block) { return block != NULL && malloc_usable_size(block) >= LONG; }

void *__wrap_malloc(size_t size) {
    void *block = is_refused() ? NULL : __real_malloc(size);
    if (is_long(block)) long_blocks++;
    return block;
}

void __wrap_free(void *block) {
    if (is_long(block)) long_blocks--;
    __real_free(block);
}

void *__wrap_realloc(void *old, size_t size) { return is_refused() ? NULL : __real_realloc(old, size); }

void *__wrap_calloc(size_t many, size_t size) { return is_refused() ? NULL : __real_calloc(many, size); }

void *__wrap_aligned_alloc(size_t alignment, size_t size) {
    return is_refused() ? NULL : __real_aligned_alloc(alignment, size);
}

/* Makes a call again and again, each time with a later allocation refused, until it is done; `same` holds after each refusal. */
#define WITH_LITTLE(call, same)                                                        \
    do {                                                                               \
        int32_t code_ = WZ_NO_MEMORY;                                                  \
        for (long at_ = 1; code_ != WZ_DONE; at_++) {                                  \
            refused = at_;                                                             \
            code_ = (call);                                                            \
            if (code_ != WZ_DONE) {                                                    \
                HOLDS(code_ == WZ_NO_MEMORY && refused == 0 && at_ < 1000);            \
                HOLDS(same);                                                           \
                refusals++;                                                            \
            }                                                                          \
            refused = 0;                                                               \
        }                                                                              \
    } while (0)

/* A call that takes no memory. */
#define WITHOUT(call)                                                                  \
    do {                                                                               \
        refused = 1;                                                                   \
        HOLDS((call) == WZ_DONE && refused == 1);                                      \
        refused = 0;                                                                   \
    } while (0)

static const uint8_t members[2] = { 0, 1 };
static const uint8_t two = 2;

static uint64_t lent(wz_engine *engine) {
    uint64_t bytes = 0;
    WITHOUT(wz_lent(engine, &bytes));
    return bytes;
}

static bool is(wz_engine *engine, uint8_t rank, const wz_request *request, uint8_t phase) {
    uint8_t found = 9;
    WITHOUT(wz_phase(engine, rank, request, &found));
    return found == phase;
}

/* Rows of `count` numbers: a sum of two ranks, started twice as a persistent one, and posted once. */
static void sums(uint32_t count) {
    enum { MOST = 600 };
    static int32_t given[MOST], got[MOST];
    wz_engine engine = WZ_CLOSED_ENGINE;
    wz_limits limits = wz_greatest_limits(2);
    wz_call sum = { WZ_ALLREDUCE, WZ_SUM, WZ_INT32, 0, count };
    wz_request requests[2] = { WZ_NULL_REQUEST, WZ_NULL_REQUEST }, once[2] = { WZ_NULL_REQUEST, WZ_NULL_REQUEST };
    size_t bytes = 4 * count, out = 9;
    limits.slots = 8;
    for (uint32_t i = 0; i < count; i++) given[i] = (int32_t)i;
    WITH_LITTLE(wz_open(&engine, &limits, &two, 1, members, 2), !engine.opened && engine.at == NULL);
    for (uint8_t rank = 0; rank < 2; rank++)
        WITH_LITTLE(wz_init(&engine, rank, 0, &sum, &requests[rank]), requests[rank].generation == 0 && lent(&engine) == 0);
    for (int start = 0; start < 2; start++) {
        for (uint8_t rank = 0; rank < 2; rank++)
            WITH_LITTLE(wz_start(&engine, rank, &requests[rank], given, bytes),
                        is(&engine, rank, &requests[rank], WZ_IDLE) && lent(&engine) == 2 * bytes * rank);
        WITH_LITTLE(wz_settle(&engine), lent(&engine) == 4 * bytes);
        for (uint8_t rank = 0; rank < 2; rank++) {
            WITHOUT(wz_test(&engine, rank, &requests[rank], got, bytes, &out));
            HOLDS(out == bytes);
            for (uint32_t i = 0; i < count; i++) HOLDS(got[i] == 2 * (int32_t)i);
        }
    }
    for (uint8_t rank = 0; rank < 2; rank++) WITHOUT(wz_free(&engine, rank, &requests[rank]));
    for (uint8_t rank = 0; rank < 2; rank++)
        WITH_LITTLE(wz_post(&engine, rank, 0, &sum, given, bytes, &once[rank]),
                    once[rank].generation == 0 && lent(&engine) == 2 * bytes * rank);
    for (int combinations = 0; combinations < 2; combinations++) {
        wz_work work = WZ_EMPTY_WORK;
        WITH_LITTLE(wz_take_work(&engine, &work), !work.full && lent(&engine) == 4 * bytes);
        WITH_LITTLE(wz_run_work(&work), work.full);
        WITHOUT(wz_return_work(&engine, &work));
    }
    WITH_LITTLE(wz_settle(&engine), lent(&engine) == 4 * bytes);
    for (uint8_t rank = 0; rank < 2; rank++) {
        WITHOUT(wz_test(&engine, rank, &once[rank], got, bytes, &out));
        for (uint32_t i = 0; i < count; i++) HOLDS(got[i] == 2 * (int32_t)i);
    }
    WITHOUT(wz_close(&engine));
}

/* Bytes that are copied outside: only the copying takes memory for them. */
static void outside(void) {
    wz_engine engine = WZ_CLOSED_ENGINE;
    wz_limits limits = wz_greatest_limits(2);
    wz_call sum = { WZ_ALLREDUCE, WZ_SUM, WZ_INT32, 0, 600 };
    wz_request requests[2] = { WZ_NULL_REQUEST, WZ_NULL_REQUEST };
    static int32_t given[600], got[600];
    wz_bytes bytes = WZ_EMPTY_BYTES;
    size_t out = 9;
    limits.slots = 8;
    HOLDS(wz_open(&engine, &limits, &two, 1, members, 2) == WZ_DONE);
    for (uint8_t rank = 0; rank < 2; rank++) {
        WITH_LITTLE(wz_give(&bytes, given, sizeof given), !bytes.full && bytes.at == NULL);
        WITH_LITTLE(wz_post_given(&engine, rank, 0, &sum, &bytes, &requests[rank]), bytes.full && requests[rank].generation == 0);
    }
    WITH_LITTLE(wz_settle(&engine), lent(&engine) == 4 * sizeof given);
    WITH_LITTLE(wz_give(&bytes, NULL, 0), !bytes.full);
    WITHOUT(wz_take_outcome(&engine, 0, &requests[0], sizeof got, &bytes));
    WITHOUT(wz_close(&engine));
    WITHOUT(wz_copy_out(&bytes, got, sizeof got, &out));
    HOLDS(out == sizeof got);
}

/* A sum of two ranks, of rows of LONG bytes. The first rank's outcome goes into `held`, which has bytes, and the second's is copied. */
static void sum_of_long_rows(wz_engine *engine, wz_bytes *held) {
    static int32_t given[LONG / 4], got[LONG / 4];
    wz_call sum = { WZ_ALLREDUCE, WZ_SUM, WZ_INT32, 0, LONG / 4 };
    wz_request requests[2] = { WZ_NULL_REQUEST, WZ_NULL_REQUEST };
    size_t out = 9;
    for (uint8_t rank = 0; rank < 2; rank++)
        WITH_LITTLE(wz_post(engine, rank, 0, &sum, given, sizeof given, &requests[rank]), requests[rank].generation == 0);
    for (int combinations = 0; combinations < 2; combinations++) {
        wz_work work = WZ_EMPTY_WORK;
        WITH_LITTLE(wz_take_work(engine, &work), !work.full);
        WITH_LITTLE(wz_run_work(&work), work.full);
        WITHOUT(wz_return_work(engine, &work));
    }
    WITH_LITTLE(wz_settle(engine), true);
    WITHOUT(wz_take_outcome(engine, 0, &requests[0], sizeof got, held));
    WITHOUT(wz_test(engine, 1, &requests[1], got, sizeof got, &out));
    HOLDS(out == sizeof got);
}

/* An engine keeps the memory of long rows for later ones, no more of it than they need, and frees it when it is closed, though an outcome of
   it is held. */
static void kept(void) {
    wz_engine engine = WZ_CLOSED_ENGINE;
    wz_limits limits = wz_greatest_limits(2);
    wz_bytes held = WZ_EMPTY_BYTES;
    static char copy[LONG];
    size_t out = 9;
    limits.slots = 8;
    limits.places = 8;
    HOLDS(wz_open(&engine, &limits, &two, 1, members, 2) == WZ_DONE && long_blocks == 0);
    long first = 0;
    for (int round = 0; round < 5; round++) {
        DONE(wz_give(&held, NULL, 0));
        sum_of_long_rows(&engine, &held);
        DONE(wz_copy_out(&held, copy, sizeof copy, &out));
        if (round == 1) first = long_blocks;
    }
    HOLDS(first > 0 && long_blocks == first);
    DONE(wz_give(&held, NULL, 0));
    sum_of_long_rows(&engine, &held);
    WITHOUT(wz_close(&engine));
    HOLDS(long_blocks == 1);
    WITHOUT(wz_copy_out(&held, copy, sizeof copy, &out));
    HOLDS(out == sizeof copy && long_blocks == 0);
}

static void counted(void) {
    wz_engine engine = WZ_CLOSED_ENGINE;
    wz_limits limits = wz_greatest_limits(2);
    wz_request requests[2] = { WZ_NULL_REQUEST, WZ_NULL_REQUEST };
    uint32_t counts[2] = { 2, 1 };
    int16_t given[2] = { 5, 6 }, got[3];
    size_t out = 9;
    HOLDS(wz_open(&engine, &limits, &two, 1, members, 2) == WZ_DONE);
    for (uint8_t rank = 0; rank < 2; rank++)
        WITH_LITTLE(wz_post_allgatherv(&engine, rank, 0, WZ_INT16, counts, 2, given, 2 * counts[rank], &requests[rank]),
                    requests[rank].generation == 0);
    WITH_LITTLE(wz_settle(&engine), lent(&engine) == 18);
    for (uint8_t rank = 0; rank < 2; rank++) {
        WITHOUT(wz_test(&engine, rank, &requests[rank], got, sizeof got, &out));
        HOLDS(out == 6 && got[0] == 5 && got[1] == 6 && got[2] == 5);
    }
    WITHOUT(wz_close(&engine));
}

/* Under the shim a post that was made is done, also where the progress behind it was refused memory; a wait meets that. */
static void shim(void) {
    static wz_shared shared;
    wz_call sum = { WZ_ALLREDUCE, WZ_SUM, WZ_INT32, 0, 1 };
    for (long at = 1; at < 60; at++) {
        wz_request requests[2] = { WZ_NULL_REQUEST, WZ_NULL_REQUEST };
        if (at == 1) WITH_LITTLE(wz_shared_open_world(&shared, 2), shared.at == NULL);
        else HOLDS(wz_shared_open_world(&shared, 2) == WZ_DONE);
        for (uint8_t rank = 0; rank < 2; rank++) {
            int32_t one = 1;
            refused = at;
            int32_t code = wz_shared_post(&shared, rank, 0, &sum, &one, sizeof one, &requests[rank]);
            refused = 0;
            HOLDS(code == WZ_DONE || (code == WZ_NO_MEMORY && wz_shared_reason(&shared, rank).code == WZ_NO_MEMORY));
            if (code == WZ_DONE) continue;
            refusals++;
            HOLDS(wz_shared_post(&shared, rank, 0, &sum, &one, sizeof one, &requests[rank]) == WZ_DONE);
        }
        for (uint8_t rank = 0; rank < 2; rank++) {
            int32_t got = 0;
            size_t count = 9;
            WITH_LITTLE(wz_shared_wait(&shared, rank, &requests[rank], &got, sizeof got, &count), requests[rank].generation != 0);
            HOLDS(got == 2 && count == 4);
        }
        HOLDS(wz_shared_close(&shared) == WZ_DONE);
    }
}

int main(void) {
    sums(1);
    sums(600); /* long enough to be shared, not copied */
    counted();
    outside();
    kept();
    shim();
    HOLDS(refusals > 50);
    puts("memory: all as it should be");
    return 0;
}
