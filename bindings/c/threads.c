/* Ranks as threads: many posts, a persistent loop, overlap, communicators of some ranks, allgathervs, long rows that are combined
   with the lock free, lists of requests, refusals with their reasons, and stalls that are told.
   threads RANKS TIMES [quiet]: without `quiet` it prints the microseconds of an allreduce. */
#include <sched.h>
#include <stdio.h>
#include <stdlib.h>
#include <time.h>

#include "check.h"
#include "worzsunab_threads.h"

static wz_shared shared;
static int ranks = 4, times = 1000, quiet;
static pthread_barrier_t together;

static double now(void) {
    struct timespec t;
    clock_gettime(CLOCK_MONOTONIC, &t);
    return (double)t.tv_sec * 1e6 + (double)t.tv_nsec / 1e3;
}

static const wz_call allreduce = { WZ_ALLREDUCE, WZ_SUM, WZ_INT32, 0, 1 };

/* The sum of all ranks, for one that gives its number plus i. */
static int32_t sum_at(int32_t i) { return ranks * (ranks - 1) / 2 + ranks * i; }

static void once(uint8_t me) {
    double from = now();
    for (int32_t i = 0; i < times; i++) {
        int32_t mine = me + i, sum = -1;
        size_t count = 0;
        wz_request request;
        DONE(wz_shared_post(&shared, me, 0, &allreduce, &mine, sizeof mine, &request));
        DONE(wz_shared_wait(&shared, me, &request, &sum, sizeof sum, &count));
        HOLDS(count == sizeof sum && sum == sum_at(i) && request.generation == 0);
    }
    if (me == 0 && !quiet) printf("allreduce of 1 int32, %d ranks: %.2f us\n", ranks, (now() - from) / times);
}

static void persistent(uint8_t me) {
    wz_request request;
    DONE(wz_shared_init(&shared, me, 0, &allreduce, &request));
    double from = now();
    for (int32_t i = 0; i < times; i++) {
        int32_t mine = me + i, sum = -1;
        size_t count = 0;
        DONE(wz_shared_start(&shared, me, &request, &mine, sizeof mine));
        DONE(wz_shared_wait(&shared, me, &request, &sum, sizeof sum, &count));
        HOLDS(sum == sum_at(i) && request.generation != 0);
    }
    if (me == 0 && !quiet) printf("persistent: %.2f us\n", (now() - from) / times);
    DONE(wz_shared_free(&shared, me, &request));
    HOLDS(request.generation == 0);
}

/* Eight collectives are under way at once, and are completed in the other order. */
static void overlap(uint8_t me) {
    enum { MANY = 8 };
    wz_request requests[MANY];
    for (int32_t i = 0; i < MANY; i++) {
        int32_t mine = me + i;
        DONE(wz_shared_post(&shared, me, 0, &allreduce, &mine, sizeof mine, &requests[i]));
    }
    for (int32_t i = MANY; i-- > 0;) {
        int32_t sum = -1;
        size_t count = 0;
        int32_t code = wz_shared_test(&shared, me, &requests[i], &sum, sizeof sum, &count);
        if (code == WZ_PENDING) code = wz_shared_wait(&shared, me, &requests[i], &sum, sizeof sum, &count);
        DONE(code);
        HOLDS(sum == sum_at(i));
    }
}

/* Communicator 1 has the ranks from the last to the first: member 0 is the last rank. */
static void reversed(uint8_t me) {
    wz_call bcast = { WZ_BCAST, WZ_NO_OPERATION, WZ_INT32, 0, 1 };
    wz_call gather = { WZ_GATHER, WZ_NO_OPERATION, WZ_INT32, 0, 1 };
    int32_t mine = me, got = -1, all[64];
    size_t count = 0;
    wz_request request;
    int is_root = me == ranks - 1;
    DONE(wz_shared_post(&shared, me, 1, &bcast, &mine, is_root ? sizeof mine : 0, &request));
    DONE(wz_shared_wait(&shared, me, &request, &got, sizeof got, &count));
    HOLDS(got == ranks - 1);
    DONE(wz_shared_post(&shared, me, 1, &gather, &mine, sizeof mine, &request));
    DONE(wz_shared_wait(&shared, me, &request, all, sizeof all, &count));
    HOLDS(count == (is_root ? (size_t)ranks * sizeof mine : 0));
    for (int i = 0; is_root && i < ranks; i++) HOLDS(all[i] == ranks - 1 - i);
}

/* Rank r gives r + 1 numbers, and all get what all give. */
static void counted(uint8_t me) {
    uint32_t counts[64];
    int32_t mine[64], all[64 * 65 / 2];
    size_t total = 0, at = 0, count = 0;
    wz_request request;
    for (int r = 0; r < ranks; r++) total += counts[r] = (uint32_t)r + 1;
    for (int i = 0; i <= me; i++) mine[i] = 100 * me + i;
    DONE(wz_shared_post_allgatherv(&shared, me, 0, WZ_INT32, counts, (size_t)ranks, mine, 4 * counts[me], &request));
    DONE(wz_shared_wait(&shared, me, &request, all, sizeof all, &count));
    HOLDS(count == 4 * total);
    for (int r = 0; r < ranks; r++)
        for (int i = 0; i <= r; i++) HOLDS(all[at++] == 100 * r + i);
    DONE(wz_shared_init_allgatherv(&shared, me, 0, WZ_INT32, counts, (size_t)ranks, &request));
    DONE(wz_shared_start(&shared, me, &request, mine, 4 * counts[me]));
    DONE(wz_shared_wait(&shared, me, &request, all, sizeof all, &count));
    HOLDS(count == 4 * total && all[0] == 0);
    DONE(wz_shared_free(&shared, me, &request));
}

/* Rows so long that they are combined with the lock free, while short ones go on. */
static void long_rows(uint8_t me) {
    enum { LONG = 5000, ROUNDS = 8 };
    static int32_t rows[64][LONG], sums[64][LONG];
    int32_t *row = rows[me], *sum = sums[me];
    wz_call of_rows = { WZ_ALLREDUCE, WZ_SUM, WZ_INT32, 0, LONG };
    wz_call prefixes = { WZ_SCAN, WZ_MAX, WZ_INT32, 0, LONG };
    for (int round = 0; round < ROUNDS; round++) {
        wz_request whole, prefix, one;
        int32_t mine = me + round, all = -1;
        size_t count = 0;
        for (int i = 0; i < LONG; i++) row[i] = me + round + i;
        DONE(wz_shared_post(&shared, me, 0, &of_rows, row, sizeof rows[0], &whole));
        DONE(wz_shared_post(&shared, me, 0, &prefixes, row, sizeof rows[0], &prefix));
        DONE(wz_shared_post(&shared, me, 0, &allreduce, &mine, sizeof mine, &one));
        DONE(wz_shared_wait(&shared, me, &one, &all, sizeof all, &count));
        HOLDS(all == sum_at(round));
        DONE(wz_shared_wait(&shared, me, &whole, sum, sizeof sums[0], &count));
        for (int i = 0; i < LONG; i++) HOLDS(sum[i] == sum_at(round + i));
        DONE(wz_shared_wait(&shared, me, &prefix, sum, sizeof sums[0], &count));
        for (int i = 0; i < LONG; i++) HOLDS(sum[i] == me + round + i);
    }
}

/* Sums of a list, all started at once, and waited for, or tested until all are completed: together, one by one, and as many as are done. */
static void lists(uint8_t me) {
    enum { MANY = 3 };
    wz_part parts[MANY];
    int32_t given[MANY], sums[MANY];
    size_t started = 9, index = 9, some = 9, completed = 0, length = 9;
    wz_about_request about;
    wz_posted posted;
    uint8_t phase = 9;
    for (size_t i = 0; i < MANY; i++) {
        parts[i] = (wz_part){ WZ_NULL_REQUEST, 4 * i, 4, 0, false };
        DONE(wz_shared_init(&shared, me, 0, &allreduce, &parts[i].request));
        given[i] = me + (int32_t)i;
    }
    DONE(wz_shared_about(&shared, me, &parts[1].request, &about));
    DONE(wz_shared_posted_at(&shared, 0, about.place, &posted));
    DONE(wz_shared_outcome_length(&shared, me, &parts[1].request, &length));
    DONE(wz_shared_phase(&shared, me, &parts[1].request, &phase));
    HOLDS(about.rank == me && about.persistent && posted.call.kind == WZ_ALLREDUCE && length == 4 && phase == WZ_IDLE);
    for (int32_t round = 0; round < 20; round++) {
        DONE(wz_shared_start_all(&shared, me, parts, MANY, given, sizeof given, &started));
        HOLDS(started == MANY);
        HOLDS(wz_shared_start_all(&shared, me, parts, MANY, given, sizeof given, &started) == WZ_ACTIVE && started == 0);
        int32_t code = WZ_PENDING;
        for (completed = 0; completed < MANY; sched_yield()) {
            if (round % 4 == 0) code = wz_shared_wait_all(&shared, me, parts, MANY, sums, sizeof sums);
            if (round % 4 == 1) code = wz_shared_test_all(&shared, me, parts, MANY, sums, sizeof sums);
            if (round % 4 == 2) code = wz_shared_test_any(&shared, me, parts, MANY, sums, sizeof sums, &index);
            if (round % 4 == 3) code = wz_shared_test_some(&shared, me, parts, MANY, sums, sizeof sums, &some);
            if (code == WZ_PENDING && round % 4 != 0) continue;
            DONE(code);
            completed += round % 4 < 2 ? MANY : round % 4 == 2 ? 1 : some;
        }
        for (int32_t i = 0; i < MANY; i++) HOLDS(sums[i] == sum_at(i));
    }
    for (size_t i = 0; i < MANY; i++) DONE(wz_shared_free(&shared, me, &parts[i].request));
}

/* Each rank is told why its own call was refused. */
static void refused(uint8_t me) {
    int32_t number = 0;
    wz_request request;
    HOLDS(wz_shared_reason(&shared, me).code == 0);
    HOLDS(wz_shared_post(&shared, me, 100u + me, &allreduce, &number, 4, &request) == WZ_BAD_COMM);
    pthread_barrier_wait(&together);
    HOLDS(wz_shared_reason(&shared, me).code == WZ_BAD_COMM && wz_shared_reason(&shared, me).comm == 100u + me);
}

/* Every rank waits for a barrier of its own, which the others never post: all are told. */
static void stall(uint8_t me) {
    wz_call barrier = { WZ_BARRIER, WZ_NO_OPERATION, WZ_BYTE, 0, 0 };
    size_t count = 0;
    wz_request request;
    pthread_barrier_wait(&together);
    if (me == 0) {
        wz_shared_leave(&shared, me);
        return;
    }
    DONE(wz_shared_post(&shared, me, 0, &barrier, NULL, 0, &request));
    HOLDS(wz_shared_wait(&shared, me, &request, NULL, 0, &count) == WZ_STALLED);
    wz_part part = { request, 0, 0, 0, false };
    HOLDS(wz_shared_wait_all(&shared, me, &part, 1, NULL, 0) == WZ_STALLED && part.request.generation != 0);
}

/* crossed_barriers: rank 0 waits for a barrier of communicator 1, rank 1 for one of communicator 2, and neither has posted the other's. */
static wz_shared crossed;

static void *crossed_rank(void *number) {
    uint8_t me = (uint8_t)(size_t)number;
    wz_call barrier = { WZ_BARRIER, WZ_NO_OPERATION, WZ_BYTE, 0, 0 };
    wz_request first, second;
    size_t count = 0;
    DONE(wz_shared_post(&crossed, me, 1u + me, &barrier, NULL, 0, &first));
    HOLDS(wz_shared_wait(&crossed, me, &first, NULL, 0, &count) == WZ_STALLED);
    DONE(wz_shared_post(&crossed, me, 2u - me, &barrier, NULL, 0, &second));
    DONE(wz_shared_wait(&crossed, me, &first, NULL, 0, &count)); /* a stall isn't the end: now both have posted both */
    DONE(wz_shared_wait(&crossed, me, &second, NULL, 0, &count));
    return NULL;
}

static void crossed_barriers(void) {
    uint8_t members[6] = { 0, 1, 0, 1, 0, 1 }, sizes[3] = { 2, 2, 2 };
    wz_limits limits = wz_greatest_limits(2);
    pthread_t threads[2];
    DONE(wz_shared_open(&crossed, &limits, sizes, 3, members, 6));
    for (size_t i = 0; i < 2; i++) pthread_create(&threads[i], NULL, crossed_rank, (void *)i);
    for (int i = 0; i < 2; i++) pthread_join(threads[i], NULL);
    DONE(wz_shared_close(&crossed));
}

/* Calls are numbered in the order in which the engine takes them: a rank's numbers rise, and no two calls have one. */
static uint64_t counter;

static void numbered(uint8_t me) {
    static uint64_t numbers[64][16];
    uint64_t *mine = numbers[me];
    for (int i = 0; i < 8; i++) {
        int32_t one = 1, sum = 0;
        size_t count = 0;
        wz_request request;
        DONE(wz_shared_post(&shared, me, 0, &allreduce, &one, sizeof one, &request));
        mine[2 * i] = wz_shared_call_number(&shared, me);
        wz_request refused;
        HOLDS(wz_shared_post(&shared, me, 9, &allreduce, &one, sizeof one, &refused) == WZ_BAD_COMM);
        HOLDS(wz_shared_call_number(&shared, me) == mine[2 * i]); /* a refused one has none */
        DONE(wz_shared_wait(&shared, me, &request, &sum, sizeof sum, &count));
        mine[2 * i + 1] = wz_shared_call_number(&shared, me);
    }
    for (int i = 1; i < 16; i++) HOLDS(mine[i] > mine[i - 1]);
    pthread_barrier_wait(&together);
    for (int r = 0; me == 0 && r < ranks; r++)
        for (int i = 0; i < 16; i++)
            for (int q = 0; q < r; q++)
                for (int j = 0; j < 16; j++) HOLDS(numbers[r][i] != numbers[q][j] && numbers[r][i] < counter);
    pthread_barrier_wait(&together);
}

/* A thread that plays no rank sees how far a request is, and whether anything can be done without a call of a rank. */
static void watched(void) {
    static wz_shared pair;
    wz_call barrier = { WZ_BARRIER, WZ_NO_OPERATION, WZ_BYTE, 0, 0 };
    wz_request requests[2], gone;
    uint8_t phase = 9;
    bool rests = false;
    size_t count = 0;
    HOLDS(wz_shared_watch(&pair, 0, NULL, &phase, &rests) == WZ_CLOSED);
    HOLDS(wz_shared_post(&pair, 0, 0, &barrier, NULL, 0, &requests[0]) == WZ_CLOSED && wz_shared_close(&pair) == WZ_CLOSED);
    DONE(wz_shared_open_world(&pair, 2));
    DONE(wz_shared_post(&pair, 0, 0, &barrier, NULL, 0, &requests[0]));
    gone = requests[0];
    DONE(wz_shared_watch(&pair, 0, &requests[0], &phase, &rests));
    HOLDS(phase == WZ_IS_PENDING && rests);
    HOLDS(wz_shared_watch(&pair, 1, &requests[0], &phase, &rests) == WZ_NOT_YOURS);
    DONE(wz_shared_post(&pair, 1, 0, &barrier, NULL, 0, &requests[1]));
    DONE(wz_shared_wait(&pair, 0, &requests[0], NULL, 0, &count));
    DONE(wz_shared_watch(&pair, 1, &requests[1], &phase, &rests));
    HOLDS(phase == WZ_IS_DONE && rests);
    HOLDS(wz_shared_watch(&pair, 0, &gone, &phase, &rests) == WZ_STALE);
    rests = false;
    DONE(wz_shared_watch(&pair, 0, NULL, NULL, &rests));
    HOLDS(rests);
    DONE(wz_shared_close(&pair));
}

static void *rank(void *number) {
    uint8_t me = (uint8_t)(size_t)number;
    once(me);
    persistent(me);
    overlap(me);
    reversed(me);
    refused(me);
    lists(me);
    counted(me);
    long_rows(me);
    numbered(me);
    stall(me);
    return NULL;
}

int main(int argc, char **argv) {
    pthread_t threads[64];
    uint8_t members[128], sizes[2];
    if (argc > 1) ranks = atoi(argv[1]);
    if (argc > 2) times = atoi(argv[2]);
    quiet = argc > 3;
    HOLDS(ranks >= 1 && ranks <= 64);
    for (int i = 0; i < ranks; i++) {
        members[i] = (uint8_t)i;
        members[ranks + i] = (uint8_t)(ranks - 1 - i);
    }
    sizes[0] = sizes[1] = (uint8_t)ranks;
    wz_limits limits = wz_greatest_limits((uint32_t)ranks);
    DONE(wz_shared_open(&shared, &limits, sizes, 2, members, 2 * (size_t)ranks));
    wz_shared_number_calls(&shared, &counter);
    pthread_barrier_init(&together, NULL, (unsigned)ranks);
    for (size_t i = 0; i < (size_t)ranks; i++) pthread_create(&threads[i], NULL, rank, (void *)i);
    for (int i = 0; i < ranks; i++) pthread_join(threads[i], NULL);
    pthread_barrier_destroy(&together);
    uint64_t lent = 9;
    DONE(wz_shared_lent(&shared, &lent));
    HOLDS(lent == 0); /* of the stall's barriers, which have no bytes */
    DONE(wz_shared_close(&shared));
    crossed_barriers();
    watched();
    puts("threads: all as it should be");
    return 0;
}
