/* A call per collective, in MPI's order of arguments, nonblocking and persistent, with its value at each rank.
   calls RANKS [ROUNDS] */
#include <sched.h>
#include <stdio.h>
#include <stdlib.h>

#include "check.h"
#include "worzsunab_threads.h"

static wz_shared shared;
static int ranks = 3, rounds = 20;

enum { MOST = 8 };

/* What rank r gives as its i-th number, and the sum of those of the ranks below `end`. */
static int32_t given(int r, int i) { return 100 * r + i; }

static int32_t sum_below(int end, int i) {
    int32_t sum = 0;
    for (int r = 0; r < end; r++) sum += given(r, i);
    return sum;
}

static void rooted(uint8_t me, uint8_t root) {
    int32_t mine[MOST], all[MOST], one = me == root ? 7 : -1, got = -1;
    wz_request request;
    for (int i = 0; i < MOST; i++) mine[i] = given(me, i);
    DONE(wz_ibcast(&shared, me, 0, &one, 1, WZ_INT32, root, &request));
    DONE(wz_wait(&shared, me, &request));
    HOLDS(one == 7 && request.generation == 0);
    DONE(wz_igather(&shared, me, 0, mine, me == root ? all : NULL, 1, WZ_INT32, root, &request));
    DONE(wz_wait(&shared, me, &request));
    for (int r = 0; me == root && r < ranks; r++) HOLDS(all[r] == given(r, 0));
    DONE(wz_iscatter(&shared, me, 0, me == root ? mine : NULL, &got, 1, WZ_INT32, root, &request));
    DONE(wz_wait(&shared, me, &request));
    HOLDS(got == given(root, me));
    got = -1;
    DONE(wz_ireduce(&shared, me, 0, mine, me == root ? &got : NULL, 1, WZ_INT32, WZ_SUM, root, &request));
    DONE(wz_wait(&shared, me, &request));
    HOLDS(got == (me == root ? sum_below(ranks, 0) : -1));
}

static void of_all(uint8_t me) {
    int32_t mine[MOST], all[MOST] = { 0 }, got = -1;
    wz_request requests[4];
    size_t index;
    for (int i = 0; i < MOST; i++) mine[i] = given(me, i);
    DONE(wz_ibarrier(&shared, me, 0, &requests[0]));
    DONE(wz_iallgather(&shared, me, 0, &mine[2], all, 1, WZ_INT32, &requests[1]));
    DONE(wz_wait_all(&shared, me, 2, requests));
    for (int r = 0; r < ranks; r++) HOLDS(all[r] == given(r, 2));
    DONE(wz_ialltoall(&shared, me, 0, mine, all, 1, WZ_INT32, &requests[0]));
    DONE(wz_ireduce_scatter_block(&shared, me, 0, mine, &got, 1, WZ_INT32, WZ_SUM, &requests[1]));
    for (int left = 2; left > 0; left--) {
        DONE(wz_wait_any(&shared, me, 2, requests, &index));
        HOLDS(index < 2 && requests[index].generation == 0);
    }
    DONE(wz_wait_any(&shared, me, 2, requests, &index));
    HOLDS(index == WZ_UNDEFINED);
    for (int r = 0; r < ranks; r++) HOLDS(all[r] == given(r, me));
    HOLDS(got == sum_below(ranks, me));
    DONE(wz_iallreduce(&shared, me, 0, &mine[1], &mine[1], 1, WZ_INT32, WZ_SUM, &requests[0])); /* one buffer for both */
    while (wz_try(&shared, me, &requests[0]) == WZ_PENDING) sched_yield();
    HOLDS(mine[1] == sum_below(ranks, 1) && requests[0].generation == 0);
}

static void prefixes(uint8_t me) {
    int32_t mine = given(me, 3), upto = -1, before = -1;
    wz_request requests[2];
    DONE(wz_iscan(&shared, me, 0, &mine, &upto, 1, WZ_INT32, WZ_SUM, &requests[0]));
    DONE(wz_iexscan(&shared, me, 0, &mine, &before, 1, WZ_INT32, WZ_SUM, &requests[1]));
    mine = 0; /* it was copied */
    DONE(wz_wait_all(&shared, me, 2, requests));
    HOLDS(upto == sum_below(me + 1, 3) && before == (me == 0 ? -1 : sum_below(me, 3)));
}

static void counted(uint8_t me) {
    uint32_t counts[MOST];
    int16_t mine[MOST], all[MOST * MOST], *from = all;
    wz_request request;
    for (int r = 0; r < ranks; r++) counts[r] = (uint32_t)r;
    for (int start = 0; start < 2; start++) {
        for (int i = 0; i < me; i++) mine[i] = (int16_t)given(me, i + start);
        if (start == 0) DONE(wz_iallgatherv(&shared, me, 0, mine, all, counts, WZ_INT16, &request));
        else DONE(wz_allgatherv_init(&shared, me, 0, mine, all, counts, WZ_INT16, &request));
        if (start == 1) DONE(wz_begin(&shared, me, &request));
        DONE(wz_wait(&shared, me, &request));
        from = all;
        for (int r = 0; r < ranks; r++)
            for (int i = 0; i < r; i++) HOLDS(*from++ == given(r, i + start));
    }
    DONE(wz_shared_free(&shared, me, &request));
}

/* Persistent ones: each is started three times with what its buffer has then. */
static void persistent(uint8_t me) {
    enum { KINDS = 11 };
    wz_request requests[KINDS];
    int32_t mine[MOST] = { 0 }, out[KINDS][MOST];
    DONE(wz_barrier_init(&shared, me, 0, &requests[0]));
    DONE(wz_bcast_init(&shared, me, 0, out[1], 1, WZ_INT32, 1, &requests[1]));
    DONE(wz_gather_init(&shared, me, 0, mine, out[2], 1, WZ_INT32, 1, &requests[2]));
    DONE(wz_scatter_init(&shared, me, 0, mine, out[3], 1, WZ_INT32, 1, &requests[3]));
    DONE(wz_allgather_init(&shared, me, 0, mine, out[4], 1, WZ_INT32, &requests[4]));
    DONE(wz_alltoall_init(&shared, me, 0, mine, out[5], 1, WZ_INT32, &requests[5]));
    DONE(wz_reduce_init(&shared, me, 0, mine, out[6], 1, WZ_INT32, WZ_MAX, 1, &requests[6]));
    DONE(wz_allreduce_init(&shared, me, 0, mine, out[7], 1, WZ_INT32, WZ_MIN, &requests[7]));
    DONE(wz_reduce_scatter_block_init(&shared, me, 0, mine, out[8], 1, WZ_INT32, WZ_SUM, &requests[8]));
    DONE(wz_scan_init(&shared, me, 0, mine, out[9], 1, WZ_INT32, WZ_SUM, &requests[9]));
    DONE(wz_exscan_init(&shared, me, 0, mine, out[10], 1, WZ_INT32, WZ_SUM, &requests[10]));
    for (int start = 0; start < 3; start++) {
        for (int i = 0; i < MOST; i++) mine[i] = given(me, i) + start;
        out[1][0] = me == 1 ? 50 + start : -1;
        for (int i = 0; i < KINDS; i++) DONE(wz_begin(&shared, me, &requests[i]));
        DONE(wz_wait_all(&shared, me, KINDS, requests));
        HOLDS(out[1][0] == 50 + start && out[3][0] == given(1, me) + start && out[7][0] == start);
        for (int r = 0; r < ranks; r++) HOLDS(out[4][r] == given(r, 0) + start && out[5][r] == given(r, me) + start);
        HOLDS(me != 1 || (out[2][0] == start && out[6][0] == given(ranks - 1, 0) + start));
        HOLDS(out[8][0] == sum_below(ranks, me) + ranks * start && out[9][0] == sum_below(me + 1, 0) + (me + 1) * start);
        HOLDS(me == 0 || out[10][0] == sum_below(me, 0) + me * start);
    }
    for (int i = 0; i < KINDS; i++) DONE(wz_shared_free(&shared, me, &requests[i]));
}

/* What is wrong is told as wz_shared_post tells it; a request without buffers has no room. */
static void refused(uint8_t me) {
    int32_t one = 1, got = 0;
    size_t count;
    wz_request request;
    HOLDS(wz_iallreduce(&shared, me, 99, &one, &got, 1, WZ_INT32, WZ_SUM, &request) == WZ_BAD_COMM);
    HOLDS(wz_iallreduce(&shared, me, 0, &one, &got, 1, 77, WZ_SUM, &request) == WZ_BAD_NUMBER);
    HOLDS(wz_ibcast(&shared, me, 0, &one, 1, WZ_INT32, 77, &request) == WZ_BAD_SIGNATURE);
    HOLDS(wz_ireduce(&shared, me, 1, &one, &got, 1, WZ_INT32, WZ_SUM, 0, &request) == (me == 0 ? WZ_DONE : WZ_NOT_MEMBER));
    if (me == 0) DONE(wz_wait(&shared, me, &request));
    wz_call sum = { WZ_ALLREDUCE, WZ_SUM, WZ_INT32, 0, 1 };
    DONE(wz_shared_post(&shared, me, 0, &sum, &one, sizeof one, &request));
    HOLDS(wz_wait(&shared, me, &request) == WZ_BAD_LENGTH);
    DONE(wz_shared_wait(&shared, me, &request, &got, sizeof got, &count));
    DONE(wz_wait(&shared, me, &request)); /* a null one is complete */
    HOLDS(got == ranks && wz_begin(&shared, me, &request) == WZ_STALE);
}

static void *rank(void *number) {
    uint8_t me = (uint8_t)(size_t)number;
    for (int round = 0; round < rounds; round++) {
        for (int root = 0; root < ranks; root++) rooted(me, (uint8_t)root);
        of_all(me);
        prefixes(me);
        counted(me);
    }
    persistent(me);
    refused(me);
    wz_shared_leave(&shared, me);
    return NULL;
}

int main(int argc, char **argv) {
    pthread_t threads[MOST];
    uint8_t members[MOST + 1], sizes[2];
    if (argc > 1) ranks = atoi(argv[1]);
    if (argc > 2) rounds = atoi(argv[2]);
    HOLDS(ranks >= 2 && ranks <= MOST);
    for (int i = 0; i < ranks; i++) members[i] = (uint8_t)i;
    members[ranks] = 0; /* communicator 1 has rank 0 alone */
    sizes[0] = (uint8_t)ranks;
    sizes[1] = 1;
    wz_limits limits = wz_greatest_limits((uint32_t)ranks);
    DONE(wz_shared_open(&shared, &limits, sizes, 2, members, (size_t)ranks + 1));
    for (size_t i = 0; i < (size_t)ranks; i++) pthread_create(&threads[i], NULL, rank, (void *)i);
    for (int i = 0; i < ranks; i++) pthread_join(threads[i], NULL);
    DONE(wz_shared_close(&shared));
    puts("calls: all as it should be");
    return 0;
}
