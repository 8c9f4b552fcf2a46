/* Random programs: all ranks post the same collectives of two communicators in one order, short and long, and each completes its own by random
   waits and tests, in random order, with random pauses. Each outcome is compared.
   mixed RANKS ROUNDS SEED */
#include <sched.h>
#include <stdio.h>
#include <stdlib.h>
#include <string.h>

#include "check.h"
#include "worzsunab_threads.h"

enum { MOST = 8, LIVE = 6, LONGEST = 3000 };

static wz_shared shared;
static int ranks = 4, rounds = 100;
static uint32_t first = 1;

static uint32_t next(uint32_t *seed) {
    *seed = *seed * 1664525u + 1013904223u;
    return *seed >> 8;
}

/* A collective that is under way. */
typedef struct posted {
    int kind; /* 0 an allreduce, 1 a bcast, 2 an alltoall */
    int comm, count, number;
    int32_t *out;
} posted;

/* The sum of what the members of the communicator give at a place, who are all or all but the last rank. */
static int32_t wanted(const posted *call, int me, int at) {
    int members = call->comm == 0 ? ranks : ranks - 1;
    if (call->kind == 0) return members * (members - 1) / 2 + members * (call->number + at);
    if (call->kind == 1) return call->number + at;
    return at / call->count + call->number + me * call->count + at % call->count;
}

static void post(uint8_t me, posted *call, wz_request *request) {
    int members = call->comm == 0 ? ranks : ranks - 1, length = call->kind == 2 ? members * call->count : call->count;
    static __thread int32_t given[MOST * LONGEST];
    for (int i = 0; i < length; i++) given[i] = (call->kind == 1 ? 0 : me) + call->number + i;
    uint32_t comm = (uint32_t)call->comm, count = (uint32_t)call->count;
    if (call->kind == 0) DONE(wz_iallreduce(&shared, me, comm, given, call->out, count, WZ_INT32, WZ_SUM, request));
    if (call->kind == 2) DONE(wz_ialltoall(&shared, me, comm, given, call->out, count, WZ_INT32, request));
    if (call->kind != 1) return;
    memcpy(call->out, given, 4 * (size_t)call->count);
    if (me != 0) memset(call->out, 0, 4 * (size_t)call->count);
    DONE(wz_ibcast(&shared, me, comm, call->out, count, WZ_INT32, 0, request));
}

static void check(uint8_t me, const posted *call) {
    int members = call->comm == 0 ? ranks : ranks - 1, length = call->kind == 2 ? members * call->count : call->count;
    for (int i = 0; i < length; i++) HOLDS(call->out[i] == wanted(call, me, i));
}

/* Completes what is under way, by one call after the other. */
static void complete(uint8_t me, posted *calls, wz_request *requests, int many, uint32_t *seed) {
    for (int left = many; left > 0;) {
        size_t index = next(seed) % (uint32_t)many;
        int32_t code = WZ_DONE;
        if (requests[index].generation == 0) continue;
        switch (next(seed) % 4) {
        case 0: code = wz_wait(&shared, me, &requests[index]); break;
        case 1: code = wz_try(&shared, me, &requests[index]); break;
        case 2: code = wz_wait_any(&shared, me, (size_t)many, requests, &index); break;
        default:
            if (next(seed) % 8 == 0) sched_yield();
            continue;
        }
        if (code == WZ_PENDING) continue;
        DONE(code);
        check(me, &calls[index]);
        left--;
    }
}

static void *rank(void *number) {
    uint8_t me = (uint8_t)(size_t)number;
    static int32_t outs[MOST][LIVE][MOST * LONGEST];
    uint32_t common = first, own = first + 1000u * (me + 1u);
    for (int round = 0; round < rounds; round++) {
        posted calls[LIVE];
        wz_request requests[LIVE];
        int many = 1 + (int)(next(&common) % LIVE), mine = 0;
        for (int i = 0; i < many; i++) {
            int kind = (int)(next(&common) % 3), comm = (int)(next(&common) % 2), is_long = next(&common) % 4 == 0;
            int count = 1 + (int)(next(&common) % (is_long ? LONGEST - 1 : 20)), about = (int)(next(&common) % 1000);
            if (comm == 1 && me == ranks - 1) continue;
            calls[mine] = (posted){ kind, comm, count, about, outs[me][mine] };
            post(me, &calls[mine], &requests[mine]);
            mine++;
        }
        complete(me, calls, requests, mine, &own);
    }
    wz_shared_leave(&shared, me);
    return NULL;
}

int main(int argc, char **argv) {
    pthread_t threads[MOST];
    uint8_t members[2 * MOST], sizes[2];
    if (argc > 1) ranks = atoi(argv[1]);
    if (argc > 2) rounds = atoi(argv[2]);
    if (argc > 3) first = (uint32_t)atoi(argv[3]);
    HOLDS(ranks >= 2 && ranks <= MOST);
    for (int i = 0; i < ranks; i++) members[i] = members[ranks + i] = (uint8_t)i;
    sizes[0] = (uint8_t)ranks;
    sizes[1] = (uint8_t)(ranks - 1);
    wz_limits limits = wz_greatest_limits((uint32_t)ranks);
    DONE(wz_shared_open(&shared, &limits, sizes, 2, members, 2 * (size_t)ranks - 1));
    for (size_t i = 0; i < (size_t)ranks; i++) pthread_create(&threads[i], NULL, rank, (void *)i);
    for (int i = 0; i < ranks; i++) pthread_join(threads[i], NULL);
    uint64_t lent = 9;
    DONE(wz_shared_lent(&shared, &lent));
    HOLDS(lent == 0);
    DONE(wz_shared_close(&shared));
    puts("mixed: all as it should be");
    return 0;
}
