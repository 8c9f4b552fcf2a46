/* Overlap of the C library, whose ranks are threads: RANKS THREADS clock|work TESTS [COLLECTIVE BYTES PERCENT].., with THREADS progress
 * threads; see overlap.c. */
#include <stdio.h>
#include <stdlib.h>

#include "overlap.h"
#include "worzsunab_threads.h"

static wz_shared shared;

static void must(int32_t code) {
    if (code == WZ_DONE) return;
    fprintf(stderr, "overlap_library: %s\n", wz_message(code));
    exit(1);
}

void post_collective(struct rank *rank, struct collective collective) {
    wz_request *request = rank->request;
    uint8_t me = (uint8_t)rank->number;
    uint32_t count = (uint32_t)(collective.bytes / 8);
    switch (collective.kind) {
    case ALLREDUCE: must(wz_iallreduce(&shared, me, 0, rank->given, rank->taken, count, WZ_INT64, WZ_SUM, request)); break;
    case BCAST: must(wz_ibcast(&shared, me, 0, me == 0 ? rank->given : rank->taken, count, WZ_INT64, 0, request)); break;
    case ALLTOALL: must(wz_ialltoall(&shared, me, 0, rank->given, rank->taken, count, WZ_INT64, request)); break;
    default: must(wz_ibarrier(&shared, me, 0, request));
    }
}

bool test_request(struct rank *rank) {
    int32_t code = wz_try(&shared, (uint8_t)rank->number, rank->request);
    if (code != WZ_PENDING) must(code);
    return code == WZ_DONE;
}

void wait_for_request(struct rank *rank) { must(wz_wait(&shared, (uint8_t)rank->number, rank->request)); }

int64_t greatest(struct rank *rank, int64_t number) {
    int64_t all = 0;
    wz_request request;
    must(wz_iallreduce(&shared, (uint8_t)rank->number, 0, &number, &all, 1, WZ_INT64, WZ_MAX, &request));
    must(wz_wait(&shared, (uint8_t)rank->number, &request));
    return all;
}

struct thread {
    struct rank rank;
    wz_request request;
    const struct plan *plan;
    pthread_t thread;
};

static void *run_rank(void *argument) {
    struct thread *me = argument;
    me->rank.request = &me->request;
    measure(&me->rank, me->plan);
    wz_shared_leave(&shared, (uint8_t)me->rank.number);
    return NULL;
}

int main(int words, char **word) {
    static struct thread threads[64];
    int ranks = words > 1 ? atoi(word[1]) : 0, progress = words > 2 ? atoi(word[2]) : 0;
    struct plan *plan = words > 3 ? plan_of(words - 2, word + 2) : NULL;
    if (plan == NULL || ranks < 1 || ranks > 64) {
        fprintf(stderr, "usage: overlap_library RANKS THREADS clock|work TESTS [COLLECTIVE BYTES PERCENT]..\n");
        return 2;
    }
    must(wz_shared_open_world(&shared, (uint8_t)ranks));
    must(wz_shared_progress(&shared, (uint32_t)progress));
    for (int i = 0; i < ranks; i++) {
        threads[i].rank = (struct rank){ .number = i, .ranks = ranks };
        threads[i].plan = plan;
        if (pthread_create(&threads[i].thread, NULL, run_rank, &threads[i]) != 0) {
            fprintf(stderr, "overlap_library: no thread\n");
            return 1;
        }
    }
    for (int i = 0; i < ranks; i++) pthread_join(threads[i].thread, NULL);
    must(wz_shared_close(&shared));
    return 0;
}
