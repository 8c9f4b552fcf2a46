/* Waits for one or some requests of a list: what each completes, that a rank in one counts as blocked, and that a stall is told to it.
   waits RANKS [ROUNDS] */
#include <stdio.h>
#include <stdlib.h>
#include <unistd.h>

#include "check.h"
#include "worzsunab_threads.h"

static wz_shared shared;
static int ranks = 2, rounds = 50;
static pthread_barrier_t together;

enum { MANY = 8 };

static const wz_call bcast = { WZ_BCAST, WZ_NO_OPERATION, WZ_INT32, 0, 1 };
static const wz_call barrier = { WZ_BARRIER, WZ_NO_OPERATION, WZ_BYTE, 0, 0 };

/* Posts bcasts of the numbers from `from` on, each with a span of its own; the last two parts stay null. */
static void post_all(uint8_t me, wz_part *parts, int32_t from) {
    for (int32_t i = 0; i < MANY; i++) {
        int32_t given = from + i;
        parts[i] = (wz_part){ WZ_NULL_REQUEST, sizeof given * (size_t)i, sizeof given, 0, false };
        if (i < MANY - 2) DONE(wz_shared_post(&shared, me, 0, &bcast, &given, me == 0 ? sizeof given : 0, &parts[i].request));
    }
}

/* Rank 0 posts one after the other, so the others are asleep in their waits for most of them. */
static void any(uint8_t me) {
    wz_part parts[MANY];
    int32_t got[MANY] = { 0 };
    size_t index = 99;
    post_all(me, parts, 10);
    for (size_t completed = 0; completed < MANY - 2; completed++) {
        DONE(wz_shared_wait_any(&shared, me, parts, MANY, got, sizeof got, &index));
        HOLDS(index < MANY - 2 && parts[index].completed && parts[index].count == 4 && parts[index].request.generation == 0);
        HOLDS(got[index] == 10 + (int32_t)index);
    }
    DONE(wz_shared_wait_any(&shared, me, parts, MANY, got, sizeof got, &index)); /* none is active any longer */
    HOLDS(index == WZ_UNDEFINED);
    DONE(wz_shared_wait_any(&shared, me, NULL, 0, NULL, 0, &index));
    HOLDS(index == WZ_UNDEFINED);
}

static void some(uint8_t me) {
    wz_part parts[MANY];
    int32_t got[MANY] = { 0 };
    size_t completed = 99, all = 0;
    post_all(me, parts, 20);
    while (all < MANY - 2) {
        DONE(wz_shared_wait_some(&shared, me, parts, MANY, got, sizeof got, &completed));
        HOLDS(completed >= 1 && completed <= MANY - 2);
        for (size_t i = 0; i < MANY; i++) HOLDS(!parts[i].completed || got[i] == 20 + (int32_t)i);
        all += completed;
    }
    DONE(wz_shared_wait_some(&shared, me, parts, MANY, got, sizeof got, &completed));
    HOLDS(completed == WZ_UNDEFINED);
}

/* Finds one that is done without completing it, then completes just that. */
static void for_any(uint8_t me) {
    wz_part parts[MANY];
    const wz_request *list[MANY];
    int32_t got[MANY] = { 0 };
    size_t index = 99, count = 99;
    post_all(me, parts, 30);
    for (size_t i = 0; i < MANY; i++) list[i] = &parts[i].request;
    for (size_t completed = 0; completed < MANY - 2; completed++) {
        uint8_t phase = 9;
        DONE(wz_shared_wait_for_any(&shared, me, list, MANY, &index));
        HOLDS(index < MANY - 2 && list[index]->generation != 0);
        DONE(wz_shared_phase(&shared, me, list[index], &phase));
        HOLDS(phase == WZ_IS_DONE);
        DONE(wz_shared_wait(&shared, me, &parts[index].request, &got[index], sizeof got[0], &count));
        HOLDS(got[index] == 30 + (int32_t)index && count == 4);
    }
    DONE(wz_shared_wait_for_any(&shared, me, list, MANY, &index));
    HOLDS(index == WZ_UNDEFINED);
}

/* Each waits for one of two: the second is one that all post, the first one that rank 0 posts once all have got the second. */
static void one_of_two(uint8_t me) {
    wz_part parts[2] = { { WZ_NULL_REQUEST, 0, 0, 0, false }, { WZ_NULL_REQUEST, 0, 4, 0, false } };
    wz_call sum = { WZ_ALLREDUCE, WZ_SUM, WZ_INT32, 0, 1 };
    int32_t one = 1, got = 0;
    size_t index = 99;
    if (me != 0) DONE(wz_shared_post(&shared, me, 1, &barrier, NULL, 0, &parts[0].request));
    DONE(wz_shared_post(&shared, me, 0, &sum, &one, sizeof one, &parts[1].request));
    DONE(wz_shared_wait_any(&shared, me, parts, 2, &got, sizeof got, &index));
    HOLDS(index == 1 && got == ranks);
    pthread_barrier_wait(&together);
    if (me == 0) DONE(wz_shared_post(&shared, me, 1, &barrier, NULL, 0, &parts[0].request));
    DONE(wz_shared_wait_any(&shared, me, parts, 2, &got, sizeof got, &index));
    HOLDS(index == 0);
}

/* The list's refusals are those of the tests; nothing is completed. */
static void refused(uint8_t me) {
    wz_part parts[2] = { { WZ_NULL_REQUEST, 0, 3, 0, false }, { WZ_NULL_REQUEST, 0, 3, 0, false } };
    const wz_request *list[1] = { &parts[0].request };
    wz_call own = { WZ_BCAST, WZ_NO_OPERATION, WZ_INT32, 0, 1 };
    int32_t given = 5, got = 0;
    size_t found = 99, count = 99;
    DONE(wz_shared_post(&shared, me, 2 + (uint32_t)me, &own, &given, sizeof given, &parts[0].request));
    HOLDS(wz_shared_wait_any(&shared, me, parts, 1, &got, sizeof got, &found) == WZ_BAD_LENGTH);
    HOLDS(wz_shared_reason(&shared, me).want == 4 && wz_shared_reason(&shared, me).got == 3);
    parts[1].request = parts[0].request;
    HOLDS(wz_shared_wait_some(&shared, me, parts, 2, &got, sizeof got, &found) == WZ_TWICE && got == 0);
    DONE(wz_shared_wait_for_any(&shared, me, list, 1, &found));
    DONE(wz_shared_wait(&shared, me, &parts[0].request, &got, sizeof got, &count));
    HOLDS(wz_shared_wait_some(&shared, me, parts + 1, 1, &got, sizeof got, &found) == WZ_STALE);
    list[0] = &parts[1].request;
    HOLDS(wz_shared_wait_for_any(&shared, me, list, 1, &found) == WZ_STALE && found == 0 && count == 4);
}

/* Rank 0 leaves and comes back: it counts once, so no stall is reported to it while the last rank still works. */
static void comes_back(uint8_t me) {
    wz_request request = WZ_NULL_REQUEST;
    size_t count = 99;
    if (me == 0) {
        wz_shared_leave(&shared, me);
        DONE(wz_shared_post(&shared, me, 0, &barrier, NULL, 0, &request));
    }
    pthread_barrier_wait(&together);
    if (me == ranks - 1) usleep(20000);
    if (me != 0) DONE(wz_shared_post(&shared, me, 0, &barrier, NULL, 0, &request));
    DONE(wz_shared_wait(&shared, me, &request, NULL, 0, &count));
}

/* Rank 0 leaves; the others wait, each by another wait, for barriers that it never posts: all are told. */
static void stall(uint8_t me) {
    wz_part part = { WZ_NULL_REQUEST, 0, 0, 0, false };
    const wz_request *list[1] = { &part.request };
    size_t found = 99;
    if (me == 0) {
        wz_shared_leave(&shared, me);
        return;
    }
    DONE(wz_shared_post(&shared, me, 0, &barrier, NULL, 0, &part.request));
    switch (me % 3) {
    case 1: HOLDS(wz_shared_wait_any(&shared, me, &part, 1, NULL, 0, &found) == WZ_STALLED); break;
    case 2: HOLDS(wz_shared_wait_some(&shared, me, &part, 1, NULL, 0, &found) == WZ_STALLED); break;
    default: HOLDS(wz_shared_wait_for_any(&shared, me, list, 1, &found) == WZ_STALLED); break;
    }
    HOLDS(part.request.generation != 0);
}

static void *rank(void *number) {
    uint8_t me = (uint8_t)(size_t)number;
    for (int round = 0; round < rounds; round++) {
        any(me);
        some(me);
        for_any(me);
        one_of_two(me);
    }
    comes_back(me);
    refused(me);
    stall(me);
    return NULL;
}

int main(int argc, char **argv) {
    pthread_t threads[8];
    uint8_t members[24], sizes[10];
    if (argc > 1) ranks = atoi(argv[1]);
    if (argc > 2) rounds = atoi(argv[2]);
    HOLDS(ranks >= 2 && ranks <= 8);
    /* two communicators of all, and one of each rank alone */
    for (int i = 0; i < ranks; i++) {
        members[i] = members[ranks + i] = members[2 * ranks + i] = (uint8_t)i;
        sizes[2 + i] = 1;
    }
    sizes[0] = sizes[1] = (uint8_t)ranks;
    wz_limits limits = wz_greatest_limits((uint32_t)ranks);
    DONE(wz_shared_open(&shared, &limits, sizes, 2 + (size_t)ranks, members, 3 * (size_t)ranks));
    pthread_barrier_init(&together, NULL, (unsigned)ranks);
    for (size_t i = 0; i < (size_t)ranks; i++) pthread_create(&threads[i], NULL, rank, (void *)i);
    for (int i = 0; i < ranks; i++) pthread_join(threads[i], NULL);
    pthread_barrier_destroy(&together);
    DONE(wz_shared_close(&shared));
    puts("waits: all as it should be");
    return 0;
}
