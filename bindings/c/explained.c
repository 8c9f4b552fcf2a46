/* What is told of a refusal, in words: the three causes of a refused operation, both collectives of a mismatch, and who waits for whom in a
   stall. */
#include <stdio.h>
#include <stdlib.h>
#include <string.h>

#include "check.h"
#include "worzsunab_threads.h"

static const wz_call sum = { WZ_ALLREDUCE, WZ_SUM, WZ_INT32, 0, 1 };
static const wz_call bcast = { WZ_BCAST, WZ_NO_OPERATION, WZ_INT32, 1, 3 };
static const wz_call barrier = { WZ_BARRIER, WZ_NO_OPERATION, WZ_BYTE, 0, 0 };

static void is(const char *text, int length, const char *sentence) {
    if (strcmp(text, sentence) == 0 && length == (int)strlen(sentence)) return;
    fprintf(stderr, "told:  %s\nwants: %s\n", text, sentence);
    abort();
}

/* ---- an engine of one thread */

static void explains_call(wz_engine *engine, const wz_posted *mine, const wz_posted *theirs, const char *sentence) {
    char text[400];
    is(text, wz_explain_call(&engine->reason, mine, theirs, text, sizeof text), sentence);
    is(text, wz_explain_post(engine, 0, mine, text, sizeof text), sentence);
}

static void operations(void) {
    wz_engine engine = WZ_CLOSED_ENGINE;
    wz_limits limits = wz_greatest_limits(2);
    wz_request request;
    uint8_t two = 2, members[2] = { 0, 1 };
    wz_call calls[3] = { sum, sum, bcast };
    const char *const sentences[3] = { "allreduce has an operation, and none is given", "the operation maxloc isn't for the type i32",
                                       "bcast has no operation, and sum is given" };
    calls[0].op = WZ_NO_OPERATION;
    calls[1].op = WZ_MAXLOC;
    calls[2].op = WZ_SUM;
    DONE(wz_open(&engine, &limits, &two, 1, members, 2));
    for (int i = 0; i < 3; i++) {
        wz_posted mine = wz_posted_of_call(&calls[i], true);
        HOLDS(wz_init(&engine, 0, 0, &calls[i], &request) == WZ_BAD_SIGNATURE);
        explains_call(&engine, &mine, NULL, sentences[i]);
    }
    DONE(wz_close(&engine));
}

static void mismatches(void) {
    wz_engine engine = WZ_CLOSED_ENGINE;
    wz_limits limits = wz_greatest_limits(3);
    wz_request request;
    wz_posted mine, theirs;
    uint8_t three = 3, members[3] = { 0, 1, 2 };
    uint32_t counts[3] = { 1, 2, 0 }, others[3] = { 1, 3, 0 };
    int32_t one = 1;
    char text[400];
    DONE(wz_open(&engine, &limits, &three, 1, members, 3));
    DONE(wz_post(&engine, 2, 0, &sum, &one, sizeof one, &request));
    HOLDS(wz_init(&engine, 0, 0, &bcast, &request) == WZ_MISMATCH);
    mine = wz_posted_of_call(&bcast, true);
    DONE(wz_posted_at(&engine, 0, engine.reason.place, &theirs));
    explains_call(&engine, &mine, &theirs, "at place 0 rank 2 has allreduce, sum, i32, count 1, and this is persistent bcast, i32, root 1, count 3");
    DONE(wz_post_allgatherv(&engine, 2, 0, WZ_INT32, counts, 3, NULL, 0, &request));
    DONE(wz_post(&engine, 1, 0, &sum, &one, sizeof one, &request));
    HOLDS(wz_post_allgatherv(&engine, 1, 0, WZ_INT32, others, 3, &one, 12, &request) == WZ_MISMATCH);
    is(text, wz_explain(&engine.reason, text, sizeof text), "at place 1 rank 2 has another collective: allgatherv, i32");
    mine = wz_posted_of_counts(WZ_INT32, others, 3, false);
    DONE(wz_posted_at(&engine, 0, engine.reason.place, &theirs));
    explains_call(&engine, &mine, &theirs, "at place 1 the allgatherv of rank 2 has the count 2 for member 1, and this one 3");
    HOLDS(wz_post_allgatherv(&engine, 1, 0, WZ_UINT8, others, 3, &one, 3, &request) == WZ_MISMATCH);
    mine.call.type = WZ_UINT8;
    explains_call(&engine, &mine, &theirs, "at place 1 rank 2 has allgatherv, i32, counts 1 2, and this is allgatherv, u8, counts 1 3");
    HOLDS(wz_explain_call(&engine.reason, &mine, &theirs, text, 12) > 12 && strcmp(text, "at place 1 ") == 0);
    HOLDS(wz_describe(&theirs, text, sizeof text) > 0 && strcmp(text, "allgatherv, i32, counts 1 2") == 0);
    DONE(wz_close(&engine));
}

/* ---- ranks as threads */

static wz_shared shared;
static pthread_barrier_t together;

static void explains(uint8_t me, const char *sentence) {
    char text[1000];
    is(text, wz_shared_explain(&shared, me, text, sizeof text), sentence);
}

/* Each waits for a barrier of the other communicator. */
static void *crossed(void *number) {
    uint8_t me = (uint8_t)(size_t)number;
    wz_request request;
    size_t count;
    explains(me, "no call was refused");
    HOLDS(wz_shared_post(&shared, me, 7, &barrier, NULL, 0, &request) == WZ_BAD_COMM); /* an older refusal */
    DONE(wz_shared_post(&shared, me, me, &barrier, NULL, 0, &request));
    HOLDS(wz_shared_wait(&shared, me, &request, NULL, 0, &count) == WZ_STALLED);
    explains(me, me == 0 ? "no wait can end: rank 0 waits at place 0 of communicator 0 (barrier) for rank 1; "
                           "rank 1 waits at place 0 of communicator 1 (barrier) for rank 0"
                         : "no wait can end: rank 1 waits at place 0 of communicator 1 (barrier) for rank 0; "
                           "rank 0 waits at place 0 of communicator 0 (barrier) for rank 1");
    wz_reason reason = wz_shared_reason(&shared, me);
    char text[200];
    HOLDS(reason.code == WZ_STALLED && reason.rank == me && reason.first == 1 - me && reason.comm == me && reason.want == 1);
    HOLDS(wz_explain(&reason, text, sizeof text) > 0 && strncmp(text, "no wait can end: rank", 21) == 0);
    HOLDS(wz_shared_wait(&shared, me, &request, NULL, 0, &count) == WZ_STALLED); /* told again, while nobody begins anything */
    pthread_barrier_wait(&together);
    DONE(wz_shared_post(&shared, me, 1u - me, &barrier, NULL, 0, &request));
    return NULL;
}

/* Rank 0 has left; rank 1 has started a persistent collective twice, rank 2 once, and waits for another in a list. */
static void *deserted(void *number) {
    uint8_t me = (uint8_t)(size_t)number;
    wz_part parts[2] = { { WZ_NULL_REQUEST, 0, 0, 0, false }, { WZ_NULL_REQUEST, 0, 4, 0, false } };
    wz_request *again = &parts[1].request;
    int32_t one = 1, all = 0;
    size_t count, index;
    DONE(wz_shared_init(&shared, me, 0, &sum, again));
    DONE(wz_shared_start(&shared, me, again, &one, sizeof one));
    DONE(wz_shared_wait(&shared, me, again, &all, sizeof all, &count));
    if (me == 0) {
        wz_shared_leave(&shared, me);
        return NULL;
    }
    if (me == 1) {
        DONE(wz_shared_start(&shared, me, again, &one, sizeof one));
        HOLDS(wz_shared_wait(&shared, me, again, &all, sizeof all, &count) == WZ_STALLED);
        explains(me, "no wait can end: rank 1 waits at place 0 of communicator 0 (persistent allreduce, sum, i32, count 1) for rank 0 and 1 more; "
                     "rank 0 has left; rank 2 waits at place 1 of communicator 0 (barrier) for rank 0 and 1 more");
    } else {
        DONE(wz_shared_post(&shared, me, 0, &barrier, NULL, 0, &parts[0].request));
        HOLDS(wz_shared_wait_any(&shared, me, parts, 2, &all, sizeof all, &index) == WZ_STALLED);
        HOLDS(wz_shared_reason(&shared, me).place == 1 && wz_shared_reason(&shared, me).want == 2);
    }
    pthread_barrier_wait(&together);
    return NULL;
}

/* A refusal tells both collectives, and the number of what the call was refused for, also where that is none of the engine's. */
static void *refused(void *number) {
    uint8_t me = (uint8_t)(size_t)number;
    uint32_t counts[2] = { 1, 1 };
    wz_request request = WZ_NULL_REQUEST;
    wz_part parts[2] = { { WZ_NULL_REQUEST, 0, 4, 0, false }, { WZ_NULL_REQUEST, 0, 4, 0, false } };
    int32_t one = 1, got[2];
    size_t count, completed;
    if (me == 0) DONE(wz_shared_post_allgatherv(&shared, me, 0, WZ_INT32, counts, 2, &one, sizeof one, &request));
    pthread_barrier_wait(&together);
    if (me == 1) {
        wz_call bad = bcast;
        bad.op = WZ_MIN;
        HOLDS(wz_shared_post(&shared, me, 0, &bad, NULL, 0, &request) == WZ_BAD_SIGNATURE);
        explains(me, "bcast has no operation, and min is given");
        HOLDS(wz_shared_post(&shared, me, 0, &sum, &one, sizeof one, &request) == WZ_MISMATCH);
        explains(me, "at place 0 rank 0 has allgatherv, i32, counts 1 1, and this is allreduce, sum, i32, count 1");
        counts[0] = 0;
        HOLDS(wz_shared_post_allgatherv(&shared, me, 0, WZ_INT32, counts, 2, &one, sizeof one, &request) == WZ_MISMATCH);
        explains(me, "at place 0 the allgatherv of rank 0 has the count 1 for member 0, and this one 0");
        counts[0] = 1;
        DONE(wz_shared_post_allgatherv(&shared, me, 0, WZ_INT32, counts, 2, &one, sizeof one, &request));
    }
    parts[0].request = parts[1].request = request;
    HOLDS(wz_shared_test_some(&shared, me, parts, 2, got, sizeof got, &completed) == WZ_TWICE);
    explains(me, "a request stands twice in the list");
    DONE(wz_shared_wait(&shared, me, &request, got, sizeof got, &count));
    HOLDS(count == 8 && got[0] == 1 && got[1] == 1);
    return NULL;
}

static void play(uint8_t ranks, size_t communicators, unsigned meeting, void *(*rank)(void *)) {
    uint8_t sizes[2] = { ranks, ranks }, members[16];
    pthread_t threads[8];
    wz_limits limits = wz_greatest_limits(ranks);
    for (uint8_t i = 0; i < 2 * ranks; i++) members[i] = i % ranks;
    DONE(wz_shared_open(&shared, &limits, sizes, communicators, members, communicators * ranks));
    pthread_barrier_init(&together, NULL, meeting);
    for (size_t i = 0; i < ranks; i++) pthread_create(&threads[i], NULL, rank, (void *)i);
    for (int i = 0; i < ranks; i++) pthread_join(threads[i], NULL);
    pthread_barrier_destroy(&together);
    DONE(wz_shared_close(&shared));
}

int main(void) {
    operations();
    mismatches();
    play(2, 2, 2, crossed);
    play(3, 1, 2, deserted);
    play(2, 1, 2, refused);
    puts("explained: all as it should be");
    return 0;
}
