/* The time of a small collective through the C library: one thread plays all ranks, or a thread for each; see c_interface.py. */
#include <sched.h>
#include <stdio.h>
#include <stdlib.h>
#include <string.h>
#include <time.h>

#include "worzsunab_threads.h"

enum { MOST = 8, ROW = 262144 };
#ifndef TURNS
#define TURNS 20000
#endif

static void must(int32_t code) {
    if (code == WZ_DONE) return;
    fprintf(stderr, "%s\n", wz_message(code));
    exit(1);
}

static double now(void) {
    struct timespec t;
    clock_gettime(CLOCK_MONOTONIC, &t);
    return (double)t.tv_sec * 1e9 + (double)t.tv_nsec;
}

/* measure: nanoseconds an operation of all ranks. Each measure has an engine of its own, whose places suffice for it. */
static void tell(const char *measure, double from) { printf("%s: %.0f\n", measure, (now() - from) / TURNS); }

static const wz_call allreduce = { WZ_ALLREDUCE, WZ_SUM, WZ_INT32, 0, 1 };
static const wz_call barrier = { WZ_BARRIER, WZ_NO_OPERATION, WZ_BYTE, 0, 0 };
static int ranks;

static wz_engine opened(void) {
    wz_engine engine = WZ_CLOSED_ENGINE;
    uint8_t members[MOST] = { 0, 1, 2, 3, 4, 5, 6, 7 }, size = (uint8_t)ranks;
    wz_limits limits = wz_greatest_limits((uint32_t)ranks);
    must(wz_open(&engine, &limits, &size, 1, members, size));
    return engine;
}

static void complete(wz_engine *engine, wz_request *requests, int32_t want) {
    must(wz_settle(engine));
    for (int rank = 0; rank < ranks; rank++) {
        int32_t sum = 0;
        size_t count;
        must(wz_test(engine, (uint8_t)rank, &requests[rank], &sum, sizeof sum, &count));
        if (sum != want) exit(1);
    }
}

static void one_thread(void) {
    wz_request requests[MOST];
    int32_t one = 1;
    wz_engine engine = opened();
    double from = now();
    for (int turn = 0; turn < TURNS; turn++) {
        for (int rank = 0; rank < ranks; rank++)
            must(wz_post(&engine, (uint8_t)rank, 0, &allreduce, &one, sizeof one, &requests[rank]));
        complete(&engine, requests, ranks);
    }
    tell("allreduce of one i32, one thread", from);
    for (int rank = 0; rank < ranks; rank++) must(wz_init(&engine, (uint8_t)rank, 0, &allreduce, &requests[rank]));
    from = now();
    for (int turn = 0; turn < TURNS; turn++) {
        for (int rank = 0; rank < ranks; rank++)
            must(wz_start(&engine, (uint8_t)rank, &requests[rank], &one, sizeof one));
        complete(&engine, requests, ranks);
    }
    tell("persistent allreduce of one i32, one thread", from);
    must(wz_close(&engine));
    engine = opened();
    from = now();
    for (int turn = 0; turn < TURNS; turn++) {
        for (int rank = 0; rank < ranks; rank++)
            must(wz_post(&engine, (uint8_t)rank, 0, &barrier, NULL, 0, &requests[rank]));
        complete(&engine, requests, 0);
    }
    tell("barrier, one thread", from);
    must(wz_close(&engine));
}

static wz_shared shared;

static void *rank_of(void *number) {
    uint8_t me = (uint8_t)(size_t)number;
    wz_request request;
    int32_t one = 1, sum = 0;
    size_t count;
    double from = now();
    for (int turn = 0; turn < TURNS; turn++) {
        must(wz_shared_post(&shared, me, 0, &allreduce, &one, sizeof one, &request));
        must(wz_shared_wait(&shared, me, &request, &sum, sizeof sum, &count));
        if (sum != ranks) exit(1);
    }
    if (me == 0) tell("allreduce of one i32", from);
    must(wz_shared_init(&shared, me, 0, &allreduce, &request));
    from = now();
    for (int turn = 0; turn < TURNS; turn++) {
        must(wz_shared_start(&shared, me, &request, &one, sizeof one));
        must(wz_shared_wait(&shared, me, &request, &sum, sizeof sum, &count));
    }
    if (me == 0) tell("persistent allreduce of one i32", from);
    must(wz_shared_free(&shared, me, &request));
    from = now();
    for (int turn = 0; turn < TURNS; turn++) {
        must(wz_shared_post(&shared, me, 0, &barrier, NULL, 0, &request));
        must(wz_shared_wait(&shared, me, &request, NULL, 0, &count));
    }
    if (me == 0) tell("barrier", from);
    return NULL;
}

/* The same in short samples, each thread on a processor of its own: what a loaded machine allows to compare. */
enum { SAMPLES = 400, OF = 40 };
static double samples[3][SAMPLES];

static void sample(uint8_t me, int measure, wz_request *request, const wz_call *call, const void *bytes, size_t length) {
    int32_t sum = 0;
    size_t count;
    for (int i = 0; i < SAMPLES; i++) {
        double from = now();
        for (int turn = 0; turn < OF; turn++) {
            must(call ? wz_shared_post(&shared, me, 0, call, bytes, length, request)
                      : wz_shared_start(&shared, me, request, bytes, length));
            must(wz_shared_wait(&shared, me, request, &sum, sizeof sum, &count));
        }
        if (me == 0) samples[measure][i] = (now() - from) / OF;
    }
}

static void *sampled(void *number) {
    uint8_t me = (uint8_t)(size_t)number;
    wz_request request;
    int32_t one = 1;
    cpu_set_t mine;
    CPU_ZERO(&mine);
    CPU_SET(me, &mine);
    pthread_setaffinity_np(pthread_self(), sizeof mine, &mine);
    sample(me, 0, &request, &barrier, NULL, 0);
    sample(me, 1, &request, &allreduce, &one, sizeof one);
    must(wz_shared_init(&shared, me, 0, &allreduce, &request));
    sample(me, 2, &request, NULL, &one, sizeof one);
    return NULL;
}

static int is_less(const void *left, const void *right) {
    double l = *(const double *)left, r = *(const double *)right;
    return (l > r) - (l < r);
}

/* Tells the lowest tenth, as nanoseconds an operation. */
static void tell_samples(void) {
    static const char *const names[] = { "barrier", "allreduce of one i32", "persistent allreduce of one i32" };
    for (int i = 0; i < 3; i++) {
        qsort(samples[i], SAMPLES, sizeof samples[i][0], is_less);
        printf("%s: %.0f\n", names[i], samples[i][SAMPLES / 10]);
    }
}

/* Samples of TURNS_OF operations until rank 0 says that the time is over, with the threads where the system puts them: what a loaded machine makes
   of the waiting. Beside it, c_interface_mpi.c does the same by MPI. */
enum { TURNS_OF = 20, MOST_SAMPLES = 1500 }; /* a communicator has places for all measures of that many */
static double waits[MOST_SAMPLES];
static double seconds = 0.7;

static void waited(uint8_t me, const char *name, const wz_call *call, size_t length, bool persistent) {
    const wz_call flag = { WZ_BCAST, WZ_NO_OPERATION, WZ_INT32, 0, 1 };
    wz_request kept = WZ_NULL_REQUEST;
    int32_t goes_on = 1, one = 1, sum = 0;
    if (persistent) must(wz_shared_init(&shared, me, 0, call, &kept));
    double end = now() + 1e9 * seconds;
    int many = 0;
    while (goes_on) {
        wz_request request;
        size_t count;
        double from = now();
        for (int turn = 0; turn < TURNS_OF; turn++) {
            must(persistent ? wz_shared_start(&shared, me, &kept, &one, length)
                            : wz_shared_post(&shared, me, 0, call, &one, length, &request));
            must(wz_shared_wait(&shared, me, persistent ? &kept : &request, &sum, sizeof sum, &count));
        }
        if (me == 0) waits[many] = (now() - from) / TURNS_OF;
        goes_on = ++many < MOST_SAMPLES && now() < end;
        must(wz_shared_post(&shared, me, 0, &flag, &goes_on, me == 0 ? sizeof goes_on : 0, &request));
        must(wz_shared_wait(&shared, me, &request, &goes_on, sizeof goes_on, &count));
    }
    if (persistent) must(wz_shared_free(&shared, me, &kept));
    if (me != 0) return;
    qsort(waits, (size_t)many, sizeof waits[0], is_less);
    printf("%s: %.0f %.0f\n", name, waits[many / 2], waits[many * 9 / 10]);
}

static void *waited_of(void *number) {
    uint8_t me = (uint8_t)(size_t)number;
    waited(me, "barrier", &barrier, 0, false);
    waited(me, "allreduce of one i32", &allreduce, sizeof(int32_t), false);
    waited(me, "persistent allreduce of one i32", &allreduce, sizeof(int32_t), true);
    wz_shared_leave(&shared, me);
    return NULL;
}

/* Sums of rows of that many bytes, enough of them to take some time. */
static uint32_t row_bytes;

static void *rows_of(void *number) {
    static uint8_t rows[MOST][ROW], sums[MOST][ROW];
    uint8_t me = (uint8_t)(size_t)number;
    wz_call sum = { WZ_ALLREDUCE, WZ_SUM, WZ_INT32, 0, row_bytes / 4 };
    wz_request request;
    size_t count;
    int turns = (int)(40000000 / (row_bytes + 16384));
    double from = now();
    for (int turn = 0; turn < turns; turn++) {
        must(wz_shared_post(&shared, me, 0, &sum, rows[me], row_bytes, &request));
        must(wz_shared_wait(&shared, me, &request, sums[me], row_bytes, &count));
    }
    if (me == 0) printf("sum of %u bytes: %.0f\n", row_bytes, (now() - from) / turns);
    return NULL;
}

int main(int argc, char **argv) {
    pthread_t threads[MOST];
    ranks = argc > 1 ? atoi(argv[1]) : 2;
    row_bytes = argc > 2 ? (uint32_t)atoi(argv[2]) : 0;
    if (ranks < 1 || ranks > MOST || row_bytes > ROW) return 1;
    const char *mode = argc > 3 ? argv[3] : "";
    bool samples_alone = strcmp(mode, "samples") == 0, waits_alone = strcmp(mode, "waits") == 0;
    if (argc > 4) seconds = atof(argv[4]);
    if (row_bytes == 0 && !samples_alone && !waits_alone) one_thread();
    if (argc > 3 && !samples_alone && !waits_alone) return 0;
    must(wz_shared_open_world(&shared, (uint8_t)ranks));
    void *(*play)(void *) = waits_alone ? waited_of : samples_alone ? sampled : row_bytes == 0 ? rank_of : rows_of;
    for (size_t i = 0; i < (size_t)ranks; i++) pthread_create(&threads[i], NULL, play, (void *)i);
    for (int i = 0; i < ranks; i++) pthread_join(threads[i], NULL);
    if (samples_alone) tell_samples();
    must(wz_shared_close(&shared));
    return 0;
}
