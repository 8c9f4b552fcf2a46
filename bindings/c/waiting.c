/* Ranks that wait yield their processor, and where yields take long, as beside busy threads, no more than the share of
   their time that c/src/combiner.h says: linked with -Wl,--wrap=sched_yield, each yield takes a millisecond and more, and all are added up. It prints the median of
   small allreduces too, beside busy threads, as many as there are processors.
   waiting RANKS */
#include <stdio.h>
#include <stdlib.h>
#include <time.h>
#include <unistd.h>

#include "check.h"
#include "combiner.h"

enum { SAMPLES = 400, MOST = 8, MOST_BUSY = 64 };

static wz_shared shared;
static int ranks = 2;
static int over;
static double samples[SAMPLES];

static double now(void) {
    struct timespec t;
    clock_gettime(CLOCK_MONOTONIC, &t);
    return (double)t.tv_sec * 1e6 + (double)t.tv_nsec / 1e3;
}

static pthread_mutex_t guard = PTHREAD_MUTEX_INITIALIZER;
static struct timespec turn = { 0, 1000000 };
static int yields;
static double yielded, longest; /* in microseconds, as all times here */

int __wrap_sched_yield(void);

int __wrap_sched_yield(void) {
    double from = now();
    nanosleep(&turn, NULL);
    double took = now() - from;
    pthread_mutex_lock(&guard);
    yields++;
    yielded += took;
    if (took > longest) longest = took;
    pthread_mutex_unlock(&guard);
    return 0;
}

/* What the yields of all ranks may take in a time. */
static double allowed(double time) {
    return ranks * ((time + WZ_CREDIT / 1e3) / WZ_SHARE + longest);
}

/* A program that is stopped while it yields, here for 0.7 s, yields again after a minute, and not after a hundred times as long. */
static void stopped(void) {
    static struct record record;
    turn.tv_nsec = 700000000;
    yield_processor(&record);
    HOLDS(!record.yields && record.repaid <= nanoseconds() + WZ_REPAID);
}

static void *busy(void *none) {
    while (!__atomic_load_n(&over, __ATOMIC_RELAXED)) continue;
    return none;
}

static void *rank(void *number) {
    uint8_t me = (uint8_t)(size_t)number;
    for (int i = 0; i < SAMPLES; i++) {
        wz_request request;
        int32_t one = 1, sum = 0;
        double from = now();
        HOLDS(wz_iallreduce(&shared, me, 0, &one, &sum, 1, WZ_INT32, WZ_SUM, &request) == WZ_DONE);
        HOLDS(wz_wait(&shared, me, &request) == WZ_DONE && sum == ranks);
        if (me == 0) samples[i] = now() - from;
    }
    wz_shared_leave(&shared, me);
    return NULL;
}

static int is_less(const void *left, const void *right) {
    double l = *(const double *)left, r = *(const double *)right;
    return (l > r) - (l < r);
}

int main(int argc, char **argv) {
    pthread_t threads[MOST], others[MOST_BUSY];
    long processors = sysconf(_SC_NPROCESSORS_ONLN);
    if (argc > 1) ranks = atoi(argv[1]);
    HOLDS(ranks >= 2 && ranks <= MOST);
    if (processors > MOST_BUSY) processors = MOST_BUSY;
    HOLDS(wz_shared_open_world(&shared, (uint8_t)ranks) == WZ_DONE);
    double from = now();
    for (long i = 0; i < processors; i++) pthread_create(&others[i], NULL, busy, NULL);
    for (size_t i = 0; i < (size_t)ranks; i++) pthread_create(&threads[i], NULL, rank, (void *)i);
    for (int i = 0; i < ranks; i++) pthread_join(threads[i], NULL);
    double took = now() - from;
    __atomic_store_n(&over, 1, __ATOMIC_RELAXED);
    for (long i = 0; i < processors; i++) pthread_join(others[i], NULL);
    HOLDS(wz_shared_close(&shared) == WZ_DONE);
    qsort(samples, SAMPLES, sizeof samples[0], is_less);
    printf("waiting: an allreduce of %d ranks beside %ld busy threads: %.0f us\n", ranks, processors, samples[SAMPLES / 2]);
    printf("waiting: %d yields took %.0f of %.0f us, and may take %.0f\n", yields, yielded, took, allowed(took));
    HOLDS(yields > 0 && yielded <= allowed(took));
    stopped();
    puts("waiting: all as it should be");
    return 0;
}
