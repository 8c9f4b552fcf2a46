/* Progress threads: while all ranks compute, long rows are combined, by no rank, and by several threads at once; the number of threads changes
   while ranks work; stalls are told as without them; an engine is closed while they compute; refusals. Linked with -Wl,--wrap=wz_run_work -Wl,--wrap=pthread_create
   -Wl,--wrap=pthread_join, it counts who computes and which threads there are, and lets threads fail to start.
   helped RANKS ROUNDS THREADS */
#include <errno.h>
#include <stdio.h>
#include <stdlib.h>
#include <time.h>

#include "check.h"
#include "worzsunab_threads.h"

enum { LONG = 4096, MOST = 8, MANY = 3 };

static wz_shared shared;
static int ranks = 4, rounds = 10, threads = 1;
static pthread_barrier_t together;

/* Whether this thread is one of the program's, and not a progress thread. */
static __thread bool is_own;
static int combined_by_own, combined_by_others;

/* Threads that were started and not joined, and how many more can be started; below 0: any number. */
static int alive, startable = -1;

int32_t __real_wz_run_work(wz_work *work);
int32_t __wrap_wz_run_work(wz_work *work);
int __real_pthread_create(pthread_t *thread, const pthread_attr_t *how, void *(*run)(void *), void *argument);
int __wrap_pthread_create(pthread_t *thread, const pthread_attr_t *how, void *(*run)(void *), void *argument);
int __real_pthread_join(pthread_t thread, void **end);
int __wrap_pthread_join(pthread_t thread, void **end);

static void pause_shortly(void) {
    struct timespec time = { 0, 100000 };
    nanosleep(&time, NULL);
}

/* How many combinations are computed at this moment, and whether two were at once; where `awaits_two`, one is computed only once another
   thread has one too. */
static int running;
static bool two_ran, awaits_two;

int32_t __wrap_wz_run_work(wz_work *work) {
    __atomic_add_fetch(is_own ? &combined_by_own : &combined_by_others, 1, __ATOMIC_SEQ_CST);
    if (__atomic_add_fetch(&running, 1, __ATOMIC_SEQ_CST) > 1) __atomic_store_n(&two_ran, true, __ATOMIC_SEQ_CST);
    while (awaits_two && !__atomic_load_n(&two_ran, __ATOMIC_SEQ_CST)) pause_shortly();
    int32_t code = __real_wz_run_work(work);
    __atomic_sub_fetch(&running, 1, __ATOMIC_SEQ_CST);
    return code;
}

int __wrap_pthread_create(pthread_t *thread, const pthread_attr_t *how, void *(*run)(void *), void *argument) {
    if (startable == 0) return EAGAIN;
    if (startable > 0) startable--;
    alive++;
    return __real_pthread_create(thread, how, run, argument);
}

int __wrap_pthread_join(pthread_t thread, void **end) {
    alive--;
    return __real_pthread_join(thread, end);
}

/* Runs a function in a thread for each rank, and `beside` in this one. */
static void play(void *(*rank)(void *), void (*beside)(void)) {
    pthread_t played[MOST];
    for (size_t i = 0; i < (size_t)ranks; i++) HOLDS(pthread_create(&played[i], NULL, rank, (void *)i) == 0);
    beside();
    for (int i = 0; i < ranks; i++) pthread_join(played[i], NULL);
}

static void nothing(void) {}

/* ---- refusals */

static void refuses(void) {
    wz_shared closed = { NULL };
    WANT(WZ_CLOSED, wz_shared_progress(&closed, 1));
    DONE(wz_shared_open_world(&shared, 2));
    WANT(WZ_BAD_CONFIG, wz_shared_progress(&shared, 9));
    WANT(WZ_BAD_CONFIG, wz_shared_progress(&shared, UINT32_MAX));
    HOLDS(alive == 0);
    DONE(wz_shared_progress(&shared, 2));
    HOLDS(alive == 2);
    for (startable = 0; startable < 4; startable++) {
        int allowed = startable;
        WANT(WZ_NO_MEMORY, wz_shared_progress(&shared, 8));
        HOLDS(alive == 2 && startable == 0);
        startable = allowed;
    }
    startable = -1;
    DONE(wz_shared_progress(&shared, 8));
    HOLDS(alive == 8);
    DONE(wz_shared_progress(&shared, 3));
    HOLDS(alive == 3);
    DONE(wz_shared_progress(&shared, 0));
    HOLDS(alive == 0);
    DONE(wz_shared_progress(&shared, 1));
    DONE(wz_shared_close(&shared));
    HOLDS(alive == 0);
    WANT(WZ_CLOSED, wz_shared_progress(&shared, 0));
}

/* ---- ranks that compute */

static int64_t given[MOST][MANY][LONG], sums[MOST][MANY][LONG];
static wz_request requests[MOST][MANY];

static void post(uint8_t me, int round) {
    for (int i = 0; i < MANY; i++) {
        for (int at = 0; at < LONG; at++) given[me][i][at] = me + round + i + at;
        DONE(wz_iallreduce(&shared, me, 0, given[me][i], sums[me][i], LONG, WZ_INT64, WZ_SUM, &requests[me][i]));
    }
}

static void complete(uint8_t me, int round) {
    for (int i = 0; i < MANY; i++) {
        DONE(wz_wait(&shared, me, &requests[me][i]));
        for (int at = 0; at < LONG; at++) HOLDS(sums[me][i][at] == ranks * (ranks - 1) / 2 + ranks * (round + i + at));
    }
}

/* Between the two meetings no rank is in a call. */
static void *computes(void *number) {
    uint8_t me = (uint8_t)(size_t)number;
    is_own = true;
    for (int round = 0; round < rounds; round++) {
        post(me, round);
        pthread_barrier_wait(&together);
        pthread_barrier_wait(&together);
        complete(me, round);
    }
    return NULL;
}

/* Waits until each request is done, by what the progress threads do. */
static void await_progress(void) {
    for (int round = 0; round < rounds; round++) {
        pthread_barrier_wait(&together);
        for (int rank = 0; rank < ranks; rank++) {
            for (int i = 0; i < MANY; i++) {
                uint8_t phase = WZ_IS_PENDING;
                bool at_rest = false;
                DONE(wz_shared_watch(&shared, (uint8_t)rank, &requests[rank][i], &phase, &at_rest));
                if (phase == WZ_IS_DONE) continue;
                pause_shortly();
                i--;
            }
        }
        pthread_barrier_wait(&together);
    }
}

static void all_compute(void) {
    combined_by_own = combined_by_others = 0;
    DONE(wz_shared_open_world(&shared, (uint8_t)ranks));
    DONE(wz_shared_progress(&shared, (uint32_t)threads));
    pthread_barrier_init(&together, NULL, (unsigned)ranks + 1);
    play(computes, await_progress);
    pthread_barrier_destroy(&together);
    DONE(wz_shared_close(&shared));
    HOLDS(combined_by_own == 0 && combined_by_others > 0);
}

/* Two threads compute two combinations at once. */
static void two_compute(void) {
    if (threads < 2) return;
    awaits_two = true;
    all_compute();
    awaits_two = false;
    HOLDS(two_ran);
}

/* ---- a number that changes */

static void *works(void *number) {
    uint8_t me = (uint8_t)(size_t)number;
    for (int round = 0; round < rounds; round++) {
        post(me, round);
        complete(me, round);
    }
    wz_shared_leave(&shared, me);
    return NULL;
}

static void change(void) {
    static const uint32_t numbers[] = { 1, 8, 0, 2, 7, 3 };
    for (int i = 0; i < 2 * rounds; i++) {
        DONE(wz_shared_progress(&shared, numbers[i % 6]));
        pause_shortly();
    }
}

static void changes(void) {
    DONE(wz_shared_open_world(&shared, (uint8_t)ranks));
    play(works, change);
    DONE(wz_shared_close(&shared));
}

/* ---- ranks that wait for ever, or leave their requests */

static void *waits_in_vain(void *number) {
    uint8_t me = (uint8_t)(size_t)number;
    if (me != 0) {
        post(me, 0);
        WANT(WZ_STALLED, wz_wait(&shared, me, &requests[me][0]));
    }
    wz_shared_leave(&shared, me);
    return NULL;
}

static void *leaves_requests(void *number) {
    post((uint8_t)(size_t)number, 0);
    return NULL;
}

static void ends(void *(*rank)(void *)) {
    DONE(wz_shared_open_world(&shared, (uint8_t)ranks));
    DONE(wz_shared_progress(&shared, (uint32_t)threads));
    play(rank, nothing);
    DONE(wz_shared_close(&shared));
}

int main(int argc, char **argv) {
    if (argc > 1) ranks = atoi(argv[1]);
    if (argc > 2) rounds = atoi(argv[2]);
    if (argc > 3) threads = atoi(argv[3]);
    HOLDS(ranks >= 2 && ranks <= MOST && threads >= 1);
    is_own = true;
    refuses();
    all_compute();
    two_compute();
    changes();
    ends(waits_in_vain);
    ends(leaves_requests);
    HOLDS(alive == 0);
    puts("helped: all as it should be");
    return 0;
}
