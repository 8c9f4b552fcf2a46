/* A post or a test does its own part and a fixed number of steps, also while other ranks' long rows are combined, and no combination goes back
   undone: linked with -Wl,--wrap=wz_run_work -Wl,--wrap=wz_return_work -Wl,--wrap=wz_step -Wl,--wrap=wz_settle, it counts what each call makes.
   Tests alone complete, also where ranks wait that get no processor: linked with -Wl,--wrap=pthread_cond_wait, it holds their threads up.
   Ranks that wait compute two combinations of wide rows at the same time.
   bounded RANKS [ROUNDS [times]]: with `times` it prints the longest microseconds of a post and of a test too. */
#include <stdio.h>
#include <stdlib.h>
#include <time.h>

#include "check.h"
#include "combiner.h"

enum { LONG = 65536, OVERLAPPING = 4, MOST = 8 };

static wz_shared shared;
static int ranks = 8, rounds = 6;
static pthread_barrier_t together;

/* What this thread's call has made. */
static __thread uint32_t combinations, steps;
static __thread bool unbounded;

/* By the rank that computed it, a combination that isn't back yet. */
static wz_work *computed[MOST];
static __thread uint8_t own_rank;

/* Whether a thread of another rank than 0 that wakes in a call sleeps on. */
static bool holds_up;

/* By the rank, whether its thread waits for its condition: noted while it has the guard, which it gives up by waiting. */
static bool in_wait[MOST];

int32_t __real_wz_run_work(wz_work *work);
int32_t __wrap_wz_run_work(wz_work *work);
int32_t __real_wz_return_work(wz_engine *engine, wz_work *work);
int32_t __wrap_wz_return_work(wz_engine *engine, wz_work *work);
int32_t __real_wz_step(wz_engine *engine, uint32_t budget, uint32_t *actions);
int32_t __wrap_wz_step(wz_engine *engine, uint32_t budget, uint32_t *actions);
int32_t __real_wz_settle(wz_engine *engine);
int32_t __wrap_wz_settle(wz_engine *engine);
int __real_pthread_cond_wait(pthread_cond_t *woken, pthread_mutex_t *guard);
int __wrap_pthread_cond_wait(pthread_cond_t *woken, pthread_mutex_t *guard);

static void sleep_for(long milliseconds) {
    const struct timespec time = { 0, milliseconds * 1000000 };
    nanosleep(&time, NULL);
}

int32_t __wrap_wz_step(wz_engine *engine, uint32_t budget, uint32_t *actions) {
    int32_t code = __real_wz_step(engine, budget, actions);
    steps += *actions;
    return code;
}

int32_t __wrap_wz_settle(wz_engine *engine) {
    unbounded = true;
    return __real_wz_settle(engine);
}

/* Whether a combination is computed only once another thread has one too, and whether two did. */
static bool meets, two_met;
static int in_meeting, waits_left = 60000;

/* Waits for another thread's combination, for a minute at most, all of them together. */
static void meet(void) {
    if (!__atomic_load_n(&meets, __ATOMIC_SEQ_CST)) return;
    if (__atomic_add_fetch(&in_meeting, 1, __ATOMIC_SEQ_CST) > 1) __atomic_store_n(&two_met, true, __ATOMIC_SEQ_CST);
    while (!__atomic_load_n(&two_met, __ATOMIC_SEQ_CST) && __atomic_sub_fetch(&waits_left, 1, __ATOMIC_SEQ_CST) > 0) sleep_for(1);
    __atomic_sub_fetch(&in_meeting, 1, __ATOMIC_SEQ_CST);
}

int32_t __wrap_wz_run_work(wz_work *work) {
    meet();
    int32_t code = __real_wz_run_work(work);
    combinations++;
    if (code == WZ_DONE) __atomic_store_n(&computed[own_rank], work, __ATOMIC_SEQ_CST);
    return code;
}

int32_t __wrap_wz_return_work(wz_engine *engine, wz_work *work) {
    int by = 0;
    while (by < MOST && __atomic_load_n(&computed[by], __ATOMIC_SEQ_CST) != work) by++;
    HOLDS(by < MOST);
    __atomic_store_n(&computed[by], NULL, __ATOMIC_SEQ_CST);
    return __real_wz_return_work(engine, work);
}

int __wrap_pthread_cond_wait(pthread_cond_t *woken, pthread_mutex_t *guard) {
    __atomic_store_n(&in_wait[own_rank], true, __ATOMIC_SEQ_CST);
    int code = __real_pthread_cond_wait(woken, guard);
    __atomic_store_n(&in_wait[own_rank], false, __ATOMIC_SEQ_CST);
    if (own_rank == 0 || !__atomic_load_n(&holds_up, __ATOMIC_SEQ_CST)) return code;
    pthread_mutex_unlock(guard);
    while (__atomic_load_n(&holds_up, __ATOMIC_SEQ_CST)) sleep_for(1);
    pthread_mutex_lock(guard);
    return code;
}

static double now(void) {
    struct timespec t;
    clock_gettime(CLOCK_MONOTONIC, &t);
    return (double)t.tv_sec * 1e6 + (double)t.tv_nsec / 1e3;
}

static double begun, longest_post, longest_test; /* of rank 0 */

static void begins(void) {
    combinations = steps = 0;
    unbounded = false;
    begun = now();
}

/* The call that began makes at most one combination, or STEPS actions. */
static void ends(double *longest) {
    double time = now() - begun;
    HOLDS(combinations <= 1 && steps <= STEPS && !unbounded);
    if (time > *longest) *longest = time;
}

/* Rank 0 posts and tests short sums of its own while the others combine long rows, of which the last to post would have made all. */
static void short_sums(void) {
    for (int turn = 0; turn < 30 * rounds; turn++) {
        wz_request request;
        int32_t one = 1, sum = 0;
        begins();
        DONE(wz_iallreduce(&shared, 0, 2, &one, &sum, 1, WZ_INT32, WZ_SUM, &request));
        ends(&longest_post);
        for (int32_t code = WZ_PENDING; code == WZ_PENDING;) {
            begins();
            code = wz_try(&shared, 0, &request);
            ends(&longest_test);
            HOLDS(code == WZ_DONE || code == WZ_PENDING);
        }
        HOLDS(sum == 1);
    }
}

static void long_sums(uint8_t me) {
    static int32_t rows[MOST][OVERLAPPING][LONG];
    wz_request requests[OVERLAPPING];
    for (int i = 0; i < OVERLAPPING; i++) {
        for (int at = 0; at < LONG; at++) rows[me][i][at] = me + i + at;
        combinations = steps = 0;
        DONE(wz_iallreduce(&shared, me, 1, rows[me][i], rows[me][i], LONG, WZ_INT32, WZ_SUM, &requests[i]));
        HOLDS(combinations <= 1 && steps <= STEPS && !unbounded);
    }
    DONE(wz_wait_all(&shared, me, OVERLAPPING, requests));
    int32_t sum = 0, others = ranks - 1;
    for (int r = 1; r < ranks; r++) sum += r;
    for (int i = 0; i < OVERLAPPING; i++)
        for (int at = 0; at < LONG; at++) HOLDS(rows[me][i][at] == sum + others * (i + at));
}

/* All ranks' tests alone make all progress. */
static void polled(uint8_t me) {
    static int32_t rows[MOST][LONG];
    int32_t code = WZ_PENDING;
    wz_request request;
    for (int at = 0; at < LONG; at++) rows[me][at] = at;
    DONE(wz_iallreduce(&shared, me, 0, rows[me], rows[me], LONG, WZ_INT32, WZ_SUM, &request));
    while (code == WZ_PENDING) {
        combinations = steps = 0;
        code = wz_try(&shared, me, &request);
        HOLDS(combinations <= 1 && steps <= STEPS && !unbounded);
    }
    DONE(code);
    for (int at = 0; at < LONG; at++) HOLDS(rows[me][at] == ranks * at);
}

/* What rank 0's post leaves is made by the others, who wait, also where they sleep: rank 0 makes no call until they have their sums. */
static void left_to_others(uint8_t me) {
    static int32_t rows[MOST][LONG];
    wz_request request;
    for (int at = 0; at < LONG; at++) rows[me][at] = at;
    if (me == 0) sleep_for(20);
    DONE(wz_iallreduce(&shared, me, 0, rows[me], rows[me], LONG, WZ_INT32, WZ_SUM, &request));
    if (me != 0) DONE(wz_wait(&shared, me, &request));
    pthread_barrier_wait(&together);
    DONE(wz_wait(&shared, me, &request)); /* of the others, a null request */
    for (int at = 0; at < LONG; at++) HOLDS(rows[me][at] == ranks * at);
}

/* Rank 0 tests until it is done, while the others, who wait, are held up once they are called. */
static void tests_alone(wz_request *request) {
    const int most = WZ_LOOKS + 64; /* an allreduce of eight ranks has 24 combinations */
    int tests = 0;
    for (int32_t code = WZ_PENDING; code == WZ_PENDING; tests++) {
        HOLDS(tests < most);
        combinations = steps = 0;
        code = wz_try(&shared, 0, request);
        HOLDS((code == WZ_DONE || code == WZ_PENDING) && combinations <= 1 && steps <= STEPS && !unbounded);
    }
}

/* Under the lock: whether the others sleep in their waits, where they are held up once they are woken, and nothing is left for which one would be
   called. A record's `sleeps` alone is set before its thread waits. */
static int32_t others_sleep(struct wz_combiner *combiner, struct operation *operation) {
    bool sleep = !combiner->unsettled && combiner->outside == 0;
    for (int r = 1; r < ranks; r++) {
        struct record *record = &combiner->records[r];
        sleep = sleep && load(&record->stage) == WAITING && load(&record->sleeps) &&
                __atomic_load_n(&in_wait[r], __ATOMIC_SEQ_CST);
    }
    *(bool *)operation->out = sleep;
    return WZ_DONE;
}

static void until_others_sleep(void) {
    bool sleep = false;
    struct operation operation = operation_of(ONCE, UINT8_MAX, others_sleep);
    operation.out = &sleep;
    while (!sleep) {
        sleep_for(1);
        DONE(perform(&shared, &operation));
    }
}

/* What is left to ranks that are called and don't come is made by one that tests. */
static void called_in_vain(uint8_t me) {
    static int32_t rows[MOST][LONG];
    wz_request request;
    for (int at = 0; at < LONG; at++) rows[me][at] = at;
    pthread_barrier_wait(&together);
    if (me == 0) {
        until_others_sleep();
        __atomic_store_n(&holds_up, true, __ATOMIC_SEQ_CST);
    }
    DONE(wz_iallreduce(&shared, me, 0, rows[me], rows[me], LONG, WZ_INT32, WZ_SUM, &request));
    if (me == 0) {
        tests_alone(&request);
        __atomic_store_n(&holds_up, false, __ATOMIC_SEQ_CST);
    } else {
        DONE(wz_wait(&shared, me, &request));
    }
    for (int at = 0; at < LONG; at++) HOLDS(rows[me][at] == ranks * at);
}

/* Of what rank 0's post leaves two of the others, who sleep in their waits, compute at the same time. An allreduce of four ranks begins with
   four combinations. */
static void two_at_once(uint8_t me) {
    static int32_t rows[MOST][LONG];
    wz_request request;
    if (ranks < 4 || shared.at->processors < 2) return;
    for (int at = 0; at < LONG; at++) rows[me][at] = at;
    pthread_barrier_wait(&together);
    if (me == 0) {
        until_others_sleep();
        __atomic_store_n(&meets, true, __ATOMIC_SEQ_CST);
    }
    DONE(wz_iallreduce(&shared, me, 0, rows[me], rows[me], LONG, WZ_INT32, WZ_SUM, &request));
    if (me != 0) DONE(wz_wait(&shared, me, &request));
    pthread_barrier_wait(&together);
    if (me == 0) {
        __atomic_store_n(&meets, false, __ATOMIC_SEQ_CST);
        HOLDS(two_met);
        DONE(wz_wait(&shared, me, &request));
    }
    for (int at = 0; at < LONG; at++) HOLDS(rows[me][at] == ranks * at);
}

/* Once no long row is under way, short ones are combined under the lock again. */
static void short_again(uint8_t me) {
    int32_t one = 1, sum = 0;
    wz_request request;
    pthread_barrier_wait(&together);
    combinations = steps = 0;
    unbounded = false;
    DONE(wz_iallreduce(&shared, me, 0, &one, &sum, 1, WZ_INT32, WZ_SUM, &request));
    HOLDS(combinations == 0 && steps <= STEPS && !unbounded);
    DONE(wz_wait(&shared, me, &request));
    HOLDS(sum == ranks && combinations == 0);
}

static void *rank(void *number) {
    uint8_t me = own_rank = (uint8_t)(size_t)number;
    for (int round = 0; round < rounds; round++) {
        if (me == 0) short_sums();
        else long_sums(me);
    }
    polled(me);
    left_to_others(me);
    two_at_once(me); /* before called_in_vain, after which rank 0's post may compute too */
    called_in_vain(me);
    short_again(me);
    wz_shared_leave(&shared, me);
    return NULL;
}

int main(int argc, char **argv) {
    pthread_t threads[MOST];
    uint8_t members[2 * MOST], sizes[3];
    if (argc > 1) ranks = atoi(argv[1]);
    if (argc > 2) rounds = atoi(argv[2]);
    HOLDS(ranks >= 2 && ranks <= MOST);
    /* communicator 0 has all, 1 all but rank 0, 2 rank 0 alone */
    for (int i = 0; i < ranks; i++) members[i] = (uint8_t)i;
    for (int i = 1; i < ranks; i++) members[ranks + i - 1] = (uint8_t)i;
    members[2 * ranks - 1] = 0;
    sizes[0] = (uint8_t)ranks;
    sizes[1] = (uint8_t)(ranks - 1);
    sizes[2] = 1;
    wz_limits limits = wz_greatest_limits((uint32_t)ranks);
    DONE(wz_shared_open(&shared, &limits, sizes, 3, members, 2 * (size_t)ranks));
    pthread_barrier_init(&together, NULL, (unsigned)ranks);
    for (size_t i = 0; i < (size_t)ranks; i++) pthread_create(&threads[i], NULL, rank, (void *)i);
    for (int i = 0; i < ranks; i++) pthread_join(threads[i], NULL);
    pthread_barrier_destroy(&together);
    DONE(wz_shared_close(&shared));
    if (argc > 3) printf("longest post %.0f us, longest test %.0f us\n", longest_post, longest_test);
    puts("bounded: all as it should be");
    return 0;
}
