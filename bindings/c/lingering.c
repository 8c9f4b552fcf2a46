/* Progress threads look for work before they sleep, by the clock, and come when they are called: while they look, while
   they sleep, and where they are called between their last look and their sleep. They sleep at once where a rank may
   need their processor: where threads are more than processors, also by another engine, and where their yields go to
   other programs. Linked with -Wl,--wrap=nanoseconds,--wrap=let_time_pass,--wrap=sleep_at,--wrap=sched_yield
   -Wl,--wrap=wz_run_work, it has a clock of its own, and holds threads up. With -DWZ_CREDIT=60000000000 a thread that
   is preempted in a yield looks on.
   lingering THREADS */
#include <stdio.h>
#include <stdlib.h>
#include <time.h>

#include "check.h"
#include "combiner.h"

enum { LONG = 1024, RANKS = 2, ROUNDS = 20, LOOKS = 20, SECONDS = 600 };

int64_t __wrap_nanoseconds(void);
void __real_let_time_pass(struct record *me, int looks);
void __wrap_let_time_pass(struct record *me, int looks);
void __real_sleep_at(struct wz_combiner *combiner, struct record *me);
void __wrap_sleep_at(struct wz_combiner *combiner, struct record *me);
int __wrap_sched_yield(void);
int32_t __real_wz_run_work(wz_work *work);
int32_t __wrap_wz_run_work(wz_work *work);

static wz_shared shared;
static int threads = 1;

/* Whether this thread is the program's, which plays both ranks, and not a progress thread. */
static __thread bool is_own;

/* How many progress threads have looked in vain; how often they have, were about to sleep, and have computed. */
static atomic_int lookers, looked, at_door, combined;

/* Whether a progress thread that is about to sleep is held up, and whether yields take long. */
static atomic_int is_shut, is_crowded;

/* By which progress threads linger, in nanoseconds: it goes on only where a test says so. */
static atomic_int clock_of_threads;

static void sleep_for(long microseconds) {
    const struct timespec time = { 0, microseconds * 1000 };
    nanosleep(&time, NULL);
}

int64_t __wrap_nanoseconds(void) { return load(&clock_of_threads); }

void __wrap_let_time_pass(struct record *me, int looks) {
    static __thread bool has_looked;
    __real_let_time_pass(me, looks);
    if (is_own) return;
    add(&looked, 1);
    if (!has_looked) add(&lookers, 1);
    has_looked = true;
    sleep_for(10);
}

void __wrap_sleep_at(struct wz_combiner *combiner, struct record *me) {
    if (!is_own) add(&at_door, 1);
    while (!is_own && load(&is_shut)) sleep_for(100);
    __real_sleep_at(combiner, me);
}

/* After one that takes so long its thread yields no more for some seconds. */
int __wrap_sched_yield(void) {
    if (load(&is_crowded)) sleep_for(700000);
    return 0;
}

int32_t __wrap_wz_run_work(wz_work *work) {
    int32_t code = __real_wz_run_work(work);
    if (!is_own) add(&combined, 1);
    return code;
}

/* ---- what the tests are made of */

static void opens(int processors) {
    DONE(wz_shared_open_world(&shared, RANKS));
    shared.at->processors = (uint32_t)processors;
    DONE(wz_shared_progress(&shared, (uint32_t)threads));
}

/* Waits until a number of the progress threads' is so great, which it will be unless one has missed its call. */
static void await(atomic_int *number, int least) {
    time_t end = time(NULL) + SECONDS;
    while (load(number) < least) {
        HOLDS(time(NULL) < end);
        sleep_for(100);
    }
}

static void await_looks(void) { await(&looked, load(&looked) + LOOKS); }

/* Where there are processors enough: until each thread looks, by a clock at 0. */
static void opens_lingering(void) {
    int before = load(&lookers);
    store(&clock_of_threads, 0);
    opens(RANKS + threads);
    await(&lookers, before + threads);
}

/* Both ranks post, and make no further call before a progress thread has computed: a call might wake the thread too. */
static void come_when_called(void (*meanwhile)(void)) {
    static int64_t rows[RANKS][LONG], sums[RANKS][LONG];
    wz_request requests[RANKS];
    int before = load(&combined);
    for (uint8_t rank = 0; rank < RANKS; rank++) {
        for (int at = 0; at < LONG; at++) rows[rank][at] = rank + at;
        DONE(wz_iallreduce(&shared, rank, 0, rows[rank], sums[rank], LONG, WZ_INT64, WZ_SUM, &requests[rank]));
    }
    meanwhile();
    await(&combined, before + 1);
    for (uint8_t rank = 0; rank < RANKS; rank++) {
        DONE(wz_wait(&shared, rank, &requests[rank]));
        for (int at = 0; at < LONG; at++) HOLDS(sums[rank][at] == 1 + RANKS * at);
    }
}

static void nothing(void) {}

static void let_in(void) { store(&is_shut, 0); }

/* ---- the tests */

/* The clock stands still, so no thread sleeps. */
static void come_while_they_look(void) {
    int before = load(&at_door);
    opens_lingering();
    for (int round = 0; round < ROUNDS; round++) {
        if (round % 2 == 0) await_looks();
        come_when_called(nothing);
    }
    HOLDS(load(&at_door) == before);
    DONE(wz_shared_close(&shared));
}

/* They look until their time is over, sleep until they are called, and look again. */
static void sleep_by_the_clock(void) {
    int before = load(&at_door);
    opens_lingering();
    store(&clock_of_threads, WZ_LINGER - 1);
    await_looks();
    HOLDS(load(&at_door) == before);
    store(&clock_of_threads, WZ_LINGER);
    await(&at_door, before + threads);
    come_when_called(nothing);
    await_looks();
    DONE(wz_shared_close(&shared));
}

/* They are called after their last look, and before they have noted that they sleep, so nobody wakes them. */
static void called_before_they_sleep(void) {
    int before = load(&at_door);
    opens_lingering();
    store(&is_shut, 1);
    store(&clock_of_threads, WZ_LINGER);
    await(&at_door, before + threads);
    come_when_called(let_in);
    DONE(wz_shared_close(&shared));
}

/* With a processor too few no thread looks, once all are counted. */
static void sleep_at_once(void) {
    int before = load(&at_door);
    opens(RANKS + threads - 1);
    await(&at_door, before + threads);
    before = load(&looked);
    for (int round = 0; round < ROUNDS; round++) come_when_called(nothing);
    HOLDS(load(&looked) == before);
    DONE(wz_shared_close(&shared));
}

/* The ranks of another engine count, as long as it is open. */
static void beside_another_engine(void) {
    wz_shared other;
    int before = load(&at_door);
    opens_lingering();
    HOLDS(load(&at_door) == before);
    DONE(wz_shared_open_world(&other, 1));
    await(&at_door, before + threads);
    DONE(wz_shared_close(&other));
    come_when_called(nothing);
    await_looks();
    DONE(wz_shared_close(&shared));
}

/* The clock stands still, and threads sleep all the same once their yields took long. */
static void beside_other_programs(void) {
    int before = load(&at_door);
    opens_lingering();
    HOLDS(load(&at_door) == before);
    store(&is_crowded, 1);
    await(&at_door, before + threads);
    store(&is_crowded, 0);
    come_when_called(nothing);
    DONE(wz_shared_close(&shared));
}

int main(int argc, char **argv) {
    atomic_int *words[] = { &lookers, &looked, &at_door, &combined, &is_shut, &is_crowded, &clock_of_threads };
    for (size_t i = 0; i < sizeof words / sizeof *words; i++) declare_word(words[i]);
    if (argc > 1) threads = atoi(argv[1]);
    HOLDS(threads >= 1 && threads <= MOST_PROGRESS);
    is_own = true;
    come_while_they_look();
    for (int round = 0; round < ROUNDS; round++) sleep_by_the_clock();
    for (int round = 0; round < ROUNDS; round++) called_before_they_sleep();
    sleep_at_once();
    beside_another_engine();
    beside_other_programs();
    puts("lingering: all as it should be");
    return 0;
}
