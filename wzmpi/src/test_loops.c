/* A loop of tests that can't come true looks like work. Each rank keeps what it has tested since the test of the same line before. Where all ranks wait, have ended
   or only test, the watching thread asks those that test to stand still for some looks: then they are judged as ranks that wait for any of what they test. */
#include "test_loops.h"

#include "deadlock_watch.h"
#include "rank_copies.h"
#include "threads.h"

#include <sched.h>
#include <time.h>

enum {
    MOST_TESTED = 16,
    LOOKS_OF_TESTING = 80, /* of 25 ms: so long a rank has only tested before it is asked to stand still */
    MOST_IDLE = 20,        /* looks without a test: then it computes */
    LEAST_TESTS = 200,     /* and the fewest tests of its own by then */
    LONGEST_STAND = 1000   /* milliseconds */
};

/* What a loop tests. */
struct round {
    int many;
    bool full; /* it tests more */
    const char *site; /* of its first test */
    struct request *tested[MOST_TESTED], *probes[MOST_TESTED]; /* the probes are copies */
};

struct tests {
    uint64_t progress; /* the rank's, as the rounds were begun */
    struct round before, now;
};
static struct tests tests[MOST_RANKS];
static atomic_bool asked; /* to stand still */

static void empty_round(struct round *round) {
    for (int i = 0; i < round->many; i++) free(round->probes[i]);
    *round = (struct round){ .many = 0 };
}

static bool is_same(const struct request *one, const struct request *other) {
    if (one->sort != PROBING || other->sort != PROBING) return one == other;
    return one->comm == other->comm && one->other == other->other && one->tag == other->tag && strcmp(one->started_at, other->started_at) == 0;
}

static bool is_among(struct request *const *list, int many, const struct request *request) {
    for (int i = 0; i < many; i++)
        if (is_same(list[i], request)) return true;
    return false;
}

static void add_test(struct round *round, struct request *request) {
    if (is_among(round->tested, round->many, request)) return;
    if (round->many == MOST_TESTED) {
        round->full = true;
        return;
    }
    struct request *copy = NULL;
    if (request->sort == PROBING) {
        copy = must(malloc(sizeof *copy));
        memcpy(copy, request, sizeof *copy);
    }
    round->tested[round->many] = copy != NULL ? copy : request;
    round->probes[round->many++] = copy;
}

static void note_tests(struct rank *me, struct request **list, int many) {
    struct tests *own = &tests[me->number];
    uint64_t progress = atomic_load_explicit(&me->progress, memory_order_relaxed);
    if (own->progress != progress) { /* what was tested may be completed since */
        empty_round(&own->before);
        empty_round(&own->now);
        own->progress = progress;
    }
    if (own->now.site == me->site) {
        empty_round(&own->before);
        own->before = own->now;
        own->now = (struct round){ .many = 0 };
    }
    if (own->now.site == NULL) own->now.site = me->site;
    for (int i = 0; i < many; i++)
        if (list[i] != NULL && list[i]->active) add_test(&own->now, list[i]);
}

/* Stands as a rank that waits for any of what its loop tests, until nobody looks any more or one of it is done. */
static void stand_still(const char *call, struct rank *me) {
    struct tests *own = &tests[me->number];
    struct request *list[2 * MOST_TESTED];
    int many = 0;
    bool done = own->before.full || own->now.full;
    for (int i = 0; i < own->before.many; i++) list[many++] = own->before.tested[i];
    for (int i = 0; i < own->now.many; i++)
        if (!is_among(list, many, own->now.tested[i])) list[many++] = own->now.tested[i];
    for (int i = 0; i < many && !done; i++) done = make_progress(list[i]) == IS_DONE;
    if (done || many == 0) return;
    begin_waiting(call, list, many, true);
    me->wait.tests = true;
    for (int turn = 0; turn < LONGEST_STAND && !done && atomic_load(&asked); turn++) {
        nanosleep(&(struct timespec){ 0, 1000000 }, NULL);
        for (int i = 0; i < many && !done; i++) done = make_progress(list[i]) == IS_DONE;
    }
    end_waiting();
}

void test_in_vain(const char *call, struct request **list, int many) {
    struct rank *me = current_rank;
    atomic_fetch_add_explicit(&me->vain_tests, 1, memory_order_relaxed);
    note_tests(me, list, many);
    bool alone = me->level < MPI_THREAD_MULTIPLE;
    if (alone && atomic_load_explicit(&asked, memory_order_relaxed)) stand_still(call, me);
    if (!alone) let_others_in();
    sched_yield();
    if (!alone) come_back();
}

/* ---- the watching thread's */

static struct {
    uint64_t progress, tests, first_tests;
    int looks, idle; /* since the rank made anything but tests, and since the last test */
} seen[MOST_RANKS];

void look_at_tests(void) {
    for (int i = 0; i < the_run.size; i++) {
        uint64_t progress = atomic_load(&the_run.ranks[i].progress), vain = atomic_load(&the_run.ranks[i].vain_tests);
        seen[i].idle = vain != seen[i].tests ? 0 : seen[i].idle + 1;
        bool only_tests = progress == seen[i].progress && seen[i].idle < MOST_IDLE && vain > 0;
        if (!only_tests) seen[i].first_tests = vain;
        seen[i].looks = only_tests ? seen[i].looks + 1 : 0;
        seen[i].progress = progress;
        seen[i].tests = vain;
    }
}

bool is_testing(int rank) { return seen[rank].looks > 4; }

double seconds_of_testing(int rank) { return seen[rank].looks * 0.025; }

bool all_others_test(uint64_t resting) {
    bool some = false;
    for (int i = 0; i < the_run.size; i++) {
        if (resting >> i & 1) continue;
        if (seen[i].looks < LOOKS_OF_TESTING || seen[i].tests - seen[i].first_tests < LEAST_TESTS) return false;
        some = true;
    }
    return some;
}

void show_tests(bool begin) { atomic_store(&asked, begin); }

bool makes_threads(void) {
    static int known; /* 1: it doesn't, 2: it does */
    if (known == 0) known = is_imported("pthread_create") || is_imported("thrd_create") || is_imported("GOMP_*") || is_imported("__kmpc_*") || is_imported("_ZNSt6thread*") ? 2 : 1;
    return known == 2;
}

/* Functions by which a program may know that time passes, or hear of something else than MPI. */
bool tells_time(void) {
    static const char *const functions[] = { "time", "gettimeofday", "clock", "clock_gettime", "times", "getrusage", "timespec_get", "ftime", "signal", "sigaction", "alarm", "setitimer", "poll", "select", "epoll_wait", "read", "recv",
                                             "stat", "access", "fopen", "fopen64", "open", "open64", "sem_open", "mmap", "shmat" };
    for (size_t i = 0; i < sizeof functions / sizeof functions[0]; i++)
        if (is_imported(functions[i])) return true;
    return makes_threads() || is_imported("_ZNSt6chrono*");
}
