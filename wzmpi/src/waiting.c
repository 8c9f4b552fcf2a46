/* Waiting: for one request of an engine the engine's own wait serves; for others a rank sleeps until a call of another may have let it go on. */
#include "trace.h"
#include "threads.h"
#include "window.h"

#include <limits.h>
#include <linux/futex.h>
#include <sched.h>
#include <sys/syscall.h>
#include <time.h>
#include <unistd.h>

enum {
    LOOKS = 300,            /* before a rank sleeps */
    NAP_NANOSECONDS = 1000000 /* the longest sleep: what is computed beside the engine's lock wakes nobody */
};

/* ---- what others read of a rank that waits (deadlock_watch.c) */

static pthread_mutex_t looking = PTHREAD_MUTEX_INITIALIZER;
static atomic_bool looked_at;

/* Of a rank's threads one at a time is looked at (MPI_THREAD_MULTIPLE). */
static __thread bool is_looked_at __attribute__((tls_model("initial-exec")));

static void begin_wait(struct wait wait) {
    struct rank *me = current_rank;
    if (atomic_load(&me->waits)) return;
    is_looked_at = true;
    me->wait = wait;
    me->wait_begun = run_clock();
    atomic_fetch_add_explicit(&me->waits_begun, 1, memory_order_relaxed);
    atomic_store(&me->waits, true);
}

void begin_waiting(const char *call, struct request **list, int many, bool any) {
    begin_wait((struct wait){ .call = call, .site = current_rank->site, .list = list, .many = many, .any = any });
}

void begin_wait_for_room(const char *call, struct request *request) { begin_wait((struct wait){ .call = call, .site = current_rank->site, .room = request }); }

/* Whoever looks at the ranks may be at this one's list, which the caller gives up now. */
void end_waiting(void) {
    struct rank *me = current_rank;
    if (!is_looked_at) return;
    is_looked_at = false;
    atomic_store(&me->waits, false);
    note_wait(me->wait.call, me->wait.site, me->wait_begun);
    if (!atomic_load(&looked_at)) return;
    pthread_mutex_lock(&looking);
    pthread_mutex_unlock(&looking);
}

void hold_watch(bool begin) {
    if (begin) {
        pthread_mutex_lock(&looking);
        atomic_store(&looked_at, true);
        return;
    }
    atomic_store(&looked_at, false);
    pthread_mutex_unlock(&looking);
}

/* A rank's threads have it one at a time, so the store loses nothing, and no bus is locked. */
void note_progress(void) {
    _Atomic uint64_t *progress = &current_rank->progress;
    atomic_store_explicit(progress, atomic_load_explicit(progress, memory_order_relaxed) + 1, memory_order_relaxed);
}

/* ---- how far a request is */

static bool has_called(const struct request *request, int member) {
    if (atomic_load(&request->comm->members[member].posted) <= request->place) return false;
    return request->starts == NULL || atomic_load(&request->starts->of[member]) >= request->times;
}

uint64_t lacking(const struct request *request) {
    uint64_t ranks = 0;
    if (request->sort == LOCKING) return lock_holders(request);
    if (request->sort == ACCESSING || request->sort == GENERALIZED) return 0; /* it waits for no call of another rank */
    if (request->sort != COLLECTIVE) {
        int other, far = far_group_from(request->comm, request->member, &other); /* the watching thread is no rank */
        int first = request->other == MPI_ANY_SOURCE ? 0 : request->other, last = request->other == MPI_ANY_SOURCE ? far - 1 : request->other;
        for (int i = first; i <= last; i++) ranks |= 1ull << request->comm->members[other + i].rank;
        return ranks;
    }
    for (int i = 0; i < request->comm->size; i++)
        if (!has_called(request, i)) ranks |= 1ull << request->comm->members[i].rank;
    return ranks;
}

bool is_at_rest(struct engine *engine) {
    bool rests = false;
    wz_shared_watch(&engine->shared, 0, NULL, NULL, &rests);
    return rests;
}

static enum progress progress_of_collective(struct request *request) {
    uint8_t phase = WZ_IS_DONE;
    bool rests = false;
    if (request->collected) return IS_DONE;
    wz_shared_watch(&request->engine->shared, (uint8_t)request->member, &request->held, &phase, &rests);
    if (phase == WZ_IS_PENDING) return rests ? GOES_ON : COMPUTES;
    return the_run.strict && lacking(request) != 0 ? GOES_ON : IS_DONE;
}

enum progress make_progress(struct request *request) {
    if (!request->active) return IS_DONE;
    if (request->sort == COLLECTIVE) return progress_of_collective(request);
    if (request->sort == PROBING) return message_waits(request) ? IS_DONE : GOES_ON;
    return atomic_load(&request->arrived) ? IS_DONE : GOES_ON;
}

/* Takes over the outcome of a collective that is done in the engine: it lies in it->out then. */
static bool collect(struct request *request) {
    if (!request->collected) request->collected = engine_test(request) == WZ_DONE;
    return request->collected;
}

bool is_done(struct request *request) {
    if (!request->active || request->sort != COLLECTIVE) return make_progress(request) == IS_DONE;
    if (the_run.strict && lacking(request) != 0) return false;
    return collect(request);
}

/* ---- sleeping */

static void sleep_until_woken(struct rank *me, uint32_t seen) {
    struct timespec longest = { 0, NAP_NANOSECONDS };
    syscall(SYS_futex, &me->wake, FUTEX_WAIT_PRIVATE, seen, &longest, NULL, 0);
}

void wake_rank(struct rank *rank) {
    if (atomic_load(&rank->sleeps) == 0) return;
    atomic_fetch_add(&rank->wake, 1);
    syscall(SYS_futex, &rank->wake, FUTEX_WAKE_PRIVATE, INT_MAX, NULL, NULL, 0);
}

void wake_members(struct comm *comm, int but) {
    for (int i = 0; i < comm->size; i++)
        if (i != but) wake_rank(&the_run.ranks[comm->members[i].rank]);
}

static bool may_go_on(struct request **list, int many, bool any) {
    for (int i = 0; i < many; i++) {
        if (list[i] == NULL || !list[i]->active) continue;
        bool done = is_done(list[i]);
        if (done && any) return true;
        if (!done && !any) return false;
    }
    return !any;
}

/* The engine that all active requests of a list are of; NULL: they are of several, or there are messages among them. */
static struct engine *common_engine(struct request **list, int many) {
    struct engine *engine = NULL;
    for (int i = 0; i < many; i++) {
        if (list[i] == NULL || !list[i]->active) continue;
        if (list[i]->sort != COLLECTIVE || (engine != NULL && list[i]->engine != engine)) return NULL;
        engine = list[i]->engine;
    }
    return engine;
}

/* The engine's wait for one of several. Whether one is done. */
static bool wait_in_engine(struct engine *engine, struct request **list, int many) {
    const wz_request **held = must(malloc(sizeof *held * (size_t)many));
    size_t listed = 0, index;
    int member = 0;
    for (int i = 0; i < many; i++) {
        if (list[i] == NULL || !list[i]->active) continue;
        member = list[i]->member;
        held[listed++] = &list[i]->held;
    }
    int32_t code = wz_shared_wait_for_any(&engine->shared, (uint8_t)member, held, listed, &index);
    free(held);
    return code == WZ_DONE;
}

void wait_for(const char *call, struct request **list, int many, bool any) {
    struct rank *me = current_rank;
    begin_waiting(call, list, many, any);
    bool alone = me->level < MPI_THREAD_MULTIPLE; /* else the engine's wait would hold up the rank's other threads */
    struct engine *engine = any && alone && !the_run.strict ? common_engine(list, many) : NULL;
    bool done = engine != NULL && wait_in_engine(engine, list, many);
    for (int look = 0; !done && look < LOOKS; look++) done = may_go_on(list, many, any);
    while (!done) {
        uint32_t seen = atomic_load(&me->wake);
        atomic_fetch_add(&me->sleeps, 1);
        done = may_go_on(list, many, any);
        if (!done) {
            let_others_in();
            sleep_until_woken(me, seen);
            come_back();
        }
        atomic_fetch_sub(&me->sleeps, 1);
    }
    end_waiting();
}
