/* Calls of a rank's threads. Under MPI_THREAD_SINGLE and MPI_THREAD_FUNNELED the main thread alone calls, under MPI_THREAD_SERIALIZED one at a time: what isn't so
   ends the run, with both lines. Under MPI_THREAD_MULTIPLE one at a time has the rank, and a call that waits lets others in. */
#include "threads.h"

#include "diagnostics.h"
#include "per_rank_libc.h"

struct threads {
    pthread_mutex_t one;               /* MPI_THREAD_MULTIPLE: who has the rank */
    const char *_Atomic inside, *_Atomic inside_at; /* MPI_THREAD_SERIALIZED: the call of the thread that is inside, and its line */
    atomic_uintptr_t first;            /* the first thread that has called */
    atomic_bool several;
};
static struct threads threads[MOST_RANKS] = { [0 ... MOST_RANKS - 1] = { .one = PTHREAD_MUTEX_INITIALIZER } };

/* Of this thread. All calls read it, so it lies at a fixed distance from the thread's pointer: a general-dynamic variable would cost each of them a call. */
static __thread struct {
    const char *line; /* of its last call that has noted one */
    int depth;        /* calls in calls, as an operation of the program may make */
    int level;        /* of the call that it is in: MPI_Init_thread changes it */
    bool is_main;
} own_thread __attribute__((tls_model("initial-exec")));

void wz_note_line_(const char *at) { own_thread.line = at; }

void be_main(void) { own_thread.is_main = true; }

bool is_main(void) { return own_thread.is_main; }

bool is_inside_call(void) { return own_thread.depth > 0; }

bool has_threads(const struct rank *rank) { return atomic_load(&threads[rank->number].several); }

static const char *line_text(void) { return own_thread.line != NULL ? own_thread.line : "a line that isn't known"; }

/* ---- what isn't allowed */

static const char *level_name(int level) {
    return level == MPI_THREAD_SINGLE ? "MPI_THREAD_SINGLE" : level == MPI_THREAD_FUNNELED ? "MPI_THREAD_FUNNELED" : "MPI_THREAD_SERIALIZED";
}

static void tell_wrong_thread(const struct rank *rank, const char *call) __attribute__((noreturn));
static void tell_wrong_thread(const struct rank *rank, const char *call) {
    tell_alone();
    flush_streams();
    fprintf(stderr, "%s: rank %d: %s at %s: another thread than the main one calls it, under %s; the main thread's last call stands at %s (MPI_ERR_OTHER)\n", fault_head(), rank->number, call,
            line_text(), level_name(rank->level), atomic_load(&rank->site));
    end_run(fault_status(STATUS_WRONG), (struct question){ NULL, NULL });
}

static void tell_two(const struct rank *rank, const char *call, const char *other) __attribute__((noreturn));
static void tell_two(const struct rank *rank, const char *call, const char *other) {
    const char *at = atomic_load(&threads[rank->number].inside_at);
    tell_alone();
    flush_streams();
    fprintf(stderr, "%s: rank %d: %s at %s: another thread is in %s at %s, and under MPI_THREAD_SERIALIZED threads call one at a time (MPI_ERR_OTHER)\n", fault_head(), rank->number, call,
            line_text(), other, at != NULL ? at : "a line that isn't known");
    end_run(fault_status(STATUS_WRONG), (struct question){ NULL, NULL });
}

/* ---- in and out */

static void note_thread(struct threads *own) {
    uintptr_t me = (uintptr_t)pthread_self(), nobody = 0;
    uintptr_t first = atomic_load_explicit(&own->first, memory_order_relaxed);
    if (first == me) return;
    if (first == 0 && atomic_compare_exchange_strong(&own->first, &nobody, me)) return;
    atomic_store(&own->several, true);
}

/* Threads may ask for the level, and whether they are the main one, at any time. */
static bool is_asking(const char *call) { return strcmp(call, "MPI_Query_thread") == 0 || strcmp(call, "MPI_Is_thread_main") == 0; }

/* Most programs have one thread a rank, whose calls never come here. */
static __attribute__((noinline, cold)) void judge_thread(struct rank *rank, const char *call) {
    struct threads *own = &threads[rank->number];
    if (own_thread.level == MPI_THREAD_MULTIPLE) {
        pthread_mutex_lock(&own->one);
        note_thread(own);
    } else if (own_thread.level == MPI_THREAD_SERIALIZED) {
        const char *other = is_asking(call) ? NULL : atomic_exchange(&own->inside, call);
        if (other != NULL) tell_two(rank, call, other);
        atomic_store_explicit(&own->inside_at, own_thread.line, memory_order_relaxed);
    } else if (!own_thread.is_main && !is_asking(call)) tell_wrong_thread(rank, call);
}

/* Of a thread that the program has made, in its first call. */
static __attribute__((noinline, cold)) struct rank *find_rank(const void *from) {
    struct rank *rank = own_thread.line != NULL ? rank_of_code(own_thread.line) : NULL;
    return rank != NULL ? rank : rank_of_code(from);
}

void enter_call(const char *call, const void *from) {
    struct rank *rank = current_rank != NULL ? current_rank : find_rank(from);
    if (rank == NULL) return; /* the call itself tells that its thread is no rank's */
    if (own_thread.depth++ == 0) {
        own_thread.level = rank->begun ? rank->level : MPI_THREAD_SINGLE;
        if (rank->begun && (own_thread.level > MPI_THREAD_FUNNELED || !own_thread.is_main)) judge_thread(rank, call);
    }
    if (own_thread.line != NULL) atomic_store_explicit(&rank->site, own_thread.line, memory_order_relaxed);
    atomic_store_explicit(&rank->call, call, memory_order_relaxed);
    atomic_store_explicit(&rank->lines, atomic_load_explicit(&rank->lines, memory_order_relaxed) + 1, memory_order_relaxed);
}

void leave_call(void) {
    if (current_rank == NULL || --own_thread.depth > 0 || own_thread.level <= MPI_THREAD_FUNNELED) return;
    struct threads *own = &threads[current_rank->number];
    if (own_thread.level == MPI_THREAD_MULTIPLE) pthread_mutex_unlock(&own->one);
    else atomic_store(&own->inside, NULL);
}

/* ---- waits */

void let_others_in(void) {
    if (own_thread.level == MPI_THREAD_MULTIPLE) pthread_mutex_unlock(&threads[current_rank->number].one);
}

void come_back(void) {
    if (own_thread.level != MPI_THREAD_MULTIPLE) return;
    pthread_mutex_lock(&threads[current_rank->number].one);
    if (own_thread.line != NULL) atomic_store_explicit(&current_rank->site, own_thread.line, memory_order_relaxed);
}
