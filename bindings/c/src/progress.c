/* Progress threads: each makes progress for all ranks while the ranks compute, and plays none. combiner.h has the
   protocol. */
#ifndef _GNU_SOURCE
#define _GNU_SOURCE
#endif
#include "combiner.h"

#include <sched.h>
#include <signal.h>
#include <stdlib.h>

/* A progress thread. Its operation is never applied: it stands for a wait that ends with the thread. */
struct helper {
    struct wz_combiner *combiner;
    struct record *record;
    struct operation operation;
    pthread_t thread;
};

uint32_t count_processors(void) {
    cpu_set_t set;
    return sched_getaffinity(0, sizeof set, &set) == 0 ? (uint32_t)CPU_COUNT(&set) : 1;
}

struct helper *allocate_helpers(void) { return calloc(MOST_PROGRESS, sizeof(struct helper)); }

uint32_t count_records(struct wz_combiner *combiner) { return combiner->ranks + 1 + (uint32_t)load(&combiner->helpers); }

bool is_helper(const struct wz_combiner *combiner, const struct record *record) {
    return record > &combiner->records[combiner->ranks];
}

/* ---- threads and processors */

/* The ranks and the progress threads of all engines that are open in the process, because one program may have an engine
   for each communicator. */
static atomic_int threads_in_process;

void count_threads(int more) {
    declare_word(&threads_in_process);
    add(&threads_in_process, more);
}

/* ---- the thread */

/* Whether the thread, which has had nothing to do since then, looks again before it sleeps. It doesn't where a rank may
   need its processor: where there are more threads than processors, and where its yields have gone to other programs
   for more than their share. */
static bool lingers(const struct wz_combiner *combiner, const struct record *me, int looks, int64_t since) {
    if (load(&threads_in_process) > (int)combiner->processors) return false;
    if (looks > WZ_CLOSE_LOOKS && !me->yields) return false;
    return nanoseconds() - since < WZ_LINGER;
}

/* It lingers anew once it has slept, because it may have been woken for a combination that another thread took. */
static void *run(void *argument) {
    struct helper *helper = argument;
    struct wz_combiner *combiner = helper->combiner;
    struct record *me = helper->record;
    int64_t since = nanoseconds();
    for (int look = 0; !is_over(me); look++) {
        if (needs_lock(me) && try_lock(combiner)) {
            combine(combiner, me);
        } else if (lingers(combiner, me, look, since)) {
            let_time_pass(me, look);
            continue;
        } else {
            sleep_at(combiner, me);
        }
        since = nanoseconds();
        look = 0;
    }
    return NULL;
}

/* ---- how many there are, under `starts` */

/* Under the lock: the first `many` progress threads count from now on. */
static int32_t apply_count(struct wz_combiner *combiner, struct operation *operation) {
    store(&combiner->helpers, (int)operation->many);
    return WZ_DONE;
}

static void count_helpers(wz_shared *shared, size_t many) {
    struct operation operation = operation_of(ONCE, UINT8_MAX, apply_count);
    operation.many = many;
    perform(shared, &operation);
}

/* Under the lock: the progress threads from number `many` on end, once each has returned its combination. */
static int32_t apply_end(struct wz_combiner *combiner, struct operation *operation) {
    size_t helpers = (size_t)load(&combiner->helpers);
    for (size_t i = operation->many; i < helpers; i++)
        answer(combiner, combiner->started[i].record, WZ_CLOSED);
    return WZ_DONE;
}

static void end_from(wz_shared *shared, size_t many) {
    struct wz_combiner *combiner = shared->at;
    struct operation operation = operation_of(ONCE, UINT8_MAX, apply_end);
    size_t helpers = (size_t)load(&combiner->helpers);
    operation.many = many;
    perform(shared, &operation);
    for (size_t i = many; i < helpers; i++) {
        pthread_join(combiner->started[i].thread, NULL);
        count_threads(-1);
    }
    count_helpers(shared, many);
}

/* Starts progress thread `number`, which takes no signal of the program's. Whether it could be started. */
static bool start(struct wz_combiner *combiner, size_t number) {
    struct helper *helper = &combiner->started[number];
    sigset_t all, before;
    helper->combiner = combiner;
    helper->record = &combiner->records[combiner->ranks + 1 + number];
    helper->operation = operation_of(WAITS, UINT8_MAX, NULL);
    helper->record->operation = &helper->operation;
    store(&helper->record->stage, WAITING);
    count_threads(1);
    sigfillset(&all);
    pthread_sigmask(SIG_SETMASK, &all, &before);
    bool is_started = pthread_create(&helper->thread, NULL, run, helper) == 0;
    pthread_sigmask(SIG_SETMASK, &before, NULL);
    if (!is_started) count_threads(-1);
    return is_started;
}

/* Starts or ends threads. Where one can't be started there are as many as before. */
static int32_t have_helpers(wz_shared *shared, size_t many) {
    struct wz_combiner *combiner = shared->at;
    size_t before = (size_t)load(&combiner->helpers);
    if (many < before) end_from(shared, many);
    for (size_t i = before; i < many; i++) {
        if (!start(combiner, i)) {
            end_from(shared, before);
            return WZ_NO_MEMORY;
        }
        count_helpers(shared, i + 1);
    }
    return WZ_DONE;
}

int32_t wz_shared_progress(wz_shared *shared, uint32_t threads) {
    struct wz_combiner *combiner = shared->at;
    if (combiner == NULL) return WZ_CLOSED;
    if (threads > MOST_PROGRESS) return WZ_BAD_CONFIG;
    pthread_mutex_lock(&combiner->starts);
    int32_t code = have_helpers(shared, threads);
    pthread_mutex_unlock(&combiner->starts);
    return code;
}

void end_helpers(wz_shared *shared) { have_helpers(shared, 0); }
