/* How a thread waits for its record: it looks, yields its processor, and sleeps. */
#include "combiner.h"

#include <sched.h>
#include <time.h>

/* ---- looking */

int64_t nanoseconds(void) {
    struct timespec now;
    clock_gettime(CLOCK_MONOTONIC, &now);
    return (int64_t)now.tv_sec * 1000000000 + now.tv_nsec;
}

void yield_processor(struct record *me) {
    int64_t from = nanoseconds();
    sched_yield();
    int64_t to = nanoseconds();
    if (to - from <= WZ_LONG_YIELD) return;
    if (me->repaid < from - WZ_CREDIT) me->repaid = from - WZ_CREDIT;
    me->repaid += WZ_SHARE * (to - from);
    if (me->repaid > to + WZ_REPAID) me->repaid = to + WZ_REPAID;
    me->yields = to >= me->repaid;
}

void let_time_pass(struct record *me, int looks) {
    if (looks == WZ_CLOSE_LOOKS) me->yields = nanoseconds() >= me->repaid;
    if (looks >= WZ_CLOSE_LOOKS && me->yields) {
        yield_processor(me);
    } else {
        pause_processor();
    }
}

/* ---- sleeping */

/* Whether the record's thread has something to do: it was answered, has published, is called, or has a result to
   return. */
static bool is_due(struct record *record) {
    return load(&record->stage) != WAITING || load(&record->combination) == COMPUTED;
}

bool is_over(struct record *me) { return load(&me->stage) == ANSWERED && load(&me->combination) == NONE; }

bool needs_lock(struct record *me) {
    int stage = load(&me->stage);
    return stage == PUBLISHED || stage == CALLED || load(&me->combination) == COMPUTED;
}

void sleep_at(struct wz_combiner *combiner, struct record *me) {
    store(&me->sleeps, 1);
    if (is_over(me) || (needs_lock(me) && !load(&combiner->held))) {
        store(&me->sleeps, 0);
        return;
    }
    pthread_mutex_lock(&me->guard);
    while (load(&me->sleeps)) pthread_cond_wait(&me->woken, &me->guard);
    pthread_mutex_unlock(&me->guard);
}

void wake_sleepers(struct wz_combiner *combiner) {
    uint32_t records = count_records(combiner);
    for (uint32_t i = 0; i < records; i++) {
        struct record *record = &combiner->records[i];
        if (!load(&record->sleeps) || !is_due(record) || !swap(&record->sleeps, 0)) continue;
        pthread_mutex_lock(&record->guard);
        pthread_cond_signal(&record->woken);
        pthread_mutex_unlock(&record->guard);
    }
}
