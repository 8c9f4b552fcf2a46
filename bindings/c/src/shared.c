/* A wz_shared: opening, closing, and who has left. */
#include "combiner.h"

#include <stdlib.h>
#include <string.h>

/* ---- opening */

/* Zeroed memory at the beginning of a cache line; NULL where there is none. */
static void *allocate_lines(size_t bytes) {
    void *memory = aligned_alloc(64, (bytes + 63) / 64 * 64);
    if (memory != NULL) memset(memory, 0, bytes);
    return memory;
}

static void deallocate(struct wz_combiner *combiner) {
    free(combiner->generations);
    free(combiner->buffers);
    free(combiner->records);
    free(combiner->works);
    free(combiner->started);
    free(combiner);
}

/* The memory of a combiner whose limits the engine has accepted; NULL where there isn't enough. */
static struct wz_combiner *allocate(const wz_limits *limits) {
    struct wz_combiner *combiner = allocate_lines(sizeof *combiner);
    if (combiner == NULL) return NULL;
    combiner->ranks = limits->ranks;
    combiner->slots = limits->slots;
    combiner->processors = count_processors();
    combiner->generations = calloc(limits->slots, sizeof *combiner->generations);
    combiner->buffers = calloc(limits->slots, sizeof *combiner->buffers);
    size_t records = limits->ranks + 1 + MOST_PROGRESS;
    combiner->records = allocate_lines(records * sizeof *combiner->records);
    combiner->works = calloc(records + 1, sizeof *combiner->works);
    combiner->started = allocate_helpers();
    if (combiner->generations != NULL && combiner->buffers != NULL && combiner->records != NULL &&
        combiner->works != NULL && combiner->started != NULL)
        return combiner;
    deallocate(combiner);
    return NULL;
}

static void open_records(struct wz_combiner *combiner) {
    uint32_t records = combiner->ranks + 1 + MOST_PROGRESS;
    pthread_mutex_init(&combiner->guests, NULL);
    pthread_mutex_init(&combiner->starts, NULL);
    declare_word(&combiner->held);
    declare_word(&combiner->helpers);
    for (uint32_t i = 0; i < records; i++) {
        struct record *record = &combiner->records[i];
        declare_word(&record->stage);
        declare_word(&record->combination);
        declare_word(&record->sleeps);
        pthread_mutex_init(&record->guard, NULL);
        pthread_cond_init(&record->woken, NULL);
        record->work = &combiner->works[i];
    }
    combiner->next = &combiner->works[records];
}

int32_t wz_shared_open(wz_shared *shared, const wz_limits *limits, const uint8_t *sizes, size_t communicators,
                       const uint8_t *members, size_t member_count) {
    wz_engine engine = WZ_CLOSED_ENGINE;
    shared->at = NULL;
    int32_t code = wz_open(&engine, limits, sizes, communicators, members, member_count);
    if (code != WZ_DONE) return code;
    struct wz_combiner *combiner = allocate(limits);
    if (combiner == NULL) {
        wz_close(&engine);
        return WZ_NO_MEMORY;
    }
    combiner->engine = engine;
    for (size_t comm = 0; comm < communicators; comm++) {
        combiner->sizes[comm] = sizes[comm];
        memcpy(combiner->members[comm], members, sizes[comm]);
        members += sizes[comm];
    }
    open_records(combiner);
    count_threads((int)combiner->ranks);
    shared->at = combiner;
    return WZ_DONE;
}

int32_t wz_shared_open_world(wz_shared *shared, uint8_t ranks) {
    uint8_t members[256];
    for (int rank = 0; rank < 256; rank++) members[rank] = (uint8_t)rank;
    wz_limits limits = wz_greatest_limits(ranks);
    return wz_shared_open(shared, &limits, &ranks, 1, members, ranks);
}

/* ---- closing */

int32_t wz_shared_close(wz_shared *shared) {
    struct wz_combiner *combiner = shared->at;
    if (combiner == NULL) return WZ_CLOSED;
    end_helpers(shared);
    count_threads(-(int)combiner->ranks);
    wz_close(&combiner->engine);
    if (combiner->is_left) wz_drop_work(combiner->next);
    for (uint32_t i = 0; i < combiner->ranks + 1 + MOST_PROGRESS; i++) {
        pthread_cond_destroy(&combiner->records[i].woken);
        pthread_mutex_destroy(&combiner->records[i].guard);
    }
    pthread_mutex_destroy(&combiner->guests);
    pthread_mutex_destroy(&combiner->starts);
    deallocate(combiner);
    shared->at = NULL;
    return WZ_DONE;
}

/* ---- ranks */

static int32_t apply_leave(struct wz_combiner *combiner, struct operation *operation) {
    if (operation->rank >= combiner->ranks || combiner->records[operation->rank].left) return WZ_DONE;
    combiner->records[operation->rank].left = true;
    combiner->gone++;
    return WZ_DONE;
}

void wz_shared_leave(wz_shared *shared, uint8_t rank) {
    struct operation operation = operation_of(ONCE, rank, apply_leave);
    perform(shared, &operation);
}

wz_reason wz_shared_reason(const wz_shared *shared, uint8_t rank) {
    static const wz_reason none = WZ_NO_REASON;
    const struct wz_combiner *combiner = shared->at;
    return combiner != NULL && rank < combiner->ranks ? combiner->records[rank].reason : none;
}

/* ---- the order of calls */

void wz_shared_number_calls(wz_shared *shared, uint64_t *counter) {
    if (shared->at != NULL) shared->at->numbers = (_Atomic uint64_t *)counter;
}

uint64_t wz_shared_call_number(const wz_shared *shared, uint8_t rank) {
    const struct wz_combiner *combiner = shared->at;
    return combiner != NULL && rank < combiner->ranks ? combiner->records[rank].number : 0;
}
