/* Posts, starts, tests and waits of ranks: the calls of worzsunab.h, each published as an operation. */
#include "combiner.h"

/* ---- posts and starts, under the lock */

/* Notes a request that was made. */
static int32_t note_made(struct wz_combiner *combiner, const struct operation *operation, int32_t code) {
    if (code != WZ_DONE) return code;
    struct buffers *buffers = &combiner->buffers[operation->request->slot];
    buffers->given = operation->bytes;
    buffers->length = operation->length;
    buffers->out = operation->out;
    buffers->room = operation->room;
    combiner->places[operation->comm][operation->rank]++;
    combiner->generations[operation->request->slot] = operation->request->generation;
    return code;
}

int32_t apply_post(struct wz_combiner *combiner, struct operation *operation) {
    int32_t code = operation->moved.full ? wz_post_given(&combiner->engine, operation->rank, operation->comm,
                                                         operation->call, &operation->moved, operation->request)
                                         : wz_post(&combiner->engine, operation->rank, operation->comm, operation->call,
                                                   operation->bytes, operation->length, operation->request);
    return note_made(combiner, operation, code);
}

int32_t apply_post_allgatherv(struct wz_combiner *combiner, struct operation *operation) {
    int32_t code = operation->moved.full ? wz_post_allgatherv_given(&combiner->engine, operation->rank, operation->comm,
                                                                    operation->type, operation->counts, operation->many,
                                                                    &operation->moved, operation->request)
                                         : wz_post_allgatherv(&combiner->engine, operation->rank, operation->comm,
                                                              operation->type, operation->counts, operation->many,
                                                              operation->bytes, operation->length, operation->request);
    return note_made(combiner, operation, code);
}

int32_t apply_init(struct wz_combiner *combiner, struct operation *operation) {
    int32_t code = wz_init(&combiner->engine, operation->rank, operation->comm, operation->call, operation->request);
    return note_made(combiner, operation, code);
}

int32_t apply_init_allgatherv(struct wz_combiner *combiner, struct operation *operation) {
    int32_t code = wz_init_allgatherv(&combiner->engine, operation->rank, operation->comm, operation->type,
                                      operation->counts, operation->many, operation->request);
    return note_made(combiner, operation, code);
}

static int32_t apply_start(struct wz_combiner *combiner, struct operation *operation) {
    if (operation->moved.full)
        return wz_start_given(&combiner->engine, operation->rank, operation->named, &operation->moved);
    return wz_start(&combiner->engine, operation->rank, operation->named, operation->bytes, operation->length);
}

/* The requests before the first that is refused are started, also where the call answers that refusal. */
static int32_t apply_start_all(struct wz_combiner *combiner, struct operation *operation) {
    int32_t code = wz_start_all(&combiner->engine, operation->rank, operation->parts, operation->many, operation->bytes,
                                operation->length, operation->count);
    for (size_t i = 0; i < *operation->count; i++) note_row(combiner, operation->parts[i].room);
    if (*operation->count > 0) {
        combiner->stalled = false;
        combiner->unsettled = true;
    }
    return code;
}

static int32_t apply_free(struct wz_combiner *combiner, struct operation *operation) {
    return wz_free(&combiner->engine, operation->rank, operation->request);
}

/* ---- posts and starts */

static void drop_moved(struct operation *operation) {
    begin_unlocked_call();
    wz_drop_bytes(&operation->moved);
    end_unlocked_call();
}

/* Where memory is short, the row is copied under the lock, and the call answers for that. */
int32_t perform_giving(wz_shared *shared, struct operation *operation) {
    if (operation->length >= WZ_LONG && operation->length <= MOST_BYTES)
        wz_give(&operation->moved, operation->bytes, operation->length);
    int32_t code = perform(shared, operation);
    if (operation->moved.full) drop_moved(operation);
    return code;
}

int32_t wz_shared_post(wz_shared *shared, uint8_t rank, uint32_t comm, const wz_call *call, const void *bytes,
                       size_t length, wz_request *request) {
    struct operation operation = operation_of(BEGINS, rank, apply_post);
    operation.comm = comm;
    operation.call = call;
    operation.bytes = bytes;
    operation.length = length;
    operation.request = request;
    return perform_giving(shared, &operation);
}

int32_t wz_shared_post_allgatherv(wz_shared *shared, uint8_t rank, uint32_t comm, uint8_t type, const uint32_t *counts,
                                  size_t many, const void *bytes, size_t length, wz_request *request) {
    struct operation operation = operation_of(BEGINS, rank, apply_post_allgatherv);
    operation.comm = comm;
    operation.type = type;
    operation.counts = counts;
    operation.many = many;
    operation.bytes = bytes;
    operation.length = length;
    operation.request = request;
    return perform_giving(shared, &operation);
}

int32_t wz_shared_init(wz_shared *shared, uint8_t rank, uint32_t comm, const wz_call *call, wz_request *request) {
    struct operation operation = operation_of(ONCE, rank, apply_init);
    operation.comm = comm;
    operation.call = call;
    operation.request = request;
    return perform(shared, &operation);
}

int32_t wz_shared_init_allgatherv(wz_shared *shared, uint8_t rank, uint32_t comm, uint8_t type, const uint32_t *counts,
                                  size_t many, wz_request *request) {
    struct operation operation = operation_of(ONCE, rank, apply_init_allgatherv);
    operation.comm = comm;
    operation.type = type;
    operation.counts = counts;
    operation.many = many;
    operation.request = request;
    return perform(shared, &operation);
}

int32_t wz_shared_start(wz_shared *shared, uint8_t rank, const wz_request *request, const void *bytes, size_t length) {
    struct operation operation = operation_of(BEGINS, rank, apply_start);
    operation.named = request;
    operation.bytes = bytes;
    operation.length = length;
    return perform_giving(shared, &operation);
}

int32_t wz_shared_start_all(wz_shared *shared, uint8_t rank, const wz_part *parts, size_t many, const void *given,
                            size_t length, size_t *started) {
    struct operation operation = operation_of(BEGINS, rank, apply_start_all);
    operation.parts = (wz_part *)parts; /* which it leaves as they are */
    operation.many = many;
    operation.bytes = given;
    operation.length = length;
    operation.count = started;
    *started = 0;
    return perform(shared, &operation);
}

int32_t wz_shared_free(wz_shared *shared, uint8_t rank, wz_request *request) {
    struct operation operation = operation_of(ONCE, rank, apply_free);
    operation.request = request;
    return perform(shared, &operation);
}

/* ---- tests and waits, under the lock */

int32_t apply_test(struct wz_combiner *combiner, struct operation *operation) {
    if (operation->moved.full)
        return wz_take_outcome(&combiner->engine, operation->rank, operation->request, operation->room,
                               &operation->moved);
    return wz_test(&combiner->engine, operation->rank, operation->request, operation->out, operation->room,
                   operation->count);
}

static int32_t apply_test_any(struct wz_combiner *combiner, struct operation *operation) {
    return wz_test_any(&combiner->engine, operation->rank, operation->parts, operation->many, operation->out,
                       operation->room, operation->count);
}

/* WZ_PENDING where some are active and none is done: wz_shared_test_some answers WZ_DONE then. */
static int32_t apply_test_some(struct wz_combiner *combiner, struct operation *operation) {
    int32_t code = wz_test_some(&combiner->engine, operation->rank, operation->parts, operation->many, operation->out,
                                operation->room, operation->count);
    return code == WZ_DONE && *operation->count == 0 ? WZ_PENDING : code;
}

/* Looks at no part again that it has passed. */
static int32_t apply_test_all(struct wz_combiner *combiner, struct operation *operation) {
    wz_engine *engine = &combiner->engine;
    for (; operation->passed < operation->many; operation->passed++) {
        const wz_request *request = &operation->parts[operation->passed].request;
        uint8_t phase = WZ_IDLE;
        if (wz_phase(engine, operation->rank, request, &phase) == WZ_DONE && phase == WZ_IS_PENDING) return WZ_PENDING;
    }
    return wz_test_all(engine, operation->rank, operation->parts, operation->many, operation->out, operation->room);
}

int32_t apply_find(struct wz_combiner *combiner, struct operation *operation) {
    bool active = false;
    for (size_t i = 0; i < operation->many; i++) {
        const wz_request *request = request_at(operation, i);
        uint8_t phase = WZ_IDLE;
        if (request->generation == 0) continue;
        int32_t code = wz_phase(&combiner->engine, operation->rank, request, &phase);
        if (code == WZ_DONE && phase != WZ_IS_DONE) {
            active = active || phase == WZ_IS_PENDING;
            continue;
        }
        if (code == WZ_DONE) *operation->count = i;
        return code;
    }
    if (active) return WZ_PENDING;
    *operation->count = WZ_UNDEFINED;
    return WZ_DONE;
}

/* ---- tests and waits */

static int32_t copy_moved_out(struct operation *operation) {
    begin_unlocked_call();
    int32_t code = wz_copy_out(&operation->moved, operation->out, operation->room, operation->count);
    end_unlocked_call();
    if (code == WZ_DONE) declare_written(operation->out, *operation->count);
    return code;
}

static int32_t complete(wz_shared *shared, enum answered answered, uint8_t rank, wz_request *request, void *out,
                        size_t room, size_t *count) {
    struct operation operation = operation_of(answered, rank, apply_test);
    operation.request = request;
    operation.out = out;
    operation.room = room;
    operation.count = count;
    /* Without memory for that, the outcome is copied under the lock. */
    if (room >= WZ_LONG) wz_give(&operation.moved, NULL, 0);
    int32_t code = perform(shared, &operation);
    if (!operation.moved.full) return code;
    if (code == WZ_DONE) return copy_moved_out(&operation);
    drop_moved(&operation);
    return code;
}

/* *found is the index, or how many were completed. */
static int32_t complete_parts(wz_shared *shared, struct operation *operation, wz_part *parts, size_t many, void *out,
                              size_t room, size_t *found) {
    operation->parts = parts;
    operation->many = many;
    operation->out = out;
    operation->room = room;
    operation->count = found;
    return perform(shared, operation);
}

int32_t wz_shared_test(wz_shared *shared, uint8_t rank, wz_request *request, void *out, size_t room, size_t *count) {
    return complete(shared, TESTS, rank, request, out, room, count);
}

int32_t wz_shared_wait(wz_shared *shared, uint8_t rank, wz_request *request, void *out, size_t room, size_t *count) {
    return complete(shared, WAITS, rank, request, out, room, count);
}

int32_t wz_shared_test_any(wz_shared *shared, uint8_t rank, wz_part *parts, size_t many, void *out, size_t room,
                           size_t *index) {
    struct operation operation = operation_of(TESTS, rank, apply_test_any);
    return complete_parts(shared, &operation, parts, many, out, room, index);
}

int32_t wz_shared_test_some(wz_shared *shared, uint8_t rank, wz_part *parts, size_t many, void *out, size_t room,
                            size_t *completed) {
    struct operation operation = operation_of(TESTS, rank, apply_test_some);
    int32_t code = complete_parts(shared, &operation, parts, many, out, room, completed);
    return code == WZ_PENDING ? WZ_DONE : code;
}

int32_t wz_shared_test_all(wz_shared *shared, uint8_t rank, wz_part *parts, size_t many, void *out, size_t room) {
    struct operation operation = operation_of(TESTS, rank, apply_test_all);
    return complete_parts(shared, &operation, parts, many, out, room, NULL);
}

int32_t wz_shared_wait_any(wz_shared *shared, uint8_t rank, wz_part *parts, size_t many, void *out, size_t room,
                           size_t *index) {
    struct operation operation = operation_of(WAITS, rank, apply_test_any);
    return complete_parts(shared, &operation, parts, many, out, room, index);
}

int32_t wz_shared_wait_some(wz_shared *shared, uint8_t rank, wz_part *parts, size_t many, void *out, size_t room,
                            size_t *completed) {
    struct operation operation = operation_of(WAITS, rank, apply_test_some);
    return complete_parts(shared, &operation, parts, many, out, room, completed);
}

int32_t wz_shared_wait_all(wz_shared *shared, uint8_t rank, wz_part *parts, size_t many, void *out, size_t room) {
    struct operation operation = operation_of(WAITS, rank, apply_test_all);
    return complete_parts(shared, &operation, parts, many, out, room, NULL);
}

int32_t wz_shared_wait_for_any(wz_shared *shared, uint8_t rank, const wz_request *const *list, size_t many,
                               size_t *index) {
    struct operation operation = operation_of(WAITS, rank, apply_find);
    operation.list = list;
    operation.many = many;
    operation.count = index;
    return perform(shared, &operation);
}
