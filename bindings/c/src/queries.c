/* What is known of requests and of posting lists, among threads. */
#include "combiner.h"

static int32_t apply_phase(struct wz_combiner *combiner, struct operation *operation) {
    return wz_phase(&combiner->engine, operation->rank, operation->named, operation->out);
}

static int32_t apply_about(struct wz_combiner *combiner, struct operation *operation) {
    return wz_about(&combiner->engine, operation->named, operation->out);
}

static int32_t apply_outcome_length(struct wz_combiner *combiner, struct operation *operation) {
    return wz_outcome_length(&combiner->engine, operation->rank, operation->named, operation->count);
}

static int32_t apply_posted_at(struct wz_combiner *combiner, struct operation *operation) {
    return wz_posted_at(&combiner->engine, operation->comm, operation->place, operation->out);
}

static int32_t apply_lent(struct wz_combiner *combiner, struct operation *operation) {
    return wz_lent(&combiner->engine, operation->out);
}

int32_t wz_shared_phase(wz_shared *shared, uint8_t rank, const wz_request *request, uint8_t *phase) {
    struct operation operation = operation_of(ONCE, rank, apply_phase);
    operation.named = request;
    operation.out = phase;
    return perform(shared, &operation);
}

int32_t wz_shared_about(wz_shared *shared, uint8_t rank, const wz_request *request, wz_about_request *about) {
    struct operation operation = operation_of(ONCE, rank, apply_about);
    operation.named = request;
    operation.out = about;
    return perform(shared, &operation);
}

int32_t wz_shared_outcome_length(wz_shared *shared, uint8_t rank, const wz_request *request, size_t *bytes) {
    struct operation operation = operation_of(ONCE, rank, apply_outcome_length);
    operation.named = request;
    operation.count = bytes;
    return perform(shared, &operation);
}

int32_t wz_shared_posted_at(wz_shared *shared, uint32_t comm, uint32_t place, wz_posted *posted) {
    struct operation operation = operation_of(ONCE, UINT8_MAX, apply_posted_at);
    operation.comm = comm;
    operation.place = place;
    operation.out = posted;
    return perform(shared, &operation);
}

int32_t wz_shared_lent(wz_shared *shared, uint64_t *bytes) {
    struct operation operation = operation_of(ONCE, UINT8_MAX, apply_lent);
    operation.out = bytes;
    return perform(shared, &operation);
}

/* ---- for a thread that watches */

/* What it is told of a request. */
struct sight {
    uint8_t rank;
    uint8_t *phase;
    bool *at_rest;
};

static int32_t apply_watch(struct wz_combiner *combiner, struct operation *operation) {
    const struct sight *sight = operation->out;
    *sight->at_rest = combiner->outside == 0 && !combiner->unsettled;
    if (operation->named == NULL) return WZ_DONE;
    return wz_phase(&combiner->engine, sight->rank, operation->named, sight->phase);
}

int32_t wz_shared_watch(wz_shared *shared, uint8_t rank, const wz_request *request, uint8_t *phase, bool *at_rest) {
    struct operation operation = operation_of(ONCE, UINT8_MAX, apply_watch);
    struct sight sight = { rank, phase, at_rest };
    operation.named = request;
    operation.out = &sight;
    return perform(shared, &operation);
}
