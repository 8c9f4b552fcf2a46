/* What a rank asks of an engine for a request. */
#include "collectives.h"

/* With --trace the engines number the calls that they take, in their order. */
static int32_t note_order(struct request *request, int32_t code) {
    if (the_run.trace != NULL && code == WZ_DONE) request->order = wz_shared_call_number(&request->engine->shared, (uint8_t)request->member);
    return code;
}

int32_t engine_post(struct request *request, const void *bytes, size_t length) {
    wz_shared *shared = &request->engine->shared;
    uint8_t member = (uint8_t)request->member;
    if (request->call.kind != WZ_ALLGATHERV) return note_order(request, wz_shared_post(shared, member, 0, &request->call, bytes, length, &request->held));
    size_t many = (size_t)request->comm->size;
    return note_order(request, wz_shared_post_allgatherv(shared, member, 0, request->call.type, request->counts, many, bytes, length, &request->held));
}

int32_t engine_init(struct request *request) {
    wz_shared *shared = &request->engine->shared;
    uint8_t member = (uint8_t)request->member;
    if (request->call.kind != WZ_ALLGATHERV) return note_order(request, wz_shared_init(shared, member, 0, &request->call, &request->held));
    size_t many = (size_t)request->comm->size;
    return note_order(request, wz_shared_init_allgatherv(shared, member, 0, request->call.type, request->counts, many, &request->held));
}

int32_t engine_start(struct request *request, const void *bytes, size_t length) {
    return note_order(request, wz_shared_start(&request->engine->shared, (uint8_t)request->member, &request->held, bytes, length));
}

int32_t engine_test(struct request *request) {
    size_t count;
    return note_order(request, wz_shared_test(&request->engine->shared, (uint8_t)request->member, &request->held, request->out, request->room, &count));
}

int32_t engine_wait(struct request *request) {
    size_t count;
    return note_order(request, wz_shared_wait(&request->engine->shared, (uint8_t)request->member, &request->held, request->out, request->room, &count));
}

int32_t engine_free(struct request *request) {
    return note_order(request, wz_shared_free(&request->engine->shared, (uint8_t)request->member, &request->held));
}
