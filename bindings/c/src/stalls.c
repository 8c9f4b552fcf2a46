/* Deadlock among ranks: where each rank waits or has left and nothing can be done, no wait can end. Under the lock. */
#include "combiner.h"

const wz_request *request_at(const struct operation *operation, size_t position) {
    if (operation->parts != NULL) return &operation->parts[position].request;
    return operation->list != NULL ? operation->list[position] : &operation->requests[position];
}

/* A request that is pending, of those that a rank waits for; NULL where there is none. */
static const wz_request *find_pending(struct wz_combiner *combiner, const struct operation *operation) {
    if (operation->request != NULL) return operation->request;
    for (size_t i = 0; i < operation->many; i++) {
        const wz_request *request = request_at(operation, i);
        uint8_t phase = WZ_IDLE;
        int32_t code = wz_phase(&combiner->engine, operation->rank, request, &phase);
        if (code == WZ_DONE && phase == WZ_IS_PENDING) return request;
    }
    return NULL;
}

/* Whether a rank has started what stands at a place as often as the request `about`, or has completed it. */
static bool has_given(struct wz_combiner *combiner, uint8_t rank, const wz_about_request *about) {
    if (combiner->places[about->comm][rank] <= about->place) return false;
    for (uint32_t slot = 0; about->persistent && slot < combiner->slots; slot++) {
        wz_request request = { slot, combiner->generations[slot] };
        wz_about_request other;
        if (request.generation == 0 || wz_about(&combiner->engine, &request, &other) != WZ_DONE) continue;
        if (other.rank == rank && other.comm == about->comm && other.place == about->place)
            return other.starts >= about->starts;
    }
    return true;
}

/* The members that a request waits for: how many, and the lowest. */
static void note_awaited(struct wz_combiner *combiner, const wz_about_request *about, wz_reason *reason) {
    for (uint8_t i = 0; i < combiner->sizes[about->comm]; i++) {
        uint8_t member = combiner->members[about->comm][i];
        if (has_given(combiner, member, about)) continue;
        if (reason->want == 0 || member < reason->first) reason->first = member;
        reason->want++;
    }
}

void note_stall(struct wz_combiner *combiner, struct record *record) {
    const struct operation *operation = record->operation;
    const wz_request *request = find_pending(combiner, operation);
    wz_about_request about;
    wz_posted posted;
    wz_reason reason = WZ_NO_REASON;
    reason.code = WZ_STALLED;
    reason.rank = operation->rank;
    record->stall = combiner->stalls;
    if (request != NULL && wz_about(&combiner->engine, request, &about) == WZ_DONE &&
        wz_posted_at(&combiner->engine, about.comm, about.place, &posted) == WZ_DONE) {
        reason.comm = about.comm;
        reason.place = about.place;
        reason.call = posted.call;
        reason.persistent = posted.persistent;
        note_awaited(combiner, &about, &reason);
    }
    record->reason = reason;
}

void judge(struct wz_combiner *combiner) {
    if (combiner->waiting + combiner->gone < combiner->ranks || combiner->waiting == 0) return;
    if (combiner->outside > 0 || combiner->unsettled) return;
    combiner->stalled = true;
    combiner->stalls++;
    for (uint32_t rank = 0; rank < combiner->ranks; rank++) {
        struct record *record = &combiner->records[rank];
        int stage = load(&record->stage);
        if (stage != WAITING && stage != CALLED) continue;
        note_stall(combiner, record);
        answer(combiner, record, WZ_STALLED);
    }
}

/* ---- what is told of it */

/* What a rank waited for when the stall was told to it, then the other ranks that were told and those that had left. */
static void write_stall_of_all(const struct wz_combiner *combiner, struct text *text, const struct record *me) {
    write_text(text, "no wait can end: ");
    write_stall(text, &me->reason);
    for (uint32_t rank = 0; rank < combiner->ranks; rank++) {
        const struct record *other = &combiner->records[rank];
        if (other == me) continue;
        if (other->reason.code == WZ_STALLED && other->stall == me->stall) {
            write_text(text, "; ");
            write_stall(text, &other->reason);
        } else if (other->left) {
            write_text(text, "; rank %lu has left", (unsigned long)rank);
        }
    }
}

static int32_t apply_explain(struct wz_combiner *combiner, struct operation *operation) {
    uint32_t rank = operation->rank < combiner->ranks ? operation->rank : combiner->ranks;
    const struct record *me = &combiner->records[rank];
    struct text text = { operation->out, operation->room, 0 };
    if (me->reason.code == WZ_STALLED) {
        write_stall_of_all(combiner, &text, me);
        *operation->count = text.length;
    } else {
        *operation->count = (size_t)wz_explain_call(&me->reason, &me->refused, &me->present, text.at, text.size);
    }
    return WZ_DONE;
}

int wz_shared_explain(wz_shared *shared, uint8_t rank, char *text, size_t size) {
    struct operation operation = operation_of(ONCE, rank, apply_explain);
    size_t length = 0;
    operation.out = text;
    operation.room = size;
    operation.count = &length;
    if (perform(shared, &operation) == WZ_CLOSED) {
        struct text whole = { text, size, 0 };
        write_text(&whole, "%s", wz_message(WZ_CLOSED));
        return (int)whole.length;
    }
    return (int)length;
}
