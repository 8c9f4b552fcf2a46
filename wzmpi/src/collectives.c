/* Posts collectives: looks at the call, compares it with the others' at its place, and gives it to the engine. */
#include "collectives.h"

#include "trace.h"
#include "record.h"
#include "diagnostics.h"
#include "overlap.h"

static const char *name_of(const struct arguments *arguments) {
    return arguments->name != NULL ? arguments->name : collective_names[arguments->function][arguments->form];
}

/* ---- what the engine refuses */

static int class_of(int32_t code) {
    switch (code) {
    case WZ_ACTIVE:
    case WZ_NOT_PERSISTENT:
    case WZ_STALE: return MPI_ERR_REQUEST;
    case WZ_NO_MEMORY: return MPI_ERR_NO_MEM;
    case WZ_BAD_LENGTH: return MPI_ERR_TRUNCATE;
    default: return MPI_ERR_OTHER;
    }
}

int engine_refused(struct request *request, int32_t code, const char *call) {
    if (code == WZ_MISMATCH) tell_mismatch(request->comm, request->place);
    if (code == WZ_ACTIVE)
        return refuse(request->comm, MPI_ERR_REQUEST, call, "the request of %s is active still: it was started at %s and not completed since", request->site, request->started_at);
    if (code == WZ_FULL)
        return refuse(request->comm, MPI_ERR_OTHER, call, "the communicator has room for %u requests that are neither completed nor freed, of all its members together, and all is taken",
                          slots_for(request->comm));
    char why[300];
    wz_reason last = wz_shared_reason(&request->engine->shared, (uint8_t)request->member);
    wz_explain(&last, why, sizeof why);
    return refuse(request->comm, class_of(code), call, "the engine refuses it: %s", last.code == code ? why : wz_message(code));
}

/* ---- posting and starting */

int begin_request(struct request *request, const char *call) {
    uint64_t parcels[MOST_RANKS];
    const void *bytes = parcels;
    void *packed = NULL;
    size_t length = 0;
    bool lends = the_run.checks && request->arguments.form != BLOCKING;
    request->started_at = current_rank->site;
    request->given = request->got = 0;
    if (request->persistent) request->begun = run_clock();
    if (request->direct) bytes = given_bytes(request, &packed, &length);
    else length = sizeof parcels[0] * (size_t)list_parcels(request, parcels);
    if (request->direct) request->given = length;
    request->room = outcome_bytes(request);
    request->out = request->direct && !lends ? outcome_place(request) : NULL;
    if (request->out == NULL) request->out = scratch_of(request, request->room);
    if (request->persistent) record_start(request, call, bytes, length);
    else record_post(request, call, bytes, length);
    if (request->persistent) atomic_store(&request->starts->of[request->member], ++request->times);
    int32_t code = engine_ask_with_room(request, &(struct asking){ request->persistent ? engine_start : engine_post, bytes, length }, call);
    if (code == WZ_DONE) {
        if (lends) lend(request);
        note_begun(request, request->persistent ? STARTED : POSTED, call, bytes, length);
    }
    free(packed);
    if (code != WZ_DONE) return engine_refused(request, code, call);
    request->active = true;
    note_progress();
    return MPI_SUCCESS;
}

static int32_t ask_init(struct request *request, const void *bytes, size_t length) {
    (void)bytes, (void)length;
    return engine_init(request);
}

static int initialise(struct request *request) {
    request->starts = starts_at(request->comm, request->place);
    request->times = atomic_load(&request->starts->of[request->member]);
    record_init(request);
    int32_t code = engine_ask_with_room(request, &(struct asking){ ask_init, NULL, 0 }, request->name);
    if (code != WZ_DONE) return engine_refused(request, code, request->name);
    note_begun(request, INITIALISED, request->name, NULL, 0);
    return MPI_SUCCESS;
}

/* Another member has another call at this place. */
static int disagreeing(struct request *request, const struct called *called, int other) {
    struct comm *comm = request->comm;
    struct called theirs;
    char text[NAME_TEXT];
    record_refused(request);
    bool of_file = comm->serves == FILE_; /* their handlers return what the system says, and so would hide it */
    if (of_file || !this_member(comm)->handler->returns || !read_called(comm, other, request->place, &theirs)) tell_mismatch(comm, request->place);
    return refuse(comm, MPI_ERR_ARG, request->name, "place %llu: rank %d has another collective, %s at %s: %s", (unsigned long long)request->place, comm->members[other].rank,
                     called_text(&theirs, text), theirs.site, what_differs(called, &theirs));
}

int post_call(struct comm *comm, const struct arguments *arguments, struct request **made) {
    struct rank *me = this_rank(name_of(arguments));
    struct called called;
    if (!me->begun || me->finalized)
        return refuse(comm, MPI_ERR_OTHER, name_of(arguments), me->begun ? "MPI_Finalize was called before" : "MPI_Init wasn't called before");
    hold_up();
    struct request *request = new_request(COLLECTIVE, comm, name_of(arguments));
    request->arguments = *arguments;
    request->persistent = arguments->form == PERSISTENT;
    int code = validate(request, &called);
    if (code == MPI_SUCCESS && arguments->function < COMM_DUP) code = judge_received(request, request->name);
    if (code == MPI_SUCCESS && arguments->function < COMM_DUP && !request->persistent) code = judge_pending(request, request->name);
    if (code == MPI_SUCCESS) {
        request->place = atomic_load_explicit(&comm->members[request->member].posted, memory_order_relaxed);
        write_call(comm, request->member, request->place, &called);
        int other = first_disagreeing(comm, request->member, request->place, &called);
        if (other >= 0) code = disagreeing(request, &called, other);
    }
    if (code == MPI_SUCCESS) {
        note_called(request, &called);
        request->engine = engine_at(comm, request->place);
        code = request->persistent ? initialise(request) : begin_request(request, request->name);
    }
    if (code != MPI_SUCCESS) {
        drop_request(request);
        return code;
    }
    me->calls[arguments->function][request->direct]++;
    atomic_store(&comm->members[request->member].posted, request->place + 1);
    wake_members(comm, request->member);
    *made = request;
    return code;
}

int post_and_wait(struct comm *comm, const struct arguments *arguments, struct request **kept) {
    struct request *request;
    int code = post_call(comm, arguments, &request);
    if (code != MPI_SUCCESS) return code;
    request->kept = true;
    record_wait("wait", &request, NULL, 1, request->name);
    code = complete_request(request, MPI_STATUS_IGNORE, request->name);
    if (code != MPI_SUCCESS) drop_request(request);
    *kept = request;
    return code;
}

int carry_out(MPI_Comm handle, const struct arguments *arguments, MPI_Request *request) {
    this_rank(name_of(arguments));
    struct comm *comm = find_comm(handle);
    struct request *made;
    if (comm == NULL) return comm_error(handle, name_of(arguments));
    if (arguments->form != BLOCKING && request == NULL) return refuse(comm, MPI_ERR_ARG, name_of(arguments), "there is no place for the request");
    int code = post_call(comm, arguments, &made);
    if (code != MPI_SUCCESS) return code;
    if (arguments->form != BLOCKING) {
        *request = publish(made);
        return code;
    }
    record_wait("wait", &made, NULL, 1, made->name);
    return complete_request(made, MPI_STATUS_IGNORE, made->name);
}
