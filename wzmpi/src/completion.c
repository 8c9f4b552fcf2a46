/* The calls that wait for the requests that they name, start and free them. */
#include "completion.h"
#include "trace.h"
#include "record.h"
#include "diagnostics.h"
#include "overlap.h"

#include <time.h>

void empty_status(MPI_Status *status) {
    if (status != MPI_STATUS_IGNORE) *status = (MPI_Status){ MPI_ANY_SOURCE, MPI_ANY_TAG, MPI_SUCCESS, 0, 0 };
}

/* The same but for the error, which only calls with several statuses write (MPI 4.1, 3.2.5). */
void clear_status(MPI_Status *status) {
    if (status != MPI_STATUS_IGNORE) *status = (MPI_Status){ MPI_ANY_SOURCE, MPI_ANY_TAG, status->MPI_ERROR, 0, 0 };
}

/* ---- one request */

int tell_changed(const struct request *request, const char *what, const char *call) {
    return refuse(request->comm, MPI_ERR_BUFFER, call, "what %s at %s %s was changed before it was completed here", request->name, request->started_at, what);
}

/* The outcome is in it->out: puts it where the program wants it. */
static int end_collective(struct request *request, const char *call) {
    int code = MPI_SUCCESS;
    const char *changed = end_loan(request);
    note_progress();
    record_outcome(request);
    if (changed != NULL) code = tell_changed(request, changed, call);
    if (!request->direct) code = open_parcels(request, call);
    else if (request->out == request->scratch) put_outcome(request);
    if (request->direct) request->got = request->room;
    note_completed(request, call);
    request->active = request->collected = false;
    if (!request->persistent && !request->kept) drop_request(request);
    return code;
}

static int32_t wait_in_engine(struct request *request, const char *call) {
    struct request *only[1] = { request };
    begin_waiting(call, only, 1, false);
    int32_t code = engine_wait(request);
    while (code == WZ_STALLED) { /* all members wait, and nothing can end it: whoever watches tells it (deadlock_watch.c) */
        nanosleep(&(struct timespec){ 0, 5000000 }, NULL);
        code = engine_test(request);
        if (code == WZ_PENDING) code = WZ_STALLED;
    }
    end_waiting();
    return code;
}

int complete_request(struct request *request, MPI_Status *status, const char *call) {
    struct request *only[1] = { request };
    if (!request->active) {
        empty_status(status);
        return MPI_SUCCESS;
    }
    clear_status(status);
    current_rank->completes = request->name;
    current_rank->completes_at = request->started_at;
    if (request->sort != COLLECTIVE) {
        if (!is_done(request)) wait_for(call, only, 1, false);
        finish_freed();
        return finish_message(request, status, call);
    }
    bool alone = current_rank->level < MPI_THREAD_MULTIPLE;
    if (!alone || (the_run.strict && lacking(request) != 0)) wait_for(call, only, 1, false);
    int32_t code = request->collected ? WZ_DONE : wait_in_engine(request, call);
    finish_freed();
    return code == WZ_DONE ? end_collective(request, call) : engine_refused(request, code, call);
}

int MPI_Wait(MPI_Request *handle, MPI_Status *status) {
    this_rank("MPI_Wait");
    struct request *request;
    int code = find_request(*handle, "MPI_Wait", &request);
    if (code != MPI_SUCCESS || request == NULL) {
        empty_status(status);
        return code;
    }
    hold_up();
    bool stays = request->persistent;
    record_wait("wait", &request, handle, 1, "MPI_Wait");
    if (!stays) record_place(handle, request);
    code = complete_request(request, status, "MPI_Wait");
    if (!stays) *handle = MPI_REQUEST_NULL;
    return code;
}

/* ---- lists of requests */

void give_up_list(struct list *list) {
    if (list->at != list->few) free(list->at);
}

int read_single(struct list *list, MPI_Request *handle, const char *call) {
    this_rank(call);
    list->many = 1;
    list->handles = handle;
    list->at = list->few;
    return find_request(*handle, call, &list->at[0]);
}

int read_list(struct list *list, int many, MPI_Request handles[], const char *call) {
    this_rank(call);
    int code = MPI_SUCCESS, read = 0, twice = -1;
    list->many = many;
    list->handles = handles;
    list->at = list->few;
    if (many < 0) return refuse(NULL, MPI_ERR_COUNT, call, "the count %d is negative", many);
    if (many > 32) list->at = must(malloc(sizeof *list->at * (size_t)many));
    for (; read < many && code == MPI_SUCCESS; read++) {
        code = find_request(handles[read], call, &list->at[read]);
        struct request *request = list->at[read];
        if (request != NULL && request->listed) twice = read;
        if (request != NULL) request->listed = true;
    }
    for (int i = 0; i < read; i++)
        if (list->at[i] != NULL) list->at[i]->listed = false;
    if (code == MPI_SUCCESS && twice >= 0) code = refuse(NULL, MPI_ERR_REQUEST, call, "the request of %s stands twice in the list", list->at[twice]->site);
    if (code != MPI_SUCCESS) give_up_list(list);
    return code;
}

MPI_Status *status_at(MPI_Status *statuses, int i) { return statuses == MPI_STATUSES_IGNORE ? MPI_STATUS_IGNORE : &statuses[i]; }

int complete_one(struct list *list, int i, MPI_Status *status, const char *call) {
    bool stays = list->at[i]->persistent;
    if (!stays) record_place(&list->handles[i], list->at[i]);
    int code = complete_request(list->at[i], status, call);
    if (!stays) list->handles[i] = MPI_REQUEST_NULL;
    list->at[i] = NULL;
    return code;
}

void note_error(int *code, int one, MPI_Status *status) {
    if (status != MPI_STATUS_IGNORE) status->MPI_ERROR = one;
    if (one != MPI_SUCCESS) *code = status == MPI_STATUS_IGNORE ? one : MPI_ERR_IN_STATUS;
}

int complete_all(struct list *list, MPI_Status statuses[], const char *call) {
    int code = MPI_SUCCESS;
    for (int i = 0; i < list->many; i++) {
        empty_status(status_at(statuses, i));
        if (list->at[i] == NULL) continue;
        note_error(&code, complete_one(list, i, status_at(statuses, i), call), status_at(statuses, i));
    }
    return code;
}

int MPI_Waitall(int many, MPI_Request handles[], MPI_Status statuses[]) {
    struct list list;
    int code = read_list(&list, many, handles, "MPI_Waitall");
    if (code != MPI_SUCCESS) return code;
    hold_up();
    record_wait("waitall", list.at, handles, many, "MPI_Waitall");
    code = complete_all(&list, statuses, "MPI_Waitall");
    give_up_list(&list);
    return code;
}

/* ---- starting and freeing */

static int start(MPI_Request handle, const char *call) {
    struct request *request;
    int code = find_request(handle, call, &request);
    if (code != MPI_SUCCESS) return code;
    if (request == NULL) return refuse(NULL, MPI_ERR_REQUEST, call, "the request is MPI_REQUEST_NULL");
    if (!request->persistent) return refuse(request->comm, MPI_ERR_REQUEST, call, "the request of %s isn't persistent", request->site);
    if (request->active) return refuse(request->comm, MPI_ERR_REQUEST, call, "the request of %s is active still: it was started at %s and not completed since", request->site, request->started_at);
    hold_up();
    if (request->sort != COLLECTIVE) {
        code = judge_received(request, call);
        if (code == MPI_SUCCESS) code = judge_pending(request, call);
        if (code != MPI_SUCCESS) return code;
        lend(request);
        return start_message(request);
    }
    code = begin_request(request, call);
    wake_members(request->comm, request->member);
    return code;
}

int MPI_Start(MPI_Request *handle) {
    this_rank("MPI_Start");
    return start(*handle, "MPI_Start");
}

int MPI_Startall(int many, MPI_Request handles[]) {
    int code = MPI_SUCCESS;
    this_rank("MPI_Startall");
    for (int i = 0; i < many && code == MPI_SUCCESS; i++) code = start(handles[i], "MPI_Startall");
    return code;
}

static int free_collective(struct request *request, const char *call) {
    if (!request->persistent)
        return refuse(request->comm, MPI_ERR_REQUEST, call, "the request of %s is a nonblocking collective's, which can't be freed (MPI 4.1, 6.12)", request->site);
    if (request->active) return engine_refused(request, WZ_ACTIVE, call);
    record_free(request);
    int32_t code = engine_free(request);
    if (code != WZ_DONE) return engine_refused(request, code, call);
    note_freed(request);
    return MPI_SUCCESS;
}

int MPI_Request_free(MPI_Request *handle) {
    const char *call = "MPI_Request_free";
    this_rank(call);
    struct request *request;
    int code = find_request(*handle, call, &request);
    if (code != MPI_SUCCESS) return code;
    if (request == NULL) return refuse(NULL, MPI_ERR_REQUEST, call, "the request is MPI_REQUEST_NULL");
    if (request->sort == COLLECTIVE) code = free_collective(request, call);
    if (code != MPI_SUCCESS) return code;
    *handle = MPI_REQUEST_NULL;
    if (request->sort != COLLECTIVE && request->active) return free_active(request, call);
    drop_request(request);
    return code;
}
