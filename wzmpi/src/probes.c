/* The calls that look for a message, take it out for one receive, and give up a receive. */
#include "counted.h"
#include "mailbox.h"
#include "diagnostics.h"
#include "generalized.h"
#include "schedule.h"
#include "test_loops.h"

/* A probe as a request that is active, with what it asks for. */
static int make_probe(int source, int tag, MPI_Comm comm, struct request **made, const char *call) {
    char byte;
    int code = make_message(&(struct words){ NULL, &byte, 0, MPI_BYTE, source, tag, comm, call }, RECEIVING, false, made);
    if (code != MPI_SUCCESS) return code;
    (*made)->sort = PROBING;
    (*made)->active = true;
    return code;
}

/* Waits for the message where the call does, or has to find one. */
static void wait_for_message(struct request *request, const struct plan *plan, bool waits) {
    struct request *only[1] = { request };
    if (plan->what == NOTHING && waits) misfit(plan, request->name, "it waits for a message");
    ask_planned(request, plan);
    if ((waits || plan->what == SOURCE) && !has_come(request, MPI_STATUS_IGNORE)) wait_for(request->name, only, 1, false);
}

/* Whether a message is there; where it is waited for, it is in the end. A call that doesn't wait, or asks for any source, chooses. */
static bool look(struct request *request, bool waits, MPI_Status *status) {
    struct request *only[1] = { request };
    MPI_Status own, *found = status != MPI_STATUS_IGNORE ? status : &own;
    if (request->other == MPI_PROC_NULL) {
        write_status(status, NULL);
        return true;
    }
    bool chooses = !waits || request->from_any;
    struct plan plan = chooses ? next_planned(request->name) : (struct plan){ .what = FREE };
    long step = chooses ? keep_begun(request->name) : NO_STEP;
    wait_for_message(request, &plan, waits);
    bool there = plan.what != NOTHING && has_come(request, found);
    if (there) {
        keep_source(current_rank->number, step, found->MPI_SOURCE);
        return true;
    }
    keep_completed(step, NULL, 0);
    test_in_vain(request->name, only, 1);
    return false;
}

static int probe(int source, int tag, MPI_Comm comm, int *flag, MPI_Status *status, const char *call) {
    struct request *request;
    int code = make_probe(source, tag, comm, &request, call);
    if (code != MPI_SUCCESS) return code;
    bool there = look(request, flag == NULL, status);
    if (flag != NULL) *flag = there;
    drop_request(request);
    return code;
}

int MPI_Probe(int source, int tag, MPI_Comm comm, MPI_Status *status) { return probe(source, tag, comm, NULL, status, "MPI_Probe"); }

int MPI_Iprobe(int source, int tag, MPI_Comm comm, int *flag, MPI_Status *status) { return probe(source, tag, comm, flag, status, "MPI_Iprobe"); }

/* ---- messages that were taken out (MPI 4.1, 3.8.2) */

struct taken {
    struct message *message;
    MPI_Comm comm;
};

static int take(int source, int tag, MPI_Comm comm, int *flag, MPI_Message *handle, MPI_Status *status, const char *call) {
    struct request *request;
    int code = make_probe(source, tag, comm, &request, call);
    *handle = MPI_MESSAGE_NULL;
    if (code != MPI_SUCCESS) return code;
    bool there = look(request, flag == NULL, status);
    if (flag != NULL) *flag = there;
    if (there && source == MPI_PROC_NULL) *handle = MPI_MESSAGE_NO_PROC;
    else if (there) {
        struct taken *taken = must(malloc(sizeof *taken));
        *taken = (struct taken){ take_message(request), comm };
        *handle = (MPI_Message)add_handle(TAKEN, taken);
    }
    drop_request(request);
    return code;
}

int MPI_Mprobe(int source, int tag, MPI_Comm comm, MPI_Message *message, MPI_Status *status) {
    return take(source, tag, comm, NULL, message, status, "MPI_Mprobe");
}

int MPI_Improbe(int source, int tag, MPI_Comm comm, int *flag, MPI_Message *message, MPI_Status *status) {
    return take(source, tag, comm, flag, message, status, "MPI_Improbe");
}

/* An active receive of what was taken out. */
static int receive(void *into, MPI_Count many, MPI_Datatype type, MPI_Message *handle, struct request **made, const char *call) {
    this_rank(call);
    bool nobody = *handle == MPI_MESSAGE_NO_PROC;
    struct taken *taken = nobody ? NULL : find_handle(TAKEN, *handle);
    if (!nobody && taken == NULL) return refuse(NULL, MPI_ERR_REQUEST, call, "there is no such message, or it was received before");
    struct words words = { NULL, into, many, type, MPI_PROC_NULL, MPI_ANY_TAG, MPI_COMM_SELF, call };
    if (!nobody) words = (struct words){ NULL, into, many, type, taken->message->group_rank, taken->message->tag, taken->comm, call };
    int code = make_message(&words, RECEIVING, false, made);
    if (code != MPI_SUCCESS) return code;
    (*made)->active = true;
    if (nobody) atomic_store(&(*made)->arrived, true);
    else {
        receive_taken(taken->message, *made);
        remove_handle(TAKEN, *handle);
        free(taken);
    }
    *handle = MPI_MESSAGE_NULL;
    return code;
}

int counted_Mrecv(void *into, MPI_Count many, MPI_Datatype type, MPI_Message *message, MPI_Status *status) {
    struct request *request;
    int code = receive(into, many, type, message, &request, "MPI_Mrecv");
    return code == MPI_SUCCESS ? complete_request(request, status, "MPI_Mrecv") : code;
}

int counted_Imrecv(void *into, MPI_Count many, MPI_Datatype type, MPI_Message *message, MPI_Request *request) {
    struct request *made;
    int code = receive(into, many, type, message, &made, "MPI_Imrecv");
    if (code == MPI_SUCCESS) {
        *request = publish(made);
        lend(made);
    }
    return code;
}

/* ---- giving up (MPI 4.1, 3.8.4): a receive that nothing has come for, and a send whose message nobody has received. */

int MPI_Cancel(MPI_Request *handle) {
    const char *call = "MPI_Cancel";
    struct request *request;
    this_rank(call);
    int code = find_request(*handle, call, &request);
    if (code != MPI_SUCCESS) return code;
    if (request == NULL) return refuse(NULL, MPI_ERR_REQUEST, call, "the request is MPI_REQUEST_NULL");
    if (request->sort == COLLECTIVE) return refuse(request->comm, MPI_ERR_REQUEST, call, "the request of %s is a collective's, which can't be cancelled (MPI 4.1, 6.12)", request->site);
    if (request->sort == GENERALIZED) return cancel_generalized(request);
    if (request->sort == ACCESSING) return refuse(request->comm, MPI_ERR_REQUEST, call, "the request of %s at %s is a window's or a file's, which can't be cancelled", request->name, request->site);
    if (!request->active) return refuse(request->comm, MPI_ERR_REQUEST, call, "the request of %s isn't active", request->site);
    if (request->other == MPI_PROC_NULL) return MPI_SUCCESS;
    if (request->sort == RECEIVING) request->cancelled = cancel_receive(request);
    else request->cancelled = cancel_send(request);
    return MPI_SUCCESS;
}

/* ---- a buffer isn't needed: each send has its own memory */

static struct {
    void *at;
    int size;
} attached[MOST_RANKS];

int MPI_Buffer_attach(void *buffer, int size) {
    int rank = this_rank("MPI_Buffer_attach")->number;
    attached[rank].at = buffer;
    attached[rank].size = size;
    return MPI_SUCCESS;
}

int MPI_Buffer_detach(void *buffer, int *size) {
    int rank = this_rank("MPI_Buffer_detach")->number;
    *(void **)buffer = attached[rank].at;
    *size = attached[rank].size;
    attached[rank].at = NULL;
    attached[rank].size = 0;
    return MPI_SUCCESS;
}
