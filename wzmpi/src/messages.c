/* The calls that send and receive. */
#include "counted.h"
#include "loans.h"
#include "mailbox.h"
#include "overlap.h"
#include "schedule.h"
#include "trace.h"
#include "diagnostics.h"
#include "generalized.h"
#include "window.h"

/* Whose message a receive from any source gets depends on time, and so it is a choice. */
static void choose_source(struct request *request) {
    struct plan plan = next_planned(request->name);
    request->other = MPI_ANY_SOURCE;
    request->planned = 0;
    ask_planned(request, &plan);
    request->step = keep_begun(request->name);
}

int start_message(struct request *request) {
    note_progress();
    request->active = true;
    request->cancelled = false;
    if (request->persistent) request->begun = run_clock();
    request->message = NULL;
    request->started_at = current_rank->site;
    if (request->from_any) choose_source(request);
    if (request->other == MPI_PROC_NULL) atomic_store(&request->arrived, true);
    else if (request->sort == SENDING) start_send(request);
    else start_receive(request);
    return MPI_SUCCESS;
}

/* ---- completing */

/* As many elements as have come, and of a part of one its bytes. */
static void unpack_message(const struct message *message, const struct request *request) {
    size_t size = request->type->size, whole = size > 0 ? message->length / size : 0, part = message->length - whole * size;
    unpack(request->type, whole, request->to, message->bytes);
    if (part > 0) unpack_part(request->type, (char *)request->to + (MPI_Aint)whole * request->type->extent, message->bytes + whole * size, part);
}

/* What is sent has to be of the types that are received (MPI 4.1, 3.3.1); a pair is as a structure of its value and its index. Bytes and packed ones are let pass as
   any, and so is a part of an element of several types. */
static bool is_of_type(const struct message *message, const struct type *type) {
    const struct basic *sent = basic_type(message->basic), *received = basic_type(type->basic);
    uint64_t elements = type->spread.elements, came = message->spread.elements;
    if (came == 0 || elements == 0 || sent->class == BITS || received->class == BITS) return true;
    bool pairs = sent->class == PAIR || received->class == PAIR;
    if (message->basic > 0 && type->basic > 0 && !pairs) return sent->code == received->code;
    return came % elements != 0 || spread_of(type, came / elements).hash == message->spread.hash;
}

static const char *types_text(int basic) { return basic > 0 ? basic_type(basic)->name : "elements of several types"; }

static int judge_message(const struct request *request, const struct message *message, const char *call) {
    int other;
    size_t room = (size_t)request->many * request->type->size;
    far_group(request->comm, &other);
    int rank = request->comm->members[other + message->group_rank].rank;
    if (message->length > room)
        return refuse(request->comm, MPI_ERR_TRUNCATE, call, "rank %d sends %zu bytes at %s, and the receive of %s has room for %zu", rank, message->length, message->site,
                          request->started_at, room);
    if (is_of_type(message, request->type)) return MPI_SUCCESS;
    return refuse(request->comm, MPI_ERR_TYPE, call, "rank %d sends %s at %s, and the receive of %s is of %s", rank, types_text(message->basic), message->site, request->started_at,
                      types_text(request->type->basic));
}

void show_status(const struct request *request, MPI_Status *status) {
    if (request->sort == GENERALIZED) {
        query_generalized(request, status);
        return;
    }
    clear_status(status);
    if (request->sort == RECEIVING && !request->cancelled) write_status(status, request->message);
    if (status != MPI_STATUS_IGNORE) status->cancelled_ = request->sort != COLLECTIVE && request->cancelled;
}

static int receive_message(struct request *request, const char *call) {
    struct message *message = request->message;
    if (request->cancelled || message == NULL) return MPI_SUCCESS;
    int code = judge_message(request, message, call);
    if (code == MPI_SUCCESS) unpack_message(message, request);
    free(message);
    return code;
}

int finish_message(struct request *request, MPI_Status *status, const char *call) {
    note_progress();
    if (request->sort == ACCESSING) return finish_access(request, status);
    if (request->sort == GENERALIZED) return finish_generalized(request, status);
    const char *changed = end_loan(request);
    show_status(request, status);
    int code = request->sort == RECEIVING ? receive_message(request, call) : MPI_SUCCESS;
    if (changed != NULL) code = tell_changed(request, changed, call);
    note_message(request, call);
    request->active = false;
    if (!request->persistent) drop_request(request);
    return code;
}

/* ---- letting go. The message goes on (MPI 4.1, 3.7.3): what is received comes before the next call that completes something returns. */

int free_active(struct request *request, const char *call) {
    const char *changed = end_loan(request);
    int code = changed != NULL ? tell_changed(request, changed, call) : MPI_SUCCESS;
    remove_handle(REQUEST, request->handle);
    request->handle = MPI_REQUEST_NULL;
    request->persistent = false;
    request->next_let_go = current_rank->let_go;
    current_rank->let_go = request;
    finish_freed();
    return code;
}

void finish_freed(void) {
    struct request **at = &current_rank->let_go;
    while (*at != NULL) {
        struct request *request = *at;
        if (!is_done(request)) {
            at = &request->next_let_go;
            continue;
        }
        *at = request->next_let_go;
        finish_message(request, MPI_STATUS_IGNORE, request->name);
    }
}

/* ---- the calls */

static int judge(const struct words *words, struct comm *comm, bool receives) {
    int other, far = far_group(comm, &other);
    bool any = receives && words->other == MPI_ANY_SOURCE, any_tag = receives && words->tag == MPI_ANY_TAG;
    if (words->many < 0) return refuse(comm, MPI_ERR_COUNT, words->call, "the count %lld is negative", (long long)words->many);
    if (words->other != MPI_PROC_NULL && !any && (words->other < 0 || words->other >= far))
        return refuse(comm, MPI_ERR_RANK, words->call, "there is no rank %d in the communicator, which has %d", words->other, far);
    if (words->tag < 0 && !any_tag && words->other != MPI_PROC_NULL) return refuse(comm, MPI_ERR_TAG, words->call, "the tag %d is negative", words->tag);
    struct type *type = find_type(words->type);
    if (type == NULL) return type_error(words->type, words->call);
    if (!type->committed) return refuse(comm, MPI_ERR_TYPE, words->call, "the type isn't committed");
    if ((receives ? words->to : words->from) == NULL && words->many > 0 && type->predefined && words->other != MPI_PROC_NULL)
        return refuse(comm, MPI_ERR_BUFFER, words->call, "the buffer is null");
    return MPI_SUCCESS;
}

int make_message(const struct words *words, enum sort sort, bool synchronous, struct request **made) {
    struct rank *me = this_rank(words->call);
    struct comm *comm = find_comm(words->comm);
    if (comm == NULL) return comm_error(words->comm, words->call);
    if (!me->begun || me->finalized) return refuse(comm, MPI_ERR_OTHER, words->call, me->begun ? "MPI_Finalize was called before" : "MPI_Init wasn't called before");
    int code = judge(words, comm, sort == RECEIVING);
    if (code != MPI_SUCCESS) return code;
    struct request *request = new_request(sort, comm, words->call);
    request->from = words->from;
    request->to = words->to;
    request->many = words->many;
    request->type = find_type(words->type);
    type_use(request->type);
    request->other = words->other;
    request->from_any = sort == RECEIVING && words->other == MPI_ANY_SOURCE;
    request->tag = words->tag;
    request->synchronous = synchronous;
    *made = request;
    return code;
}

/* Whether it may use the memory; else it is dropped. */
static int judge_memory(struct request *request, const char *call) {
    int code = judge_received(request, call);
    if (code == MPI_SUCCESS) code = judge_pending(request, call);
    if (code != MPI_SUCCESS) drop_request(request);
    return code;
}

static int blocking(const struct words *words, enum sort sort, bool synchronous, MPI_Status *status) {
    struct request *request;
    int code = make_message(words, sort, synchronous, &request);
    if (code != MPI_SUCCESS) return code;
    hold_up();
    code = judge_memory(request, words->call);
    if (code != MPI_SUCCESS) return code;
    start_message(request);
    return complete_request(request, status, words->call);
}

static int nonblocking(const struct words *words, enum sort sort, bool synchronous, MPI_Request *request) {
    struct request *made;
    int code = make_message(words, sort, synchronous, &made);
    if (code != MPI_SUCCESS) return code;
    hold_up();
    code = judge_memory(made, words->call);
    if (code != MPI_SUCCESS) return code;
    *request = publish(made);
    lend(made);
    return start_message(made);
}

static int persistent(const struct words *words, enum sort sort, bool synchronous, MPI_Request *request) {
    struct request *made;
    int code = make_message(words, sort, synchronous, &made);
    if (code != MPI_SUCCESS) return code;
    made->persistent = true;
    *request = publish(made);
    return code;
}

#define SENT(name) &(struct words){ from, NULL, many, type, to, tag, comm, name }
#define RECEIVED(name) &(struct words){ NULL, into, many, type, from, tag, comm, name }
#define SEND_WORDS const void *from, MPI_Count many, MPI_Datatype type, int to, int tag, MPI_Comm comm
#define RECEIVE_WORDS void *into, MPI_Count many, MPI_Datatype type, int from, int tag, MPI_Comm comm

int counted_Send(SEND_WORDS) { return blocking(SENT("MPI_Send"), SENDING, the_run.strict, MPI_STATUS_IGNORE); }
int counted_Ssend(SEND_WORDS) { return blocking(SENT("MPI_Ssend"), SENDING, true, MPI_STATUS_IGNORE); }
int counted_Rsend(SEND_WORDS) { return blocking(SENT("MPI_Rsend"), SENDING, the_run.strict, MPI_STATUS_IGNORE); }
int counted_Bsend(SEND_WORDS) { return blocking(SENT("MPI_Bsend"), SENDING, false, MPI_STATUS_IGNORE); }
int counted_Isend(SEND_WORDS, MPI_Request *request) { return nonblocking(SENT("MPI_Isend"), SENDING, the_run.strict, request); }
int counted_Issend(SEND_WORDS, MPI_Request *request) { return nonblocking(SENT("MPI_Issend"), SENDING, true, request); }
int counted_Irsend(SEND_WORDS, MPI_Request *request) { return nonblocking(SENT("MPI_Irsend"), SENDING, the_run.strict, request); }
int counted_Ibsend(SEND_WORDS, MPI_Request *request) { return nonblocking(SENT("MPI_Ibsend"), SENDING, false, request); }
int counted_Send_init(SEND_WORDS, MPI_Request *request) { return persistent(SENT("MPI_Send_init"), SENDING, the_run.strict, request); }
int counted_Ssend_init(SEND_WORDS, MPI_Request *request) { return persistent(SENT("MPI_Ssend_init"), SENDING, true, request); }
int counted_Rsend_init(SEND_WORDS, MPI_Request *request) { return persistent(SENT("MPI_Rsend_init"), SENDING, the_run.strict, request); }
int counted_Bsend_init(SEND_WORDS, MPI_Request *request) { return persistent(SENT("MPI_Bsend_init"), SENDING, false, request); }
int counted_Recv(RECEIVE_WORDS, MPI_Status *status) { return blocking(RECEIVED("MPI_Recv"), RECEIVING, false, status); }
int counted_Irecv(RECEIVE_WORDS, MPI_Request *request) { return nonblocking(RECEIVED("MPI_Irecv"), RECEIVING, false, request); }
int counted_Recv_init(RECEIVE_WORDS, MPI_Request *request) { return persistent(RECEIVED("MPI_Recv_init"), RECEIVING, false, request); }

static int both(const struct words *sent, const struct words *received, MPI_Status *status) {
    struct request *receive, *send;
    int code = make_message(received, RECEIVING, false, &receive);
    if (code == MPI_SUCCESS) code = make_message(sent, SENDING, the_run.strict, &send);
    if (code != MPI_SUCCESS) return code;
    hold_up();
    if (receive->other != MPI_PROC_NULL && send->other != MPI_PROC_NULL && pieces_overlap(received_piece(receive, 0), sent_piece(send, 0)))
        code = refuse(receive->comm, MPI_ERR_BUFFER, received->call, "the send and the receive buffer overlap, for which MPI has MPI_Sendrecv_replace");
    if (code == MPI_SUCCESS) code = judge_memory(receive, received->call);
    else drop_request(receive);
    if (code != MPI_SUCCESS) drop_request(send);
    if (code != MPI_SUCCESS) return code;
    start_message(receive);
    start_message(send);
    code = complete_request(receive, status, received->call);
    int other = complete_request(send, MPI_STATUS_IGNORE, sent->call);
    return code != MPI_SUCCESS ? code : other;
}

int counted_Sendrecv(const void *from, MPI_Count many, MPI_Datatype type, int to, int tag, void *into, MPI_Count room, MPI_Datatype room_type, int source, int source_tag,
                MPI_Comm comm, MPI_Status *status) {
    return both(SENT("MPI_Sendrecv"), &(struct words){ NULL, into, room, room_type, source, source_tag, comm, "MPI_Sendrecv" }, status);
}

/* The bytes are copied when the send begins, before anything is received. */
int counted_Sendrecv_replace(void *from, MPI_Count many, MPI_Datatype type, int to, int tag, int source, int source_tag, MPI_Comm comm, MPI_Status *status) {
    const char *call = "MPI_Sendrecv_replace";
    struct request *receive, *send;
    int code = make_message(SENT(call), SENDING, the_run.strict, &send);
    if (code == MPI_SUCCESS) code = make_message(&(struct words){ NULL, from, many, type, source, source_tag, comm, call }, RECEIVING, false, &receive);
    if (code != MPI_SUCCESS) return code;
    start_message(send);
    start_message(receive);
    code = complete_request(receive, status, call);
    int other = complete_request(send, MPI_STATUS_IGNORE, call);
    return code != MPI_SUCCESS ? code : other;
}
