/* Messages from one rank to another: the call under way, how many of each class were called, and a line for each, in the order of the calls.

   `class N s|r CONTEXT RANK TAG`  the messages that this rank sends to a rank, or receives from it, with a tag; -1 for any
   `+F N`, `+F N TYPE*COUNT`       one of class N, with the type and count of the one before it in that class, or with these. F is S for a
                                   send, B for one that copies, R for a receive; small letters make the next message with a request
   `=A B ..`                       waits for messages with requests: the Ath of those made last, the Bth ..
   `-A`                            a call for any or some, or a test, completed it
   `left A`                        it wasn't complete at MPI_Finalize */
#include "entries.h"
#include "log.h"
#include "types.h"

#include <stdio.h>
#include <stdlib.h>

/* A send that copies its message waits for nobody. */
enum mode { USUAL = 0, COPIED = BUFFERED };

enum { CLASSES = 4096 };

/* Messages alike but for their types and counts. */
static struct message_class {
    int kind, context, rank, tag, number;
    int type; /* of the last one */
    long count;
    struct message_class *next;
} *classes[CLASSES];
static int class_numbers;
static long requests_made;

static struct awaited message(enum awaited_kind kind, enum mode mode, MPI_Comm comm, int peer, int tag) {
    struct context *context = context_of_comm(comm);
    struct awaited awaited = {.kind = kind, .context = context ? context->number : -1, .rank = world_rank(context, peer), .tag = tag, .place = here, .form = mode};
    if (tag == MPI_ANY_TAG)
        awaited.tag = -1;
    return awaited;
}

static struct message_class *class_of(struct awaited of) {
    unsigned hash = (unsigned)of.kind * 7919u + (unsigned)of.context * 104729u + (unsigned)of.rank * 31u + (unsigned)of.tag * 2654435761u;
    struct message_class **bucket = &classes[hash % CLASSES], *it = *bucket;
    while (it && !(it->kind == of.kind && it->context == of.context && it->rank == of.rank && it->tag == of.tag))
        it = it->next;
    if (it)
        return it;
    it = malloc(sizeof *it);
    if (!it) {
        fprintf(stderr, "record: no memory\n");
        abort();
    }
    *it = (struct message_class){.kind = of.kind, .context = of.context, .rank = of.rank, .tag = of.tag, .number = class_numbers++, .type = -1, .count = -1, .next = *bucket};
    *bucket = it;
    char line[128];
    snprintf(line, sizeof line, "class %d %c %d %d %d\n", it->number, of.kind == AWAITED_SEND ? 's' : 'r', of.context, of.rank, of.tag);
    log_text(line);
    return it;
}

/* (Messages are no end of a row of tests.) */
static void write_message(struct message *it) {
    const char form[] = {'+', it->form, ' ', 0};
    log_thread();
    log_place(here);
    log_text(form);
    log_signed(it->class->number);
    if (it->type != it->class->type || it->count != it->class->count) {
        log_text(" ");
        log_signed(it->type);
        log_text("*");
        log_signed(it->count);
        it->class->type = it->type;
        it->class->count = it->count;
    }
    log_text("\n");
    if (it->form > 'Z')
        it->number = requests_made++;
}

/* What a call says of a message. One to or from nobody, or a rank that isn't known, isn't written. */
static struct message described(struct awaited awaited, char form, MPI_Datatype type, long count) {
    struct message it = {.form = form, .number = NO_REQUEST};
    if (awaited.context < 0 || awaited.rank < ANY_RANK || !log_stands())
        return it;
    const struct type *known = type_of(type);
    it.class = class_of(awaited);
    it.type = known ? known->number : -1;
    it.count = count;
    return it;
}

static char form_of(enum awaited_kind kind, enum mode mode) { return kind == AWAITED_RECEIVE ? 'R' : mode == COPIED ? 'B' : 'S'; }

void message_started(struct request *request) {
    if (request->message.class)
        write_message(&request->message);
}

void messages_awaited(int count, struct request *const *requests) {
    bool begun = false;
    for (int place = 0; place < count; place++) {
        const struct request *it = requests[place];
        if (!it || !it->active || it->number != NO_REQUEST || it->message.number == NO_REQUEST)
            continue;
        if (!begun) {
            log_thread();
            log_place(here);
        }
        log_text(begun ? " " : "=");
        log_signed(requests_made - it->message.number);
        begun = true;
    }
    if (begun)
        log_text("\n");
}

void message_completed(const struct request *request) {
    if (request->message.number == NO_REQUEST || !request->active)
        return;
    log_thread();
    log_place(here);
    log_text("-");
    log_signed(requests_made - request->message.number);
    log_text("\n");
}

void message_left(const struct request *request) {
    if (request->message.number != NO_REQUEST)
        write_numbered("left", requests_made - request->message.number);
}

static void await_message(enum awaited_kind kind, enum mode mode, MPI_Comm comm, int peer, int tag, MPI_Datatype type, long count) {
    log_lock();
    struct awaited awaited = message(kind, mode, comm, peer, tag);
    struct message it = described(awaited, form_of(kind, mode), type, count);
    awaited.index = now_count(awaited);
    if (it.class)
        write_message(&it);
    log_unlock();
    now_awaits(awaited);
}

/* Both parts of an exchange are under way at once. */
static void await_exchange(MPI_Comm comm, int to, int sent_tag, MPI_Datatype sent_type, long sent_count, int from, int got_tag, MPI_Datatype got_type,
                           long got_count) {
    log_lock();
    struct awaited awaited[] = {message(AWAITED_SEND, USUAL, comm, to, sent_tag), message(AWAITED_RECEIVE, USUAL, comm, from, got_tag)};
    struct message both[] = {described(awaited[0], 's', sent_type, sent_count), described(awaited[1], 'r', got_type, got_count)};
    struct request first = {.number = NO_REQUEST, .active = true}, second = first, *requests[] = {&first, &second};
    for (int part = 0; part < 2; part++) {
        awaited[part].index = now_count(awaited[part]);
        if (both[part].class)
            write_message(&both[part]);
        requests[part]->message = both[part];
    }
    messages_awaited(2, requests);
    log_unlock();
    now_awaits(awaited[0]);
    now_awaits(awaited[1]);
}

/* Of a call that failed it isn't known whether it sent or received. */
static int returned(int result) {
    if (result != MPI_SUCCESS)
        now_cancelled();
    return result;
}

/* How many messages alike a persistent request has called is known only at its starts. */
static void follow_message(const MPI_Request *handle, enum awaited_kind kind, enum mode mode, MPI_Comm comm, int peer, int tag, MPI_Datatype type,
                           long count, bool persistent) {
    log_lock();
    struct awaited awaited = message(kind, mode, comm, peer, tag);
    struct message it = described(awaited, (char)(form_of(kind, mode) + 'a' - 'A'), type, count);
    if (!persistent) {
        awaited.index = now_count(awaited);
        if (it.class)
            write_message(&it);
    }
    request_made(handle, NO_REQUEST, persistent, awaited)->message = it;
    log_unlock();
    if (!persistent)
        now_makes(awaited);
}

#define SENDING(NAME, count_type, mode)                                                                                                     \
    INTERPOSED(MPI_##NAME, (const void *buffer, count_type count, MPI_Datatype type, int peer, int tag, MPI_Comm comm),                     \
               (buffer, count, type, peer, tag, comm)) {                                                                                    \
        await_message(AWAITED_SEND, mode, comm, peer, tag, type, (long)count);                                                              \
        return returned(next_MPI_##NAME(buffer, count, type, peer, tag, comm));                                                             \
    }

#define SEND_REQUEST(NAME, count_type, mode, persistent)                                                                                    \
    INTERPOSED(MPI_##NAME,                                                                                                                  \
               (const void *buffer, count_type count, MPI_Datatype type, int peer, int tag, MPI_Comm comm, MPI_Request *request),           \
               (buffer, count, type, peer, tag, comm, request)) {                                                                           \
        int result = next_MPI_##NAME(buffer, count, type, peer, tag, comm, request);                                                        \
        if (result == MPI_SUCCESS)                                                                                                          \
            follow_message(request, AWAITED_SEND, mode, comm, peer, tag, type, (long)count, persistent);                                    \
        return result;                                                                                                                      \
    }

#define RECEIVE_REQUEST(NAME, count_type, persistent)                                                                                       \
    INTERPOSED(MPI_##NAME, (void *buffer, count_type count, MPI_Datatype type, int peer, int tag, MPI_Comm comm, MPI_Request *request),     \
               (buffer, count, type, peer, tag, comm, request)) {                                                                           \
        int result = next_MPI_##NAME(buffer, count, type, peer, tag, comm, request);                                                        \
        if (result == MPI_SUCCESS)                                                                                                          \
            follow_message(request, AWAITED_RECEIVE, USUAL, comm, peer, tag, type, (long)count, persistent);                                \
        return result;                                                                                                                      \
    }

#define RECEIVING(NAME, count_type)                                                                                                         \
    INTERPOSED(MPI_##NAME, (void *buffer, count_type count, MPI_Datatype type, int peer, int tag, MPI_Comm comm, MPI_Status *status),       \
               (buffer, count, type, peer, tag, comm, status)) {                                                                            \
        await_message(AWAITED_RECEIVE, USUAL, comm, peer, tag, type, (long)count);                                                          \
        return returned(next_MPI_##NAME(buffer, count, type, peer, tag, comm, status));                                                     \
    }

#define EXCHANGING(NAME, count_type)                                                                                                        \
    INTERPOSED(MPI_##NAME,                                                                                                                  \
               (const void *sent, count_type sent_count, MPI_Datatype sent_type, int to, int sent_tag, void *got, count_type got_count,     \
                MPI_Datatype got_type, int from, int got_tag, MPI_Comm comm, MPI_Status *status),                                           \
               (sent, sent_count, sent_type, to, sent_tag, got, got_count, got_type, from, got_tag, comm, status)) {                        \
        await_exchange(comm, to, sent_tag, sent_type, (long)sent_count, from, got_tag, got_type, (long)got_count);                          \
        return returned(next_MPI_##NAME(sent, sent_count, sent_type, to, sent_tag, got, got_count, got_type, from, got_tag, comm, status)); \
    }

#define REPLACING(NAME, count_type)                                                                                                         \
    INTERPOSED(MPI_##NAME,                                                                                                                  \
               (void *buffer, count_type count, MPI_Datatype type, int to, int sent_tag, int from, int got_tag, MPI_Comm comm,              \
                MPI_Status *status),                                                                                                        \
               (buffer, count, type, to, sent_tag, from, got_tag, comm, status)) {                                                          \
        await_exchange(comm, to, sent_tag, type, (long)count, from, got_tag, type, (long)count);                                            \
        return returned(next_MPI_##NAME(buffer, count, type, to, sent_tag, from, got_tag, comm, status));                                   \
    }

/* MPI 4 has each also with counts of another type, under a name of its own. */
#define ALL_MESSAGES(suffix, count_type)                                                                                                    \
    SENDING(Send##suffix, count_type, USUAL)                                                                                                \
    SENDING(Bsend##suffix, count_type, COPIED)                                                                                              \
    SENDING(Ssend##suffix, count_type, USUAL)                                                                                               \
    SENDING(Rsend##suffix, count_type, USUAL)                                                                                               \
    SEND_REQUEST(Isend##suffix, count_type, USUAL, false)                                                                                   \
    SEND_REQUEST(Ibsend##suffix, count_type, COPIED, false)                                                                                 \
    SEND_REQUEST(Issend##suffix, count_type, USUAL, false)                                                                                  \
    SEND_REQUEST(Irsend##suffix, count_type, USUAL, false)                                                                                  \
    SEND_REQUEST(Send_init##suffix, count_type, USUAL, true)                                                                                \
    SEND_REQUEST(Bsend_init##suffix, count_type, COPIED, true)                                                                              \
    SEND_REQUEST(Ssend_init##suffix, count_type, USUAL, true)                                                                               \
    SEND_REQUEST(Rsend_init##suffix, count_type, USUAL, true)                                                                               \
    RECEIVE_REQUEST(Irecv##suffix, count_type, false)                                                                                       \
    RECEIVE_REQUEST(Recv_init##suffix, count_type, true)                                                                                    \
    RECEIVING(Recv##suffix, count_type)                                                                                                     \
    EXCHANGING(Sendrecv##suffix, count_type)                                                                                                \
    REPLACING(Sendrecv_replace##suffix, count_type)

ALL_MESSAGES(, int)

#if MPI_VERSION >= 4
ALL_MESSAGES(_c, MPI_Count)

/* A request that sends and receives at once isn't followed, so the counts don't say what was sent. */
#define EXCHANGE_REQUEST(NAME, count_type)                                                                                                  \
    INTERPOSED(MPI_##NAME,                                                                                                                  \
               (const void *sent, count_type sent_count, MPI_Datatype sent_type, int to, int sent_tag, void *got, count_type got_count,     \
                MPI_Datatype got_type, int from, int got_tag, MPI_Comm comm, MPI_Request *request),                                         \
               (sent, sent_count, sent_type, to, sent_tag, got, got_count, got_type, from, got_tag, comm, request)) {                       \
        now_cancelled();                                                                                                                    \
        return next_MPI_##NAME(sent, sent_count, sent_type, to, sent_tag, got, got_count, got_type, from, got_tag, comm, request);          \
    }

#define REPLACE_REQUEST(NAME, count_type)                                                                                                   \
    INTERPOSED(MPI_##NAME,                                                                                                                  \
               (void *buffer, count_type count, MPI_Datatype type, int to, int sent_tag, int from, int got_tag, MPI_Comm comm,              \
                MPI_Request *request),                                                                                                      \
               (buffer, count, type, to, sent_tag, from, got_tag, comm, request)) {                                                         \
        now_cancelled();                                                                                                                    \
        return next_MPI_##NAME(buffer, count, type, to, sent_tag, from, got_tag, comm, request);                                            \
    }

EXCHANGE_REQUEST(Isendrecv, int)
EXCHANGE_REQUEST(Isendrecv_c, MPI_Count)
REPLACE_REQUEST(Isendrecv_replace, int)
REPLACE_REQUEST(Isendrecv_replace_c, MPI_Count)
#endif

/* A probe receives nothing, so it isn't counted; one that takes its message out is a receive. */
INTERPOSED(MPI_Probe, (int peer, int tag, MPI_Comm comm, MPI_Status *status), (peer, tag, comm, status)) {
    log_lock();
    struct awaited awaited = message(AWAITED_RECEIVE, USUAL, comm, peer, tag);
    awaited.index = now_counted(awaited);
    log_unlock();
    now_awaits(awaited);
    return next_MPI_Probe(peer, tag, comm, status);
}

INTERPOSED(MPI_Mprobe, (int peer, int tag, MPI_Comm comm, MPI_Message *taken, MPI_Status *status), (peer, tag, comm, taken, status)) {
    await_message(AWAITED_RECEIVE, USUAL, comm, peer, tag, MPI_DATATYPE_NULL, 0);
    return returned(next_MPI_Mprobe(peer, tag, comm, taken, status));
}

INTERPOSED(MPI_Improbe, (int peer, int tag, MPI_Comm comm, int *flag, MPI_Message *taken, MPI_Status *status),
           (peer, tag, comm, flag, taken, status)) {
    int result = next_MPI_Improbe(peer, tag, comm, flag, taken, status);
    log_lock();
    if (result == MPI_SUCCESS && *flag) {
        struct awaited awaited = message(AWAITED_RECEIVE, USUAL, comm, peer, tag);
        struct message it = described(awaited, 'R', MPI_DATATYPE_NULL, 0);
        now_count(awaited);
        if (it.class)
            write_message(&it);
    }
    log_unlock();
    return result;
}

/* It waits for the receivers of all that is in the buffer. */
SHOWN(MPI_Buffer_detach, (void *buffer, int *bytes), (buffer, bytes))
SHOWN(MPI_Mrecv, (void *buffer, int count, MPI_Datatype type, MPI_Message *taken, MPI_Status *status), (buffer, count, type, taken, status))
SHOWN(MPI_Iprobe, (int peer, int tag, MPI_Comm comm, int *flag, MPI_Status *status), (peer, tag, comm, flag, status))

/* A program may ask again and again until it is true. */
SHOWN(MPI_Request_get_status, (MPI_Request request, int *flag, MPI_Status *status), (request, flag, status))

INTERPOSED(MPI_Cancel, (MPI_Request * request), (request)) {
    now_cancelled();
    return next_MPI_Cancel(request);
}
