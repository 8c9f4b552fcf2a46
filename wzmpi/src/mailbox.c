/* Mailboxes. A message isn't the engine's: a send puts its bytes into the receiver's queue. It is complete then; a synchronous one, and under --strict each but
   MPI_Bsend, only when it is received, so that a program which leans on a library's buffers is reported. */
#include "mailbox.h"

#include "diagnostics.h"
#include "schedule.h"
#include "warnings.h"

/* A rank's mail: what has come and nobody has asked for, and the receives that nothing has come for, each in its order. */
struct mailbox {
    pthread_mutex_t lock;
    struct message *oldest, **end;
    struct request *first, **last;
};
static struct mailbox mailboxes[MOST_RANKS];

void open_mailboxes(int many) {
    for (struct mailbox *mailbox = mailboxes; mailbox < mailboxes + many; mailbox++) {
        pthread_mutex_init(&mailbox->lock, NULL);
        mailbox->end = &mailbox->oldest;
        mailbox->last = &mailbox->first;
    }
}

/* Each message has to be received before MPI_Finalize (MPI 4.1, 11.2.2). Those of one line of one rank are told together. */
void warn_of_mail(void) {
    char key[700];
    for (int i = 0; i < the_run.size; i++)
        for (const struct message *message = mailboxes[i].oldest; message != NULL; message = message->later) {
            if (message->tag < 0) continue;
            snprintf(key, sizeof key, "mail of rank %d at %s", message->author->number, message->site);
            warn_at_end(i, key, "never received: what rank %d sent with tag %d at %s", message->author->number, message->tag, message->site);
        }
}

static struct mailbox *mailbox_of(const struct comm *comm, int member);

/* How nearly a message is what a receive or a probe asks for: all but the tag, the sender or the communicator. 0: it isn't near. */
static int nearness(const struct request *receive, const struct message *message) {
    int other;
    far_group_from(receive->comm, receive->member, &other);
    bool comm = message->comm == receive->comm->serial, tag = message->tag >= 0 && (receive->tag == MPI_ANY_TAG || receive->tag == message->tag);
    bool any = receive->other == MPI_ANY_SOURCE, sender = any || receive->comm->members[other + receive->other].rank == message->author->number;
    if (message->tag < 0) return 0;
    return comm && sender && !tag ? 3 : comm && tag && !sender ? 2 : !comm && tag && sender && !any ? 1 : 0;
}

static const char *const near_to[] = { "", " on another communicator", " from another rank", " with another tag" };

static void write_near_message(FILE *to, const struct request *receive) {
    struct mailbox *box = mailbox_of(receive->comm, receive->member);
    const struct message *nearest = NULL;
    pthread_mutex_lock(&box->lock);
    for (const struct message *message = box->oldest; message != NULL; message = message->later)
        if (nearness(receive, message) > (nearest != NULL ? nearness(receive, nearest) : 0)) nearest = message;
    if (nearest != NULL)
        fprintf(to, "\n      rank %d sent one%s, tag %d, at %s, which nobody has received", nearest->author->number,
                nearness(receive, nearest) == 2 ? "" : near_to[nearness(receive, nearest)], nearest->tag, nearest->site);
    pthread_mutex_unlock(&box->lock);
}

/* The receive that its receiver has under way which nearly asks for what is sent. */
static void write_near_receive(FILE *to, const struct request *send) {
    int other;
    if (send->other < 0) return;
    far_group_from(send->comm, send->member, &other);
    struct mailbox *box = mailbox_of(send->comm, other + send->other);
    const struct rank *author = &the_run.ranks[send->comm->members[send->member].rank];
    struct message sent = { .comm = send->comm->serial, .tag = send->tag, .author = (struct rank *)(uintptr_t)author };
    const struct request *nearest = NULL;
    pthread_mutex_lock(&box->lock);
    for (const struct request *receive = box->first; receive != NULL; receive = receive->next)
        if (nearness(receive, &sent) > (nearest != NULL ? nearness(nearest, &sent) : 0)) nearest = receive;
    if (nearest != NULL) {
        fprintf(to, "\n      rank %d has a receive%s", send->comm->members[other + send->other].rank, near_to[nearness(nearest, &sent)]);
        if (nearest->tag >= 0) fprintf(to, ", tag %d", nearest->tag);
        fprintf(to, ": %s at %s", nearest->name, nearest->started_at);
    }
    pthread_mutex_unlock(&box->lock);
}

void write_near_miss(FILE *to, const struct request *request) {
    if (request->sort == RECEIVING || request->sort == PROBING) write_near_message(to, request);
    else if (request->sort == SENDING) write_near_receive(to, request);
}

static struct mailbox *mailbox_of(const struct comm *comm, int member) { return &mailboxes[comm->members[member].rank]; }

/* Whether a receive, or a probe, asks for such a message. The tags of the library's own messages are negative, and MPI_ANY_TAG doesn't mean them. */
static bool asks_for(const struct request *request, const struct message *message) {
    if (message->comm != request->comm->serial) return false;
    if (request->other != MPI_ANY_SOURCE && request->other != message->group_rank) return false;
    return request->tag == MPI_ANY_TAG ? message->tag >= 0 : request->tag == message->tag;
}

/* The link to the oldest message that a receive asks for; the last link of all where none has come. */
static struct message **find_message(struct mailbox *box, const struct request *request) {
    struct message **link = &box->oldest;
    for (; *link != NULL; link = &(*link)->later)
        if (asks_for(request, *link)) break;
    return link;
}

static struct message *take_out(struct mailbox *box, const struct request *request) {
    struct message **link = find_message(box, request), *found = *link;
    if (found == NULL) return NULL;
    *link = found->later;
    if (box->end == &found->later) box->end = link;
    return found;
}

/* The receive that was first to ask for a message; NULL: nobody has. */
static struct request *take_receive(struct mailbox *box, const struct message *message) {
    for (struct request **link = &box->first; *link != NULL; link = &(*link)->next) {
        struct request *found = *link;
        if (!asks_for(found, message)) continue;
        *link = found->next;
        if (box->last == &found->next) box->last = link;
        return found;
    }
    return NULL;
}

/* Under the lock of the receiver's mailbox. Once `arrived` is set a request is its own rank's again. */
static void hand_over(struct message *message, struct request *receive) {
    struct request *send = message->awaited_by;
    struct rank *author = message->author;
    receive->message = message;
    if (receive->from_any) keep_source(receive->comm->members[receive->member].rank, receive->step, message->group_rank);
    atomic_store(&receive->arrived, true);
    if (send != NULL) {
        atomic_store(&send->arrived, true);
        wake_rank(author);
    }
}

static atomic_ullong messages;

unsigned long long messages_sent(void) { return atomic_load(&messages); }

static struct message *write_message(struct request *request) {
    size_t length = (size_t)request->many * request->type->size;
    struct message *message = must(malloc(sizeof *message + length));
    int own;
    near_group(request->comm, &own);
    message->comm = request->comm->serial;
    message->group_rank = request->member - own;
    message->tag = request->tag;
    message->length = length;
    message->spread = spread_of(request->type, (uint64_t)request->many);
    message->basic = request->type->basic;
    message->site = request->started_at;
    message->number = request->sent = atomic_fetch_add(&messages, 1) + 1;
    message->awaited_by = request->synchronous ? request : NULL;
    message->author = current_rank;
    message->later = NULL;
    pack(request->type, (size_t)request->many, request->from, message->bytes);
    return message;
}

void start_send(struct request *request) {
    int other;
    far_group(request->comm, &other);
    struct mailbox *box = mailbox_of(request->comm, other + request->other);
    struct message *message = write_message(request);
    atomic_store(&request->arrived, !request->synchronous);
    pthread_mutex_lock(&box->lock);
    struct request *receive = take_receive(box, message);
    if (receive != NULL) hand_over(message, receive);
    else {
        *box->end = message;
        box->end = &message->later;
    }
    pthread_mutex_unlock(&box->lock);
    wake_rank(&the_run.ranks[box - mailboxes]);
}

void start_receive(struct request *request) {
    struct mailbox *box = mailbox_of(request->comm, request->member);
    atomic_store(&request->arrived, false);
    request->next = NULL;
    pthread_mutex_lock(&box->lock);
    struct message *message = take_out(box, request);
    if (message != NULL) hand_over(message, request);
    else {
        *box->last = request;
        box->last = &request->next;
    }
    pthread_mutex_unlock(&box->lock);
}

void write_status(MPI_Status *status, const struct message *message) {
    if (status == MPI_STATUS_IGNORE) return;
    status->MPI_SOURCE = message != NULL ? message->group_rank : MPI_PROC_NULL;
    status->MPI_TAG = message != NULL ? message->tag : MPI_ANY_TAG;
    status->cancelled_ = 0;
    status->bytes_ = message != NULL ? (MPI_Count)message->length : 0;
}

/* Looks for a message, and leaves it where it is. */
bool has_come(const struct request *probe, MPI_Status *status) {
    struct mailbox *box = mailbox_of(probe->comm, probe->member);
    pthread_mutex_lock(&box->lock);
    const struct message *found = *find_message(box, probe);
    if (found != NULL) write_status(status, found);
    pthread_mutex_unlock(&box->lock);
    return found != NULL;
}

bool message_waits(const struct request *probe) { return has_come(probe, MPI_STATUS_IGNORE); }

struct message *take_message(const struct request *probe) {
    struct mailbox *box = mailbox_of(probe->comm, probe->member);
    pthread_mutex_lock(&box->lock);
    struct message *found = take_out(box, probe);
    pthread_mutex_unlock(&box->lock);
    return found;
}

void receive_taken(struct message *message, struct request *receive) {
    struct mailbox *box = mailbox_of(receive->comm, receive->member);
    pthread_mutex_lock(&box->lock);
    hand_over(message, receive);
    pthread_mutex_unlock(&box->lock);
}

bool cancel_send(struct request *send) {
    int other;
    far_group(send->comm, &other);
    struct mailbox *box = mailbox_of(send->comm, other + send->other);
    pthread_mutex_lock(&box->lock);
    struct message **link = &box->oldest;
    while (*link != NULL && (*link)->number != send->sent) link = &(*link)->later;
    struct message *found = *link;
    if (found != NULL) {
        *link = found->later;
        if (box->end == &found->later) box->end = link;
        atomic_store(&send->arrived, true);
    }
    pthread_mutex_unlock(&box->lock);
    free(found);
    return found != NULL;
}

bool cancel_receive(struct request *receive) {
    struct mailbox *box = mailbox_of(receive->comm, receive->member);
    pthread_mutex_lock(&box->lock);
    struct request **link = &box->first;
    while (*link != NULL && *link != receive) link = &(*link)->next;
    bool found = *link == receive;
    if (found) {
        *link = receive->next;
        if (box->last == &receive->next) box->last = link;
        atomic_store(&receive->arrived, true);
    }
    pthread_mutex_unlock(&box->lock);
    return found;
}
