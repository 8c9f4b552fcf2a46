/* Messages on their way: each rank has a mailbox. */
#ifndef WZ_MAILBOX_H
#define WZ_MAILBOX_H

#include "collectives.h"

struct message {
    long comm;      /* its serial number */
    int group_rank; /* the sender's, in its group */
    int tag;
    size_t length;
    struct signature spread;
    int basic; /* the basic type of all elements; 0 where there are several */
    const char *site;
    uint64_t number; /* among all messages, from 1 */
    struct request *awaited_by; /* the synchronous send that ends once it is received; NULL: none */
    struct rank *author;
    struct message *later;
    char bytes[];
};

/* Begin a send, and a receive, that is active. */
void start_send(struct request *send);
void start_receive(struct request *receive);
/* Whether a message is there that a receive, or a probe, asks for; it stays there. */
bool has_come(const struct request *probe, MPI_Status *status);
/* Takes it out, for this rank alone; NULL: it isn't there. */
struct message *take_message(const struct request *probe);
/* Gives a receive what was taken out. */
void receive_taken(struct message *message, struct request *receive);
/* Gives up a receive that nothing has come for. Whether it could. */
bool cancel_receive(struct request *receive);
/* Gives up a send whose message nobody has received. Whether it could. */
bool cancel_send(struct request *send);
/* A line, begun by its end, of what came or is asked for that is nearly what a message's request waits for. For the thread that watches. */
void write_near_miss(FILE *to, const struct request *request);
void write_status(MPI_Status *status, const struct message *message); /* NULL: of MPI_PROC_NULL */

/* ---- messages.c: the arguments of a message's call */
struct words {
    const void *from;
    void *to;
    MPI_Count many;
    MPI_Datatype type;
    int other, tag;
    MPI_Comm comm;
    const char *call;
};
int make_message(const struct words *words, enum sort sort, bool synchronous, struct request **made);

#endif
