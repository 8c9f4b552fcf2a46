/* What each thread of this rank does now: the MPI call under way and what it waits for, in a mapped file that stays if the process is
   killed. The reader is standing.py. */
#ifndef NOW_H
#define NOW_H

#include <stdint.h>

enum awaited_kind { AWAITED_COLLECTIVE = 1, AWAITED_RECEIVE, AWAITED_SEND, AWAITED_OTHER, AWAITED_RANK };
enum { NO_RANK = -2, ANY_RANK = -1, RANK_UNKNOWN = -3 };
enum awaited_form { OF_CALL = 0, OF_REQUEST = 1, BUFFERED = 2 };

/* One thing that a call waits for. */
struct awaited {
    int32_t kind;
    int32_t context; /* its number, or -1 */
    int32_t rank;    /* of a message: in MPI_COMM_WORLD, or ANY_RANK, NO_RANK for MPI_PROC_NULL, RANK_UNKNOWN */
    int32_t tag;     /* of a message: -1 for any */
    int64_t index;   /* of a collective: its place in the order of its context; of a message: how many alike this rank called before */
    int32_t place;   /* where a request was made, or 0 */
    int32_t form;    /* of a message or collective: 0 of the call itself, 1 of a request; 2 more of a send that is buffered */
};

/* A call that is over, in the file of the calls' times. */
enum { SHOWN_OF_CALL = 6 };
struct timed_call {
    uint64_t begun, ended; /* nanoseconds of the clock; 0 for an empty one */
    int32_t place, thread, awaited, any;
    char name[32];
    struct awaited shown[SHOWN_OF_CALL]; /* the first of what it waited for, or made */
};

void now_open(const char *folder, int rank, int size, long run);
void now_finalized(void);

/* This thread enters a call of MPI, waits there for something further, and leaves it. */
void now_enter(const char *name, int place);
void now_awaits(struct awaited awaited);

/* Says that one of what is awaited is enough. */
void now_any(void);
void now_leave(void);

/* Says what the call under way has made, and doesn't wait for. */
void now_makes(struct awaited awaited);

/* Counts a message, and returns how many alike were counted before: of this kind, context, rank and tag. The lock is held. */
long now_count(struct awaited message);
long now_counted(struct awaited message); /* the same without counting it */

/* Says that a message was cancelled, so the counts don't say what was received. */
void now_cancelled(void);

/* Says that the program called the library past the recorder, that the record couldn't be written further, that the program waits by calls
   that are neither collectives nor messages, and that MPI_Finalize may call back the program, which may call anything. */
void now_unseen(void);
void now_lost(void);
void now_elsewhere(void);
void now_callbacks(void);

/* The number of this thread among those that have called MPI, from 0 on. */
int now_thread(void);

#endif
