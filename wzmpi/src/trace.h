/* What a run did, for --trace, --timeline and --stats: each rank keeps notes of its own. */
#ifndef WZ_TRACE_H
#define WZ_TRACE_H

#include "collectives.h"

enum { MOST_NOTES = 1000000, MOST_VALUES = 64 << 20 }; /* of all ranks: calls, and bytes of values */

enum what { POSTED, INITIALISED, STARTED, COMPLETED, FREED, MESSAGE, WAITED };

/* A call. */
struct note {
    enum what what;
    bool carried;
    int request;                    /* among the rank's posts and initialisations, from 0 */
    int peer, tag;                  /* of a message */
    uint32_t start;
    uint64_t order, place;
    int64_t begun, ended;           /* of a post, a start, a message and a wait: when the call began, and when the completing one ended; 0: not yet */
    const char *call, *site;
    const char *ended_by, *ended_at; /* the completing call */
    char *comm, *signature;         /* the rank's own copies; the collective as the engine has it */
    const char *described;          /* and as the program has it */
    char *values;
    size_t bytes;
};

/* What a rank did with one kind of call on one communicator. */
struct tally {
    char *text;
    long comm; /* its serial number */
    int members;
    bool first; /* whether this rank is the communicator's first member */
    uint64_t times, completed, given;
    int64_t all, longest; /* nanoseconds from the call to the end of the completing one */
    struct tally *next;
};

struct notes {
    pthread_mutex_t guard; /* the rank writes, and whoever ends the run reads */
    struct note *at;
    size_t many, room, value_bytes;
    bool full;
    int requests;
    uint64_t posts, inits, starts, completed, given, got, lent, most_lent, sent, sent_bytes;
    int64_t waited;
    struct tally *tallies;
};

bool notes_are_wanted(void);
int64_t run_clock(void); /* nanoseconds since the run began; 0 where no notes are wanted */
void begin_notes(void);

void note_called(struct request *request, const struct called *called); /* a post or an initialisation that was judged */
void note_begun(struct request *request, enum what what, const char *call, const void *bytes, size_t length);
void note_completed(struct request *request, const char *call);
void note_freed(struct request *request);
void note_message(struct request *request, const char *call);
void note_wait(const char *call, const char *site, int64_t begun);

/* Writes the files that are wanted. NULL: it could; else the one that can't be written. */
const char *write_notes(void);
bool write_timeline(const char *path);
bool write_trace(const char *path);
void tell_statistics(void);

#endif
