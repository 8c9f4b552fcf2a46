/* A rank's part of the job text, for those who write it: record.c, as the rank makes its calls, and pending_calls.c, at the end of a run. Whoever writes or reads one
   has locked its text by flockfile. */
#ifndef WZ_RECORDING_H
#define WZ_RECORDING_H

#include "record.h"
#include "diagnostics.h"

enum { MOST_POSTS = 4096, MOST_COMMS = 15, MOST_TEXT = 1000000, MESSAGE_COMM = -1 };

/* A post or an initialisation that the text has. */
struct made {
    int comm;       /* as the text names it */
    uint32_t place; /* among those of its rank on that communicator */
    bool persistent, freed;
    uint32_t starts;
    wz_call call; /* count is that of the text */
    size_t begin, end; /* of its signature, in the text */
    const char *name, *site;
};

struct outcome {
    int request;
    uint32_t start;
    char *line;
};

/* A call that chooses what it completes, until that is known. */
struct choosing {
    const char *word, *call, *site; /* word: of the wait that chooses so */
    bool waits, mixed; /* mixed: it also names requests that the text doesn't have */
    int many, *requests; /* how the text numbers those of its list; -1: it hasn't one */
    struct choosing *next;
};

/* Its lines in the text, and those in which it waits for what it has completed, whatever the time. */
struct chosen {
    size_t begin, end;
    char *alone;
};

/* Where the program had the handles of requests that were completed. */
struct handle_places {
    const void **keys;
    int *requests;
    size_t many, room;
};

struct recording {
    FILE *text;
    char *bytes; /* once the text is flushed */
    size_t length;
    int requests, outcomes;
    struct made *made; /* as many as there are requests */
    uint32_t places[MOST_COMMS + 1];
    struct outcome *got;
    struct choosing *choosing;
    struct chosen *chosen;
    int many_chosen;
    bool has_choices; /* some line might complete something else */
    struct handle_places handles;
    size_t first_line; /* of the file that was written last */
    bool full, left_out; /* left_out: calls on communicators that the text has no room for */
};

/* A communicator of the text, number 0 being MPI_COMM_WORLD. */
struct text_comm {
    long serial; /* MESSAGE_COMM: its one collective stands for a message */
    int size, ranks[MOST_RANKS];
    char name[NAME_TEXT];
};

struct recording *record_part(struct rank *rank);

/* This rank's part, locked; NULL: no text is wanted. */
struct recording *record_open_part(void);
void record_close_part(struct recording *part);
/* Whether it has no room for a further command, which is a post where it POSTS_MORE. */
bool record_is_full(struct recording *to, bool posts_more);
/* Adds the lines of calls that wait still, at the end of a run. */
void record_write_choosing(struct recording *to);

/* How many communicators the text has, and one of them. */
int record_comms(void);
const struct text_comm *record_comm(int number);
/* One more, for a message that the first of some ranks waits for. Its number; -1: there is no room. */
int record_add_comm(const int *ranks, int size, const char *name);

/* Begins the line of a post or an initialisation, up to where its signature begins. Whether there is room for it. */
bool record_begin_post(struct recording *to, const struct made *made);
void record_end_signature(struct recording *to);

#endif
