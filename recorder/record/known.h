/* The contexts and the requests of the program that the recorder follows. A context is what has an order of collective calls of its own: a
   communicator, a window or a file. */
#ifndef KNOWN_H
#define KNOWN_H

#include "now.h"

#include <mpi.h>
#include <stdbool.h>
#include <stdint.h>

enum { NO_REQUEST = -1 };

struct context {
    uint64_t handle;
    char kind;       /* 'c' for a communicator, 'w' for a window, 'f' for a file, 'g' for a group that makes a communicator */
    int number;      /* of this rank */
    char *key;       /* the same at all members, and no other's in the run */
    int rank, size;  /* this rank's number among the members */
    int *members;    /* their ranks in MPI_COMM_WORLD */
    long made;       /* how many calls have made a context of it */
    long calls;      /* how many calls have a place in its order */
    struct context *next;
};

/* Takes up MPI_COMM_WORLD and MPI_COMM_SELF. */
void contexts_begin(int rank);

/* The context of a handle, or null where its maker wasn't recorded, and for an intercommunicator. */
struct context *context_of_comm(MPI_Comm comm);
struct context *context_of_window(MPI_Win window);
struct context *context_of_file(MPI_File file);

/* The context of a group whose members alone make a communicator of PARENT with TAG, or null. */
struct context *context_of_group(struct context *parent, MPI_Group group, int tag);

/* The key of what all members of a context make together by their next such call, still without the first member. Freed by the caller. */
char *key_of_next(struct context *parent);

/* Takes up what was made, and writes its members. MAKER is the name of the call that made it. A communicator between two groups, and
   one without a key, isn't followed. */
void communicator_made(MPI_Comm comm, const char *key, const char *maker);
void window_made(MPI_Win window, const char *key, const char *maker);
void file_made(MPI_File file, const char *key, const char *maker);
void context_gone(struct context *context);

/* Says that a communicator was made that isn't followed: its handle may have been another's. */
void communicator_unfollowed(MPI_Comm comm);

/* The rank in MPI_COMM_WORLD of a message's peer. */
int world_rank(const struct context *context, int peer);

/* The values that each start of a persistent collective gives. */
struct gift {
    const char *word; /* the type, or null where zeros stand for the values */
    const void *given;
    long count, blocks;
};

/* What a call says of a message, and its number among the messages with requests of this rank: NO_REQUEST for one that isn't written. */
struct message {
    char form;
    struct message_class *class;
    int type;
    long count, number;
};

struct request {
    MPI_Request handle;
    const MPI_Request *variable; /* where the program's handle stood as it was made, or null */
    long number; /* among the collective requests of this rank; NO_REQUEST for a message */
    bool persistent;
    bool active; /* false of a persistent one between its completion and its start */
    struct gift gift;
    MPI_Comm comm;  /* a communicator under way, or null where only its completion says it */
    MPI_Comm *made; /* where that then stands */
    char *key;      /* likewise */
    struct awaited awaited;
    struct message message; /* of a message */
    unsigned long named; /* the last completion call that named it */
    unsigned long asked; /* the last row of tests in which a test of it was written */
    long unwritten;      /* the tests of it since then that weren't */
    struct request *next;
};

/* Where the program's handle stands, or null where the call has a copy of it: Fortran's libraries pass their own. */
const MPI_Request *variable_of(const MPI_Request *handle);

struct request *request_made(const MPI_Request *handle, long number, bool persistent, struct awaited awaited);

/* The request of a handle that the completion call of number NAMING hasn't named yet, or null. Some libraries have one handle for several
   requests that are complete from the start: of these it is the one whose variable it is, else the first. Where that may be another one's,
   the file says so. */
struct request *request_of(const MPI_Request *handle, unsigned long naming);
void request_gone(struct request *request);

/* Does something for each request that is neither complete nor freed. */
void each_request(void (*act)(const struct request *));

#endif
