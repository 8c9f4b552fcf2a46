/* Communicators, and what their members have called. */
#ifndef WZ_COMMS_H
#define WZ_COMMS_H

#include "base.h"

enum {
    KEPT_PLACES = 256,       /* the last calls of a member that are kept, so that others' are compared with them */
    PLACES_OF_ENGINE = 65536 /* then the next engine serves the communicator */
};

enum { IN_PLACE_FORM = 8 }; /* beside the form, under --strict: MPI_IN_PLACE stands where all members or none have it */

/* A call at a place of a communicator, as its program has it. */
struct called {
    uint8_t function, form;
    int16_t basic;      /* the basic type that it moves; 0: several, -1: it moves nothing that is known to all */
    int32_t root;       /* -1: it has none */
    uint64_t elements, signature;
    uint64_t counts;    /* of a call whose members all say all counts: these, as one number */
    uint64_t operation; /* its identity; 0: it has none */
    const char *operation_name, *name, *site;
    const struct structure *structure; /* of a type of several basic types */
};

/* A called that others may read while its member writes the next one: it is valid where its place is what is looked for, before and after. */
enum { CALLED_WORDS = sizeof(struct called) / sizeof(uint64_t) };
struct slot {
    _Atomic uint64_t place; /* from 1 on; 0: not written */
    _Atomic uint64_t words[CALLED_WORDS];
};

struct errhandler {
    MPI_Comm_errhandler_function *function; /* NULL: a predefined one */
    MPI_Errhandler handle;                  /* of a predefined one */
    bool returns;
    bool in_fortran; /* the function is a Fortran subroutine */
    int uses, handles; /* of them those that the program frees */
};

struct attribute {
    int keyval;
    bool of_fortran; /* a number that Fortran has given, of which C gets the address (MPI 4.1, 19.3.7) */
    void *value;
    struct attribute *next;
};

struct member {
    _Alignas(64) _Atomic uint64_t posted; /* its posts and initialisations */
    int rank;                             /* in MPI_COMM_WORLD */
    struct errhandler *handler;
    struct attribute *attributes;
    struct slot *board; /* KEPT_PLACES of them */
};

struct engine {
    wz_shared shared;
    atomic_int requests; /* that it has: it is closed only without any */
    uint64_t number;     /* among the communicator's engines */
    struct engine *older;
};

/* How often each member has started the persistent collective of a place. */
struct starts {
    uint64_t place;
    int requests;
    struct starts *next;
    _Atomic uint32_t of[];
};

struct topology {
    int kind; /* MPI_CART and so on */
    int dimensions;
    int *sizes, *periods;          /* MPI_CART */
    int nodes, *index, *edges;     /* MPI_GRAPH */
    int in, out;                   /* MPI_DIST_GRAPH: this member's own, below */
    int *sources, *destinations, *source_weights, *destination_weights;
    bool weighted;
};

struct comm {
    long serial; /* its own number in the run, which none gets again */
    int size;    /* all members */
    int first;   /* of an intercommunicator: the members of its first group, which come first; else 0 */
    char name[MPI_MAX_OBJECT_NAME]; /* of MPI_Comm_set_name */
    const char *maker, *site; /* the call that made it; NULL: it was there from the beginning */
    int8_t member_of[MOST_RANKS]; /* of each rank; -1 */
    struct engine *_Atomic newest;
    struct starts *starts;
    pthread_mutex_t guard; /* for its engines, starts and name */
    atomic_int users;      /* its members until they free it, and its requests */
    struct topology **topologies; /* each member's own; NULL: none has one */
    /* of one that serves a window or a file, and that no program sees */
    enum kind serves; /* 0: none */
    void *served;
    void (*end_service)(void *served);
    /* while its members come to it (join_comm) */
    long parent;
    uint64_t key, joined;
    struct comm *next_coming;
    struct member members[];
};

/* ---- comms.c */
struct comm *find_comm(MPI_Comm comm); /* of this rank; NULL: there is none */
int comm_error(MPI_Comm comm, const char *call);
MPI_Comm comm_handle(const struct comm *comm); /* this rank's handle of it */
struct comm *world_comm(void);
struct member *this_member(struct comm *comm); /* this rank's */
int my_member(const struct comm *comm);
void use_comm(struct comm *comm);
void unuse_comm(struct comm *comm);
void open_world(int size);

/* The communicator that some ranks make by one call, which KEY names among those on PARENT. Whoever comes first makes it. The first FIRST of the ranks are an
   intercommunicator's first group; 0: it is none. */
MPI_Comm join_comm(struct comm *parent, uint64_t key, const char *maker, const int *ranks, int size, int first);

void give_topology(MPI_Comm comm, struct topology topology); /* topology.c: this member's own */
void copy_topology(struct comm *comm, MPI_Comm copy);

/* An intercommunicator's two groups, seen by this rank: its own begins at member *own, the other at *other. */
int near_group(const struct comm *comm, int *own);
int far_group(const struct comm *comm, int *other);
int far_group_from(const struct comm *comm, int member, int *other); /* as that member sees it; the calling thread needn't be a rank */

/* ---- engines.c */
struct engine *engine_at(struct comm *comm, uint64_t place); /* with one request more */
void leave_engine(struct comm *comm, struct engine *engine);
uint32_t slots_for(const struct comm *comm); /* the most requests at one time */
struct starts *starts_at(struct comm *comm, uint64_t place);
void leave_starts(struct comm *comm, struct starts *starts);
void close_engines(struct comm *comm);

/* ---- call_log.c */
void write_call(struct comm *comm, int member, uint64_t place, const struct called *called);
bool read_called(const struct comm *comm, int member, uint64_t place, struct called *called);
bool calls_agree(const struct called *one, const struct called *other);
const char *what_differs(const struct called *one, const struct called *other);
/* A member whose call at that place doesn't agree; -1: all that are known do. */
int first_disagreeing(struct comm *comm, int member, uint64_t place, const struct called *called);

/* ---- attributes.c */
int copy_attributes(struct comm *from, MPI_Comm from_handle, struct comm *to);
int delete_attributes(struct comm *comm, MPI_Comm handle);
void use_handler(struct comm *comm, struct errhandler *handler);
extern struct errhandler errors_are_fatal;

/* ---- groups.c */
struct group {
    int size;
    int ranks[MOST_RANKS];
};
struct group *find_group(MPI_Group group);
MPI_Group new_group(const int *ranks, int size);

#endif
