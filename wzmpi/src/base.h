/* Ranks, their handles, and the run that they belong to. */
#ifndef WZ_BASE_H
#define WZ_BASE_H

#include <mpi.h>
#include <pthread.h>
#include <stdatomic.h>
#include <stdbool.h>
#include <stdio.h>
#include <stdlib.h>
#include <string.h>

#include <worzsunab_threads.h>

enum { MOST_RANKS = 64 };

/* ---- handles */

enum { TABLE_NUMBER_BITS = 24, FIRST_MADE = 64 }; /* the numbers below FIRST_MADE are those of mpi.h's own objects, which no table has */

enum kind { COMM = 1, GROUP, TYPE, OP, REQUEST, INFO, ERRHANDLER, TAKEN, WINDOW, FILE_, SESSION, KINDS }; /* TAKEN: a message that MPI_Mprobe took out */

/* A rank's objects of one kind, by their numbers. A handle has the generation of its number too, so that one which was freed is known as such. */
struct table {
    void **objects;
    uint32_t *generations;
    struct maker {
        const char *call, *site;
    } *makers; /* the calls that made them; none of the library's own */
    uint32_t many, room, lowest_free;
};

/* ---- ranks */

struct request;
struct engine;

/* What a rank waits for while it waits. */
struct wait {
    const char *call, *site;
    struct request **list;
    int many;
    bool any; /* one of the list is enough */
    bool tests;           /* it doesn't wait, but only tests (test_loops.c) */
    struct request *room; /* it waits until the engine has room for this one, and the list is empty; NULL: it doesn't */
};

struct rank {
    int number, status;
    bool begun;             /* it has called MPI_Init, or has had a session */
    bool world, world_over; /* it has called MPI_Init, and MPI_Finalize */
    int sessions;           /* that it has */
    atomic_bool finalized;
    atomic_bool ended;
    atomic_int thread; /* the system's number of its main thread; 0 before that begins */
    const char *_Atomic site; /* of its last call */
    const char *_Atomic call; /* and its name */
    const char *completes, *completes_at; /* the call whose request this one completes last */
    struct table tables[KINDS];
    struct request *free_requests;
    struct request *let_go; /* messages under way whose requests were freed */
    int level; /* of MPI_Init_thread */
    _Atomic uint64_t lines;      /* calls that have noted their lines */
    _Atomic uint64_t progress;   /* requests that it has begun or completed */
    _Atomic uint64_t vain_tests;
    atomic_bool asked_time;      /* it has called MPI_Wtime */
    uint64_t random;
    uint64_t calls[64][2]; /* of each collective: those that were carried, and those that were direct */
    char last_refusal[800];
    int last_class;
    int error_classes[64], many_codes; /* of MPI_Add_error_class and its like */
    char *error_strings[64];
    struct keyval *keyvals;
    int many_keyvals;
    struct recording *_Atomic recording; /* its part of the job text */
    struct notes *notes; /* where notes are wanted */
    void *const *fortran_places; /* of a Fortran program: where its words lie (fortran.h), and the program */
    const void *fortran_base;
    struct remembered **fortran_sites;
    /* while it waits */
    atomic_bool waits;
    atomic_uint waits_begun;
    struct wait wait;
    int64_t wait_begun;
    atomic_int planned;        /* the line of --schedule for whose requests it waits; 0: none */
    atomic_uint turns_in_vain; /* of waits for room */
    atomic_bool has_no_hope;   /* whoever watches says so: nobody makes room */
    atomic_uint wake; /* counts what may have let it go on; it sleeps until it changes */
    atomic_int sleeps; /* its threads that do */
};

enum colours { AUTOMATIC, ALWAYS, NEVER };

struct run {
    int size;
    enum colours colours;
    struct rank ranks[MOST_RANKS];
    atomic_int blocked; /* ranks that wait or have ended */
    bool strict, checks, explains, statistics;
    bool quiet;      /* notes about what ranks share aren't told */
    int status_of_faults; /* where wzrun reports a fault; 0: STATUS_WRONG, STATUS_STALLED */
    int folder;      /* in which wzrun was begun: the paths of files are meant from there */
    bool one_folder; /* the system doesn't let ranks have working directories of their own */
    bool notes; /* for --trace, --timeline or --stats */
    uint64_t seed;           /* 0: nothing is drawn */
    uint32_t progress;       /* progress threads of each communicator's engine */
    double timeout;          /* seconds; 0: none */
    const char *text, *values;    /* the files for the job text and for what requests got; NULL: none */
    const char *trace, *timeline; /* and for what the run did */
    const char *schedule, *schedule_out; /* that it follows, and the file for its own */
    const char *program;
};

extern struct run the_run;
extern __thread struct rank *current_rank __attribute__((tls_model("initial-exec")));

/* The rank of this thread. Where it has none, that is told, and the run ends. */
struct rank *this_rank(const char *call);

/* The rank whose code calls from ADDRESS: that of this thread, or else that of the copy of the program, or of a library, which has the address. NULL: none. */
struct rank *rank_of_code(const void *address);

void *must(void *memory); /* ends the run where there is no memory */

/* ---- its beginning and end (world.c): by MPI_Init, or by a session */
void begin_model(struct rank *rank, int level);
void end_model(struct rank *rank);

/* ---- handles (handles.c) */
uintptr_t add_handle(enum kind kind, void *object);                 /* of this thread's rank */
uintptr_t add_own_handle(enum kind kind, void *object);             /* of an object that the library itself frees */
void *find_handle(enum kind kind, const void *handle);              /* NULL: there is no such object */
uintptr_t handle_of(enum kind kind, const void *object);      /* the null handle where it has none */
bool was_freed(enum kind kind, const void *handle);
void remove_handle(enum kind kind, const void *handle);

/* ---- draws, under --seed (random.c) */
uint32_t draw_number(uint32_t below); /* 0 where nothing is drawn */
void hold_up(void);              /* now and then a rank is held up */

#endif
