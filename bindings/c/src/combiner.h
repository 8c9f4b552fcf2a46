/* Flat combining (Hendler, Incze, Shavit, Tzafrir, SPAA 2010) under worzsunab_threads.h: a rank publishes its operation
   in its record, and looks there until the operation is answered. The lock is one word: the thread that finds it free,
   the combiner, applies all published operations, makes progress, and gives the lock up; then it wakes each rank that
   sleeps and has something to do. No rank sleeps for the lock: it sleeps for its own record.

   A post, start or test makes at most STEPS actions, or computes one long combination where nobody waits. Ranks that
   wait make the rest: they go on until they are answered, and whoever gives the lock up while work is left calls one of
   them. Long combinations are computed with the lock free, and come back through the record. Those of wide rows are
   computed by several ranks at the same time: whoever takes one out leaves the next to a rank that is called.

   No rank has to win the lock, because whoever has it applies what stands in all records, and takes all combinations
   back. Only a rank that is called has to come by itself; where it doesn't, a rank that tests again and again computes
   the rest.

   A progress thread has a record behind those of the ranks, and is like a rank that waits until the engine is closed:
   it is called where work is left and no rank waits. It plays no rank, so it counts nowhere where ranks are counted.

   A thread that looks at its record before it sleeps misses no call. Whoever calls it stores CALLED, then gives the lock
   up, then reads `sleeps`. The thread stores `sleeps`, then reads its record, then reads the lock, and these words have
   one order. So where the caller reads `sleeps` too early to wake the thread, the thread finds that it is called. It
   then finds the lock free, or held by one who gives it up later, reads `sleeps` and wakes the thread. A thread that
   looks hasn't stored `sleeps`, so to call it takes no system call.

   models/shim.pml is this protocol in Promela. Private to the library. */
#ifndef WZ_COMBINER_H
#define WZ_COMBINER_H

#include <pthread.h>
#include <stddef.h>
#include <stdint.h>

#include "atomics.h"
/* The library's other symbols are hidden. */
#pragma GCC visibility push(default)
#include "worzsunab_threads.h"
#pragma GCC visibility pop

/* ---- limits */

enum {
    MOST_COMMUNICATORS = 16,
    MOST_MEMBERS = 64,
    MOST_BYTES = 16777216, /* that a member gives or gets */
    MOST_PROGRESS = 8,     /* progress threads */
    /* How often a wait that has the lock, and nothing to do, looks at the records before it gives the lock up. */
    LOOKS_UNDER_LOCK = 30,
    /* The most actions between two looks at the records: 20 to 60 microseconds. Collectives of eight ranks have 72 to
       120. */
    STEPS = 256
};

/* How often a thread looks at its record before it sleeps; and how often where that many looks mostly found nothing, but
   for every TRIES-th wait, which finds out whether they help again. */
#ifndef WZ_LOOKS
#define WZ_LOOKS 2000
#endif
#ifndef WZ_FEW_LOOKS
#define WZ_FEW_LOOKS 50
#endif
enum { TRIES = 16, IN_VAIN = 3 };

/* Once a rank gives this many bytes, combinations are computed with the lock free, and its rows are copied so too. */
#ifndef WZ_LONG
#define WZ_LONG 4096
#endif

/* Once a rank gives this many bytes, as many ranks that wait compute combinations at the same time as there are
   processors, if there are more than two ranks: a shorter one takes no longer than a call to another rank. */
#ifndef WZ_WIDE
#define WZ_WIDE 32768
#endif

/* A thread that waits yields its processor at each look after the first WZ_CLOSE_LOOKS, because another rank's thread
   may wait for it. A yield that lasts over WZ_LONG_YIELD went to a thread that computes, for a time slice. Of any time
   t a rank's long yields take at most (t + WZ_CREDIT) / WZ_SHARE and one yield more, because it makes none until then;
   but it yields again after WZ_REPAID at the latest, because a program may have been stopped for hours while it
   yielded. All times are in nanoseconds. */
#ifndef WZ_CLOSE_LOOKS
#define WZ_CLOSE_LOOKS 5
#endif
#ifndef WZ_LONG_YIELD
#define WZ_LONG_YIELD 500000
#endif
#ifndef WZ_SHARE
#define WZ_SHARE 100
#endif
#ifndef WZ_CREDIT
#define WZ_CREDIT 1000000000
#endif
#ifndef WZ_REPAID
#define WZ_REPAID 60000000000
#endif

/* A progress thread without work looks for so long, in nanoseconds, before it sleeps, where the ranks and the progress
   threads of all engines of the process have a processor each: ranks that post anew each millisecond find it awake. */
#ifndef WZ_LINGER
#define WZ_LINGER 1000000
#endif

/* ---- operations */

struct wz_combiner;

/* When an operation is answered: at once; at once, and progress follows; after progress; once it isn't pending, or no
   wait can end. */
enum answered { ONCE, BEGINS, TESTS, WAITS };

/* A call with its arguments, by the names that worzsunab.h gives them. Under the lock `apply` returns the call's
   answer. */
struct operation {
    int32_t (*apply)(struct wz_combiner *combiner, struct operation *operation);
    enum answered answered;
    uint8_t rank;
    uint8_t type;
    uint32_t comm;
    uint32_t place;
    const wz_call *call; /* NULL of an allgatherv */
    const uint32_t *counts;
    size_t many; /* of counts, parts, list or requests */
    const void *bytes;
    size_t length;
    wz_request *request;
    const wz_request *named; /* where the call leaves the request as it is */
    wz_part *parts;
    const wz_request *const *list;
    const wz_request *requests;
    size_t passed; /* of a wait for all: this many parts at the front aren't pending any longer */
    void *out;
    size_t room;
    size_t *count;  /* or the index, or how many there were */
    wz_bytes moved; /* a long row that was copied before it was published, or that is copied once it is answered */
};

/* ---- records */

/* Where a record's operation is: answered, or none; published; tested, and answered after the progress that follows;
   its rank waits for what is pending; its rank waits, and is called to make progress. */
enum stage { ANSWERED, PUBLISHED, TESTED, WAITING, CALLED };

/* The combination of a record: none, one that its rank computes, one that was computed and is to be returned. */
enum combination { NONE, COMPUTING, COMPUTED };

struct record {
    _Alignas(64) atomic_int stage; /* these three are read and written without the lock */
    atomic_int combination;
    atomic_int sleeps;
    int32_t answer;
    struct operation *operation; /* on its thread's stack, while the thread is in the call */
    uint64_t number;             /* of its last operation that was done, where operations are numbered */
    wz_work *work;               /* its combination, where it has one */
    int32_t run;                 /* what wz_run_work answered */
    int late; /* how often in a row, WZ_LOOKS at most, its rank gave the lock up while a rank called before hadn't come
               */
    bool left;
    /* the next five are its thread's own */
    bool yields;       /* in this wait */
    uint32_t in_vain;  /* how often it has looked long and slept all the same, less how often not */
    uint32_t waits;    /* how often it has waited with few looks */
    int64_t repaid;    /* when it yields again: its long yields are within their share then */
    wz_reason reason;  /* of the last refusal to this rank */
    wz_posted refused; /* what was refused, and what stands in its place */
    wz_posted present;
    uint32_t stall;        /* which stall was told last */
    pthread_mutex_t guard; /* of the condition, on which the thread sleeps */
    pthread_cond_t woken;
};

/* What a request was made of, and where its outcome goes; NULL where a call of worzsunab_threads.h made it. */
struct buffers {
    const void *given;
    size_t length;
    void *out;
    size_t room;
};

struct wz_combiner {
    _Alignas(64) atomic_int held; /* the lock */
    _Alignas(64) wz_engine engine;
    uint32_t ranks;
    uint32_t slots;
    uint32_t waiting;          /* ranks whose record waits or is called */
    uint32_t gone;             /* ranks that have left */
    uint32_t outside;          /* combinations that are computed with the lock free */
    uint32_t processors;       /* for the process's threads, at the opening */
    bool is_short;             /* progress was refused memory last, so progress threads don't go on */
    uint32_t stalls;           /* how many were told */
    bool stalled;              /* nothing was begun since the last */
    bool unsettled;            /* actions may be left that can be made, or progress was refused memory */
    size_t longest;            /* the bytes of the longest row that a rank gave, or 0: no row is long */
    bool is_left;              /* `next` is a combination that is left to those who wait */
    wz_work *next;             /* what is taken out next */
    _Atomic uint64_t *numbers; /* by which operations are numbered; NULL: they aren't */
    uint8_t sizes[MOST_COMMUNICATORS];
    uint8_t members[MOST_COMMUNICATORS][MOST_MEMBERS];
    uint32_t places[MOST_COMMUNICATORS][MOST_MEMBERS]; /* by rank, how many places of its list are taken */
    uint32_t *generations;                             /* by slot, of the last request that it was given to */
    struct buffers *buffers;                           /* of the same */
    struct record *records; /* by rank, then that of a guest, then those of progress threads */
    wz_work *works;         /* one for each record, and one to take out into: they change places */
    pthread_mutex_t guests; /* a thread that plays no rank: one at a time */
    atomic_int helpers;     /* progress threads whose records count */
    pthread_mutex_t starts; /* of progress threads, and their ends: one at a time */
    struct helper *started; /* by progress thread */
};

/* ---- combiner.c */

struct operation operation_of(enum answered answered, uint8_t rank,
                              int32_t (*apply)(struct wz_combiner *, struct operation *));
/* Publishes an operation, sees it through, and returns its answer; WZ_CLOSED where the engine is closed. */
int32_t perform(wz_shared *shared, struct operation *operation);
/* Whether the lock was free, and is taken. */
bool try_lock(struct wz_combiner *combiner);
/* Under the lock, which it gives up: serves all ranks, makes progress, and computes a combination that it took out. */
void combine(struct wz_combiner *combiner, struct record *me);
/* Under the lock: notes how many bytes a rank gives. */
void note_row(struct wz_combiner *combiner, size_t bytes);
/* Under the lock. */
void answer(struct wz_combiner *combiner, struct record *record, int32_t code);

/* ---- progress.c */

/* How many records there are: of ranks, of a guest, and of progress threads. */
uint32_t count_records(struct wz_combiner *combiner);
/* Whether a record is of a progress thread. */
bool is_helper(const struct wz_combiner *combiner, const struct record *record);
/* How many processors there are for the process's threads; 1 where that isn't known. */
uint32_t count_processors(void);
/* That many more ranks and progress threads of the process are there from now on, or fewer where it is below 0. */
void count_threads(int more);
/* Room for progress threads, none of which is started; NULL where there is no memory. */
struct helper *allocate_helpers(void);
/* Ends all progress threads. */
void end_helpers(wz_shared *shared);

/* ---- stalls.c: under the lock */

/* The request at a position of what an operation is about. */
const wz_request *request_at(const struct operation *operation, size_t position);
/* Notes what a rank waits for, and for whom, now that no wait can end. */
void note_stall(struct wz_combiner *combiner, struct record *record);
/* Where each rank waits or has left and nothing can be done, answers WZ_STALLED to all that wait. */
void judge(struct wz_combiner *combiner);

/* ---- record.c: how a thread waits for its record */

int64_t nanoseconds(void);
/* Lets time pass after that many looks in a row and one more: a moment, or as long as others take the processor. */
void let_time_pass(struct record *me, int looks);
/* Yields the processor, and notes a long yield. */
void yield_processor(struct record *me);
/* Whether the operation is over: it is answered, and no combination is left with its thread. */
bool is_over(struct record *me);
/* Whether the record's thread needs the lock, or a combiner. */
bool needs_lock(struct record *me);
/* Sleeps until the record is due: who gives the lock up after this look sees that its thread sleeps. */
void sleep_at(struct wz_combiner *combiner, struct record *me);
/* Wakes each thread that sleeps and is due. */
void wake_sleepers(struct wz_combiner *combiner);

/* ---- operations.c */

/* A post or a start; copies a long row before it is published. */
int32_t perform_giving(wz_shared *shared, struct operation *operation);

/* Under the lock; what calls.c publishes too. */
int32_t apply_post(struct wz_combiner *combiner, struct operation *operation);
int32_t apply_post_allgatherv(struct wz_combiner *combiner, struct operation *operation);
int32_t apply_init(struct wz_combiner *combiner, struct operation *operation);
int32_t apply_init_allgatherv(struct wz_combiner *combiner, struct operation *operation);
int32_t apply_test(struct wz_combiner *combiner, struct operation *operation);
/* Finds the first of a list that is done; WZ_PENDING where some are active and none is. */
int32_t apply_find(struct wz_combiner *combiner, struct operation *operation);

/* ---- explain.c: sentences. Each function writes as snprintf does. */

struct text {
    char *at;
    size_t size;
    size_t length; /* of the whole */
};
void write_text(struct text *text, const char *format, ...);
void write_stall(struct text *text, const wz_reason *reason);

#endif
