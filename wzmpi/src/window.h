/* Windows (MPI 4.1, 12): memory of each member that the others read and write. Ranks are threads, so an access copies when it is called; what a program has to
   order by itself is checked. */
#ifndef WZ_WINDOW_H
#define WZ_WINDOW_H

#include "collectives.h"

enum access_kind { PUTS, GETS, ACCUMULATES };
enum epoch { NO_EPOCH, FENCE_EPOCH, START_EPOCH, LOCK_EPOCH };

/* Bytes from LOW up to HIGH, which isn't one of them: of a window as distances from its base, of a dynamic one as addresses. */
struct span {
    MPI_Aint low, high;
};

/* An access of a member that isn't known to be complete at its target. */
struct access {
    int origin;
    int target; /* of the call; another than whose memory it is, where the origin buffer lies in the origin's own window */
    bool is_buffer; /* it is such an origin buffer */
    enum access_kind kind;
    enum epoch epoch;
    uint32_t code;      /* of the basic type that an accumulate computes with */
    int operation;      /* its number in mpi.h */
    uint64_t number, fences;
    const char *call, *site;
    struct access *next;
    size_t many;
    struct span spans[]; /* in order */
};

/* Memory that MPI_Win_attach gave to a dynamic window. */
struct region {
    char *base;
    MPI_Aint size;
    struct region *next;
};

/* Who holds the lock of a member's memory, and who waits for it. */
struct window_lock {
    pthread_mutex_t guard;
    uint64_t sharers; /* members */
    int owner;        /* a member; -1: it isn't held exclusively */
    const char *sites[MOST_RANKS];
    struct request *first, **last;
};

struct window_member {
    /* what it exposes */
    char *base;
    MPI_Aint size;
    int unit;
    void *memory; /* that the window has allocated; NULL: none */
    struct region *regions;
    struct window_lock lock;
    pthread_mutex_t guard; /* for accumulates into its memory, for regions and accesses */
    struct access *accesses;
    int many_accesses;
    /* its own epochs */
    bool fence_is_open, fence_is_used;
    uint64_t fences, started, exposed; /* groups, as sets of members */
    bool has_started, is_exposed, has_locked_all;
    const char *fenced_at, *started_at, *exposed_at, *locked_all_at;
    const char *between_fences; /* --strict: where another epoch was begun since the last fence; NULL: nowhere */
    int locks[MOST_RANKS]; /* MPI_LOCK_SHARED and so on, of each target; 0: none */
    const char *locked_at[MOST_RANKS];
    unsigned polls; /* flushes and syncs since this rank has last written something: a program may repeat them until another's access has come */
    struct held *held;  /* accesses that --check holds back */
    char *snapshot;     /* of its memory as the epoch of the last fence began; NULL: none */
    MPI_Info info;
};

struct window {
    struct comm *comm; /* its own */
    int flavor;
    struct window_member members[];
};

/* ---- window.c */
/* The window of a handle. NULL: it names none, which is told; *code is the class then. */
struct window *find_window(MPI_Win win, const char *call, int *code);
struct window_member *my_window(struct window *window);
void let_others_write(struct window *window); /* now and then, of flushes and syncs that a program may repeat until something has come */

/* ---- window_locks.c */
int take_lock(struct window *window, int target, bool exclusive, const char *call);
void leave_lock(struct window *window, int target);
uint64_t lock_holders(const struct request *request); /* as ranks */
void write_lock(FILE *to, const struct request *request);
int judge_end(struct window *window, const char *call); /* window_sync.c: that no epoch is open as the window is freed */

/* ---- window_check.c */
/* What an access moves at its target. */
struct target {
    int member;
    char *at; /* the address that its type's elements are placed from */
    MPI_Aint first; /* the distance, or the address, of that place */
    MPI_Count many;
    const struct type *type;
    enum epoch epoch;
};
int judge_epoch(struct window *window, int target, bool by_request, const char *call, enum epoch *epoch);
int judge_range(struct window *window, MPI_Aint displacement, const char *call, struct target *target);
/* Notes an access if none that isn't complete conflicts with it. *NUMBER becomes its own, where NUMBER isn't NULL. */
int note_access(struct window *window, const struct target *target, const struct access *access, uint64_t *number);
/* The same of an origin buffer, where it lies in this rank's own window: a put reads it, and a get writes it. */
int note_origin(struct window *window, const void *buffer, MPI_Count many, const struct type *type, const struct access *access);
void end_started(struct window *window); /* of this rank's origin buffers, as MPI_Win_complete is called */
void end_accesses(struct window *window, int target, bool gets_alone); /* of this rank, under a lock */
void end_numbered(struct window *window, int target, uint64_t number);
void end_exposure(struct window *window);
void end_fenced(struct window *window);
void free_accesses(struct window_member *member);

/* ---- window_hold.c: under --check */
struct moved {
    enum access_kind kind;
    void *origin;
    MPI_Count origin_many;
    const struct type *origin_type;
    struct target target;
    const char *call;
};
bool hold_back(struct window *window, const struct moved *moved); /* false: it is carried out now */
int release_held(struct window *window, int target, const char *call); /* of all targets: -1 */
void take_snapshot(struct window *window); /* of this rank's memory, as a fence begins an epoch */
int judge_snapshot(struct window *window, const struct target *target, const char *call); /* that its rank hasn't changed since then what is accessed */

/* ---- window_access.c */
int finish_access(struct request *request, MPI_Status *status);

#endif
