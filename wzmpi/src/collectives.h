/* Collectives and requests. */
#ifndef WZ_COLLECTIVES_H
#define WZ_COLLECTIVES_H

#include "comms.h"
#include "types.h"

enum function {
    BARRIER, BCAST, GATHER, GATHERV, SCATTER, SCATTERV, ALLGATHER, ALLGATHERV, ALLTOALL, ALLTOALLV, ALLTOALLW, REDUCE, ALLREDUCE, REDUCE_SCATTER,
    REDUCE_SCATTER_BLOCK, SCAN, EXSCAN, NEIGHBOR_ALLGATHER, NEIGHBOR_ALLGATHERV, NEIGHBOR_ALLTOALL, NEIGHBOR_ALLTOALLV, NEIGHBOR_ALLTOALLW,
    COMM_DUP, COMM_SPLIT, COMM_CREATE, EXCHANGE, COLLECTIVES
};
enum form { BLOCKING, NONBLOCKING, PERSISTENT, FORMS };
extern const char *const collective_names[COLLECTIVES][FORMS];

/* The engine's limits (worzsunab.h): what is longer is carried. */
enum { MOST_COUNT = 65536, MOST_BYTES = 16777216 };

/* Counts or displacements of a call: int, or 64 bits wide. */
struct numbers {
    const void *at;
    bool wide;
};
static inline long long number_at(struct numbers numbers, int i) {
    return numbers.wide ? ((const long long *)numbers.at)[i] : ((const int *)numbers.at)[i];
}

/* A collective's arguments. A call with one buffer, count and type has them as what it gives. */
struct arguments {
    enum function function;
    enum form form;
    const void *give;
    void *get;
    long long give_count, get_count;
    struct numbers give_counts, give_places, get_counts, get_places;
    MPI_Datatype give_type, get_type;
    const MPI_Datatype *give_types, *get_types;
    MPI_Op operation;
    int root;
    const char *name; /* NULL: as the function and form say */
};

enum sort { COLLECTIVE, SENDING, RECEIVING, PROBING, LOCKING, ACCESSING, GENERALIZED }; /* LOCKING, ACCESSING: of a window */

struct message;

struct request {
    enum sort sort;
    bool persistent, active, direct, alltoall, freed;
    bool kept;        /* it outlives its completion */
    _Atomic bool collected; /* the engine's outcome was taken over, and lies in `out` */
    bool listed;      /* while a list of requests is read */
    bool has_parcels; /* an exchange that was completed, until it is dropped */
    int recorded; /* its number in the job text; -1: it has none */
    MPI_Request handle;
    struct comm *comm;
    int member;
    const char *name, *site, *started_at;
    struct loan *loan; /* under --check, while it is under way */
    struct request *next;

    /* ---- of a collective */
    struct arguments arguments;
    void *own_numbers; /* the counts, places and types of the arguments, copied */
    uint64_t place;
    uint32_t times; /* how often it was started */
    struct engine *engine;
    struct starts *starts;
    wz_call call;
    uint32_t *counts; /* of a direct allgatherv */
    uint8_t text_type; /* the type as job texts have it */
    const struct type *give_type, *get_type, **types; /* types: of an alltoallw, those that it gives and then those that it gets */
    struct op *op;
    wz_request held;
    void *out; /* where the engine writes the outcome */
    size_t room;
    void *scratch;
    size_t scratch_room;
    size_t given, got; /* bytes, of this start */

    /* ---- for notes (trace.h) */
    uint64_t order; /* of the last call of the engine, among all */
    int64_t begun;
    bool noted;
    size_t note; /* the rank's note of its start, where noted */
    int number;  /* among the rank's posts and initialisations */
    struct tally *tally;

    /* ---- of a message */
    struct request *next_let_go; /* next is the mailbox's while it is under way */
    int other, tag; /* whom it goes to or comes from, as the program said, or as --schedule does of one from any source */
    bool from_any;
    int planned; /* the line of --schedule that says so; 0: none */
    long step;   /* of the schedule that is kept, of one from any source */
    bool synchronous, cancelled;
    const void *from;
    void *to;
    MPI_Count many;
    const struct type *type;
    const char *awaits;      /* the call that sends what a window's call receives; NULL: it is the program's message */
    struct message *message; /* what came */
    uint64_t sent;           /* the number of the message that it has sent */
    _Atomic bool arrived;
};

/* ---- requests.c */
struct request *new_request(enum sort sort, struct comm *comm, const char *name);
void drop_request(struct request *request);
MPI_Request publish(struct request *request); /* gives it a handle */
/* The request of a handle, NULL where it is null. A code where it names none. */
int find_request(MPI_Request handle, const char *call, struct request **request);
void *scratch_of(struct request *request, size_t bytes);

/* ---- blocks.c: what a member gives and gets, as pieces of the program's memory */
struct piece {
    char *at;
    long long many;
    const struct type *type; /* NULL: nothing has to be done there */
};
int given_many(const struct request *request);
struct piece given_piece(const struct request *request, int i);
int given_to(const struct request *request, int i); /* of a call that is carried as an alltoall: whom it goes to */
int got_many(const struct request *request);
struct piece got_piece(const struct request *request, int i);
int got_from(const struct request *request, int i);
bool is_rooted(enum function function);
bool reduces(enum function function);
bool is_neighbor(enum function function);
bool is_root(const struct request *request);
long long total_count(const struct request *request); /* elements that a member of a reduction gives */

/* ---- collectives.c, validate.c */
int carry_out(MPI_Comm comm, const struct arguments *arguments, MPI_Request *request);
int post_call(struct comm *comm, const struct arguments *arguments, struct request **made);
int begin_request(struct request *request, const char *call); /* posts or starts it */
int validate(struct request *request, struct called *called);
int engine_refused(struct request *request, int32_t code, const char *call);

/* ---- engine_calls.c: what the engine is asked for a request */
int32_t engine_post(struct request *request, const void *bytes, size_t length);
int32_t engine_init(struct request *request);
int32_t engine_start(struct request *request, const void *bytes, size_t length);
int32_t engine_test(struct request *request); /* into its `out` */
int32_t engine_wait(struct request *request);
int32_t engine_free(struct request *request);

/* ---- backpressure.c: the same where the engine may have no room. WZ_FULL: none can be made */
struct asking {
    int32_t (*ask)(struct request *request, const void *bytes, size_t length);
    const void *bytes;
    size_t length;
};
int32_t engine_ask_with_room(struct request *request, const struct asking *asking, const char *call);

/* ---- pointer_exchange.c */
struct parcel;
int list_parcels(struct request *request, uint64_t parcels[MOST_RANKS]); /* what is given as parcels' addresses; how many */
void take_parcels(struct request *request);
int open_parcels(struct request *request, const char *call);
/* The parcels of a finished exchange, of each member, with their bytes. */
const void *parcel_bytes(struct request *request, int member, size_t *length);

/* ---- direct.c */
size_t outcome_bytes(const struct request *request);
const void *given_bytes(struct request *request, void **packed, size_t *length);
void *outcome_place(struct request *request); /* NULL: scratch memory */
void put_outcome(struct request *request);

/* ---- buffer_check.c, under --check */
void lend(struct request *request);            /* as it begins */
const char *end_loan(struct request *request); /* before its outcome comes. NULL, or "sends", "receives into": of what the program has changed */

/* ---- completion.c, waiting.c, messages.c */
int complete_request(struct request *request, MPI_Status *status, const char *call);
int tell_changed(const struct request *request, const char *what, const char *call);
enum progress { GOES_ON, IS_DONE, COMPUTES }; /* COMPUTES: something of it is computed just now */
enum progress make_progress(struct request *request);
bool is_at_rest(struct engine *engine); /* no request of it becomes done before somebody begins another */
bool is_done(struct request *request);
/* The members whose calls a collective lacks, as ranks; whom a message waits for. */
uint64_t lacking(const struct request *request);
void note_progress(void); /* this rank has begun or completed a request */
void begin_waiting(const char *call, struct request **list, int many, bool any);
void begin_wait_for_room(const char *call, struct request *request);
void end_waiting(void);
void wait_for(const char *call, struct request **list, int many, bool any); /* until all, or any, are done */
void wake_members(struct comm *comm, int but);
void wake_rank(struct rank *rank);
void empty_status(MPI_Status *status);
void clear_status(MPI_Status *status); /* all of it but the error */
void show_status(const struct request *request, MPI_Status *status); /* of one that is done */
int finish_message(struct request *request, MPI_Status *status, const char *call);
int free_active(struct request *request, const char *call); /* an active message's request that is freed */
void finish_freed(void);                              /* those of this rank that are done by now */
void open_mailboxes(int many);
void warn_of_mail(void); /* once all ranks have ended: which messages nobody received */
bool message_waits(const struct request *probe);
unsigned long long messages_sent(void); /* by all ranks so far */
int start_message(struct request *request);
int post_and_wait(struct comm *comm, const struct arguments *arguments, struct request **kept);
int split_comm(MPI_Comm comm, int color, int key, MPI_Comm *made, const char *call);

#endif
