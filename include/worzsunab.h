/* MPI's nonblocking and persistent collectives (MPI 4.1, 6.12 and 6.13) among the threads of one process, for C11 and
   C++.

   An engine serves all ranks of a process. A rank posts a collective, or makes a persistent one and starts it, and
   is given a request. wz_settle and wz_step make progress, for all ranks. wz_test completes a request into the
   caller's memory. No function blocks, takes a lock, starts a thread or keeps a pointer that it was given.

   Whoever calls owes this:
   - an engine goes to one call at a time: threads that share one have a lock (worzsunab_threads.h has one);
   - a wz_engine or wz_work is all zeros, or was last written by a function of this library, and is neither copied
     nor changed between; a wz_work, too, goes to one call at a time;
   - pointers are good for as many bytes as are said, and no two of one call overlap. With length 0 a pointer may be
     NULL;
   - malloc, realloc and free are of one allocator.
   All else is told: a wrong number, length, rank, communicator or request, and a closed engine, have codes of their
   own. */
#ifndef WORZSUNAB_H
#define WORZSUNAB_H

#include <stdbool.h>
#include <stddef.h>
#include <stdint.h>

#ifdef __cplusplus
extern "C" {
#endif

/* 1 in a library that was proved as it was built, 0 in one that was built without proof. */
extern const int32_t wz_proved;

/* ---- collectives */

/* Kinds (wz_call.kind), with the MPI call and the bytes that member r of n gives and gets. A block is count
   elements. WZ_ALLGATHERV has functions of its own, because a wz_call has no counts: wz_post_allgatherv. */
/* tools/words: kinds */
enum {
    WZ_BARRIER = 0,              /* MPI_Ibarrier              gives 0                       gets 0 */
    WZ_BCAST = 1,                /* MPI_Ibcast                gives root a block, others 0  gets a block */
    WZ_GATHER = 2,               /* MPI_Igather               gives a block                 gets root n blocks, others 0 */
    WZ_SCATTER = 3,              /* MPI_Iscatter              gives root n blocks, others 0 gets a block */
    WZ_ALLGATHER = 4,            /* MPI_Iallgather            gives a block                 gets n blocks */
    WZ_ALLTOALL = 5,             /* MPI_Ialltoall             gives n blocks                gets n blocks */
    WZ_REDUCE = 6,               /* MPI_Ireduce               gives a block                 gets root a block, others 0 */
    WZ_ALLREDUCE = 7,            /* MPI_Iallreduce            gives a block                 gets a block */
    WZ_REDUCE_SCATTER_BLOCK = 8, /* MPI_Ireduce_scatter_block gives n blocks                gets a block */
    WZ_SCAN = 9,                 /* MPI_Iscan                 gives a block                 gets a block */
    WZ_EXSCAN = 10,              /* MPI_Iexscan               gives a block                 gets a block, member 0 gets 0 */
    WZ_ALLGATHERV = 11,          /* MPI_Iallgatherv           gives counts[r] elements      gets what all give, in order */
    WZ_KINDS = 12                /* the first number that names none */
};
/* tools/words: end of kinds */

/* Operations (wz_call.op), with their MPI names (MPI 4.1, 6.9.2 and 6.9.4), and what they give of a lower member's
   element a and a higher one's b. */
/* tools/words: operations */
enum {
    WZ_NO_OPERATION = 0, /* of the kinds that have none */
    WZ_MAX = 1,          /* MPI_MAX: the greater */
    WZ_MIN = 2,          /* MPI_MIN: the lesser */
    WZ_SUM = 3,          /* MPI_SUM: the sum, wrapped to the type's bits */
    WZ_PROD = 4,         /* MPI_PROD: the product, wrapped to the type's bits */
    WZ_LAND = 5,         /* MPI_LAND: 1 where both are nonzero, else 0 */
    WZ_LOR = 6,          /* MPI_LOR: 1 where at least one is nonzero, else 0 */
    WZ_LXOR = 7,         /* MPI_LXOR: 1 where exactly one is nonzero, else 0 */
    WZ_BAND = 8,         /* MPI_BAND: the bits that both have */
    WZ_BOR = 9,          /* MPI_BOR: the bits that at least one has */
    WZ_BXOR = 10,        /* MPI_BXOR: the bits that exactly one has */
    WZ_LASTNZ = 11,      /* b where b isn't 0, else a; not commutative, as a user's may be */
    WZ_MAXLOC = 12,      /* MPI_MAXLOC: the pair with the greater value, of equal values the one with the lesser index */
    WZ_MINLOC = 13,      /* MPI_MINLOC: the pair with the lesser value, of equal values the one with the lesser index */
    WZ_OPERATIONS = 14   /* the first number that names none */
};
/* tools/words: end of operations */

/* Types (wz_call.type), with the MPI type and the bytes of an element. Numbers are little-endian. */
/* tools/words: types */
enum {
    WZ_INT8 = 0,   /* MPI_INT8_T, 1 */
    WZ_INT16 = 1,  /* MPI_INT16_T, 2 */
    WZ_INT32 = 2,  /* MPI_INT32_T, 4 */
    WZ_INT64 = 3,  /* MPI_INT64_T, 8 */
    WZ_UINT8 = 4,  /* MPI_UINT8_T, 1 */
    WZ_UINT16 = 5, /* MPI_UINT16_T, 2 */
    WZ_UINT32 = 6, /* MPI_UINT32_T, 4 */
    WZ_UINT64 = 7, /* MPI_UINT64_T, 8 */
    WZ_BYTE = 8,   /* MPI_BYTE, 1; for the operations on bits alone */
    WZ_2INT = 9,   /* MPI_2INT, 8; a value and its index, each an int32_t; for maxloc and minloc alone */
    WZ_TYPES = 10  /* the first number that names none */
};
/* tools/words: end of types */

/* What all members of a communicator have to agree on at one place of their posting lists: the numbers above. A kind
   without a root has root 0, which is a member number; a barrier has count 0. */
typedef struct wz_call {
    uint8_t kind;
    uint8_t op;
    uint8_t type;
    uint8_t root;
    uint32_t count; /* elements of a block: up to 65,536; nobody gives or gets more than 16,777,216 bytes */
} wz_call;

/* Why a call was refused, with what is known of it; a field that a refusal has no use for is 0. WZ_STALLED is
   worzsunab_threads.h's. */
typedef struct wz_reason {
    int32_t code;    /* WZ_BAD_COMM to WZ_BAD_CONFIG; 0: no call was refused */
    uint8_t rank;    /* WZ_NOT_MEMBER: the rank that isn't one; WZ_STALLED: the one that waits */
    uint8_t cause;   /* WZ_BAD_SIGNATURE: WZ_RULE_ROOT and so on; WZ_BAD_CONFIG: WZ_FIELD_RANKS and so on */
    uint8_t first;   /* WZ_MISMATCH: the lowest rank that has that place; WZ_STALLED: the lowest that is waited for */
    bool persistent; /* WZ_MISMATCH: whether that rank's collective is persistent; WZ_STALLED: the one waited for */
    wz_call call;    /* WZ_MISMATCH: that rank's collective; WZ_STALLED: the one waited for; no counts (wz_posted_at) */
    uint32_t comm;   /* WZ_BAD_COMM: the number that names none; WZ_STALLED: the communicator */
    uint32_t place;  /* WZ_MISMATCH, WZ_STALLED: the place in the posting lists, from 0 on */
    uint32_t want;   /* WZ_BAD_LENGTH: the bytes that are due, or the outcome's; WZ_STALLED: how many are waited for */
    size_t got;      /* WZ_BAD_LENGTH: the bytes that were given, or the room */
} wz_reason;

/* Rules that a signature may break (wz_reason.cause), and fields of a configuration. */
enum {
    WZ_RULE_ROOT = 1,      /* the root isn't below the number of members, or isn't 0 for a kind without a root */
    WZ_RULE_OPERATION = 2, /* the operation is missing, isn't for that type, or is given to a kind that has none */
    WZ_RULE_COUNT = 3,     /* a count is above 65,536, a barrier's isn't 0, or one stands behind the last member's */
    WZ_RULE_SIZE = 4       /* some member gives or gets more than 16,777,216 bytes */
};
enum {
    WZ_FIELD_RANKS = 1,
    WZ_FIELD_GROUPS = 2, /* the communicators */
    WZ_FIELD_SLOTS = 3,
    WZ_FIELD_PLACES = 4,
    WZ_FIELD_WEAR = 5,
    WZ_FIELD_STARTS = 6
};

/* A request (MPI_Request). All zeros is null (MPI_REQUEST_NULL). A copy names the same request. */
typedef struct wz_request {
    uint32_t slot;
    uint32_t generation;
} wz_request;

/* An engine. All zeros is closed: wz_engine engine = WZ_CLOSED_ENGINE; */
typedef struct wz_engine {
    void *at;
    bool opened;
    wz_reason reason; /* of the last refusal; to be read, between calls */
} wz_engine;

/* What a request is (wz_about). */
typedef struct wz_about_request {
    uint8_t rank;    /* whose it is */
    bool persistent;
    uint32_t comm;
    uint32_t place;  /* its place in its member's posting list, from 0 on */
    uint32_t starts; /* how often it was started */
} wz_about_request;

/* A combination that was taken out of an engine, so that it is computed outside the lock. All zeros is none:
   wz_work work = WZ_EMPTY_WORK; */
typedef struct wz_work {
    void *at;
    bool full;
} wz_work;

/* Bytes in the engine's own form: copied for a post or a start, or the outcome of a request. All zeros is none:
   wz_bytes bytes = WZ_EMPTY_BYTES; */
typedef struct wz_bytes {
    void *at;
    bool full;
} wz_bytes;

#define WZ_NO_REASON { 0, 0, 0, 0, false, { 0, 0, 0, 0, 0 }, 0, 0, 0, 0 }
#define WZ_CLOSED_ENGINE { NULL, false, WZ_NO_REASON }
#define WZ_NULL_REQUEST { 0, 0 }
#define WZ_EMPTY_WORK { NULL, false }
#define WZ_EMPTY_BYTES { NULL, false }

/* What an engine is opened with. */
typedef struct wz_limits {
    uint32_t ranks;  /* 1 to 64: the ranks are the numbers below it */
    uint32_t slots;  /* the most live requests at one time: 1 to 4,096 */
    uint32_t places; /* the most posts and initialisations of one member on one communicator: 1 to 65,536 */
    uint32_t wear;   /* how many requests one slot is given to, one after the other: 1 or more */
    uint32_t starts; /* the most starts of one request: 1 to 1,048,576 */
} wz_limits;

/* The greatest limits, for that many ranks. */
wz_limits wz_greatest_limits(uint32_t ranks);

/* ---- what functions answer */

enum {
    WZ_DONE = 0,            /* it was done */
    WZ_PENDING = -1,        /* the request isn't Done: test it again after progress */
    WZ_BAD_COMM = 1,        /* there is no such communicator */
    WZ_NOT_MEMBER = 2,      /* the rank isn't in the communicator's group */
    WZ_BAD_SIGNATURE = 3,   /* root, operation, count or size break a rule */
    WZ_BAD_LENGTH = 4,      /* another length than the call gives; in wz_test, less room than the outcome takes */
    WZ_MISMATCH = 5,        /* another member has another collective at that place */
    WZ_STALE = 6,           /* no live request has that name; a null one where a live one is due */
    WZ_NOT_YOURS = 7,       /* the request is another rank's */
    WZ_ACTIVE = 8,          /* a start or a free of an active request */
    WZ_NOT_PERSISTENT = 9,  /* a start or a free of a request that isn't persistent */
    WZ_PLACES_USED = 10,    /* the member has used all its places on the communicator */
    WZ_STARTS_USED = 11,    /* the request has had all its starts */
    WZ_FULL = 12,           /* no slot is free */
    WZ_TRACE_FULL = 13,     /* of engines with a trace; no function of this library answers it */
    WZ_STALLED = 14,        /* no wait can end: the waits of worzsunab_threads.h answer it */
    WZ_STILL_ACTIVE = 15,   /* as WZ_TRACE_FULL */
    WZ_TORN = 16,           /* as WZ_TRACE_FULL */
    WZ_NO_MEMORY = 17,      /* malloc gave none */
    WZ_BAD_CONFIG = 18,     /* a limit or a communicator is out of its range */
    WZ_BAD_NUMBER = 19,     /* a number that names no kind, operation or type */
    WZ_CLOSED = 20,         /* the engine is closed */
    WZ_OPEN = 21,           /* the engine is open already */
    WZ_NO_WORK = 22,        /* there is no combination: none is left to take, or the wz_work has none */
    WZ_HAS_WORK = 23,       /* the wz_work has a combination already */
    WZ_TWICE = 24,          /* a request stands twice in a list */
    WZ_NO_PLACE = 25,       /* no member has posted so much, or there is no such communicator */
    WZ_NO_BYTES = 26,       /* the wz_bytes has none */
    WZ_HAS_BYTES = 27       /* the wz_bytes has some already */
};

/* ---- functions. After an answer that isn't WZ_DONE nothing has changed, in the engine, the request or the
        memory, unless it is said otherwise. Where the answer is 1 to 18, the engine's reason tells more of it; else
        that stays. The codes of each stand in the order in which they are looked for. */

/* Opens an engine (MPI_Init, as far as it goes). Its communicators lie one after the other: sizes has the number of
   members of each, members their ranks, in the order of their member numbers; there are 1 to 16, each of one rank or
   more, none twice.
   WZ_OPEN, WZ_BAD_CONFIG (a limit, a size or a rank is out of its range, or there are more or fewer members than the
   sizes tell); WZ_NO_MEMORY may come in place of the latter. */
int32_t wz_open(wz_engine *engine, const wz_limits *limits, const uint8_t *sizes, size_t communicators,
                const uint8_t *members, size_t member_count);

/* Gives up an engine with all its requests, also active ones (MPI_Finalize). It is all zeros then.
   WZ_CLOSED. */
int32_t wz_close(wz_engine *engine);

/* Starts a collective (MPI_Ibarrier, MPI_Ibcast and so on) for a rank of a communicator, with bytes that it gives,
   which are copied. The members of a communicator make its posts and initialisations in one order.
   WZ_BAD_NUMBER, WZ_CLOSED, WZ_BAD_COMM, WZ_NOT_MEMBER, WZ_BAD_SIGNATURE, WZ_MISMATCH, WZ_PLACES_USED,
   WZ_BAD_LENGTH, WZ_FULL; WZ_NO_MEMORY may come in place of one from WZ_MISMATCH on. */
int32_t wz_post(wz_engine *engine, uint8_t rank, uint32_t comm, const wz_call *call, const void *bytes, size_t length,
                wz_request *request);

/* Starts an allgatherv (MPI_Iallgatherv): member i gives counts[i] elements of the type, and all get what all give,
   one after the other. counts has many elements, mostly as many as the communicator has members; a member behind
   them gives none.
   WZ_BAD_NUMBER (the type's number, or more than 64 counts), and from WZ_CLOSED on as wz_post. */
int32_t wz_post_allgatherv(wz_engine *engine, uint8_t rank, uint32_t comm, uint8_t type, const uint32_t *counts,
                           size_t many, const void *bytes, size_t length, wz_request *request);

/* Makes a persistent request, which isn't started yet (MPI_Barrier_init, MPI_Bcast_init and so on). It takes a place
   as a post does.
   WZ_BAD_NUMBER, WZ_CLOSED, WZ_BAD_COMM, WZ_NOT_MEMBER, WZ_BAD_SIGNATURE, WZ_MISMATCH, WZ_PLACES_USED, WZ_FULL;
   WZ_NO_MEMORY may come in place of one from WZ_MISMATCH on. */
int32_t wz_init(wz_engine *engine, uint8_t rank, uint32_t comm, const wz_call *call, wz_request *request);

/* The same of an allgatherv (MPI_Allgatherv_init), with counts as wz_post_allgatherv has them.
   WZ_BAD_NUMBER (the type's number, or more than 64 counts), and from WZ_CLOSED on as wz_init. */
int32_t wz_init_allgatherv(wz_engine *engine, uint8_t rank, uint32_t comm, uint8_t type, const uint32_t *counts,
                           size_t many, wz_request *request);

/* Starts a persistent request with bytes that the rank gives, which are copied (MPI_Start).
   WZ_CLOSED, WZ_STALE, WZ_NOT_YOURS, WZ_NOT_PERSISTENT, WZ_ACTIVE, WZ_BAD_LENGTH, WZ_STARTS_USED; WZ_NO_MEMORY may
   come in place of one from WZ_STALE on. */
int32_t wz_start(wz_engine *engine, uint8_t rank, const wz_request *request, const void *bytes, size_t length);

/* Gives up a persistent request that isn't active, and makes it null (MPI_Request_free).
   WZ_CLOSED, WZ_STALE, WZ_NOT_YOURS, WZ_NOT_PERSISTENT, WZ_ACTIVE. */
int32_t wz_free(wz_engine *engine, uint8_t rank, wz_request *request);

/* Completes a request if it is done (MPI_Test; as MPI_Wait, call it again after progress). WZ_DONE: it was
   completed, its outcome, *count bytes, stands at the front of out, and a request that isn't persistent is null; or
   it was null or not active, and *count is 0. WZ_PENDING: nothing has changed. It makes no progress by itself, and
   takes no memory.
   WZ_CLOSED, WZ_STALE, WZ_NOT_YOURS, WZ_BAD_LENGTH (room is less than the outcome's bytes; it can still be
   completed). */
int32_t wz_test(wz_engine *engine, uint8_t rank, wz_request *request, void *out, size_t room, size_t *count);

/* How far a request is (MPI_Request_get_status): *phase is one of these.
   WZ_CLOSED, WZ_STALE, WZ_NOT_YOURS. */
enum { WZ_IDLE = 0, WZ_IS_PENDING = 1, WZ_IS_DONE = 2 };
int32_t wz_phase(wz_engine *engine, uint8_t rank, const wz_request *request, uint8_t *phase);

/* What a live request of any rank is.
   WZ_CLOSED, WZ_STALE. */
int32_t wz_about(wz_engine *engine, const wz_request *request, wz_about_request *about);

/* The bytes of the outcome that a live request will have, or has.
   WZ_CLOSED, WZ_STALE, WZ_NOT_YOURS. */
int32_t wz_outcome_length(wz_engine *engine, uint8_t rank, const wz_request *request, size_t *bytes);

/* Makes at most budget actions of any rank's collectives: each copies a message or combines two rows. *actions tells
   how many; they are fewer only where none is left.
   WZ_CLOSED; WZ_NO_MEMORY, after which the actions that were made stay made. */
int32_t wz_step(wz_engine *engine, uint32_t budget, uint32_t *actions);

/* Makes all actions that can be made. Each start to which all members have given is done then at each member.
   WZ_CLOSED; WZ_NO_MEMORY, after which the actions that were made stay made. */
int32_t wz_settle(wz_engine *engine);

/* The bytes that active requests lend to the engine, given and got together.
   WZ_CLOSED. */
int32_t wz_lent(wz_engine *engine, uint64_t *bytes);

/* ---- combinations outside the lock. The rows that an operation combines may be long. So that other threads go
        on meanwhile, one takes the combination out under the lock, runs it without, and returns it under the lock:

            while (wz_take_work(&engine, &work) == WZ_DONE) {
                unlock; wz_run_work(&work); lock; wz_return_work(&engine, &work);
            }

        Its request is pending for so long, and wz_step and wz_settle go past it. Several may be outside at one time. */

/* Makes actions until the next one is a combination, and takes that out.
   WZ_HAS_WORK, WZ_CLOSED, WZ_NO_WORK (no action is left, as after wz_settle); WZ_NO_MEMORY. The actions that were
   made stay made. */
int32_t wz_take_work(wz_engine *engine, wz_work *work);

/* Computes the combination, if that isn't done yet. It needs no engine, and so no lock.
   WZ_NO_WORK, WZ_NO_MEMORY (it can be run again, or returned undone). */
int32_t wz_run_work(wz_work *work);

/* Returns the combination to the engine that it was taken out of: its request goes on with the result. One that
   wasn't run can be taken, or made by wz_step and wz_settle, again.
   WZ_NO_WORK, WZ_CLOSED; WZ_STALE where the engine has no such combination outside: it is given up then. */
int32_t wz_return_work(wz_engine *engine, wz_work *work);

/* Gives up a combination, whose engine was closed. (In an engine that is open its request stays pending.)
   WZ_NO_WORK. */
int32_t wz_drop_work(wz_work *work);

/* ---- bytes outside the lock. What is posted and what is got may be long. So that other threads go on meanwhile, one
        copies the bytes that are given before the lock is taken, and those of the outcome after it was given up:

            wz_give(&bytes, row, length);
            lock; wz_post_given(&engine, rank, comm, &call, &bytes, &request); unlock;

            wz_give(&bytes, NULL, 0);
            lock; wz_take_outcome(&engine, rank, &request, room, &bytes); unlock;
            wz_copy_out(&bytes, out, room, &count);

        A wz_bytes goes to one call at a time, and to any engine. */

/* Copies bytes for a later call.
   WZ_HAS_BYTES, WZ_NO_MEMORY. */
int32_t wz_give(wz_bytes *bytes, const void *given, size_t length);

/* As wz_post, wz_post_allgatherv and wz_start, with bytes that were given, which aren't copied again. After WZ_DONE the
   wz_bytes is empty; after a refusal it is as before.
   WZ_NO_BYTES, and then as those. */
int32_t wz_post_given(wz_engine *engine, uint8_t rank, uint32_t comm, const wz_call *call, wz_bytes *bytes,
                      wz_request *request);
int32_t wz_post_allgatherv_given(wz_engine *engine, uint8_t rank, uint32_t comm, uint8_t type, const uint32_t *counts,
                                 size_t many, wz_bytes *bytes, wz_request *request);
int32_t wz_start_given(wz_engine *engine, uint8_t rank, const wz_request *request, wz_bytes *bytes);

/* Completes a request as wz_test does. Its outcome takes the place of the bytes that were given, mostly none, without
   being copied; where the request was null or not active, no bytes do. It takes no memory.
   WZ_NO_BYTES, and then as wz_test; WZ_BAD_LENGTH where the outcome has more bytes than room says. */
int32_t wz_take_outcome(wz_engine *engine, uint8_t rank, wz_request *request, size_t room, wz_bytes *bytes);

/* Copies the bytes to the front of out; *count tells how many there are. The wz_bytes is empty then.
   WZ_NO_BYTES, WZ_BAD_LENGTH (room is less; nothing has changed). */
int32_t wz_copy_out(wz_bytes *bytes, void *out, size_t room, size_t *count);

/* Gives the bytes up.
   WZ_NO_BYTES. */
int32_t wz_drop_bytes(wz_bytes *bytes);

/* ---- what members have posted */

/* The collective at a place of a communicator's posting lists. */
typedef struct wz_posted {
    wz_call call;
    bool persistent;
    uint32_t counts[64]; /* of an allgatherv, the elements that each member gives; else 0 */
} wz_posted;

/* The collective that the members of a communicator have at a place, from 0 on: all that have the place have the
   same. After a WZ_MISMATCH it tells the whole of what the reason tells, with an allgatherv's counts:
   wz_posted_at(&engine, comm, engine.reason.place, &posted).
   WZ_CLOSED, WZ_NO_PLACE (no member has posted so much, or there is no such communicator). */
int32_t wz_posted_at(wz_engine *engine, uint32_t comm, uint32_t place, wz_posted *posted);

/* ---- lists of requests of one rank (MPI 4.1, 3.7.5 and 3.9). All outcomes of a list go into one memory, in
        which each request has a span. All requests are looked at before anything changes. No request of a test's
        list stands twice in it, but for null ones. */

/* A request of a list, with its span: room bytes from at on, as far as the memory reaches. */
typedef struct wz_part {
    wz_request request;
    size_t at;
    size_t room;
    size_t count;   /* set by a test: the bytes of the outcome, which stand at the front of the span */
    bool completed; /* set by a test: whether it completed the request */
} wz_part;

/* No position: no request of the list is active (MPI_UNDEFINED). */
#define WZ_UNDEFINED SIZE_MAX

/* Completes the lowest request that is done (MPI_Testany): *index is its position, or WZ_UNDEFINED where none is
   active. The other parts stay. WZ_PENDING where some are active and none is done.
   WZ_CLOSED, WZ_STALE, WZ_NOT_YOURS, WZ_BAD_LENGTH (the outcome has more bytes than its span). */
int32_t wz_test_any(wz_engine *engine, uint8_t rank, wz_part *parts, size_t many, void *out, size_t room,
                    size_t *index);

/* Completes each request that is done, in rising position (MPI_Testsome): *completed tells how many, and each part
   whether it was it. *completed is WZ_UNDEFINED where none is active, and the parts stay.
   WZ_TWICE, WZ_CLOSED, WZ_STALE, WZ_NOT_YOURS, WZ_BAD_LENGTH. */
int32_t wz_test_some(wz_engine *engine, uint8_t rank, wz_part *parts, size_t many, void *out, size_t room,
                     size_t *completed);

/* Completes all requests if none is pending (MPI_Testall), else WZ_PENDING. A part that wasn't active isn't
   completed.
   WZ_TWICE, WZ_CLOSED, WZ_STALE, WZ_NOT_YOURS, WZ_BAD_LENGTH. */
int32_t wz_test_all(wz_engine *engine, uint8_t rank, wz_part *parts, size_t many, void *out, size_t room);

/* Starts requests in rising position (MPI_Startall), each with the bytes of its span of given, which are copied.
   *started tells how many were: those before the first whose start is refused, with that refusal, as wz_start
   answers it. */
int32_t wz_start_all(wz_engine *engine, uint8_t rank, const wz_part *parts, size_t many, const void *given,
                     size_t length, size_t *started);

#ifdef __cplusplus
}
#endif

#include "worzsunab_words.h"

#endif
