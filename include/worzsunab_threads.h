/* One engine shared by the threads of a process. Link with -lworzsunab -pthread.

   Each rank is played by one thread at a time. Its calls may wait: for a request, for one, some or all of a list.
   Progress is made for all ranks, by the threads that are in a call (docs/C.md says by whom and how much). Where each
   rank waits or has left, no wait can end: all are told WZ_STALLED then, and wz_shared_explain says who waits for whom.
   worzsunab_calls.h has a call for each of MPI's.

   Answers are those of the functions of worzsunab.h that these are named for; WZ_CLOSED also where a wz_shared is all
   zeros or was closed. What is behind these functions isn't proved; the engine beneath it is. */
#ifndef WORZSUNAB_THREADS_H
#define WORZSUNAB_THREADS_H

#include <pthread.h> /* for the threads that play the ranks */

#include "worzsunab.h"

#ifdef __cplusplus
extern "C" {
#endif

/* What the threads share. All zeros is closed. */
typedef struct wz_shared {
    struct wz_combiner *at;
} wz_shared;

/* ---- opening and closing */

/* Opens an engine for threads; as wz_open, but whatever stood in *shared is overwritten: close it first where it was
   open. */
int32_t wz_shared_open(wz_shared *shared, const wz_limits *limits, const uint8_t *sizes, size_t communicators,
                       const uint8_t *members, size_t member_count);

/* The same with one communicator, number 0, of all ranks, and the greatest limits. */
int32_t wz_shared_open_world(wz_shared *shared, uint8_t ranks);

/* Closes it once no thread uses it any longer; as wz_close. */
int32_t wz_shared_close(wz_shared *shared);

/* From now on that many progress threads, 0 to 8, make progress beside the ranks, also while all ranks compute between
   their calls: they make actions and compute combinations as a rank that waits does, and sleep once nothing has been
   left to do for a while. They count as no rank, so a stall is found as without them. The first call starts threads, a
   later one starts or ends some; wz_shared_close ends them. They take none of the process's signals.
   WZ_CLOSED; WZ_BAD_CONFIG (more than 8); WZ_NO_MEMORY (a thread can't be started: there are as many as before). */
int32_t wz_shared_progress(wz_shared *shared, uint32_t threads);

/* The rank's thread makes no further call, so others don't wait for it. Call it on every way out of the thread. A rank
   that begins, tests or waits afterwards counts again. */
void wz_shared_leave(wz_shared *shared, uint8_t rank);

/* ---- posts and starts. WZ_NO_MEMORY of the progress that a post or a start makes isn't answered: a wait or a test meets it. */

/* As wz_post and wz_post_allgatherv, with some progress. */
int32_t wz_shared_post(wz_shared *shared, uint8_t rank, uint32_t comm, const wz_call *call, const void *bytes,
                       size_t length, wz_request *request);
int32_t wz_shared_post_allgatherv(wz_shared *shared, uint8_t rank, uint32_t comm, uint8_t type, const uint32_t *counts,
                                  size_t many, const void *bytes, size_t length, wz_request *request);

/* As wz_init and wz_init_allgatherv. */
int32_t wz_shared_init(wz_shared *shared, uint8_t rank, uint32_t comm, const wz_call *call, wz_request *request);
int32_t wz_shared_init_allgatherv(wz_shared *shared, uint8_t rank, uint32_t comm, uint8_t type, const uint32_t *counts,
                                  size_t many, wz_request *request);

/* As wz_start and wz_start_all, with some progress. */
int32_t wz_shared_start(wz_shared *shared, uint8_t rank, const wz_request *request, const void *bytes, size_t length);
int32_t wz_shared_start_all(wz_shared *shared, uint8_t rank, const wz_part *parts, size_t many, const void *given,
                            size_t length, size_t *started);

/* As wz_free. */
int32_t wz_shared_free(wz_shared *shared, uint8_t rank, wz_request *request);

/* ---- tests. They make some progress first, and may answer WZ_PENDING where more could be made; WZ_NO_MEMORY where
   progress was refused memory: nothing is completed then. */

/* As wz_test, wz_test_any, wz_test_some and wz_test_all. */
int32_t wz_shared_test(wz_shared *shared, uint8_t rank, wz_request *request, void *out, size_t room, size_t *count);
int32_t wz_shared_test_any(wz_shared *shared, uint8_t rank, wz_part *parts, size_t many, void *out, size_t room,
                           size_t *index);
int32_t wz_shared_test_some(wz_shared *shared, uint8_t rank, wz_part *parts, size_t many, void *out, size_t room,
                            size_t *completed);
int32_t wz_shared_test_all(wz_shared *shared, uint8_t rank, wz_part *parts, size_t many, void *out, size_t room);

/* ---- waits. WZ_STALLED where no wait can end, and WZ_NO_MEMORY where progress was refused memory: nothing is
   completed then, and the wait can be repeated. */

/* Completes a request (MPI_Wait): as wz_test, and where that answers WZ_PENDING it waits. */
int32_t wz_shared_wait(wz_shared *shared, uint8_t rank, wz_request *request, void *out, size_t room, size_t *count);

/* Completes the lowest request of a list that is done (MPI_Waitany): as wz_test_any, and where that answers WZ_PENDING
   it waits. */
int32_t wz_shared_wait_any(wz_shared *shared, uint8_t rank, wz_part *parts, size_t many, void *out, size_t room,
                           size_t *index);

/* Completes each request of a list that is done, one at least (MPI_Waitsome): as wz_test_some, and where that would
   complete none of those that are active it waits. */
int32_t wz_shared_wait_some(wz_shared *shared, uint8_t rank, wz_part *parts, size_t many, void *out, size_t room,
                            size_t *completed);

/* Completes all requests of a list (MPI_Waitall): as wz_test_all, and where that answers WZ_PENDING it waits. */
int32_t wz_shared_wait_all(wz_shared *shared, uint8_t rank, wz_part *parts, size_t many, void *out, size_t room);

/* Waits until a request of a list is done, and completes none: *index is the position of the lowest that is, or
   WZ_UNDEFINED where none is active. Null requests are passed over.
   WZ_CLOSED, WZ_STALE, WZ_NOT_YOURS, where no request before that one is done. */
int32_t wz_shared_wait_for_any(wz_shared *shared, uint8_t rank, const wz_request *const *list, size_t many,
                               size_t *index);

/* ---- what is known */

/* As wz_phase, wz_about, wz_outcome_length, wz_posted_at and wz_lent. */
int32_t wz_shared_phase(wz_shared *shared, uint8_t rank, const wz_request *request, uint8_t *phase);
int32_t wz_shared_about(wz_shared *shared, uint8_t rank, const wz_request *request, wz_about_request *about);
int32_t wz_shared_outcome_length(wz_shared *shared, uint8_t rank, const wz_request *request, size_t *bytes);
int32_t wz_shared_posted_at(wz_shared *shared, uint32_t comm, uint32_t place, wz_posted *posted);
int32_t wz_shared_lent(wz_shared *shared, uint64_t *bytes);

/* Why the last call of this rank that was refused, or told WZ_STALLED, was; its code is that answer, of any above 0,
   and 0 where none was. For the rank's thread. */
wz_reason wz_shared_reason(const wz_shared *shared, uint8_t rank);

/* A sentence of what is known of the last refusal to this rank: of WZ_STALLED, who waits for whom; of WZ_MISMATCH, both
   collectives. As snprintf. */
int wz_shared_explain(wz_shared *shared, uint8_t rank, char *text, size_t size);

/* For a thread that watches the ranks, and plays none: how far a rank's request is, as wz_phase, and whether the engine
   is at rest at that moment: nothing can be done, and no combination is being computed, before some rank makes a call.
   request may be NULL, where *phase stays. */
int32_t wz_shared_watch(wz_shared *shared, uint8_t rank, const wz_request *request, uint8_t *phase, bool *at_rest);

/* Numbers the calls of ranks that are done from now on, in the order in which the engine takes them, by a counter that
   several engines may share; NULL: none. wz_shared_call_number is the number of the rank's last such call, for the
   rank's thread. Call it before the ranks do. */
void wz_shared_number_calls(wz_shared *shared, uint64_t *counter);
uint64_t wz_shared_call_number(const wz_shared *shared, uint8_t rank);

#ifdef __cplusplus
}
#endif

#include "worzsunab_calls.h"

#endif
