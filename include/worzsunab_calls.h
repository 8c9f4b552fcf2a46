/* MPI's nonblocking and persistent collectives, in MPI's order of arguments, over worzsunab_threads.h:

       wz_iallreduce(&ranks, me, comm, &mine, &sum, 1, WZ_INT32, WZ_SUM, &request);
       wz_wait(&ranks, me, &request);

   The rank and the communicator stand first. Where MPI has a count and a type of what is sent and one of what is
   received, here is one of both: the elements of a block. What is sent is copied by the call, or by wz_begin, so it may
   be changed at once, and one buffer may be both (MPI_IN_PLACE). What is received is written by the wait or test that
   completes the request, and only then. A member that sends or receives nothing may pass NULL. Answers are those of
   wz_shared_post, and of wz_shared_init for the persistent ones. */
#ifndef WORZSUNAB_CALLS_H
#define WORZSUNAB_CALLS_H

#include "worzsunab_threads.h"

#ifdef __cplusplus
extern "C" {
#endif

/* The bytes of an element, by the table of types in worzsunab.h; 0 for a number that names no type. */
size_t wz_type_bytes(uint8_t type);

/* How many blocks a member of a group gives to a collective and gets, by the table of kinds in worzsunab.h. 0 of an
   allgatherv, of which counts say it, and for a number that names no kind. */
size_t wz_blocks_given(uint8_t kind, uint32_t member, uint32_t root, size_t members);
size_t wz_blocks_got(uint8_t kind, uint32_t member, uint32_t root, size_t members);

/* ---- nonblocking (MPI 4.1, 6.12): MPI_Ibarrier and so on. counts has a count for each member, in elements. */

/* tools/words: nonblocking */
int32_t wz_ibarrier(wz_shared *shared, uint8_t rank, uint32_t comm, wz_request *request);
int32_t wz_ibcast(wz_shared *shared, uint8_t rank, uint32_t comm, void *buffer, uint32_t count, uint8_t type,
                  uint8_t root, wz_request *request);
int32_t wz_igather(wz_shared *shared, uint8_t rank, uint32_t comm, const void *send, void *receive, uint32_t count,
                   uint8_t type, uint8_t root, wz_request *request);
int32_t wz_iscatter(wz_shared *shared, uint8_t rank, uint32_t comm, const void *send, void *receive, uint32_t count,
                    uint8_t type, uint8_t root, wz_request *request);
int32_t wz_iallgather(wz_shared *shared, uint8_t rank, uint32_t comm, const void *send, void *receive, uint32_t count,
                      uint8_t type, wz_request *request);
int32_t wz_ialltoall(wz_shared *shared, uint8_t rank, uint32_t comm, const void *send, void *receive, uint32_t count,
                     uint8_t type, wz_request *request);
int32_t wz_ireduce(wz_shared *shared, uint8_t rank, uint32_t comm, const void *send, void *receive, uint32_t count,
                   uint8_t type, uint8_t op, uint8_t root, wz_request *request);
int32_t wz_iallreduce(wz_shared *shared, uint8_t rank, uint32_t comm, const void *send, void *receive, uint32_t count,
                      uint8_t type, uint8_t op, wz_request *request);
int32_t wz_ireduce_scatter_block(wz_shared *shared, uint8_t rank, uint32_t comm, const void *send, void *receive,
                                 uint32_t count, uint8_t type, uint8_t op, wz_request *request);
int32_t wz_iscan(wz_shared *shared, uint8_t rank, uint32_t comm, const void *send, void *receive, uint32_t count,
                 uint8_t type, uint8_t op, wz_request *request);
int32_t wz_iexscan(wz_shared *shared, uint8_t rank, uint32_t comm, const void *send, void *receive, uint32_t count,
                   uint8_t type, uint8_t op, wz_request *request);
int32_t wz_iallgatherv(wz_shared *shared, uint8_t rank, uint32_t comm, const void *send, void *receive,
                       const uint32_t *counts, uint8_t type, wz_request *request);
/* tools/words: end of nonblocking */

/* ---- persistent (MPI 4.1, 6.13): MPI_Barrier_init and so on; wz_begin starts them, wz_shared_free frees them. */

/* tools/words: persistent */
int32_t wz_barrier_init(wz_shared *shared, uint8_t rank, uint32_t comm, wz_request *request);
int32_t wz_bcast_init(wz_shared *shared, uint8_t rank, uint32_t comm, void *buffer, uint32_t count, uint8_t type,
                      uint8_t root, wz_request *request);
int32_t wz_gather_init(wz_shared *shared, uint8_t rank, uint32_t comm, const void *send, void *receive, uint32_t count,
                       uint8_t type, uint8_t root, wz_request *request);
int32_t wz_scatter_init(wz_shared *shared, uint8_t rank, uint32_t comm, const void *send, void *receive, uint32_t count,
                        uint8_t type, uint8_t root, wz_request *request);
int32_t wz_allgather_init(wz_shared *shared, uint8_t rank, uint32_t comm, const void *send, void *receive,
                          uint32_t count, uint8_t type, wz_request *request);
int32_t wz_alltoall_init(wz_shared *shared, uint8_t rank, uint32_t comm, const void *send, void *receive,
                         uint32_t count, uint8_t type, wz_request *request);
int32_t wz_reduce_init(wz_shared *shared, uint8_t rank, uint32_t comm, const void *send, void *receive, uint32_t count,
                       uint8_t type, uint8_t op, uint8_t root, wz_request *request);
int32_t wz_allreduce_init(wz_shared *shared, uint8_t rank, uint32_t comm, const void *send, void *receive,
                          uint32_t count, uint8_t type, uint8_t op, wz_request *request);
int32_t wz_reduce_scatter_block_init(wz_shared *shared, uint8_t rank, uint32_t comm, const void *send, void *receive,
                                     uint32_t count, uint8_t type, uint8_t op, wz_request *request);
int32_t wz_scan_init(wz_shared *shared, uint8_t rank, uint32_t comm, const void *send, void *receive, uint32_t count,
                     uint8_t type, uint8_t op, wz_request *request);
int32_t wz_exscan_init(wz_shared *shared, uint8_t rank, uint32_t comm, const void *send, void *receive, uint32_t count,
                       uint8_t type, uint8_t op, wz_request *request);
int32_t wz_allgatherv_init(wz_shared *shared, uint8_t rank, uint32_t comm, const void *send, void *receive,
                           const uint32_t *counts, uint8_t type, wz_request *request);
/* tools/words: end of persistent */

/* ---- completion of requests that the calls above made. Null requests are complete. */

/* Starts a persistent request with what its buffer has now (MPI_Start); as wz_shared_start. */
int32_t wz_begin(wz_shared *shared, uint8_t rank, const wz_request *request);

/* Completes a request into its buffer (MPI_Wait); as wz_shared_wait. */
int32_t wz_wait(wz_shared *shared, uint8_t rank, wz_request *request);

/* Completes a request into its buffer if it is done (MPI_Test); as wz_shared_test, WZ_PENDING where it isn't. */
int32_t wz_try(wz_shared *shared, uint8_t rank, wz_request *request);

/* Completes all requests, one after the other (MPI_Waitall); where one is refused or stalled, those before it are
   completed. */
int32_t wz_wait_all(wz_shared *shared, uint8_t rank, size_t many, wz_request *requests);

/* Completes one request, the lowest that is done when it looks (MPI_Waitany): *index is its position, or WZ_UNDEFINED
   where none is active. */
int32_t wz_wait_any(wz_shared *shared, uint8_t rank, size_t many, wz_request *requests, size_t *index);

#ifdef __cplusplus
}
#endif

#endif
