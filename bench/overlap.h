/* How far collectives proceed while their ranks compute: what overlap.c measures for a rank, and what it asks of a library, which
 * overlap_mpi.c has of MPI and overlap_library.c of the C library. overlap.py runs both. */
#ifndef OVERLAP_H
#define OVERLAP_H

#include <stdbool.h>
#include <stddef.h>
#include <stdint.h>

enum kind { ALLREDUCE, BCAST, ALLTOALL, BARRIER, KINDS };

/* A collective of rows of eight-byte integers: bytes that each rank gives or gets; of an alltoall, for each rank. */
struct collective {
    enum kind kind;
    size_t bytes;
};

/* A rank, with its rows: each has room for what an alltoall gives. */
struct rank {
    int number, ranks;
    unsigned char *given, *taken;
    void *request;
};

/* ---- what a library has */

void post_collective(struct rank *rank, struct collective collective);
/* Whether the request is complete. */
bool test_request(struct rank *rank);
void wait_for_request(struct rank *rank);
/* The greatest of the numbers that the ranks give. */
int64_t greatest(struct rank *rank, int64_t number);

/* ---- overlap.c */

/* The words after a program's name: clock|work TESTS [COLLECTIVE BYTES PERCENT].. */
struct plan;
/* NULL, with a message, where the words are others. */
struct plan *plan_of(int words, char **word);
/* Measures all collectives of the plan. Each rank calls it, and the slowest prints. */
void measure(struct rank *rank, const struct plan *plan);

#endif
