/* What one call of a collective says, and its line in the record. */
#ifndef CALLS_H
#define CALLS_H

#include "known.h"

#include <mpi.h>
#include <stdbool.h>
#include <stddef.h>

enum { NO_ROOT = -1, MOST_VALUES = 4096 };

/* Counts for each member, of int or of MPI_Count. Null for none. */
struct counts {
    const void *first;
    size_t width;
};

/* One side of a call, what it sends or what it receives. */
struct side {
    bool stands; /* whether the call says it */
    MPI_Datatype type;
    long count;
    struct counts counts;      /* in place of COUNT */
    const MPI_Datatype *types; /* in place of TYPE, of MPI_Alltoallw */
};

struct call {
    const char *name; /* after MPI_, of the blocking form */
    char form;        /* 'b' blocking, 'n' nonblocking, 'p' persistent */
    struct context *context;
    int root; /* NO_ROOT for a call without one */
    MPI_Op op;
    struct side sent, got;
    /* What the rank gives: BLOCKS times COUNT elements. */
    MPI_Datatype type;
    long count, blocks;
    const void *given; /* null where zeros are to stand for the values */
};

long count_at(struct counts counts, int member);

/* Writes `call CONTEXT FORM NAME` and what follows of the arguments, without a line's end: `rROOT`, `oOPERATION`, `sTYPE*COUNT` for what is
   sent and `gTYPE*COUNT` for what is received, with `,` after the count of each
   member, or `;` after its type and count. */
struct gift write_call(const struct call *call);

/* Writes what the rank gives, and ends the line: ` : VALUES`, or ` ~ B` for zeros, B times the count. */
void write_gift(const struct gift *gift);

#endif
