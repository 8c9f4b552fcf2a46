/* The small collectives that mpi.c and mpi_programs.c measure. */
#ifndef SMALL_COLLECTIVES_H
#define SMALL_COLLECTIVES_H

#include <stdint.h>

#include "../recorder/run/persistent.h"

enum { OUTSTANDING = 1000 };

static int32_t given[OUTSTANDING], taken[OUTSTANDING];
static MPI_Request requests[OUTSTANDING], persistent;

static void barrier(int turns) {
    for (int turn = 0; turn < turns; turn++) {
        MPI_Ibarrier(MPI_COMM_WORLD, requests);
        MPI_Wait(requests, MPI_STATUS_IGNORE);
    }
}

static void small_allreduce(int turns) {
    for (int turn = 0; turn < turns; turn++) {
        MPI_Iallreduce(given, taken, 1, MPI_INT32_T, MPI_SUM, MPI_COMM_WORLD, requests);
        MPI_Wait(requests, MPI_STATUS_IGNORE);
    }
}

#ifdef INIT
static void make_persistent(void) {
    INIT(Allreduce)(given, taken, 1, MPI_INT32_T, MPI_SUM, MPI_COMM_WORLD, MPI_INFO_NULL, &persistent);
}

static void starts(int turns) {
    for (int turn = 0; turn < turns; turn++) {
        MPI_Start(&persistent);
        MPI_Wait(&persistent, MPI_STATUS_IGNORE);
    }
}
#endif

static void outstanding(int turns) {
    for (int turn = 0; turn < turns; turn++)
        MPI_Iallreduce(given + turn, taken + turn, 1, MPI_INT32_T, MPI_SUM, MPI_COMM_WORLD, requests + turn);
    for (int turn = 0; turn < turns; turn++) MPI_Wait(requests + turn, MPI_STATUS_IGNORE);
}

#endif
