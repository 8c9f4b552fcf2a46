/* Mistakes of MPI programs, one for each number on the command line, for an MPI library to meet; see mistakes.py. Each rank prints
   what it got. */
#include <stdint.h>
#include <stdio.h>
#include <stdlib.h>

#include "../recorder/run/persistent.h"

static int rank, size;
static int32_t given[2], got[8];
static MPI_Request request, other;

static void finish(MPI_Request *open) {
    MPI_Wait(open, MPI_STATUS_IGNORE);
    printf("rank %d: %d %d\n", rank, (int)got[0], (int)got[1]);
}

/* The last rank takes itself for the root. */
static void roots_differ(void) {
    got[0] = given[0];
    MPI_Ibcast(got, 1, MPI_INT32_T, rank == size - 1 ? size - 1 : 0, MPI_COMM_WORLD, &request);
    finish(&request);
}

/* The last rank combines by another operation. */
static void operations_differ(void) {
    MPI_Iallreduce(given, got, 1, MPI_INT32_T, rank == size - 1 ? MPI_MAX : MPI_SUM, MPI_COMM_WORLD, &request);
    finish(&request);
}

/* The last rank gives two elements, the others one. */
static void counts_differ(void) {
    MPI_Iallreduce(given, got, rank == size - 1 ? 2 : 1, MPI_INT32_T, MPI_SUM, MPI_COMM_WORLD, &request);
    finish(&request);
}

/* The last rank takes its elements for unsigned bytes; the bytes are as many. */
static void types_differ(void) {
    if (rank == size - 1)
        MPI_Iallreduce(given, got, 4, MPI_UINT8_T, MPI_SUM, MPI_COMM_WORLD, &request);
    else
        MPI_Iallreduce(given, got, 1, MPI_INT32_T, MPI_SUM, MPI_COMM_WORLD, &request);
    finish(&request);
}

/* The last rank posts a reduction where the others post a bcast. */
static void kinds_differ(void) {
    if (rank == size - 1)
        MPI_Iallreduce(given, got, 1, MPI_INT32_T, MPI_SUM, MPI_COMM_WORLD, &request);
    else
        MPI_Ibcast(got, 1, MPI_INT32_T, 0, MPI_COMM_WORLD, &request);
    finish(&request);
}

/* Two communicators, and the last rank waits in the other order before it posts further. */
static void waits_cross(void) {
    MPI_Comm twin;
    MPI_Comm_dup(MPI_COMM_WORLD, &twin);
    int last = rank == size - 1;
    MPI_Ibarrier(last ? twin : MPI_COMM_WORLD, &request);
    MPI_Wait(&request, MPI_STATUS_IGNORE);
    MPI_Ibarrier(last ? MPI_COMM_WORLD : twin, &other);
    finish(&other);
}

/* A persistent request is started again before it was completed. */
static void started_twice(void) {
    INIT(Allreduce)(given, got, 1, MPI_INT32_T, MPI_SUM, MPI_COMM_WORLD, MPI_INFO_NULL, &request);
    MPI_Start(&request);
    MPI_Start(&request);
    finish(&request);
}

int main(int argc, char **argv) {
    void (*mistakes[])(void) = {roots_differ, operations_differ, counts_differ, types_differ, kinds_differ, waits_cross, started_twice};
    int number = argc > 1 ? atoi(argv[1]) : 0;
    MPI_Init(&argc, &argv);
    MPI_Comm_rank(MPI_COMM_WORLD, &rank);
    MPI_Comm_size(MPI_COMM_WORLD, &size);
    setvbuf(stdout, NULL, _IOLBF, 0);
    given[0] = given[1] = rank + 1;
    if (number >= 0 && number < (int)(sizeof mistakes / sizeof *mistakes))
        mistakes[number]();
    MPI_Finalize();
    return 0;
}
