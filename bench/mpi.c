/* The measures of `coll_bench operations times` for an MPI library, whose ranks are processes; see mpi.py. Long rows are measured in two
 * ways. Kept: each collective has fresh buffers, a giver writes its row, and nothing is freed, as in a program that computes new rows and
 * keeps its results. Used again: all have the same buffers, which were written once, as in a program that is done with a result before the
 * next collective. With the word `long` only these are measured. */
#include <stdbool.h>
#include <stdio.h>
#include <stdlib.h>
#include <string.h>

#include "small_collectives.h"

enum { MOST = 60, SHORT = 65536, LONG = 524288 };

static int rank, ranks;

/* Whether each collective has buffers of its own; else all have the same. */
static bool keeps;
static unsigned char *row_used_again, *result_used_again;

static unsigned char *allocated(size_t bytes) {
    unsigned char *memory = malloc(bytes);
    if (memory == NULL) {
        fprintf(stderr, "mpi.c: no memory for a row\n");
        MPI_Abort(MPI_COMM_WORLD, 1);
    }
    return memory;
}

/* A row to give in a turn. */
static unsigned char *given_row(int turn, size_t bytes) {
    if (!keeps)
        return row_used_again;
    unsigned char *row = allocated(bytes);
    memset(row, rank + turn, bytes);
    return row;
}

/* Where a result goes. */
static unsigned char *result_row(size_t bytes) { return keeps ? allocated(bytes) : result_used_again; }

static void bcast(int turns, int bytes) {
    for (int turn = 0; turn < turns; turn++) {
        unsigned char *row = rank == 0 ? given_row(turn, bytes) : result_row(bytes);
        MPI_Ibcast(row, bytes, MPI_BYTE, 0, MPI_COMM_WORLD, requests);
        MPI_Wait(requests, MPI_STATUS_IGNORE);
    }
}

static void allreduce(int turns, int bytes) {
    for (int turn = 0; turn < turns; turn++) {
        unsigned char *row = given_row(turn, bytes), *sums = result_row(bytes);
        MPI_Iallreduce(row, sums, bytes / 8, MPI_INT64_T, MPI_SUM, MPI_COMM_WORLD, requests);
        MPI_Wait(requests, MPI_STATUS_IGNORE);
    }
}

/* Each member gives a row of that many bytes. */
static void allgather(int turns, int bytes) {
    for (int turn = 0; turn < turns; turn++) {
        unsigned char *row = given_row(turn, bytes), *rows = result_row((size_t)ranks * bytes);
        MPI_Iallgather(row, bytes, MPI_BYTE, rows, bytes, MPI_BYTE, MPI_COMM_WORLD, requests);
        MPI_Wait(requests, MPI_STATUS_IGNORE);
    }
}

static void short_bcast(int turns) { bcast(turns, SHORT); }

static void long_bcast(int turns) { bcast(turns, LONG); }

static void short_allreduce(int turns) { allreduce(turns, SHORT); }

static void long_allreduce(int turns) { allreduce(turns, LONG); }

static void short_allgather(int turns) { allgather(turns, SHORT); }

static void long_allgather(int turns) { allgather(turns, LONG); }

static int is_less(const void *left, const void *right) {
    double l = *(const double *)left, r = *(const double *)right;
    return (l > r) - (l < r);
}

/* Prints the median of the first rank's samples, in nanoseconds a collective. */
static void measure(const char *name, void (*play)(int), int samples, int turns) {
    double times[MOST];
    for (int sample = 0; sample < samples; sample++) {
        double start = MPI_Wtime();
        play(turns);
        times[sample] = MPI_Wtime() - start;
    }
    qsort(times, samples, sizeof *times, is_less);
    if (rank == 0)
        printf("%s: %.0f\n", name, 1e9 * times[samples / 2] / turns);
}

static void measure_short(void) {
    measure("barrier", barrier, 60, 200);
    measure("allreduce of one i32", small_allreduce, 60, 200);
#ifdef INIT
    make_persistent();
    measure("persistent allreduce of one i32", starts, 60, 200);
    MPI_Request_free(&persistent);
#endif
    measure("outstanding allreduces of one i32", outstanding, 20, ranks > 4 ? 500 : 1000);
}

static void measure_kept(void) {
    keeps = true;
    measure("bcast of 64 KiB, kept", short_bcast, 60, 5);
    measure("bcast of 512 KiB, kept", long_bcast, 20, 1);
    measure("allreduce of 64 KiB, kept", short_allreduce, 60, 5);
    measure("allreduce of 512 KiB, kept", long_allreduce, 20, 1);
    measure("allgather of 64 KiB, kept", short_allgather, 20, 1);
    measure("allgather of 512 KiB, kept", long_allgather, 10, 1);
}

static void measure_used_again(void) {
    keeps = false;
    row_used_again = allocated(LONG);
    result_used_again = allocated((size_t)ranks * LONG);
    memset(row_used_again, rank + 1, LONG);
    memset(result_used_again, 0, (size_t)ranks * LONG);
    measure("bcast of 64 KiB, used again", short_bcast, 60, 5);
    measure("bcast of 512 KiB, used again", long_bcast, 60, 1);
    measure("allreduce of 64 KiB, used again", short_allreduce, 60, 5);
    measure("allreduce of 512 KiB, used again", long_allreduce, 60, 1);
    measure("allgather of 64 KiB, used again", short_allgather, 60, 1);
    measure("allgather of 512 KiB, used again", long_allgather, 60, 1);
    free(row_used_again);
    free(result_used_again);
}

int main(int words, char **word) {
    MPI_Init(&words, &word);
    MPI_Comm_size(MPI_COMM_WORLD, &ranks);
    MPI_Comm_rank(MPI_COMM_WORLD, &rank);
    if (words < 2 || strcmp(word[1], "long") != 0)
        measure_short();
    measure_kept();
    measure_used_again();
    MPI_Finalize();
    return 0;
}
