/* The measures of mpi_programs.py: an MPI program as it is, for wzcc and for the compilers of MPI libraries. Rank 0 prints a line for each measure: its name
   and the median of its samples, in nanoseconds an operation. Its first argument is how many seconds a measure takes; further ones choose the measures
   whose names have one of them. */
#include <stdio.h>
#include <stdlib.h>
#include <string.h>

#include "small_collectives.h"

enum { MOST_SAMPLES = 20000, LONG = 524288, SHORT = 65536 };

static unsigned char block[LONG], sums[LONG];
static double samples[MOST_SAMPLES], seconds = 0.3;
static int rank, ranks;
static char **chosen; /* up to a null pointer; none: all */

static void blocking_barrier(int turns) {
    for (int turn = 0; turn < turns; turn++) MPI_Barrier(MPI_COMM_WORLD);
}

static void blocking_allreduce(int turns) {
    for (int turn = 0; turn < turns; turn++) MPI_Allreduce(given, taken, 1, MPI_INT32_T, MPI_SUM, MPI_COMM_WORLD);
}

static void bcast(int turns, int bytes) {
    for (int turn = 0; turn < turns; turn++) {
        MPI_Ibcast(block, bytes, MPI_BYTE, 0, MPI_COMM_WORLD, requests);
        MPI_Wait(requests, MPI_STATUS_IGNORE);
    }
}

static void short_bcast(int turns) { bcast(turns, SHORT); }

static void long_bcast(int turns) { bcast(turns, LONG); }

static void allreduce(int turns, int bytes) {
    for (int turn = 0; turn < turns; turn++) {
        MPI_Iallreduce(block, sums, bytes / 8, MPI_INT64_T, MPI_SUM, MPI_COMM_WORLD, requests);
        MPI_Wait(requests, MPI_STATUS_IGNORE);
    }
}

static void short_allreduce(int turns) { allreduce(turns, SHORT); }

static void long_allreduce(int turns) { allreduce(turns, LONG); }

static int is_less(const void *left, const void *right) {
    double one = *(const double *)left, other = *(const double *)right;
    return (one > other) - (one < other);
}

static int is_chosen(const char *name) {
    for (char **word = chosen; word != NULL && *word != NULL; word++)
        if (strstr(name, *word) != NULL) return 1;
    return chosen == NULL || *chosen == NULL;
}

/* Samples until rank 0 says that the time is over. */
static void measure(const char *name, void (*play)(int), int turns) {
    int many = 0;
    int32_t goes_on = is_chosen(name);
    if (!goes_on) return;
    double end = MPI_Wtime() + seconds;
    while (goes_on) {
        double begun = MPI_Wtime();
        play(turns);
        samples[many++] = 1e9 * (MPI_Wtime() - begun) / turns;
        goes_on = many < MOST_SAMPLES && MPI_Wtime() < end;
        MPI_Bcast(&goes_on, 1, MPI_INT32_T, 0, MPI_COMM_WORLD);
    }
    if (rank != 0) return;
    qsort(samples, (size_t)many, sizeof *samples, is_less);
    printf("%s: %.0f\n", name, samples[many / 2]);
    fflush(stdout);
}

static void measure_starts(void) {
#ifdef INIT
    make_persistent();
    measure("persistent allreduce of one `i32`", starts, 20);
    MPI_Request_free(&persistent);
#endif
}

int main(int words, char **word) {
    MPI_Init(&words, &word);
    if (words > 1) seconds = atof(word[1]);
    if (words > 2) chosen = word + 2;
    MPI_Comm_rank(MPI_COMM_WORLD, &rank);
    MPI_Comm_size(MPI_COMM_WORLD, &ranks);
    memset(block, rank + 1, sizeof block); /* an unwritten block would be one page of zeros, and alike for all ranks */
    measure("MPI_Barrier", blocking_barrier, 20);
    measure("MPI_Allreduce of one `i32`", blocking_allreduce, 20);
    measure("barrier", barrier, 20);
    measure("allreduce of one `i32`", small_allreduce, 20);
    measure_starts();
    measure("outstanding allreduces of one `i32`", outstanding, ranks > 4 ? OUTSTANDING / 2 : OUTSTANDING);
    measure("bcast of 64 KiB", short_bcast, 5);
    measure("bcast of 512 KiB", long_bcast, 1);
    measure("allreduce of 64 KiB", short_allreduce, 5);
    measure("allreduce of 512 KiB", long_allreduce, 1);
    MPI_Finalize();
    return 0;
}
