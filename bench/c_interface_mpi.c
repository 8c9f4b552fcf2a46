/* The samples of `c_interface RANKS 0 waits` for an MPI library, whose ranks are processes; see c_interface.py. */
#include <stdint.h>
#include <stdio.h>
#include <stdlib.h>

#include "../recorder/run/persistent.h"

enum { MOST_SAMPLES = 20000, OF = 20 };

static double samples[MOST_SAMPLES];
static double seconds = 0.7;
static int32_t given = 1, taken;
static MPI_Request persistent;

static int is_less(const void *left, const void *right) {
    double l = *(const double *)left, r = *(const double *)right;
    return (l > r) - (l < r);
}

static void barriers(void) {
    MPI_Request request;
    for (int turn = 0; turn < OF; turn++) {
        MPI_Ibarrier(MPI_COMM_WORLD, &request);
        MPI_Wait(&request, MPI_STATUS_IGNORE);
    }
}

static void allreduces(void) {
    MPI_Request request;
    for (int turn = 0; turn < OF; turn++) {
        MPI_Iallreduce(&given, &taken, 1, MPI_INT32_T, MPI_SUM, MPI_COMM_WORLD, &request);
        MPI_Wait(&request, MPI_STATUS_IGNORE);
    }
}

#ifdef INIT
static void starts(void) {
    for (int turn = 0; turn < OF; turn++) {
        MPI_Start(&persistent);
        MPI_Wait(&persistent, MPI_STATUS_IGNORE);
    }
}
#endif

/* Samples until rank 0 says that the time is over: prints the median and the time that nine of ten stay below, as nanoseconds an operation. */
static void measure(const char *name, void (*play)(void)) {
    int rank, many = 0;
    int32_t goes_on = 1;
    double end = MPI_Wtime() + seconds;
    MPI_Comm_rank(MPI_COMM_WORLD, &rank);
    while (goes_on) {
        double from = MPI_Wtime();
        play();
        samples[many++] = 1e9 * (MPI_Wtime() - from) / OF;
        goes_on = many < MOST_SAMPLES && MPI_Wtime() < end;
        MPI_Bcast(&goes_on, 1, MPI_INT32_T, 0, MPI_COMM_WORLD);
    }
    if (rank != 0) return;
    qsort(samples, (size_t)many, sizeof *samples, is_less);
    printf("%s: %.0f %.0f\n", name, samples[many / 2], samples[many * 9 / 10]);
}

int main(int words, char **word) {
    MPI_Init(&words, &word);
    if (words > 1) seconds = atof(word[1]);
    measure("barrier", barriers);
    measure("allreduce of one i32", allreduces);
#ifdef INIT
    INIT(Allreduce)(&given, &taken, 1, MPI_INT32_T, MPI_SUM, MPI_COMM_WORLD, MPI_INFO_NULL, &persistent);
    measure("persistent allreduce of one i32", starts);
    MPI_Request_free(&persistent);
#endif
    MPI_Finalize();
    return 0;
}
