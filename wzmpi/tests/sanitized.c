/* A mistake that a sanitizer sees, in rank 1 alone: sanitized overflow, sanitized race, or sanitized leak. Without a word there is none. */
#include <mpi.h>
#include <pthread.h>
#include <stdlib.h>
#include <string.h>

static int shared;
static void *raise_shared(void *unused) {
    shared++;
    return unused;
}

int main(int argc, char **argv) {
    int rank, sum;
    const char *what = argc > 1 ? argv[1] : "";
    MPI_Init(&argc, &argv);
    MPI_Comm_rank(MPI_COMM_WORLD, &rank);
    int *few = malloc(4 * sizeof *few);
    volatile int at = rank == 1 && strcmp(what, "overflow") == 0 ? 4 : 3;
    few[at] = rank;
    if (rank == 1 && strcmp(what, "race") == 0) {
        pthread_t thread;
        pthread_create(&thread, NULL, raise_shared, NULL);
        shared++;
        pthread_join(thread, NULL);
    }
    MPI_Allreduce(&rank, &sum, 1, MPI_INT, MPI_SUM, MPI_COMM_WORLD);
    if (rank == 1 && strcmp(what, "leak") == 0) few = NULL;
    free(few);
    MPI_Finalize();
    return 0;
}
