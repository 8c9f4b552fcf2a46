/* Two ranks tell each other their number, each on a communicator of its own. It has a mistake that few runs show: rank 1 calls the second
   bcast first, so a library whose MPI_Bcast waits for its receivers hangs. */
#include <mpi.h>
#include <stdio.h>

int main(int words, char **word) {
    int rank;
    MPI_Comm back;
    MPI_Init(&words, &word);
    MPI_Comm_rank(MPI_COMM_WORLD, &rank);
    MPI_Comm_dup(MPI_COMM_WORLD, &back);
    int there = rank, here = rank;
    if (rank == 0) {
        MPI_Bcast(&there, 1, MPI_INT, 0, MPI_COMM_WORLD);
        MPI_Bcast(&here, 1, MPI_INT, 1, back);
    } else {
        MPI_Bcast(&here, 1, MPI_INT, 1, back);
        MPI_Bcast(&there, 1, MPI_INT, 0, MPI_COMM_WORLD);
    }
    printf("rank %d: %d and %d\n", rank, there, here);
    MPI_Comm_free(&back);
    MPI_Finalize();
    return 0;
}
