/* Two ranks tell each other a number. It has a mistake that few runs show: both send before they receive, so a library whose sends wait for
   their receives hangs, as all do where the row is long. */
#include <mpi.h>
#include <stdio.h>

int main(int words, char **word) {
    int rank, theirs = 0;
    MPI_Init(&words, &word);
    MPI_Comm_rank(MPI_COMM_WORLD, &rank);
    int mine = 10 * (rank + 1);
    MPI_Send(&mine, 1, MPI_INT, !rank, 1, MPI_COMM_WORLD);
    MPI_Recv(&theirs, 1, MPI_INT, !rank, 1, MPI_COMM_WORLD, MPI_STATUS_IGNORE);
    printf("rank %d: %d\n", rank, theirs);
    MPI_Finalize();
    return 0;
}
