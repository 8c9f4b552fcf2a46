/* Each rank counts something, and the counts are summed up in two halves of the ranks and over all of them. It has a mistake for the
   recorder to find: what is summed over all ranks has one root, but the ranks of the second half take the first of their own half. */
#include <mpi.h>
#include <stdio.h>

int main(int words, char **word) {
    int rank, size, counted, in_half = 0, in_all = 0;
    MPI_Comm half;
    MPI_Request requests[2];
    MPI_Init(&words, &word);
    MPI_Comm_rank(MPI_COMM_WORLD, &rank);
    MPI_Comm_size(MPI_COMM_WORLD, &size);
    int second = rank >= size / 2;
    MPI_Comm_split(MPI_COMM_WORLD, second, rank, &half);
    counted = 10 * (rank + 1);
    MPI_Iallreduce(&counted, &in_half, 1, MPI_INT, MPI_SUM, half, &requests[0]);
    MPI_Ireduce(&counted, &in_all, 1, MPI_INT, MPI_SUM, second ? size / 2 : 0, MPI_COMM_WORLD, &requests[1]);
    MPI_Wait(&requests[0], MPI_STATUS_IGNORE);
    MPI_Wait(&requests[1], MPI_STATUS_IGNORE);
    printf("rank %d: %d in its half, %d in all\n", rank, in_half, in_all);
    MPI_Comm_free(&half);
    MPI_Finalize();
    return 0;
}
