/* Rank 1 works longer than the others, which wait for its messages: nothing is wrong, but time is lost. A page of its run shows where. */
#define _DEFAULT_SOURCE
#include <mpi.h>
#include <unistd.h>

enum { TURNS = 6, ROW = 64, SHORT = 4000, LONG = 30000 };

int main(int words, char **word) {
    int rank, size, row[ROW] = {0}, one = 1, sum = 0;
    MPI_Init(&words, &word);
    MPI_Comm_rank(MPI_COMM_WORLD, &rank);
    MPI_Comm_size(MPI_COMM_WORLD, &size);
    for (int turn = 0; turn < TURNS; turn++) {
        usleep(rank == 1 ? LONG : SHORT);
        for (int to = 0; rank == 1 && to < size; to++)
            if (to != rank)
                MPI_Send(row, ROW, MPI_INT, to, 1, MPI_COMM_WORLD);
        if (rank != 1)
            MPI_Recv(row, ROW, MPI_INT, 1, 1, MPI_COMM_WORLD, MPI_STATUS_IGNORE);
        usleep(SHORT);
        MPI_Allreduce(&one, &sum, 1, MPI_INT, MPI_SUM, MPI_COMM_WORLD);
    }
    MPI_Finalize();
    return 0;
}
