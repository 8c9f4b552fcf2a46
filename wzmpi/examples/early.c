/* A loop over a persistent reduction, whose next turn is prepared before the present one is complete.

   wzcc early.c -o early
   wzrun -n 2 --check ./early      status 2
   > wzrun: rank 0: MPI_Wait at early.c:19: what MPI_Allreduce_init at early.c:17 sends was changed before it was completed here (MPI_ERR_BUFFER) */
#include <mpi.h>
#include <stdio.h>

int main(int argc, char **argv) {
    int rank, value, sum;
    MPI_Request request;
    MPI_Init(&argc, &argv);
    MPI_Comm_rank(MPI_COMM_WORLD, &rank);
    MPI_Allreduce_init(&value, &sum, 1, MPI_INT, MPI_SUM, MPI_COMM_WORLD, MPI_INFO_NULL, &request);
    value = rank;
    for (int turn = 0; turn < 3; turn++) {
        MPI_Start(&request);
        if (rank == 0) value = turn + 1; /* the mistake: it is lent until MPI_Wait */
        MPI_Wait(&request, MPI_STATUS_IGNORE);
        if (rank != 0) value = turn + 1;
    }
    MPI_Request_free(&request);
    MPI_Finalize();
    return 0;
}
