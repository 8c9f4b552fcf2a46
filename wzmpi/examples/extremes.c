/* The least and the greatest of what the ranks have. Rank 2 asks for them in the other order.

   wzcc extremes.c -o extremes
   wzrun -n 4 ./extremes      status 2
   > wzrun: collectives don't agree: place 0 of MPI_COMM_WORLD (MPI_ERR_ARG)
   >   ranks 0, 1 and 3: extremes.c:21: MPI_Allreduce, MPI_MIN, 1 MPI_INT
   >   rank 2: extremes.c:18: MPI_Allreduce, MPI_MAX, 1 MPI_INT
   >   3 ranks agree, so rank 2 may be wrong: the operation differs */
#include <mpi.h>
#include <stdio.h>

int main(int argc, char **argv) {
    int rank, mine, least, greatest;
    MPI_Init(&argc, &argv);
    MPI_Comm_rank(MPI_COMM_WORLD, &rank);
    mine = 10 * rank + 3;
    if (rank == 2) { /* the mistake */
        MPI_Allreduce(&mine, &greatest, 1, MPI_INT, MPI_MAX, MPI_COMM_WORLD);
        MPI_Allreduce(&mine, &least, 1, MPI_INT, MPI_MIN, MPI_COMM_WORLD);
    } else {
        MPI_Allreduce(&mine, &least, 1, MPI_INT, MPI_MIN, MPI_COMM_WORLD);
        MPI_Allreduce(&mine, &greatest, 1, MPI_INT, MPI_MAX, MPI_COMM_WORLD);
    }
    printf("rank %d: %d to %d\n", rank, least, greatest);
    MPI_Finalize();
    return 0;
}
