/* Two broadcasts on two communicators, which rank 1 takes in the other order. A broadcast's root need not wait for the others, so the program mostly ends well;
   with a library whose broadcasts wait it hangs.

   wzcc lucky.c -o lucky
   wzrun -n 2 --strict ./lucky      status 3
   > wzrun: stalled: no rank can go on
   >   rank 0 waits in MPI_Bcast at lucky.c:23
   >     for MPI_Bcast, root 0, place 1 of MPI_COMM_WORLD, which rank 1 has not called
   >   rank 1 waits in MPI_Bcast at lucky.c:24
   >     for MPI_Bcast, root 0, place 0 of the communicator of MPI_Comm_dup at lucky.c:21, which rank 0 has not called
   >   so they wait for one another: 0 -> 1 -> 0
   >   (--strict: each collective is taken to wait for all its members, each send for its receive) */
#include <mpi.h>
#include <stdio.h>

int main(int argc, char **argv) {
    int rank, one = 1, two = 2;
    MPI_Comm copy;
    MPI_Init(&argc, &argv);
    MPI_Comm_rank(MPI_COMM_WORLD, &rank);
    MPI_Comm_dup(MPI_COMM_WORLD, &copy);
    if (rank == 0)
        MPI_Bcast(&one, 1, MPI_INT, 0, MPI_COMM_WORLD);
    MPI_Bcast(&two, 1, MPI_INT, 0, copy);
    if (rank != 0) /* the mistake */
        MPI_Bcast(&one, 1, MPI_INT, 0, MPI_COMM_WORLD);
    MPI_Finalize();
    return 0;
}
