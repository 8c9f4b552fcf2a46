/* Each rank shares a communicator with its neighbour to either side, and hears from the left before it speaks to the right: all listen, and nobody speaks.

   wzcc ring.c -o ring
   wzrun -n 3 ./ring      status 3
   > wzrun: stalled: no rank can go on
   >   rank 0 waits in MPI_Bcast at ring.c:36
   >     for MPI_Bcast, root 0, place 0 of communicator "2 and 0", which rank 2 has not called
   >   rank 1 waits in MPI_Bcast at ring.c:36
   >     for MPI_Bcast, root 0, place 0 of communicator "0 and 1", which rank 0 has not called
   >   rank 2 waits in MPI_Bcast at ring.c:36
   >     for MPI_Bcast, root 0, place 0 of communicator "1 and 2", which rank 1 has not called
   >   so they wait for one another: 0 -> 2 -> 1 -> 0 */
#include <mpi.h>
#include <stdio.h>

static MPI_Comm pair_of(int rank, int first, int second) {
    MPI_Comm pair;
    char name[40];
    MPI_Comm_split(MPI_COMM_WORLD, rank == first || rank == second ? 0 : MPI_UNDEFINED, rank == first ? 0 : 1, &pair);
    snprintf(name, sizeof name, "%d and %d", first, second);
    if (pair != MPI_COMM_NULL) MPI_Comm_set_name(pair, name);
    return pair;
}

int main(int argc, char **argv) {
    int rank, size, heard = 0;
    MPI_Comm left = MPI_COMM_NULL, right = MPI_COMM_NULL;
    MPI_Init(&argc, &argv);
    MPI_Comm_rank(MPI_COMM_WORLD, &rank);
    MPI_Comm_size(MPI_COMM_WORLD, &size);
    for (int i = 0; i < size; i++) {
        MPI_Comm pair = pair_of(rank, i, (i + 1) % size);
        if (rank == i) right = pair;
        if (rank == (i + 1) % size) left = pair;
    }
    MPI_Bcast(&heard, 1, MPI_INT, 0, left); /* the mistake: nobody has begun */
    MPI_Bcast(&rank, 1, MPI_INT, 0, right);
    printf("rank %d: heard %d\n", rank, heard);
    MPI_Finalize();
    return 0;
}
