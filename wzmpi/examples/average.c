/* Each rank has a reading; all get their average, and rank 0 the greatest distance from it.

   wzcc average.c -o average
   wzrun -n 4 ./average      status 0
   > average 2.50, the farthest reading lies 1.50 from it */
#include <mpi.h>
#include <stdio.h>

int main(int argc, char **argv) {
    int rank, size;
    double reading, sum, distance, farthest = 0;
    MPI_Request request;
    MPI_Init(&argc, &argv);
    MPI_Comm_rank(MPI_COMM_WORLD, &rank);
    MPI_Comm_size(MPI_COMM_WORLD, &size);
    reading = rank + 1;
    MPI_Iallreduce(&reading, &sum, 1, MPI_DOUBLE, MPI_SUM, MPI_COMM_WORLD, &request);
    MPI_Wait(&request, MPI_STATUS_IGNORE);
    distance = reading > sum / size ? reading - sum / size : sum / size - reading;
    MPI_Reduce(&distance, &farthest, 1, MPI_DOUBLE, MPI_MAX, 0, MPI_COMM_WORLD);
    if (rank == 0) printf("average %.2f, the farthest reading lies %.2f from it\n", sum / size, farthest);
    MPI_Finalize();
    return 0;
}
