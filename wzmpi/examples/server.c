/* A server gets a job of each of two clients, and asks client 1 for another one after the first, whoever sent that. Client 1 has it only behind the barrier. So the
   ranks deadlock where client 2's first job is there before client 1's, which is seldom.

   wzcc server.c -o server
   wzrun -n 3 ./server      status 0 */
#include <mpi.h>
#include <unistd.h>

static int job, jobs[3][2];

static void send_job(MPI_Comm server) {
    MPI_Request request;
    MPI_Igather(&job, 1, MPI_INT, NULL, 0, MPI_INT, 0, server, &request);
    MPI_Wait(&request, MPI_STATUS_IGNORE);
}

int main(int argc, char **argv) {
    int rank, which;
    MPI_Comm one, two;
    MPI_Request requests[2];
    MPI_Init(&argc, &argv);
    MPI_Comm_rank(MPI_COMM_WORLD, &rank);
    MPI_Comm_split(MPI_COMM_WORLD, rank == 2 ? MPI_UNDEFINED : 0, 0, &one);
    MPI_Comm_split(MPI_COMM_WORLD, rank == 1 ? MPI_UNDEFINED : 0, 0, &two);
    if (rank == 0) {
        MPI_Igather(&job, 1, MPI_INT, jobs[0], 1, MPI_INT, 0, one, &requests[0]);
        MPI_Igather(&job, 1, MPI_INT, jobs[1], 1, MPI_INT, 0, two, &requests[1]);
        MPI_Waitany(2, requests, &which, MPI_STATUS_IGNORE);
        MPI_Igather(&job, 1, MPI_INT, jobs[2], 1, MPI_INT, 0, one, &requests[0]); /* the mistake: client 2's may have been the first */
        MPI_Waitany(2, requests, &which, MPI_STATUS_IGNORE);
    }
    if (rank == 2) usleep(20000);
    if (rank > 0) send_job(rank == 1 ? one : two);
    MPI_Barrier(MPI_COMM_WORLD);
    if (rank == 0) MPI_Waitall(2, requests, MPI_STATUSES_IGNORE);
    if (rank == 1) send_job(one);
    if (one != MPI_COMM_NULL) MPI_Comm_free(&one);
    if (two != MPI_COMM_NULL) MPI_Comm_free(&two);
    MPI_Finalize();
    return 0;
}
