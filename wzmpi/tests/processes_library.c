/* A library that keeps something between its calls: each rank of processes.c has its own. */
#include <mpi.h>

static MPI_Comm own = MPI_COMM_NULL;
static int calls;

void kept_begin(MPI_Comm comm) { MPI_Comm_dup(comm, &own); }
int kept_sum(int number) {
    int sum;
    calls++;
    MPI_Allreduce(&number, &sum, 1, MPI_INT, MPI_SUM, own);
    return sum;
}
int kept_calls(void) { return calls; }
void kept_end(void) { MPI_Comm_free(&own); }
