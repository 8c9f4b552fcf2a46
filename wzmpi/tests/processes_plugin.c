/* A plugin of processes.c, which counts its calls and calls a function of the program. */
#include <mpi.h>

static int used;
int of_program(int number);

int plugin_step(MPI_Comm comm, int number) {
    int most;
    used++;
    MPI_Allreduce(&number, &most, 1, MPI_INT, MPI_MAX, comm);
    return 10 * most + used + of_program(0) - of_program(0);
}
