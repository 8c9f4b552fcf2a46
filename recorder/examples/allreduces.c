/* Two loops of small allreduces, for ../overhead.py: nanoseconds a turn by the clock, and of the first rank's processor. */
#include <mpi.h>
#include <stdio.h>
#include <time.h>

enum { TURNS = 20000 };

static int mine, sum;

static void post_and_wait(void) {
    MPI_Request request;
    MPI_Iallreduce(&mine, &sum, 1, MPI_INT, MPI_SUM, MPI_COMM_WORLD, &request);
    MPI_Wait(&request, MPI_STATUS_IGNORE);
}

static void call(void) { MPI_Allreduce(&mine, &sum, 1, MPI_INT, MPI_SUM, MPI_COMM_WORLD); }

static void measure(const char *name, void (*turn)(void)) {
    double start = MPI_Wtime();
    clock_t used = clock();
    for (int turns = 0; turns < TURNS; turns++)
        turn();
    used = clock() - used;
    if (mine == 0)
        printf("%s: %.0f %.0f\n", name, 1e9 * (MPI_Wtime() - start) / TURNS, 1e9 * (double)used / CLOCKS_PER_SEC / TURNS);
}

int main(int words, char **word) {
    MPI_Init(&words, &word);
    MPI_Comm_rank(MPI_COMM_WORLD, &mine);
    measure("MPI_Iallreduce and MPI_Wait", post_and_wait);
    measure("MPI_Allreduce", call);
    MPI_Finalize();
    return 0;
}
