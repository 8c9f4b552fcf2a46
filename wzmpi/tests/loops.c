/* Ranks that test again and again, compute or sleep: loops NAME, of which check_standing.py knows what is said. */
#include <mpi.h>
#include <stdio.h>
#include <string.h>

static int rank, size, number;

static void test_for(MPI_Request *request) {
    for (int done = 0; !done;) MPI_Test(request, &done, MPI_STATUS_IGNORE);
}
/* Rank 1 doesn't call the barrier that the others test for. */
static void lacking(void) {
    MPI_Request request;
    if (rank == 1) {
        MPI_Recv(&number, 1, MPI_INT, 0, 4, MPI_COMM_WORLD, MPI_STATUS_IGNORE);
        return;
    }
    MPI_Ibarrier(MPI_COMM_WORLD, &request);
    test_for(&request);
}
/* The message has another tag than the one that is probed for. */
static void other_tag(void) {
    int done = 0;
    if (rank == 0) MPI_Send(&number, 1, MPI_INT, 1, 5, MPI_COMM_WORLD);
    while (rank == 1 && !done) MPI_Iprobe(0, 4, MPI_COMM_WORLD, &done, MPI_STATUS_IGNORE);
    MPI_Barrier(MPI_COMM_WORLD);
}
/* Several tests in one loop, none of which comes true. */
static void several(void) {
    MPI_Request requests[3];
    int done = 0, index;
    for (int i = 0; i < 3; i++) MPI_Irecv(&number, 1, MPI_INT, (rank + 1) % size, i, MPI_COMM_WORLD, &requests[i]);
    while (!done) {
        MPI_Testany(2, requests, &index, &done, MPI_STATUS_IGNORE);
        if (!done) MPI_Testall(1, &requests[2], &done, MPI_STATUSES_IGNORE);
        if (!done) MPI_Iprobe(MPI_ANY_SOURCE, 9, MPI_COMM_WORLD, &done, MPI_STATUS_IGNORE);
    }
}
/* The loop ends by the time, after so long that the test ends it. */
static void until(void) {
    int done = 0;
    for (double end = MPI_Wtime() + 1000; rank == 1 && !done && MPI_Wtime() < end;) MPI_Iprobe(0, 4, MPI_COMM_WORLD, &done, MPI_STATUS_IGNORE);
    MPI_Barrier(MPI_COMM_WORLD);
}
/* Right: rank 1 tests for seconds, and then what it tests for comes, of a rank that only computes. */
static void later(void) {
    MPI_Request request;
    double sum = 0;
    if (rank == 0) {
        for (double end = MPI_Wtime() + 3; MPI_Wtime() < end;) sum += 1;
        number = sum > 0;
        MPI_Send(&number, 1, MPI_INT, 1, 4, MPI_COMM_WORLD);
    } else if (rank == 1) {
        MPI_Irecv(&number, 1, MPI_INT, 0, 4, MPI_COMM_WORLD, &request);
        test_for(&request);
    }
    MPI_Barrier(MPI_COMM_WORLD);
}
/* Rank 2 computes for ever, rank 1 tests, the others wait. */
static void computing(void) {
    MPI_Request request;
    if (rank == 2)
        for (volatile unsigned turn = 0;; turn++) {}
    MPI_Ibarrier(MPI_COMM_WORLD, &request);
    if (rank == 1) test_for(&request);
    else MPI_Wait(&request, MPI_STATUS_IGNORE);
}

#define CASE(name) { #name, name }
static const struct {
    const char *name;
    void (*run)(void);
} cases[] = { CASE(lacking), CASE(other_tag), CASE(several), CASE(until), CASE(later), CASE(computing) };

int main(int argc, char **argv) {
    MPI_Init(&argc, &argv);
    MPI_Comm_rank(MPI_COMM_WORLD, &rank);
    MPI_Comm_size(MPI_COMM_WORLD, &size);
    for (size_t i = 0; i < sizeof cases / sizeof cases[0]; i++)
        if (argc > 1 && strcmp(argv[1], cases[i].name) == 0) cases[i].run();
    MPI_Finalize();
    return 0;
}
