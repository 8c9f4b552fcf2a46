/* Whether memory stays as it is: over many allreduces on one communicator, and over 100, 1,000 and 10,000 turns of MPI_Comm_dup and
   MPI_Comm_free, of types and of operations.
   wzrun -n 2 ./memory [ALLREDUCES] */
#include <mpi.h>
#include <stdio.h>
#include <stdlib.h>
#include <unistd.h>

enum { PLACES = 65536 }; /* of an engine, which keeps something for each that was taken */

static long resident_kib(void) {
    long pages = 0;
    FILE *from = fopen("/proc/self/statm", "r");
    if (from == NULL || fscanf(from, "%*d %ld", &pages) != 1) pages = -1;
    if (from != NULL) fclose(from);
    return pages * (sysconf(_SC_PAGESIZE) / 1024);
}

static void add(void *in, void *inout, int *many, MPI_Datatype *type) {
    (void)type;
    for (int i = 0; i < *many; i++) ((int *)inout)[i] += ((int *)in)[i];
}

static void make_and_free(void) {
    MPI_Comm copy;
    MPI_Datatype pair;
    MPI_Op op;
    int given[2] = { 1, 2 }, got[2];
    MPI_Comm_dup(MPI_COMM_WORLD, &copy);
    MPI_Type_contiguous(2, MPI_INT, &pair);
    MPI_Type_commit(&pair);
    MPI_Op_create(add, 1, &op);
    MPI_Allreduce(given, got, 2, MPI_INT, op, copy);
    MPI_Bcast(got, 1, pair, 0, copy);
    MPI_Op_free(&op);
    MPI_Type_free(&pair);
    MPI_Comm_free(&copy);
}

/* Allreduces, and what is resident whenever an engine has as many places taken as the last one has at the end: from the third engine on, since the first two
   are there together for a while. */
static void allreduces(int rank, int times) {
    int sum, samples = 0;
    long first = 0, most = 0, last = 0;
    for (int i = 0; i < times; i++) {
        MPI_Allreduce(&i, &sum, 1, MPI_INT, MPI_SUM, MPI_COMM_WORLD);
        if (rank != 0 || i < 2 * PLACES || (times - 1 - i) % PLACES != 0) continue;
        last = resident_kib();
        if (samples++ == 0) first = last;
        if (last > most) most = last;
    }
    if (rank != 0) return;
    if (samples == 0) printf("%d allreduces: %ld KiB\n", times, resident_kib());
    else printf("%d allreduces, %d engines from the third on: %ld KiB in the first of them, %ld at most, %ld in the last\n", times, samples, first, most, last);
    fflush(stdout);
}

int main(int argc, char **argv) {
    int rank;
    long begun;
    MPI_Init(&argc, &argv);
    MPI_Comm_rank(MPI_COMM_WORLD, &rank);
    allreduces(rank, argc > 1 ? atoi(argv[1]) : 1000000);
    for (int i = 0; i < 20; i++) make_and_free();
    begun = resident_kib();
    for (int many = 100, i = 0; many <= 10000; many *= 10) {
        for (; i < many; i++) make_and_free();
        MPI_Barrier(MPI_COMM_WORLD);
        if (rank == 0) printf("%d communicators, types and operations: %ld KiB before, %ld KiB after\n", many, begun, resident_kib());
        fflush(stdout);
    }
    MPI_Finalize();
    return 0;
}
