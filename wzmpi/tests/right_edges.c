/* Programs without a mistake, at the edges of what MPI allows: right_edges NAME runs one of them, which says nothing and ends with 0. */
#include <mpi.h>
#include <pthread.h>
#include <stddef.h>
#include <stdio.h>
#include <stdlib.h>
#include <string.h>
#include <unistd.h>

static int rank, size;

static void fail(int line, const char *what) {
    printf("rank %d: right_edges.c:%d: not so: %s\n", rank, line, what);
    exit(1);
}
#define HOLDS(what) ((what) ? (void)0 : fail(__LINE__, #what))

static int next(void) { return (rank + 1) % size; }

static int before(void) { return (rank + size - 1) % size; }

/* ---- collectives */

static void add(void *in, void *inout, int *len, MPI_Datatype *type) {
    (void)type;
    for (int i = 0; i < *len; i++) ((int *)inout)[i] += ((int *)in)[i];
}

/* The receive buffer of an exscan isn't significant at rank 0 (MPI 4.1, 6.11.2). */
static void first_of_exscan(void) {
    int mine = rank, sum = -1, before_me = rank * (rank - 1) / 2;
    double half = rank / 2.0, halves = -1;
    MPI_Request request;
    MPI_Op operation;
    MPI_Op_create(add, 1, &operation);
    MPI_Exscan(&mine, rank == 0 ? NULL : &sum, 1, MPI_INT, MPI_SUM, MPI_COMM_WORLD);
    HOLDS(rank == 0 ? sum == -1 : sum == before_me);
    MPI_Iexscan(&mine, rank == 0 ? &mine : &sum, 1, MPI_INT, MPI_SUM, MPI_COMM_WORLD, &request);
    MPI_Wait(&request, MPI_STATUS_IGNORE);
    HOLDS(mine == rank && (rank == 0 || sum == before_me));
    MPI_Exscan(&half, rank == 0 ? NULL : &halves, 1, MPI_DOUBLE, MPI_SUM, MPI_COMM_WORLD);
    HOLDS(rank == 0 ? halves == -1 : halves == before_me / 2.0);
    MPI_Exscan(&mine, rank == 0 ? NULL : &sum, 1, MPI_INT, operation, MPI_COMM_WORLD);
    HOLDS(rank == 0 || sum == before_me);
    MPI_Op_free(&operation);
}

/* What has no elements has no types that could differ (MPI 4.1, 5.1 and 6.1). */
static void nothing_of_any_type(void) {
    int zeros[64] = { 0 }, number = rank;
    double real = rank;
    MPI_Datatype mine = rank == 0 ? MPI_INT : MPI_DOUBLE;
    MPI_Bcast(&number, 0, mine, 0, MPI_COMM_WORLD);
    MPI_Gather(&number, 0, MPI_INT, &real, 0, MPI_DOUBLE, 0, MPI_COMM_WORLD);
    MPI_Scatter(NULL, 0, MPI_INT, NULL, 0, mine, 0, MPI_COMM_WORLD);
    MPI_Allgather(NULL, 0, MPI_INT, NULL, 0, mine, MPI_COMM_WORLD);
    MPI_Allgatherv(&number, 0, MPI_INT, &real, zeros, zeros, mine, MPI_COMM_WORLD);
    MPI_Alltoall(NULL, 0, MPI_INT, NULL, 0, mine, MPI_COMM_WORLD);
    MPI_Alltoallv(&number, zeros, zeros, MPI_INT, &real, zeros, zeros, mine, MPI_COMM_WORLD);
    MPI_Sendrecv(&number, 0, MPI_INT, next(), 1, &real, 0, MPI_DOUBLE, before(), 1, MPI_COMM_WORLD, MPI_STATUS_IGNORE);
    HOLDS(number == rank && real == rank);
}

/* ---- types */

/* A message that ends within an element of a type with gaps fills the part that has come (MPI 4.1, 3.2.4 and 5.1). */
static void parts_of_elements(void) {
    int sent[5] = { 1, 2, 3, 4, 5 }, row[12], want[12] = { 1, -1, 2, -1, 3, -1, 4, -1, 5, -1, -1, -1 }, elements = -1, count = -1;
    MPI_Datatype vector, three;
    MPI_Request request, send;
    MPI_Status status;
    MPI_Type_vector(3, 1, 2, MPI_INT, &vector);
    MPI_Type_create_resized(vector, 0, 6 * sizeof(int), &three);
    MPI_Type_free(&vector);
    MPI_Type_commit(&three);
    for (int i = 0; i < 12; i++) row[i] = -1;
    MPI_Irecv(row, 2, three, before(), 0, MPI_COMM_WORLD, &request);
    MPI_Isend(sent, 5, MPI_INT, next(), 0, MPI_COMM_WORLD, &send);
    MPI_Wait(&request, &status);
    MPI_Wait(&send, MPI_STATUS_IGNORE);
    HOLDS(memcmp(row, want, sizeof row) == 0);
    MPI_Get_elements(&status, three, &elements);
    MPI_Get_count(&status, three, &count);
    HOLDS(elements == 5 && count == MPI_UNDEFINED);
    MPI_Type_free(&three);
}

static void add_last_first(void *in, void *inout, int *len, MPI_Datatype *type) {
    (void)type;
    for (int i = 0; i < *len; i++)
        for (int j = 0; j > -4; j -= 3) ((int *)inout)[4 * i + j] += ((int *)in)[4 * i + j];
}

/* A type whose later elements lie before its first one. */
static void types_downwards(void) {
    int row[8], sums[8];
    MPI_Aint low, extent;
    MPI_Datatype both, pair;
    MPI_Op operation;
    MPI_Type_create_hindexed(2, (int[]){ 1, 1 }, (MPI_Aint[]){ 0, -12 }, MPI_INT, &both);
    MPI_Type_get_true_extent(both, &low, &extent);
    HOLDS(low == -12 && extent == 16);
    MPI_Type_create_resized(both, -12, 16, &pair);
    MPI_Type_commit(&pair);
    MPI_Op_create(add_last_first, 1, &operation);
    for (int i = 0; i < 8; i++) row[i] = rank + i, sums[i] = -1;
    MPI_Allreduce(row + 3, sums + 3, 2, pair, operation, MPI_COMM_WORLD);
    for (int i = 0; i < 8; i++) HOLDS(sums[i] == (i % 4 % 3 == 0 ? size * (size - 1) / 2 + size * i : -1));
    MPI_Op_free(&operation);
    MPI_Type_free(&pair);
    MPI_Type_free(&both);
}

/* A pair is as a structure of its value and its index (MPI 4.1, 6.9.4). */
static void pairs_as_structures(void) {
    struct pair { double value; int index; } mine[2] = { { 0.5, rank }, { 1.5, -rank } }, got[2];
    int numbers[4], elements = -1;
    MPI_Datatype structure, whole;
    MPI_Request requests[2];
    MPI_Status status;
    MPI_Type_create_struct(2, (int[]){ 1, 1 }, (MPI_Aint[]){ offsetof(struct pair, value), offsetof(struct pair, index) }, (MPI_Datatype[]){ MPI_DOUBLE, MPI_INT }, &structure);
    MPI_Type_create_resized(structure, 0, sizeof(struct pair), &whole);
    MPI_Type_commit(&whole);
    MPI_Isend(mine, 2, whole, next(), 0, MPI_COMM_WORLD, &requests[0]);
    MPI_Recv(got, 2, MPI_DOUBLE_INT, before(), 0, MPI_COMM_WORLD, &status);
    HOLDS(got[0].value == 0.5 && got[1].index == -before());
    MPI_Get_elements(&status, MPI_DOUBLE_INT, &elements);
    HOLDS(elements == 4);
    MPI_Isend((int[]){ 1, 2, 3, 4 }, 2, MPI_2INT, next(), 1, MPI_COMM_WORLD, &requests[1]);
    MPI_Recv(numbers, 4, MPI_INT, before(), 1, MPI_COMM_WORLD, &status);
    HOLDS(numbers[0] == 1 && numbers[3] == 4);
    MPI_Waitall(2, requests, MPI_STATUSES_IGNORE);
    MPI_Type_free(&structure);
    MPI_Type_free(&whole);
}

/* ---- communicators */

/* A copy has the topology of what it is a copy of (MPI 4.1, 7.4.2). */
static void copied_topologies(void) {
    MPI_Comm grid, circle, copies[3];
    MPI_Request request;
    int kind, sizes[1], periods[1], at[1], got[2] = { -1, -1 }, ends[1] = { next() }, begins[1] = { before() };
    MPI_Cart_create(MPI_COMM_WORLD, 1, &size, (int[]){ 1 }, 0, &grid);
    MPI_Dist_graph_create_adjacent(MPI_COMM_WORLD, 1, begins, (int[]){ 7 }, 1, ends, (int[]){ 8 }, MPI_INFO_NULL, 0, &circle);
    MPI_Comm_dup(grid, &copies[0]);
    MPI_Comm_idup(grid, &copies[1], &request);
    MPI_Wait(&request, MPI_STATUS_IGNORE);
    MPI_Comm_dup(circle, &copies[2]);
    MPI_Comm_free(&grid);
    MPI_Comm_free(&circle);
    for (int i = 0; i < 2; i++) {
        MPI_Cart_get(copies[i], 1, sizes, periods, at);
        HOLDS(sizes[0] == size && periods[0] == 1 && at[0] == rank);
        MPI_Neighbor_allgather(&rank, 1, MPI_INT, got, 1, MPI_INT, copies[i]);
        HOLDS(got[0] == before() && got[1] == next());
    }
    MPI_Topo_test(copies[2], &kind);
    MPI_Dist_graph_neighbors(copies[2], 1, begins, at, 1, ends, sizes);
    HOLDS(kind == MPI_DIST_GRAPH && begins[0] == before() && at[0] == 7 && sizes[0] == 8);
    MPI_Neighbor_allgather(&rank, 1, MPI_INT, got, 1, MPI_INT, copies[2]);
    HOLDS(got[0] == before());
    for (int i = 0; i < 3; i++) MPI_Comm_free(&copies[i]);
}

/* The sizes of a grid are near to one another, and fall (MPI 4.1, 8.5.2). */
static void falling_dimensions(void) {
    static const int wanted[][4] = { { 20, 5, 2, 2 }, { 936, 13, 9, 8 }, { 2310, 15, 14, 11 }, { 7, 7, 1, 1 }, { 64, 4, 4, 4 } };
    for (size_t i = 0; i < sizeof wanted / sizeof wanted[0]; i++) {
        int sizes[3] = { 0, 0, 0 };
        MPI_Dims_create(wanted[i][0], 3, sizes);
        HOLDS(memcmp(sizes, wanted[i] + 1, sizeof sizes) == 0);
    }
    int sizes[4] = { 0, 2, 0, 0 };
    MPI_Dims_create(24, 4, sizes);
    HOLDS(sizes[0] == 3 && sizes[1] == 2 && sizes[2] == 2 && sizes[3] == 2);
}

/* Messages between two groups that are waited for while the run is watched. */
static void slow_bridge(void) {
    MPI_Comm half, bridge;
    int side = rank % 2, got = -1, far;
    if (size < 2) return;
    MPI_Comm_split(MPI_COMM_WORLD, side, rank, &half);
    MPI_Intercomm_create(half, 0, MPI_COMM_WORLD, 1 - side, 3, &bridge);
    MPI_Comm_remote_size(bridge, &far);
    if (side == 0) usleep(400000);
    for (int i = 0; side == 0 && rank == 0 && i < far; i++) MPI_Send(&i, 1, MPI_INT, i, 4, bridge);
    if (side == 1) MPI_Recv(&got, 1, MPI_INT, 0, 4, bridge, MPI_STATUS_IGNORE);
    HOLDS(side == 0 || got == rank / 2);
    MPI_Comm_free(&bridge);
    MPI_Comm_free(&half);
}

/* ---- statuses */

enum { LEFT = 4711 }; /* an error that no call gives */

/* A call with one status leaves its error as it is, but for an empty status (MPI 4.1, 3.2.5 and 3.7.3). */
static void errors_of_statuses(void) {
    int got = -1, index, flag = 0;
    MPI_Status status = { .MPI_ERROR = LEFT };
    MPI_Request requests[2] = { MPI_REQUEST_NULL, MPI_REQUEST_NULL };
    MPI_Message message;
    for (int tag = 0; tag < 5; tag++) {
        MPI_Isend(&rank, 1, MPI_INT, next(), tag, MPI_COMM_WORLD, &requests[0]);
        MPI_Request_free(&requests[0]);
    }
    MPI_Recv(&got, 1, MPI_INT, before(), 0, MPI_COMM_WORLD, &status);
    HOLDS(got == before() && status.MPI_ERROR == LEFT);
    MPI_Probe(before(), 1, MPI_COMM_WORLD, &status);
    MPI_Mprobe(before(), 1, MPI_COMM_WORLD, &message, &status);
    MPI_Mrecv(&got, 1, MPI_INT, &message, &status);
    MPI_Irecv(&got, 1, MPI_INT, before(), 2, MPI_COMM_WORLD, &requests[0]);
    MPI_Wait(&requests[0], &status);
    MPI_Irecv(&got, 1, MPI_INT, before(), 3, MPI_COMM_WORLD, &requests[1]);
    MPI_Waitany(2, requests, &index, &status);
    HOLDS(index == 1);
    MPI_Irecv(&got, 1, MPI_INT, before(), 4, MPI_COMM_WORLD, &requests[0]);
    while (!flag) MPI_Test(&requests[0], &flag, &status);
    HOLDS(status.MPI_ERROR == LEFT && status.MPI_SOURCE == before() && status.MPI_TAG == 4);
    MPI_Wait(&requests[0], &status);
    HOLDS(status.MPI_ERROR == MPI_SUCCESS && status.MPI_SOURCE == MPI_ANY_SOURCE && status.MPI_TAG == MPI_ANY_TAG);
}

/* MPI_Request_get_status says of a receive what its completion says, and completes nothing. */
static void looked_at(void) {
    int row[3] = { -1, -1, -1 }, flag = 0, count = -1;
    MPI_Status status;
    MPI_Request receive, send;
    MPI_Irecv(row, 3, MPI_INT, before(), MPI_ANY_TAG, MPI_COMM_WORLD, &receive);
    MPI_Isend((int[]){ 7, 8 }, 2, MPI_INT, next(), 6, MPI_COMM_WORLD, &send);
    for (int turn = 0; turn < 2; turn++, flag = 0) {
        while (!flag) MPI_Request_get_status(receive, &flag, &status);
        MPI_Get_count(&status, MPI_INT, &count);
        HOLDS(status.MPI_SOURCE == before() && status.MPI_TAG == 6 && count == 2 && receive != MPI_REQUEST_NULL);
    }
    MPI_Wait(&receive, &status);
    HOLDS(status.MPI_TAG == 6 && row[1] == 8 && row[2] == -1);
    MPI_Wait(&send, MPI_STATUS_IGNORE);
    MPI_Request_get_status(send, &flag, &status);
    HOLDS(flag && status.MPI_SOURCE == MPI_ANY_SOURCE && status.MPI_ERROR == MPI_SUCCESS);
}

/* A wait for a send that is cancelled ends whatever the receiver does (MPI 4.1, 3.8.4). Either it is cancelled, or the message comes. */
static void cancelled_sends(void) {
    int mine = rank, got = -1, flags[2] = { -1, -1 };
    MPI_Request request;
    MPI_Status status;
    MPI_Issend(&mine, 1, MPI_INT, next(), 1, MPI_COMM_WORLD, &request);
    MPI_Cancel(&request);
    MPI_Wait(&request, &status);
    MPI_Test_cancelled(&status, &flags[0]);
    MPI_Isend(&mine, 1, MPI_INT, next(), 2, MPI_COMM_WORLD, &request);
    MPI_Cancel(&request);
    MPI_Wait(&request, &status);
    MPI_Test_cancelled(&status, &flags[1]);
    MPI_Sendrecv_replace(flags, 2, MPI_INT, next(), 3, before(), 3, MPI_COMM_WORLD, &status);
    MPI_Test_cancelled(&status, &got);
    HOLDS(!got && flags[0]);
    for (int i = 0; i < 2; i++)
        if (!flags[i]) MPI_Recv(&got, 1, MPI_INT, before(), i + 1, MPI_COMM_WORLD, &status);
}

/* ---- threads */

static void *ask_from_thread(void *flags) {
    (MPI_Initialized)((int *)flags);
    (MPI_Finalized)((int *)flags + 1);
    return NULL;
}

/* Any thread may ask whether MPI was initialised, as its first call too, and from where no lines are noted. */
static void asked_by_threads(void) {
    int flags[2] = { -1, -1 };
    pthread_t thread;
    pthread_create(&thread, NULL, ask_from_thread, flags);
    pthread_join(thread, NULL);
    HOLDS(flags[0] == 1 && flags[1] == 0);
}

#define CASE(name) { #name, name }
static const struct {
    const char *name;
    void (*run)(void);
} cases[] = {
    CASE(first_of_exscan), CASE(nothing_of_any_type), CASE(parts_of_elements), CASE(types_downwards), CASE(pairs_as_structures), CASE(copied_topologies),
    CASE(falling_dimensions), CASE(slow_bridge), CASE(errors_of_statuses), CASE(looked_at), CASE(cancelled_sends), CASE(asked_by_threads),
};

int main(int argc, char **argv) {
    int level;
    MPI_Init_thread(&argc, &argv, MPI_THREAD_SERIALIZED, &level);
    MPI_Comm_rank(MPI_COMM_WORLD, &rank);
    MPI_Comm_size(MPI_COMM_WORLD, &size);
    for (size_t i = 0; i < sizeof cases / sizeof cases[0]; i++)
        if (argc > 1 && strcmp(argv[1], cases[i].name) == 0) cases[i].run();
    MPI_Finalize();
    return 0;
}
