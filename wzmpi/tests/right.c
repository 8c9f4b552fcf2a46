/* Programs without a mistake: right NAME runs one of them, which says nothing and ends with 0. */
#include <mpi.h>
#include <getopt.h>
#include <pthread.h>
#include <stddef.h>
#include <stdio.h>
#include <stdlib.h>
#include <string.h>

static int rank, size;

static void fail(int line, const char *what) {
    printf("rank %d: right.c:%d: not so: %s\n", rank, line, what);
    exit(1);
}
#define HOLDS(what) ((what) ? (void)0 : fail(__LINE__, #what))

static int sum_of_ranks(void) { return size * (size - 1) / 2; }

/* Each of the seventeen collectives, blocking. */
static void all_kinds(void) {
    int one = rank + 1, got = -1, many[64], of_all[64], counts[64], places[64];
    for (int i = 0; i < size; i++) many[i] = 10 * rank + i, counts[i] = 1, places[i] = i;
    MPI_Barrier(MPI_COMM_WORLD);
    got = rank == size - 1 ? 77 : 0;
    MPI_Bcast(&got, 1, MPI_INT, size - 1, MPI_COMM_WORLD);
    HOLDS(got == 77);
    MPI_Gather(&one, 1, MPI_INT, of_all, 1, MPI_INT, 0, MPI_COMM_WORLD);
    for (int i = 0; rank == 0 && i < size; i++) HOLDS(of_all[i] == i + 1);
    MPI_Gatherv(&one, 1, MPI_INT, of_all, counts, places, MPI_INT, size - 1, MPI_COMM_WORLD);
    for (int i = 0; rank == size - 1 && i < size; i++) HOLDS(of_all[i] == i + 1);
    MPI_Scatter(many, 1, MPI_INT, &got, 1, MPI_INT, 0, MPI_COMM_WORLD);
    HOLDS(got == rank);
    MPI_Scatterv(many, counts, places, MPI_INT, &got, 1, MPI_INT, 0, MPI_COMM_WORLD);
    HOLDS(got == rank);
    MPI_Allgather(&one, 1, MPI_INT, of_all, 1, MPI_INT, MPI_COMM_WORLD);
    for (int i = 0; i < size; i++) HOLDS(of_all[i] == i + 1);
    MPI_Allgatherv(&one, 1, MPI_INT, of_all, counts, places, MPI_INT, MPI_COMM_WORLD);
    for (int i = 0; i < size; i++) HOLDS(of_all[i] == i + 1);
    MPI_Alltoall(many, 1, MPI_INT, of_all, 1, MPI_INT, MPI_COMM_WORLD);
    for (int i = 0; i < size; i++) HOLDS(of_all[i] == 10 * i + rank);
    MPI_Alltoallv(many, counts, places, MPI_INT, of_all, counts, places, MPI_INT, MPI_COMM_WORLD);
    for (int i = 0; i < size; i++) HOLDS(of_all[i] == 10 * i + rank);
    MPI_Reduce(&one, &got, 1, MPI_INT, MPI_SUM, 0, MPI_COMM_WORLD);
    HOLDS(rank > 0 || got == sum_of_ranks() + size);
    MPI_Allreduce(&one, &got, 1, MPI_INT, MPI_MAX, MPI_COMM_WORLD);
    HOLDS(got == size);
    MPI_Reduce_scatter_block(many, &got, 1, MPI_INT, MPI_SUM, MPI_COMM_WORLD);
    HOLDS(got == 10 * sum_of_ranks() + size * rank);
    MPI_Reduce_scatter(many, &got, counts, MPI_INT, MPI_SUM, MPI_COMM_WORLD);
    HOLDS(got == 10 * sum_of_ranks() + size * rank);
    MPI_Scan(&one, &got, 1, MPI_INT, MPI_SUM, MPI_COMM_WORLD);
    HOLDS(got == (rank + 1) * (rank + 2) / 2);
    MPI_Exscan(&one, &got, 1, MPI_INT, MPI_SUM, MPI_COMM_WORLD);
    HOLDS(rank == 0 || got == rank * (rank + 1) / 2);
}

static void alltoallw(void) {
    int counts[64], places[64], given[64], got[64];
    MPI_Datatype types[64];
    for (int i = 0; i < size; i++) counts[i] = 1, places[i] = 4 * i, types[i] = i % 2 ? MPI_INT : MPI_INT32_T, given[i] = 100 * rank + i;
    MPI_Alltoallw(given, counts, places, types, got, counts, places, types, MPI_COMM_WORLD);
    for (int i = 0; i < size; i++) HOLDS(got[i] == 100 * i + rank);
}

static void in_place(void) {
    int all[64], got;
    for (int i = 0; i < size; i++) all[i] = i == rank ? 5 * rank : -1;
    MPI_Allgather(MPI_IN_PLACE, 0, MPI_DATATYPE_NULL, all, 1, MPI_INT, MPI_COMM_WORLD);
    for (int i = 0; i < size; i++) HOLDS(all[i] == 5 * i);
    MPI_Allreduce(MPI_IN_PLACE, all, size, MPI_INT, MPI_SUM, MPI_COMM_WORLD);
    for (int i = 0; i < size; i++) HOLDS(all[i] == 5 * i * size);
    if (rank == 0) MPI_Scatter(all, 1, MPI_INT, MPI_IN_PLACE, 1, MPI_INT, 0, MPI_COMM_WORLD);
    else MPI_Scatter(NULL, 0, MPI_INT, &got, 1, MPI_INT, 0, MPI_COMM_WORLD);
    HOLDS(rank == 0 || got == 5 * rank * size);
    for (int i = 0; i < size; i++) all[i] = 10 * rank + i;
    MPI_Alltoall(MPI_IN_PLACE, 0, MPI_DATATYPE_NULL, all, 1, MPI_INT, MPI_COMM_WORLD);
    for (int i = 0; i < size; i++) HOLDS(all[i] == 10 * i + rank);
    got = rank;
    MPI_Scan(MPI_IN_PLACE, &got, 1, MPI_INT, MPI_SUM, MPI_COMM_WORLD);
    HOLDS(got == rank * (rank + 1) / 2);
    got = 1;
    if (rank == 0) MPI_Reduce(MPI_IN_PLACE, &got, 1, MPI_INT, MPI_SUM, 0, MPI_COMM_WORLD);
    else MPI_Reduce(&got, NULL, 1, MPI_INT, MPI_SUM, 0, MPI_COMM_WORLD);
    HOLDS(got == (rank == 0 ? size : 1));
}

/* ---- nonblocking and persistent */
static void requests(void) {
    enum { MANY = 12 };
    MPI_Request all[MANY];
    int given[MANY], got[MANY] = { 0 }, done = 0, indices[MANY];
    for (int i = 0; i < MANY; i++) given[i] = rank + i;
    for (int i = 0; i < MANY; i++) MPI_Iallreduce(&given[i], &got[i], 1, MPI_INT, MPI_SUM, MPI_COMM_WORLD, &all[i]);
    while (done < MANY) {
        int some, index, flag;
        MPI_Testany(MANY, all, &index, &flag, MPI_STATUS_IGNORE);
        if (flag && index != MPI_UNDEFINED) HOLDS(got[index] == sum_of_ranks() + size * index), done++;
        if (done == MANY) break;
        MPI_Waitsome(MANY, all, &some, indices, MPI_STATUSES_IGNORE);
        for (int i = 0; i < some; i++) HOLDS(got[indices[i]] == sum_of_ranks() + size * indices[i]), done++;
    }
    int index;
    MPI_Waitany(MANY, all, &index, MPI_STATUS_IGNORE);
    HOLDS(index == MPI_UNDEFINED);
}

static void persistent(void) {
    MPI_Request all[3];
    int mine, sum, root = 0, gathered[64];
    MPI_Allreduce_init(&mine, &sum, 1, MPI_INT, MPI_SUM, MPI_COMM_WORLD, MPI_INFO_NULL, &all[0]);
    MPI_Bcast_init(&root, 1, MPI_INT, 0, MPI_COMM_WORLD, MPI_INFO_NULL, &all[1]);
    MPI_Allgather_init(&mine, 1, MPI_INT, gathered, 1, MPI_INT, MPI_COMM_WORLD, MPI_INFO_NULL, &all[2]);
    for (int turn = 0; turn < 50; turn++) {
        int flag = 0;
        mine = rank * turn;
        if (rank == 0) root = turn;
        MPI_Startall(3, all);
        if (turn % 3 == 0) MPI_Waitall(3, all, MPI_STATUSES_IGNORE);
        else if (turn % 3 == 1) for (int i = 0; i < 3; i++) MPI_Wait(&all[2 - i], MPI_STATUS_IGNORE);
        else while (!flag) MPI_Testall(3, all, &flag, MPI_STATUSES_IGNORE);
        HOLDS(sum == turn * sum_of_ranks() && root == turn);
        for (int i = 0; i < size; i++) HOLDS(gathered[i] == i * turn);
    }
    for (int i = 0; i < 3; i++) MPI_Request_free(&all[i]);
}

static void many_requests(void) {
    enum { MANY = 200 };
    static MPI_Request all[MANY];
    static int got[MANY];
    MPI_Comm copy;
    int one = 1;
    MPI_Comm_dup(MPI_COMM_WORLD, &copy);
    for (int i = 0; i < MANY; i++) MPI_Iallreduce(&one, &got[i], 1, MPI_INT, MPI_SUM, copy, &all[i]);
    MPI_Waitall(MANY, all, MPI_STATUSES_IGNORE);
    for (int i = 0; i < MANY; i++) HOLDS(got[i] == size);
    MPI_Comm_free(&copy);
}

/* More calls than one engine has places for. */
static void many_places(void) {
    int sum;
    for (int i = 0; i < 70000; i++) {
        MPI_Allreduce(&i, &sum, 1, MPI_INT, MPI_SUM, MPI_COMM_WORLD);
        HOLDS(sum == i * size);
    }
}

/* ---- types and operations */
static void types_with_gaps(void) {
    int grid[6][4], column[6], expected = 0;
    MPI_Datatype type;
    for (int i = 0; i < 24; i++) grid[i / 4][i % 4] = rank == 0 ? i : -1;
    MPI_Type_vector(6, 1, 4, MPI_INT, &type);
    MPI_Type_commit(&type);
    MPI_Bcast(&grid[0][2], 1, type, 0, MPI_COMM_WORLD);
    for (int i = 0; i < 6; i++) HOLDS(grid[i][2] == 4 * i + 2 && (rank == 0 || grid[i][1] == -1));
    if (rank == 0) MPI_Bcast(&grid[0][3], 1, type, 0, MPI_COMM_WORLD);
    else MPI_Bcast(column, 6, MPI_INT, 0, MPI_COMM_WORLD);
    for (int i = 0; rank > 0 && i < 6; i++) HOLDS(column[i] == 4 * i + 3);
    MPI_Type_size(type, &expected);
    HOLDS(expected == 24);
    MPI_Type_free(&type);
}

struct particle { double mass; int id; char tag; };
static void structures(void) {
    struct particle mine = { 1.5 * rank, rank, 'a' }, all[64];
    MPI_Datatype type;
    MPI_Aint extent, low;
    MPI_Type_create_struct(3, (int[]){ 1, 1, 1 }, (MPI_Aint[]){ offsetof(struct particle, mass), offsetof(struct particle, id), offsetof(struct particle, tag) },
                           (MPI_Datatype[]){ MPI_DOUBLE, MPI_INT, MPI_CHAR }, &type);
    MPI_Type_commit(&type);
    MPI_Type_get_extent(type, &low, &extent);
    HOLDS(extent == sizeof(struct particle) && low == 0);
    MPI_Allgather(&mine, 1, type, all, 1, type, MPI_COMM_WORLD);
    for (int i = 0; i < size; i++) HOLDS(all[i].mass == 1.5 * i && all[i].id == i && all[i].tag == 'a');
    MPI_Type_free(&type);
}

static void doubles(void) {
    struct { double value; int index; } mine = { -rank * 1.0, rank }, least;
    double one = 0.5 * rank, got, most;
    MPI_Allreduce(&one, &got, 1, MPI_DOUBLE, MPI_SUM, MPI_COMM_WORLD);
    HOLDS(got == 0.5 * sum_of_ranks());
    MPI_Scan(&one, &most, 1, MPI_DOUBLE, MPI_MAX, MPI_COMM_WORLD);
    HOLDS(most == 0.5 * rank);
    MPI_Allreduce(&mine, &least, 1, MPI_DOUBLE_INT, MPI_MINLOC, MPI_COMM_WORLD);
    HOLDS(least.value == -(size - 1.0) && least.index == size - 1);
}

/* Two by two matrices, whose product depends on the order. */
static void multiply(void *in, void *inout, int *len, MPI_Datatype *type) {
    int *a = in, *b = inout, c[4];
    (void)type;
    for (int i = 0; i < *len; i++, a += 4, b += 4) {
        for (int j = 0; j < 4; j++) c[j] = a[j / 2 * 2] * b[j % 2] + a[j / 2 * 2 + 1] * b[j % 2 + 2];
        memcpy(b, c, sizeof c);
    }
}
static void own_operation(void) {
    MPI_Datatype matrix;
    MPI_Op op;
    int mine[4] = { 1, rank + 1, 0, 1 }, all[4], expected[4] = { 1, 0, 0, 1 };
    int turn[4] = { 0, 1, 1, rank };
    MPI_Type_contiguous(4, MPI_INT, &matrix);
    MPI_Type_commit(&matrix);
    MPI_Op_create(multiply, 0, &op);
    MPI_Allreduce(mine, all, 1, matrix, op, MPI_COMM_WORLD);
    HOLDS(all[1] == size * (size + 1) / 2);
    for (int i = size - 1; i >= 0; i--) multiply((int[4]){ 0, 1, 1, i }, expected, &(int){ 1 }, &matrix);
    MPI_Reduce(turn, all, 1, matrix, op, 0, MPI_COMM_WORLD);
    HOLDS(rank > 0 || memcmp(all, expected, sizeof all) == 0);
    MPI_Op_free(&op);
    MPI_Type_free(&matrix);
}

/* More elements than the engine takes in one call. */
static void long_rows(void) {
    enum { LONG = 200000 };
    int *mine = malloc(sizeof *mine * LONG), *all = malloc(sizeof *all * LONG);
    for (int i = 0; i < LONG; i++) mine[i] = i + rank;
    MPI_Allreduce(mine, all, LONG, MPI_INT, MPI_SUM, MPI_COMM_WORLD);
    for (int i = 0; i < LONG; i += 1000) HOLDS(all[i] == size * i + sum_of_ranks());
    MPI_Bcast(rank == 0 ? mine : all, LONG, MPI_INT, 0, MPI_COMM_WORLD);
    HOLDS((rank == 0 ? mine : all)[LONG - 1] == LONG - 1);
    free(mine);
    free(all);
}

static void counted(void) {
    long long total = 0, one = rank;
    MPI_Count counts[64];
    MPI_Aint places[64];
    long long all[64];
    for (int i = 0; i < size; i++) counts[i] = 1, places[i] = size - 1 - i;
    MPI_Allreduce_c(&one, &total, (MPI_Count)1, MPI_LONG_LONG, MPI_SUM, MPI_COMM_WORLD);
    HOLDS(total == sum_of_ranks());
    MPI_Allgatherv_c(&one, 1, MPI_LONG_LONG, all, counts, places, MPI_LONG_LONG, MPI_COMM_WORLD);
    for (int i = 0; i < size; i++) HOLDS(all[i] == size - 1 - i);
}

/* ---- communicators */
static void communicators(void) {
    MPI_Comm half, copy, later, of_group;
    MPI_Group world, odd;
    MPI_Request request;
    int mine, sum, all[64], many = 0, how;
    MPI_Comm_split(MPI_COMM_WORLD, rank % 2, -rank, &half);
    MPI_Comm_rank(half, &mine);
    MPI_Comm_size(half, &sum);
    HOLDS(mine == sum - 1 - rank / 2);
    MPI_Comm_dup(half, &copy);
    MPI_Comm_compare(half, copy, &how);
    HOLDS(how == MPI_CONGRUENT);
    MPI_Comm_idup(MPI_COMM_WORLD, &later, &request);
    MPI_Wait(&request, MPI_STATUS_IGNORE);
    MPI_Allreduce(&rank, &sum, 1, MPI_INT, MPI_SUM, later);
    HOLDS(sum == sum_of_ranks());
    for (int i = 1; i < size; i += 2) all[many++] = i;
    MPI_Comm_group(MPI_COMM_WORLD, &world);
    MPI_Group_incl(world, many, all, &odd);
    MPI_Comm_create(MPI_COMM_WORLD, odd, &of_group);
    HOLDS((of_group != MPI_COMM_NULL) == (rank % 2 == 1));
    if (of_group != MPI_COMM_NULL) MPI_Barrier(of_group), MPI_Comm_free(&of_group);
    if (rank % 2 == 1) {
        MPI_Comm_create_group(MPI_COMM_WORLD, odd, 3, &of_group);
        MPI_Barrier(of_group);
        MPI_Comm_free(&of_group);
    }
    if (many > 0) MPI_Group_free(&odd);
    MPI_Group_free(&world);
    MPI_Comm_free(&later);
    MPI_Comm_free(&copy);
    MPI_Comm_free(&half);
    for (int i = 0; i < 100; i++) {
        MPI_Comm_dup(MPI_COMM_WORLD, &copy);
        MPI_Barrier(copy);
        MPI_Comm_free(&copy);
    }
}

static void intercommunicators(void) {
    MPI_Comm half, inter, merged, copy;
    int first = rank < size / 2, mine, far, got = -1, sum, all[64];
    MPI_Comm_split(MPI_COMM_WORLD, first, 0, &half);
    MPI_Intercomm_create(half, 0, MPI_COMM_WORLD, first ? size / 2 : 0, 9, &inter);
    MPI_Comm_remote_size(inter, &far);
    MPI_Comm_rank(inter, &mine);
    HOLDS(far == (first ? size - size / 2 : size / 2));
    if (first && mine == 0) got = 42;
    MPI_Bcast(&got, 1, MPI_INT, first ? (mine == 0 ? MPI_ROOT : MPI_PROC_NULL) : 0, inter);
    HOLDS(got == (first && mine > 0 ? -1 : 42));
    MPI_Allreduce(&rank, &sum, 1, MPI_INT, MPI_SUM, inter);
    int low = size / 2 * (size / 2 - 1) / 2;
    HOLDS(sum == (first ? sum_of_ranks() - low : low));
    MPI_Allgather(&rank, 1, MPI_INT, all, 1, MPI_INT, inter);
    for (int i = 0; i < far; i++) HOLDS(all[i] == (first ? size / 2 + i : i));
    MPI_Intercomm_merge(inter, first, &merged);
    MPI_Comm_rank(merged, &mine);
    HOLDS(mine == (first ? size - size / 2 + rank : rank - size / 2));
    MPI_Comm_dup(inter, &copy);
    MPI_Barrier(copy);
    MPI_Comm_free(&copy);
    MPI_Comm_free(&merged);
    MPI_Comm_free(&inter);
    MPI_Comm_free(&half);
}

/* ---- topologies */
static void neighbors(void) {
    MPI_Comm ring, graph;
    int given[2] = { 10 * rank, 10 * rank + 1 }, got[2], before = (rank + size - 1) % size, after = (rank + 1) % size, one;
    MPI_Cart_create(MPI_COMM_WORLD, 1, &size, (int[]){ 1 }, 0, &ring);
    MPI_Neighbor_alltoall(given, 1, MPI_INT, got, 1, MPI_INT, ring);
    HOLDS(got[0] == 10 * before + 1 && got[1] == 10 * after);
    MPI_Neighbor_allgather(&rank, 1, MPI_INT, got, 1, MPI_INT, ring);
    HOLDS(got[0] == before && got[1] == after);
    MPI_Dist_graph_create_adjacent(MPI_COMM_WORLD, 1, &before, MPI_UNWEIGHTED, 1, &after, MPI_UNWEIGHTED, MPI_INFO_NULL, 0, &graph);
    MPI_Neighbor_allgather(&rank, 1, MPI_INT, &one, 1, MPI_INT, graph);
    HOLDS(one == before);
    MPI_Comm_free(&ring);
    MPI_Comm_free(&graph);
}

/* Rank 0 names the edges of a star to and from all ranks, its own too, with weights. */
static void star(void) {
    MPI_Comm graph;
    int sources[64], degrees[64], destinations[128], weights[128], edges = 0, in, out, weighted, from[64], in_weights[64], to[64], out_weights[64], got[64];
    for (int i = 0; i < size; i++) {
        sources[i] = i;
        degrees[i] = i == 0 ? size : 1;
        for (int j = 0; j < degrees[i]; j++) destinations[edges] = i == 0 ? j : 0, weights[edges] = 100 * i + destinations[edges], edges++;
    }
    MPI_Dist_graph_create(MPI_COMM_WORLD, rank == 0 ? size : 0, sources, degrees, destinations, weights, MPI_INFO_NULL, 0, &graph);
    MPI_Dist_graph_neighbors_count(graph, &in, &out, &weighted);
    HOLDS(weighted && in == (rank == 0 ? size : 1) && out == in);
    MPI_Dist_graph_neighbors(graph, 64, from, in_weights, 64, to, out_weights);
    for (int i = 0; i < in; i++) HOLDS(in_weights[i] == 100 * from[i] + rank && out_weights[i] == 100 * rank + to[i]);
    MPI_Neighbor_allgather(&rank, 1, MPI_INT, got, 1, MPI_INT, graph);
    for (int i = 0; i < in; i++) HOLDS(got[i] == from[i]);
    MPI_Comm_free(&graph);
}

static void grid(void) {
    MPI_Comm all, row;
    int sizes[2] = { 0, 0 }, periods[2] = { 0, 0 }, at[2], up, down, got[4] = { -1, -1, -1, -1 }, sum, columns;
    MPI_Dims_create(size, 2, sizes);
    HOLDS(sizes[0] * sizes[1] == size && sizes[0] >= sizes[1]);
    MPI_Cart_create(MPI_COMM_WORLD, 2, sizes, periods, 1, &all);
    MPI_Cart_coords(all, rank, 2, at);
    HOLDS(at[0] * sizes[1] + at[1] == rank);
    MPI_Cart_shift(all, 0, 1, &up, &down);
    HOLDS(up == (at[0] > 0 ? rank - sizes[1] : MPI_PROC_NULL));
    MPI_Neighbor_allgather(&rank, 1, MPI_INT, got, 1, MPI_INT, all);
    HOLDS(got[0] == (up == MPI_PROC_NULL ? -1 : up) && got[1] == (down == MPI_PROC_NULL ? -1 : down));
    MPI_Cart_sub(all, (int[]){ 0, 1 }, &row);
    MPI_Allreduce(&at[1], &sum, 1, MPI_INT, MPI_SUM, row);
    MPI_Comm_size(row, &columns);
    HOLDS(columns == sizes[1] && sum == columns * (columns - 1) / 2);
    MPI_Comm_free(&row);
    MPI_Comm_free(&all);
}

/* ---- messages */
static void messages(void) {
    int after = (rank + 1) % size, before = (rank + size - 1) % size, got = -1, flag = 0, many;
    MPI_Status status;
    MPI_Request both[2];
    MPI_Sendrecv(&rank, 1, MPI_INT, after, 1, &got, 1, MPI_INT, before, 1, MPI_COMM_WORLD, &status);
    HOLDS(got == before && status.MPI_SOURCE == before && status.MPI_TAG == 1);
    MPI_Irecv(&got, 1, MPI_INT, MPI_ANY_SOURCE, MPI_ANY_TAG, MPI_COMM_WORLD, &both[0]);
    MPI_Isend(&rank, 1, MPI_INT, after, 2, MPI_COMM_WORLD, &both[1]);
    MPI_Waitall(2, both, MPI_STATUSES_IGNORE);
    HOLDS(got == before);
    MPI_Isend(&rank, 1, MPI_INT, after, 3, MPI_COMM_WORLD, &both[0]);
    MPI_Probe(MPI_ANY_SOURCE, 3, MPI_COMM_WORLD, &status);
    MPI_Get_count(&status, MPI_INT, &many);
    HOLDS(many == 1 && status.MPI_SOURCE == before);
    MPI_Iprobe(before, 3, MPI_COMM_WORLD, &flag, MPI_STATUS_IGNORE);
    HOLDS(flag);
    MPI_Recv(&got, 1, MPI_INT, before, 3, MPI_COMM_WORLD, MPI_STATUS_IGNORE);
    MPI_Wait(&both[0], MPI_STATUS_IGNORE);
    got = rank;
    MPI_Sendrecv_replace(&got, 1, MPI_INT, after, 4, before, 4, MPI_COMM_WORLD, MPI_STATUS_IGNORE);
    HOLDS(got == before);
    MPI_Recv_init(&got, 1, MPI_INT, before, 5, MPI_COMM_WORLD, &both[0]);
    MPI_Send_init(&rank, 1, MPI_INT, after, 5, MPI_COMM_WORLD, &both[1]);
    for (int i = 0; i < 3; i++) {
        got = -1;
        MPI_Startall(2, both);
        MPI_Waitall(2, both, MPI_STATUSES_IGNORE);
        HOLDS(got == before);
    }
    MPI_Request_free(&both[0]);
    MPI_Request_free(&both[1]);
}

/* ---- the rest */
static int deleted;
static int note_delete(MPI_Comm comm, int key, void *value, void *extra) {
    (void)comm, (void)key, (void)value, (void)extra;
    deleted++;
    return MPI_SUCCESS;
}
static void attributes(void) {
    MPI_Comm copy;
    int key, flag, number = 5, *bound;
    void *value;
    MPI_Comm_create_keyval(MPI_COMM_DUP_FN, note_delete, &key, NULL);
    MPI_Comm_set_attr(MPI_COMM_WORLD, key, &number);
    MPI_Comm_dup(MPI_COMM_WORLD, &copy);
    MPI_Comm_get_attr(copy, key, &value, &flag);
    HOLDS(flag && value == &number);
    MPI_Comm_free(&copy);
    HOLDS(deleted == 1);
    MPI_Comm_delete_attr(MPI_COMM_WORLD, key);
    MPI_Comm_get_attr(MPI_COMM_WORLD, key, &value, &flag);
    HOLDS(!flag && deleted == 2);
    MPI_Comm_free_keyval(&key);
    MPI_Comm_get_attr(MPI_COMM_WORLD, MPI_TAG_UB, &bound, &flag);
    HOLDS(flag && *bound >= 32767);
}

/* The same by the names of MPI 1. */
static void attributes_of_one(void) {
    MPI_Comm copy;
    int key, flag, number = 5, *bound;
    void *value;
    deleted = 0;
    MPI_Keyval_create(MPI_DUP_FN, note_delete, &key, NULL);
    MPI_Attr_put(MPI_COMM_WORLD, key, &number);
    MPI_Comm_dup(MPI_COMM_WORLD, &copy);
    MPI_Attr_get(copy, key, &value, &flag);
    HOLDS(flag && value == &number);
    MPI_Comm_free(&copy);
    MPI_Attr_delete(MPI_COMM_WORLD, key);
    MPI_Attr_get(MPI_COMM_WORLD, key, &value, &flag);
    HOLDS(!flag && deleted == 2);
    MPI_Keyval_free(&key);
    HOLDS(key == MPI_KEYVAL_INVALID);
    MPI_Attr_get(MPI_COMM_WORLD, MPI_TAG_UB, &bound, &flag);
    HOLDS(flag && *bound >= 32767);
}

static void errors(void) {
    int class, number = rank, code;
    MPI_Comm copy;
    MPI_Comm_dup(MPI_COMM_WORLD, &copy);
    MPI_Comm_set_errhandler(copy, MPI_ERRORS_RETURN);
    code = MPI_Bcast(&number, 1, MPI_INT, size, copy);
    MPI_Error_class(code, &class);
    HOLDS(class == MPI_ERR_ROOT);
    HOLDS(MPI_Bcast(&number, 1, MPI_INT, 0, copy) == MPI_SUCCESS && number == 0);
    MPI_Comm_free(&copy);
}

static void *call_from_thread(void *sum) {
    MPI_Allreduce(&rank, sum, 1, MPI_INT, MPI_SUM, MPI_COMM_WORLD);
    return NULL;
}
static void threads(void) {
    pthread_t thread;
    int sum = -1, level;
    MPI_Query_thread(&level);
    HOLDS(level == MPI_THREAD_SERIALIZED); /* as main asks for */
    pthread_create(&thread, NULL, call_from_thread, &sum);
    pthread_join(thread, NULL);
    HOLDS(sum == sum_of_ranks());
}

/* A profiler's own call in place of the library's (this file is compiled with lines, so the name stands in brackets). */
static int counted_calls;
int (MPI_Ibarrier)(MPI_Comm comm, MPI_Request *request) {
    counted_calls++;
    return PMPI_Ibarrier(comm, request);
}
static void profiler(void) {
    MPI_Request request;
    MPI_Ibarrier(MPI_COMM_WORLD, &request);
    PMPI_Wait(&request, MPI_STATUS_IGNORE);
    HOLDS(counted_calls == 1);
}

static void own_variables(void) {
    static int kept;
    int all[64];
    srand(4);
    int drawn = rand();
    kept = rank;
    MPI_Barrier(MPI_COMM_WORLD);
    HOLDS(kept == rank);
    MPI_Allgather(&drawn, 1, MPI_INT, all, 1, MPI_INT, MPI_COMM_WORLD);
    for (int i = 0; i < size; i++) HOLDS(all[i] == drawn);
    MPI_Finalize();
    exit(0);
}

/* Messages that are taken out before they are received, and a receive that is given up. */
static void matched(void) {
    int next = (rank + 1) % size, before = (rank + size - 1) % size, mine = 10 * rank, got = -1, flag = 0;
    MPI_Request sends[2], request;
    MPI_Message message;
    MPI_Status status;
    MPI_Isend(&mine, 1, MPI_INT, next, 4, MPI_COMM_WORLD, &sends[0]);
    MPI_Isend(&rank, 1, MPI_INT, next, 5, MPI_COMM_WORLD, &sends[1]);
    MPI_Mprobe(before, 5, MPI_COMM_WORLD, &message, &status);
    HOLDS(status.MPI_SOURCE == before && status.MPI_TAG == 5);
    MPI_Recv(&got, 1, MPI_INT, before, MPI_ANY_TAG, MPI_COMM_WORLD, &status);
    HOLDS(got == 10 * before && status.MPI_TAG == 4);
    MPI_Mrecv(&got, 1, MPI_INT, &message, &status);
    HOLDS(got == before && message == MPI_MESSAGE_NULL);
    MPI_Waitall(2, sends, MPI_STATUSES_IGNORE);
    MPI_Improbe(before, 6, MPI_COMM_WORLD, &flag, &message, &status);
    MPI_Barrier(MPI_COMM_WORLD);
    HOLDS(!flag && message == MPI_MESSAGE_NULL);
    MPI_Isend(&mine, 1, MPI_INT, next, 6, MPI_COMM_WORLD, &sends[0]);
    while (!flag) MPI_Improbe(before, 6, MPI_COMM_WORLD, &flag, &message, &status);
    MPI_Imrecv(&got, 1, MPI_INT, &message, &request);
    MPI_Wait(&request, &status);
    HOLDS(got == 10 * before && status.MPI_SOURCE == before);
    MPI_Wait(&sends[0], MPI_STATUS_IGNORE);
    MPI_Mprobe(MPI_PROC_NULL, 0, MPI_COMM_WORLD, &message, &status);
    HOLDS(message == MPI_MESSAGE_NO_PROC);
    MPI_Mrecv(NULL, 0, MPI_INT, &message, &status);
    HOLDS(message == MPI_MESSAGE_NULL && status.MPI_SOURCE == MPI_PROC_NULL);
    MPI_Irecv(&got, 1, MPI_INT, before, 7, MPI_COMM_WORLD, &request);
    MPI_Cancel(&request);
    MPI_Wait(&request, &status);
    MPI_Test_cancelled(&status, &flag);
    HOLDS(flag);
}

/* Each rank has its own place in its words. */
static void options(void) {
    const struct option names[] = { { "count", required_argument, NULL, 'c' }, { "verbose", no_argument, NULL, 'v' }, { NULL, 0, NULL, 0 } };
    for (int turn = 0; turn < 200; turn++) {
        char number[20], *words[] = { "options", "input", "-vq", "--count", number, "-o", "out", "--verb", "--count=7", "--", "-x", NULL };
        int option, seen = 0, count = 0;
        snprintf(number, sizeof number, "%d", 100 * turn + rank);
        optind = 1;
        while ((option = getopt_long(11, words, "vqo:c:", names, NULL)) != -1) {
            HOLDS(option == 'v' || option == 'q' || option == 'o' || option == 'c');
            if (option == 'c' && seen++ == 0) HOLDS(atoi(optarg) == 100 * turn + rank);
            if (option == 'o') HOLDS(strcmp(optarg, "out") == 0);
            count++;
        }
        HOLDS(count == 6 && optind == 9 && strcmp(words[9], "input") == 0 && strcmp(words[10], "-x") == 0);
    }
}

/* Messages go on when their requests are freed, and a receive buffer holds what it held after the end of a shorter message. */
static void let_go(void) {
    int next = (rank + 1) % size, before = (rank + size - 1) % size, mine = rank, got = -1, word, row[3] = { -1, -2, -3 };
    MPI_Request request;
    MPI_Irecv(&got, 1, MPI_INT, before, 1, MPI_COMM_WORLD, &request);
    MPI_Request_free(&request);
    HOLDS(request == MPI_REQUEST_NULL);
    MPI_Issend(&mine, 1, MPI_INT, next, 1, MPI_COMM_WORLD, &request);
    MPI_Request_free(&request);
    MPI_Sendrecv(&mine, 1, MPI_INT, next, 2, &word, 1, MPI_INT, before, 2, MPI_COMM_WORLD, MPI_STATUS_IGNORE);
    HOLDS(got == before && word == before);
    MPI_Ssend_init(&mine, 1, MPI_INT, next, 3, MPI_COMM_WORLD, &request);
    MPI_Start(&request);
    MPI_Request_free(&request);
    MPI_Irecv(row, 3, MPI_INT, before, 3, MPI_COMM_WORLD, &request);
    MPI_Wait(&request, MPI_STATUS_IGNORE);
    HOLDS(row[0] == before && row[1] == -2 && row[2] == -3);
    MPI_Irecv(row, 3, MPI_INT, before, 4, MPI_COMM_WORLD, &request);
    MPI_Cancel(&request);
    MPI_Wait(&request, MPI_STATUS_IGNORE);
    HOLDS(row[0] == before && row[2] == -3);
}

/* Arrays that aren't significant at a member may be null. */
static void null_arrays(void) {
    int ones[64], places[64], mine = rank, got = -1, row[64];
    MPI_Datatype types[64];
    for (int i = 0; i < size; i++) {
        ones[i] = 1;
        places[i] = i;
        types[i] = MPI_INT;
        row[i] = i;
    }
    int root = rank == size - 1;
    MPI_Scatterv(root ? row : NULL, root ? ones : NULL, root ? places : NULL, MPI_INT, &got, 1, MPI_INT, size - 1, MPI_COMM_WORLD);
    HOLDS(got == rank);
    MPI_Gatherv(&mine, 1, MPI_INT, root ? row : NULL, root ? ones : NULL, root ? places : NULL, MPI_INT, size - 1, MPI_COMM_WORLD);
    for (int i = 0; i < size; i++) row[i] = rank;
    MPI_Alltoallv(MPI_IN_PLACE, NULL, NULL, MPI_DATATYPE_NULL, row, ones, places, MPI_INT, MPI_COMM_WORLD);
    for (int i = 0; i < size; i++) HOLDS(row[i] == i);
    for (int i = 0; i < size; i++) places[i] = 4 * i;
    MPI_Alltoallw(MPI_IN_PLACE, NULL, NULL, NULL, row, ones, places, types, MPI_COMM_WORLD);
    for (int i = 0; i < size; i++) HOLDS(row[i] == rank);
}

#define CASE(name) { #name, name }
static const struct {
    const char *name;
    void (*run)(void);
} cases[] = {
    CASE(all_kinds), CASE(alltoallw), CASE(in_place), CASE(requests), CASE(persistent), CASE(many_requests), CASE(many_places), CASE(types_with_gaps),
    CASE(structures), CASE(doubles), CASE(own_operation), CASE(long_rows), CASE(counted), CASE(communicators), CASE(intercommunicators), CASE(neighbors), CASE(star), CASE(grid),
    CASE(messages), CASE(attributes), CASE(errors), CASE(threads), CASE(profiler), CASE(own_variables), CASE(options), CASE(matched),
    CASE(let_go), CASE(null_arrays), CASE(attributes_of_one),
};

int main(int argc, char **argv) {
    int level;
    MPI_Init_thread(&argc, &argv, MPI_THREAD_SERIALIZED, &level);
    MPI_Comm_rank(MPI_COMM_WORLD, &rank);
    MPI_Comm_size(MPI_COMM_WORLD, &size);
    for (size_t i = 0; i < sizeof cases / sizeof cases[0]; i++)
        if (argc > 1 && strcmp(argv[1], cases[i].name) == 0) cases[i].run();
    MPI_Finalize();
    return 0;
}
