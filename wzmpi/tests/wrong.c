/* Programs with one planted mistake each: wrong NAME runs one of them. tests/wrong.want has what wzrun says of each. */
#include <mpi.h>
#include <stdio.h>
#include <stdlib.h>
#include <string.h>
#include <unistd.h>

static int rank, size, numbers[64], others[64];

/* ---- calls that don't agree */
static void root(void) { MPI_Bcast(numbers, 4, MPI_INT, rank == 1 ? 1 : 0, MPI_COMM_WORLD); }
static void kind(void) {
    if (rank == 0) MPI_Reduce(numbers, others, 1, MPI_INT, MPI_SUM, 0, MPI_COMM_WORLD);
    else MPI_Allreduce(numbers, others, 1, MPI_INT, MPI_SUM, MPI_COMM_WORLD);
}
static void operation(void) { MPI_Allreduce(numbers, others, 1, MPI_INT, rank == 2 ? MPI_MAX : MPI_SUM, MPI_COMM_WORLD); }
static void count(void) {
    MPI_Request request;
    MPI_Iallreduce(numbers, others, rank == size - 1 ? 9 : 10, MPI_INT, MPI_SUM, MPI_COMM_WORLD, &request);
    MPI_Wait(&request, MPI_STATUS_IGNORE);
}
static void type(void) { MPI_Allgather(numbers, 1, rank == 0 ? MPI_FLOAT : MPI_INT, others, 1, rank == 0 ? MPI_FLOAT : MPI_INT, MPI_COMM_WORLD); }
static void signature(void) {
    MPI_Datatype pair;
    MPI_Type_create_struct(2, (int[]){ 1, 1 }, (MPI_Aint[]){ 0, 4 }, (MPI_Datatype[]){ MPI_INT, MPI_FLOAT }, &pair);
    MPI_Type_commit(&pair);
    if (rank == 0) MPI_Bcast(numbers, 1, pair, 0, MPI_COMM_WORLD);
    else MPI_Bcast(numbers, 2, MPI_INT, 0, MPI_COMM_WORLD);
}
static void blocking(void) {
    MPI_Request request;
    if (rank == 1) {
        MPI_Ibarrier(MPI_COMM_WORLD, &request);
        MPI_Wait(&request, MPI_STATUS_IGNORE);
    } else MPI_Barrier(MPI_COMM_WORLD);
}
static void persistent(void) {
    MPI_Request request;
    if (rank == 1) {
        MPI_Barrier_init(MPI_COMM_WORLD, MPI_INFO_NULL, &request);
        MPI_Start(&request);
    } else MPI_Ibarrier(MPI_COMM_WORLD, &request);
    MPI_Wait(&request, MPI_STATUS_IGNORE);
}
static void order(void) {
    if (rank == 1) MPI_Barrier(MPI_COMM_WORLD);
    MPI_Bcast(numbers, 1, MPI_INT, 0, MPI_COMM_WORLD);
    if (rank != 1) MPI_Barrier(MPI_COMM_WORLD);
}
static void allgatherv(void) {
    int counts[] = { 1, 2, rank == 0 ? 3 : 4 }, places[] = { 0, 1, 3 };
    MPI_Allgatherv(numbers, rank == 2 ? 4 : counts[rank], MPI_INT, others, counts, places, MPI_INT, MPI_COMM_WORLD);
}
static void alltoall(void) { MPI_Alltoall(numbers, rank == 0 ? 2 : 1, MPI_INT, others, rank == 0 ? 2 : 1, MPI_INT, MPI_COMM_WORLD); }
static void reduce_scatter(void) {
    int counts[] = { 1, rank == 1 ? 2 : 1, 1 };
    MPI_Reduce_scatter(numbers, others, counts, MPI_INT, MPI_SUM, MPI_COMM_WORLD);
}
static void reduce_scatter_block(void) { MPI_Reduce_scatter_block(numbers, others, rank == 0 ? 2 : 1, MPI_LONG, MPI_MIN, MPI_COMM_WORLD); }
static void scan(void) { MPI_Scan(numbers, others, 1, MPI_INT, rank == 0 ? MPI_BXOR : MPI_BOR, MPI_COMM_WORLD); }
static void exscan(void) { MPI_Exscan(numbers, others, 1, rank == 0 ? MPI_UNSIGNED : MPI_INT, MPI_SUM, MPI_COMM_WORLD); }
static void doubles(void) { MPI_Allreduce(numbers, others, rank + 1 < size ? 2 : 3, MPI_DOUBLE, MPI_SUM, MPI_COMM_WORLD); }
void first_of_two(void *in, void *inout, int *len, MPI_Datatype *of) { (void)of, memcpy(inout, in, sizeof(int) * (size_t)*len); }
void second_of_two(void *in, void *inout, int *len, MPI_Datatype *of) { (void)in, (void)inout, (void)len, (void)of; }
static void user_operation(void) {
    MPI_Op op;
    MPI_Op_create(rank == 1 ? first_of_two : second_of_two, 0, &op);
    MPI_Reduce(numbers, others, 1, MPI_INT, op, 0, MPI_COMM_WORLD);
}
static void duplicate(void) {
    MPI_Comm made;
    if (rank == 0) MPI_Barrier(MPI_COMM_WORLD);
    else MPI_Comm_dup(MPI_COMM_WORLD, &made);
}
static void init_root(void) {
    MPI_Request request;
    MPI_Gather_init(numbers, 1, MPI_INT, others, 1, MPI_INT, rank == 2 ? 2 : 0, MPI_COMM_WORLD, MPI_INFO_NULL, &request);
}

/* ---- amounts that don't agree between two ranks */
static void gatherv(void) {
    int counts[] = { 1, 3, 1 }, places[] = { 0, 1, 4 };
    MPI_Gatherv(numbers, rank == 1 ? 2 : 1, MPI_INT, others, counts, places, MPI_INT, 0, MPI_COMM_WORLD);
}
static void scatterv(void) {
    int counts[] = { 1, 1, 3 }, places[] = { 0, 1, 2 };
    MPI_Scatterv(numbers, counts, places, MPI_INT, others, 1, MPI_INT, 0, MPI_COMM_WORLD);
}
static void alltoallv(void) {
    int counts[] = { 1, 1, 1 }, got[] = { 1, rank == 0 ? 2 : 1, 1 }, places[] = { 0, 4, 8 };
    MPI_Alltoallv(numbers, counts, places, MPI_INT, others, got, places, MPI_INT, MPI_COMM_WORLD);
}
static void alltoallw(void) {
    int counts[] = { 1, 1, 1 }, places[] = { 0, 16, 32 };
    MPI_Datatype given[] = { MPI_INT, MPI_INT, MPI_INT }, got[] = { MPI_INT, MPI_INT, rank == 1 ? MPI_FLOAT : MPI_INT };
    MPI_Alltoallw(numbers, counts, places, given, others, counts, places, got, MPI_COMM_WORLD);
}
static void neighbors(void) {
    MPI_Comm ring;
    MPI_Cart_create(MPI_COMM_WORLD, 1, &size, (int[]){ 1 }, 0, &ring);
    MPI_Neighbor_alltoall(numbers, rank == 1 ? 2 : 1, MPI_INT, others, 1, MPI_INT, ring);
}
static void intercommunicator(void) {
    MPI_Comm half, inter;
    MPI_Comm_split(MPI_COMM_WORLD, rank == 0, 0, &half);
    MPI_Intercomm_create(half, 0, MPI_COMM_WORLD, rank == 0 ? 1 : 0, 5, &inter);
    MPI_Bcast(numbers, rank == 2 ? 3 : 4, MPI_INT, rank == 0 ? MPI_ROOT : 0, inter);
}
static void truncated(void) {
    if (rank == 0) MPI_Send(numbers, 4, MPI_INT, 1, 7, MPI_COMM_WORLD);
    if (rank == 1) MPI_Recv(others, 3, MPI_INT, 0, 7, MPI_COMM_WORLD, MPI_STATUS_IGNORE);
}
static void other_type(void) {
    if (rank == 0) MPI_Send(numbers, 4, MPI_INT, 1, 7, MPI_COMM_WORLD);
    if (rank == 1) MPI_Recv(others, 4, MPI_FLOAT, 0, 7, MPI_COMM_WORLD, MPI_STATUS_IGNORE);
}

/* ---- calls that MPI doesn't allow */
static void in_place(void) { MPI_Gather(MPI_IN_PLACE, 1, MPI_INT, others, 1, MPI_INT, 0, MPI_COMM_WORLD); }
static void same_buffer(void) { MPI_Allreduce(numbers, numbers, 1, MPI_INT, MPI_SUM, MPI_COMM_WORLD); }
static void overlap(void) { MPI_Allgather(numbers + (rank == 1 ? 1 : 8), 1, MPI_INT, numbers, 1, MPI_INT, MPI_COMM_WORLD); }
static void null_buffer(void) { MPI_Bcast(rank == 1 ? NULL : numbers, 1, MPI_INT, 0, MPI_COMM_WORLD); }
static void negative(void) { MPI_Bcast(numbers, rank - 1, MPI_INT, 0, MPI_COMM_WORLD); }
static void no_root(void) { MPI_Reduce(numbers, others, 1, MPI_INT, MPI_SUM, size, MPI_COMM_WORLD); }
static void not_for_type(void) { MPI_Allreduce(numbers, others, 1, MPI_DOUBLE, MPI_BAND, MPI_COMM_WORLD); }
static void uncommitted(void) {
    MPI_Datatype two;
    MPI_Type_contiguous(2, MPI_INT, &two);
    MPI_Bcast(numbers, 1, two, 0, MPI_COMM_WORLD);
}
static void freed_type(void) {
    MPI_Datatype two, copy;
    MPI_Type_contiguous(2, MPI_INT, &two);
    MPI_Type_commit(&two);
    copy = two;
    MPI_Type_free(&two);
    MPI_Bcast(numbers, 1, copy, 0, MPI_COMM_WORLD);
}
static void freed_operation(void) {
    MPI_Op op, copy;
    MPI_Op_create(first_of_two, 1, &op);
    copy = op;
    MPI_Op_free(&op);
    MPI_Allreduce(numbers, others, 1, MPI_INT, copy, MPI_COMM_WORLD);
}
static void null_communicator(void) { MPI_Barrier(MPI_COMM_NULL); }
static void freed_communicator(void) {
    MPI_Comm made, copy;
    MPI_Comm_dup(MPI_COMM_WORLD, &made);
    copy = made;
    MPI_Comm_free(&made);
    MPI_Barrier(copy);
}
static void unequal(void) { MPI_Allgather(numbers, 1, MPI_INT, others, 2, MPI_INT, MPI_COMM_WORLD); }
static void start_twice(void) {
    MPI_Request request;
    MPI_Barrier_init(MPI_COMM_WORLD, MPI_INFO_NULL, &request);
    MPI_Start(&request);
    MPI_Start(&request);
}
static void stale(void) {
    MPI_Request request, copy;
    MPI_Ibarrier(MPI_COMM_WORLD, &request);
    copy = request;
    MPI_Wait(&request, MPI_STATUS_IGNORE);
    MPI_Wait(&copy, MPI_STATUS_IGNORE);
}
static void free_nonblocking(void) {
    MPI_Request request;
    MPI_Ibarrier(MPI_COMM_WORLD, &request);
    MPI_Request_free(&request);
}
static void twice_in_list(void) {
    MPI_Request requests[2];
    MPI_Ibarrier(MPI_COMM_WORLD, &requests[0]);
    requests[1] = requests[0];
    MPI_Waitall(2, requests, MPI_STATUSES_IGNORE);
}
static void no_topology(void) { MPI_Neighbor_allgather(numbers, 1, MPI_INT, others, 1, MPI_INT, MPI_COMM_WORLD); }
static void changed(void) {
    MPI_Request request;
    MPI_Iallreduce(numbers, others, 1, MPI_INT, MPI_SUM, MPI_COMM_WORLD, &request);
    if (rank == 1) numbers[0]++;
    MPI_Wait(&request, MPI_STATUS_IGNORE);
}
static void finalized(void) {
    MPI_Finalize();
    MPI_Barrier(MPI_COMM_WORLD);
}

static void too_many(void) {
    static MPI_Request requests[5000];
    if (rank == 1) MPI_Recv(numbers, 1, MPI_INT, 0, 0, MPI_COMM_WORLD, MPI_STATUS_IGNORE);
    for (int i = 0; i < 5000; i++) MPI_Ibarrier(MPI_COMM_WORLD, &requests[i]);
    if (rank == 0) MPI_Send(numbers, 1, MPI_INT, 1, 0, MPI_COMM_WORLD);
    MPI_Waitall(5000, requests, MPI_STATUSES_IGNORE);
}

/* ---- ranks that wait for one another */
static void lacking(void) {
    if (rank != 2) MPI_Barrier(MPI_COMM_WORLD);
}
static void crossed(void) {
    MPI_Comm other;
    MPI_Comm_dup(MPI_COMM_WORLD, &other);
    if (rank == 0) MPI_Barrier(MPI_COMM_WORLD);
    MPI_Barrier(other);
    if (rank != 0) MPI_Barrier(MPI_COMM_WORLD);
}
static void missing_start(void) {
    MPI_Request request;
    MPI_Barrier_init(MPI_COMM_WORLD, MPI_INFO_NULL, &request);
    for (int i = 0; i < 2; i++) {
        if (rank == 1 && i == 1) return;
        MPI_Start(&request);
        MPI_Wait(&request, MPI_STATUS_IGNORE);
    }
}
static void missing_split(void) {
    MPI_Comm made;
    if (rank > 0) MPI_Comm_split(MPI_COMM_WORLD, 0, 0, &made);
    else MPI_Recv(numbers, 1, MPI_INT, 1, 0, MPI_COMM_WORLD, MPI_STATUS_IGNORE);
}
static void any_of_two(void) {
    MPI_Comm other;
    MPI_Request requests[2];
    int index;
    MPI_Comm_dup(MPI_COMM_WORLD, &other);
    if (rank == 0) return;
    MPI_Ibarrier(MPI_COMM_WORLD, &requests[0]);
    MPI_Ibarrier(other, &requests[1]);
    MPI_Waitany(2, requests, &index, MPI_STATUS_IGNORE);
}
static void receives_first(void) {
    int other = rank ^ 1;
    if (rank > 1) return;
    MPI_Recv(others, 1, MPI_INT, other, 3, MPI_COMM_WORLD, MPI_STATUS_IGNORE);
    MPI_Send(numbers, 1, MPI_INT, other, 3, MPI_COMM_WORLD);
}

/* ---- programs that end well by luck: --strict tells them */
static void lucky_bcasts(void) {
    MPI_Comm other;
    MPI_Comm_dup(MPI_COMM_WORLD, &other);
    MPI_Bcast(numbers, 1, MPI_INT, 0, rank == 0 ? MPI_COMM_WORLD : other);
    MPI_Bcast(numbers, 1, MPI_INT, 0, rank == 0 ? other : MPI_COMM_WORLD);
}
static void lucky_sends(void) {
    int other = rank ^ 1;
    if (rank > 1) return;
    MPI_Send(numbers, 1, MPI_INT, other, 3, MPI_COMM_WORLD);
    MPI_Recv(others, 1, MPI_INT, other, 3, MPI_COMM_WORLD, MPI_STATUS_IGNORE);
}

/* ---- other ends */
static void crash(void) {
    MPI_Barrier(MPI_COMM_WORLD);
    if (rank == 1) *(volatile int *)8 = 1;
    MPI_Barrier(MPI_COMM_WORLD);
}
static void never_completed(void) {
    MPI_Request request;
    if (rank == 0) MPI_Irecv(others, 1, MPI_INT, MPI_ANY_SOURCE, 0, MPI_COMM_WORLD, &request);
}
static void never_received(void) {
    for (int tag = 4; rank == 0 && tag < 6; tag++) MPI_Send(numbers, 2, MPI_INT, 1, tag, MPI_COMM_WORLD);
}
static void told_by_code(void) {
    char text[MPI_MAX_ERROR_STRING];
    int length, code;
    MPI_Comm_set_errhandler(MPI_COMM_WORLD, MPI_ERRORS_RETURN);
    code = MPI_Bcast(numbers, -1, MPI_INT, 0, MPI_COMM_WORLD);
    MPI_Error_string(code, text, &length);
    if (rank == 0) printf("%s\n", text);
}
static void aborts(void) {
    if (rank == 1) MPI_Abort(MPI_COMM_WORLD, 7);
    MPI_Barrier(MPI_COMM_WORLD);
}

/* ---- arrays that aren't there */
static void null_counts(void) { MPI_Gatherv(numbers, 1, MPI_INT, others, NULL, numbers, MPI_INT, 0, MPI_COMM_WORLD); }
static void null_places(void) {
    int counts[] = { 1, 1 };
    MPI_Alltoallv(numbers, counts, numbers, MPI_INT, others, counts, NULL, MPI_INT, MPI_COMM_WORLD);
}
static void null_types(void) {
    int counts[] = { 1, 1 };
    MPI_Alltoallw(numbers, counts, numbers, NULL, others, counts, numbers, NULL, MPI_COMM_WORLD);
}
static void null_among_counts(void) {
    int counts[] = { 1, 1 }, places[] = { 0, 1 };
    MPI_Allgatherv(numbers, 1, MPI_INT, NULL, counts, places, MPI_INT, MPI_COMM_WORLD);
}

/* ---- memory that is lent */
static void changed_send(void) {
    MPI_Request request;
    if (rank == 0) {
        MPI_Isend(numbers, 1, MPI_INT, 1, 0, MPI_COMM_WORLD, &request);
        numbers[0]++;
        MPI_Wait(&request, MPI_STATUS_IGNORE);
    } else MPI_Recv(others, 1, MPI_INT, 0, 0, MPI_COMM_WORLD, MPI_STATUS_IGNORE);
}
static void changed_outcome(void) {
    MPI_Request request;
    MPI_Iallreduce(numbers, others, 2, MPI_INT, MPI_SUM, MPI_COMM_WORLD, &request);
    if (rank == 0) others[1]++;
    MPI_Wait(&request, MPI_STATUS_IGNORE);
}
static void changed_carried(void) {
    MPI_Datatype column;
    MPI_Request request;
    int counts[] = { 2, 2 }, places[] = { 0, 2 };
    MPI_Type_vector(2, 1, 4, MPI_INT, &column);
    MPI_Type_commit(&column);
    MPI_Ialltoallv(numbers, counts, places, MPI_INT, others, (int[]){ 1, 1 }, (int[]){ 0, 2 }, column, MPI_COMM_WORLD, &request);
    others[1]++; /* between two elements of the column */
    if (rank == 1) others[4]++;
    MPI_Wait(&request, MPI_STATUS_IGNORE);
}
static void changed_receive(void) {
    MPI_Request request;
    MPI_Recv_init(others, 2, MPI_INT, 1 - rank, 0, MPI_COMM_WORLD, &request);
    MPI_Start(&request);
    if (rank == 0) others[0]++;
    MPI_Send(numbers, 1, MPI_INT, 1 - rank, 0, MPI_COMM_WORLD);
    MPI_Wait(&request, MPI_STATUS_IGNORE);
}

/* ---- more requests than there is room for at one time */
static void inits(void) {
    MPI_Request request;
    MPI_Comm copy;
    MPI_Comm_dup(MPI_COMM_WORLD, &copy);
    for (int i = 0; i < 257; i++) MPI_Barrier_init(copy, MPI_INFO_NULL, &request);
}
/* Rank 1 makes room only once it has read that rank 0 waits for some. */
static void late_room(void) {
    enum { FIRST = 100, ALL = 513 };
    static MPI_Request requests[ALL];
    MPI_Comm copy;
    int ends[2], errors = dup(2);
    char text[500];
    MPI_Comm_dup(MPI_COMM_WORLD, &copy);
    for (int i = 0; i < FIRST; i++) MPI_Ibarrier(copy, &requests[i]);
    if (rank == 1 && (pipe(ends) != 0 || dup2(ends[1], 2) < 0)) abort();
    MPI_Barrier(MPI_COMM_WORLD);
    if (rank == 1) {
        ssize_t length = read(ends[0], text, sizeof text);
        if (length < 0 || dup2(errors, 2) < 0 || write(2, text, (size_t)length) != length) abort();
        MPI_Waitall(FIRST, requests, MPI_STATUSES_IGNORE);
    }
    for (int i = FIRST; i < ALL; i++) {
        MPI_Ibarrier(copy, &requests[i]);
        if (rank == 1) MPI_Wait(&requests[i], MPI_STATUS_IGNORE);
    }
    if (rank == 0) MPI_Waitall(ALL, requests, MPI_STATUSES_IGNORE);
    MPI_Comm_free(&copy);
}

/* ---- calls that make communicators */
static void sub_meets_split(void) {
    MPI_Comm grid, part;
    MPI_Cart_create(MPI_COMM_WORLD, 1, &size, (int[]){ 0 }, 0, &grid);
    if (rank == 1) MPI_Comm_split(grid, 0, 0, &part);
    else MPI_Cart_sub(grid, (int[]){ 1 }, &part);
}
/* Both groups wait for a message of the other. */
static void bridge(void) {
    MPI_Comm half, two;
    MPI_Comm_split(MPI_COMM_WORLD, rank > 0, 0, &half);
    MPI_Intercomm_create(half, 0, MPI_COMM_WORLD, rank > 0 ? 0 : 1, 3, &two);
    MPI_Recv(numbers, 1, MPI_INT, 0, 5, two, MPI_STATUS_IGNORE);
    MPI_Send(numbers, 1, MPI_INT, 0, 5, two);
}

#define CASE(name) { #name, name }
static const struct {
    const char *name;
    void (*run)(void);
} cases[] = {
    CASE(root), CASE(kind), CASE(operation), CASE(count), CASE(type), CASE(signature), CASE(blocking), CASE(persistent), CASE(order), CASE(allgatherv),
    CASE(alltoall), CASE(reduce_scatter), CASE(reduce_scatter_block), CASE(scan), CASE(exscan), CASE(doubles), CASE(user_operation), CASE(duplicate), CASE(init_root),
    CASE(gatherv), CASE(scatterv), CASE(alltoallv), CASE(alltoallw), CASE(neighbors), CASE(intercommunicator), CASE(truncated), CASE(other_type), CASE(in_place), CASE(same_buffer),
    CASE(overlap), CASE(null_buffer), CASE(negative), CASE(no_root), CASE(not_for_type), CASE(uncommitted), CASE(freed_type), CASE(freed_operation),
    CASE(null_communicator), CASE(freed_communicator), CASE(unequal), CASE(start_twice), CASE(stale), CASE(free_nonblocking), CASE(twice_in_list),
    CASE(no_topology), CASE(changed), CASE(finalized), CASE(too_many), CASE(lacking), CASE(crossed), CASE(missing_start), CASE(missing_split), CASE(any_of_two),
    CASE(receives_first), CASE(lucky_bcasts), CASE(lucky_sends), CASE(crash), CASE(never_completed), CASE(never_received), CASE(told_by_code), CASE(aborts), CASE(inits), CASE(late_room),
    CASE(null_counts), CASE(null_places), CASE(null_types), CASE(null_among_counts), CASE(changed_send), CASE(changed_outcome), CASE(changed_carried), CASE(changed_receive),
    CASE(sub_meets_split), CASE(bridge),
};

int main(int argc, char **argv) {
    int finalized_already;
    MPI_Init(&argc, &argv);
    MPI_Comm_rank(MPI_COMM_WORLD, &rank);
    MPI_Comm_size(MPI_COMM_WORLD, &size);
    for (size_t i = 0; i < sizeof cases / sizeof cases[0]; i++)
        if (argc > 1 && strcmp(argv[1], cases[i].name) == 0) cases[i].run();
    MPI_Finalized(&finalized_already);
    if (!finalized_already) MPI_Finalize();
    return 0;
}
