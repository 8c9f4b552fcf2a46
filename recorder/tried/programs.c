/* Small programs with one planted fault each, and right ones, for ../tried.py: `programs NAME`. The marks A and B name lines for it. */
#include "tried.h"

/* Faults of collectives: roots, counts, types, operations, kinds */

static void other_root(void) {
    MPI_Bcast(row, 4, MPI_INT, rank == 1, world); /* A */
}

static void other_count(void) {
    MPI_Allreduce(row, other, rank == 2 ? 3 : 4, MPI_INT, MPI_SUM, world); /* A */
}

static void other_type(void) {
    MPI_Allreduce(row, other, 1, rank ? MPI_DOUBLE : MPI_UNSIGNED_LONG, MPI_SUM, world); /* A */
}

static void other_operation(void) {
    MPI_Reduce(&one, &sum, 1, MPI_INT, rank ? MPI_MAX : MPI_SUM, 0, world); /* A */
}

static void add(void *given, void *result, int *count, MPI_Datatype *type) {
    (void)type;
    for (int place = 0; place < *count; place++)
        ((int *)result)[place] += ((int *)given)[place];
}

static void greatest(void *given, void *result, int *count, MPI_Datatype *type) {
    (void)type;
    for (int place = 0; place < *count; place++)
        if (((int *)result)[place] < ((int *)given)[place])
            ((int *)result)[place] = ((int *)given)[place];
}

static void other_user_operation(void) {
    MPI_Op sums, maxima;
    MPI_Op_create(add, 1, &sums);
    MPI_Op_create(greatest, 1, &maxima);
    MPI_Allreduce(&one, &sum, 1, MPI_INT, rank ? sums : maxima, world); /* A */
}

static void other_structure(void) {
    MPI_Aint places[2] = {0, 8};
    MPI_Datatype parts[2] = {rank ? MPI_INT : MPI_FLOAT, rank ? MPI_FLOAT : MPI_INT}, type;
    MPI_Type_create_struct(2, (int[]){1, 1}, places, parts, &type);
    MPI_Type_commit(&type);
    MPI_Bcast(row, 2, type, 0, world); /* A */
}

static void other_call(void) {
    if (rank)
        MPI_Reduce(&one, &sum, 1, MPI_INT, MPI_SUM, 0, world); /* B */
    else
        MPI_Bcast(&one, 1, MPI_INT, 0, world); /* A */
}

static void blocking_meets_nonblocking(void) {
    if (rank) {
        MPI_Iallreduce(&one, &sum, 1, MPI_INT, MPI_SUM, world, &request); /* B */
        MPI_Wait(&request, MPI_STATUS_IGNORE);
    } else
        MPI_Allreduce(&one, &sum, 1, MPI_INT, MPI_SUM, world); /* A */
}

static void nonblocking_meets_persistent(void) {
    if (rank) {
        INIT(Barrier_init)(world, MPI_INFO_NULL, &request); /* B */
        MPI_Start(&request);
    } else
        MPI_Ibarrier(world, &request); /* A */
    MPI_Wait(&request, MPI_STATUS_IGNORE);
}

static void gather_count(void) {
    MPI_Gather(row, 3, MPI_INT, other, rank ? 3 : 2, MPI_INT, 0, world); /* A */
}

static void scatter_type(void) {
    MPI_Scatter(row, 4, MPI_INT, other, 4, rank == 1 ? MPI_FLOAT : MPI_INT, 0, world); /* A */
}

static void gatherv_count(void) {
    int counts[4] = {1, 2, 3, 4}, places[4] = {0, 1, 3, 6};
    MPI_Gatherv(row, rank == 2 ? 2 : rank + 1, MPI_INT, other, counts, places, MPI_INT, 0, world); /* A */
}

static void scatterv_count(void) {
    int counts[4] = {1, 2, 3, 4}, places[4] = {0, 1, 3, 6};
    MPI_Scatterv(row, counts, places, MPI_INT, other, rank == 3 ? 5 : rank + 1, MPI_INT, 0, world); /* A */
}

static void allgatherv_count(void) {
    int counts[4] = {1, 2, 3, 4}, places[4] = {0, 1, 3, 8};
    counts[2] += rank == 1;
    MPI_Allgatherv(row, rank + 1, MPI_INT, other, counts, places, MPI_INT, world); /* A */
}

static void alltoallv_count(void) {
    int counts[4] = {1, 1, 1, 1}, got[4] = {1, 1, 1, 1}, places[4] = {0, 4, 8, 12};
    got[3] += rank == 0;
    MPI_Alltoallv(row, counts, places, MPI_INT, other, got, places, MPI_INT, world); /* A */
}

static void alltoallw_type(void) {
    int counts[4] = {1, 1, 1, 1}, places[4] = {0, 16, 32, 48};
    MPI_Datatype sent[4] = {MPI_INT, MPI_INT, MPI_INT, MPI_INT}, got[4] = {MPI_INT, MPI_INT, MPI_INT, MPI_INT};
    sent[1] = rank == 0 ? MPI_FLOAT : MPI_INT;
    MPI_Alltoallw(row, counts, places, sent, other, counts, places, got, world); /* A */
}

static void reduce_scatter_counts(void) {
    int counts[4] = {1, 1, 1, 1};
    counts[0] += rank == 1, counts[1] -= rank == 1;
    MPI_Reduce_scatter(row, other, counts, MPI_INT, MPI_SUM, world); /* A */
}

static void neighbours_meet_barrier(void) {
    MPI_Comm ring;
    MPI_Cart_create(world, 1, &size, &one, 0, &ring);
    if (rank)
        MPI_Neighbor_allgather(&one, 1, MPI_INT, row, 1, MPI_INT, ring); /* B */
    else
        MPI_Barrier(ring); /* A */
}

static void starts_differ(void) {
    INIT(Bcast_init)(row, 1, MPI_INT, 0, world, MPI_INFO_NULL, &request); /* A */
    for (int start = 0; start < 2 + (rank == 0); start++) {
        MPI_Start(&request);
        MPI_Wait(&request, MPI_STATUS_IGNORE);
    }
}

/* Calls that a rank leaves out */

/* The first rank makes a communicator less, so its second one is the others' third. */
static void shifted_dup(void) {
    MPI_Comm later;
    if (rank)
        MPI_Comm_dup(world, &twin); /* A */
    else
        MPI_Ibarrier(world, &request); /* B */
    MPI_Comm_dup(world, &later);
    MPI_Reduce(&one, &sum, 1, MPI_INT, rank ? MPI_MAX : MPI_SUM, 0, later);
}

static void skipped_barrier(void) {
    MPI_Allreduce(&one, &sum, 1, MPI_INT, MPI_SUM, world);
    if (rank != 1)
        MPI_Barrier(world); /* A */
}

static void skipped_split(void) {
    if (rank)
        MPI_Comm_split(world, 0, 0, &twin); /* A */
    MPI_Barrier(world);                     /* B */
}

static void skipped_dup(void) {
    if (rank == 0)
        MPI_Recv(&sum, 1, MPI_INT, 1, 3, world, MPI_STATUS_IGNORE); /* A */
    MPI_Comm_dup(world, &twin);                                     /* B */
}

static void skipped_idup(void) {
    if (rank) {
        MPI_Comm_idup(world, &twin, &request); /* B */
        MPI_Wait(&request, MPI_STATUS_IGNORE);
    }
    MPI_Barrier(world); /* A */
}

static void skipped_cart(void) {
    if (rank == 0)
        MPI_Recv(&sum, 1, MPI_INT, 1, 3, world, MPI_STATUS_IGNORE); /* A */
    MPI_Cart_create(world, 1, &size, &one, 0, &twin);               /* B */
}

static void free_meets_barrier(void) {
    MPI_Comm_dup(world, &twin);
    if (rank)
        MPI_Barrier(twin); /* B */
    else
        MPI_Comm_free(&twin); /* A */
}

static void group_lacks_one(void) {
    MPI_Group all;
    MPI_Comm_group(world, &all);
    if (rank)
        MPI_Comm_create_group(world, all, 7, &twin); /* B */
    else
        MPI_Recv(&sum, 1, MPI_INT, 1, 3, world, MPI_STATUS_IGNORE); /* A */
}

static void crossed_communicators(void) {
    MPI_Comm_dup(world, &twin);
    MPI_Allreduce(&one, &sum, 1, MPI_INT, MPI_SUM, rank ? twin : world); /* A */
    MPI_Allreduce(&one, &sum, 1, MPI_INT, MPI_SUM, rank ? world : twin);
}

static void crossed_waits(void) {
    MPI_Comm_dup(world, &twin);
    MPI_Ibarrier(rank ? twin : world, &request); /* A */
    MPI_Wait(&request, MPI_STATUS_IGNORE);       /* B */
    MPI_Barrier(rank ? world : twin);
}

static MPI_File open_file(void) {
    MPI_File file;
    MPI_File_open(world, getenv("TRIED_FILE"), MPI_MODE_CREATE | MPI_MODE_RDWR | MPI_MODE_DELETE_ON_CLOSE, MPI_INFO_NULL, &file);
    return file;
}

static void skipped_write(void) {
    MPI_File file = open_file();
    if (rank)
        MPI_File_write_at_all(file, 4 * rank, &one, 1, MPI_INT, MPI_STATUS_IGNORE); /* A */
    MPI_File_close(&file);                                                          /* B */
}

static void other_write(void) {
    MPI_File file = open_file();
    if (rank)
        MPI_File_write_all(file, &one, 1, MPI_INT, MPI_STATUS_IGNORE); /* B */
    else
        MPI_File_write_at_all(file, 0, &one, 1, MPI_INT, MPI_STATUS_IGNORE); /* A */
    MPI_File_close(&file);
}

static void skipped_open(void) {
    if (rank == 0)
        MPI_Recv(&sum, 1, MPI_INT, 1, 3, world, MPI_STATUS_IGNORE); /* A */
    open_file();
}

static void skipped_fence(void) {
    MPI_Win window;
    MPI_Win_create(row, sizeof row, 1, MPI_INFO_NULL, world, &window);
    if (rank)
        MPI_Win_fence(0, window); /* B */
    MPI_Win_free(&window);        /* A */
}

static void fence_meets_receive(void) {
    MPI_Win window;
    MPI_Win_create(row, sizeof row, 1, MPI_INFO_NULL, world, &window);
    if (rank == 0)
        MPI_Recv(&sum, 1, MPI_INT, 1, 3, world, MPI_STATUS_IGNORE); /* A */
    MPI_Win_fence(0, window);                                       /* B */
}

static void skipped_window(void) {
    MPI_Win window;
    if (rank)
        MPI_Win_create(row, sizeof row, 1, MPI_INFO_NULL, world, &window); /* B */
    MPI_Allreduce(&one, &sum, 1, MPI_INT, MPI_SUM, world);                 /* A */
}

/* Messages */

static void receive_cycle(void) {
    if (rank < 2)
        MPI_Recv(&sum, 1, MPI_INT, 1 - rank, 6, world, MPI_STATUS_IGNORE); /* A */
}

static void receive_ring(void) {
    MPI_Recv(&sum, 1, MPI_INT, (rank + 1) % size, 6, world, MPI_STATUS_IGNORE); /* A */
    MPI_Send(&one, 1, MPI_INT, (rank + size - 1) % size, 6, world);
}

static void other_tag(void) {
    if (rank == 1)
        MPI_Send(&one, 1, MPI_INT, 0, 5, world);
    if (rank == 0)
        MPI_Recv(&sum, 1, MPI_INT, 1, 6, world, MPI_STATUS_IGNORE); /* A */
    MPI_Barrier(world);                                             /* B */
}

static void other_communicator(void) {
    MPI_Comm_dup(world, &twin);
    if (rank == 1)
        MPI_Send(&one, 1, MPI_INT, 0, 5, twin);
    if (rank == 0)
        MPI_Recv(&sum, 1, MPI_INT, 1, 5, world, MPI_STATUS_IGNORE); /* A */
    MPI_Barrier(twin);
}

static void send_cycle(void) {
    int *much = calloc(LARGE, sizeof *much);
    if (rank < 2) {
        MPI_Send(much, LARGE, MPI_INT, 1 - rank, 4, world); /* A */
        MPI_Recv(much, LARGE, MPI_INT, 1 - rank, 4, world, MPI_STATUS_IGNORE);
    }
    free(much);
}

static void receive_meets_barrier(void) {
    if (rank == 0)
        MPI_Recv(&sum, 1, MPI_INT, 1, 9, world, MPI_STATUS_IGNORE); /* A */
    MPI_Barrier(world);                                             /* B */
    if (rank == 1)
        MPI_Send(&one, 1, MPI_INT, 0, 9, world);
}

static void receive_of_finalized(void) {
    if (rank == 0)
        MPI_Recv(&sum, 1, MPI_INT, 1, 2, world, MPI_STATUS_IGNORE); /* A */
}

static void waitall_of_receives(void) {
    if (rank == 0) {
        MPI_Irecv(&row[0], 1, MPI_INT, 1, 1, world, &requests[0]);
        MPI_Irecv(&row[1], 1, MPI_INT, 1, 2, world, &requests[1]); /* A */
        MPI_Waitall(2, requests, MPI_STATUSES_IGNORE);             /* B */
    } else if (rank == 1)
        MPI_Send(&one, 1, MPI_INT, 0, 1, world);
    MPI_Barrier(world);
}

static void probe_of_nothing(void) {
    if (rank == 0)
        MPI_Probe(1, 8, world, MPI_STATUS_IGNORE); /* A */
    MPI_Barrier(world);
}

static void receive_of_any(void) {
    MPI_Recv(&sum, 1, MPI_INT, MPI_ANY_SOURCE, 1, world, MPI_STATUS_IGNORE); /* A */
}

static void wait_meets_receive(void) {
    if (rank == 0)
        MPI_Recv(&sum, 1, MPI_INT, 1, 3, world, MPI_STATUS_IGNORE); /* A */
    MPI_Iallreduce(&one, &sum, 1, MPI_INT, MPI_SUM, world, &request);
    MPI_Wait(&request, MPI_STATUS_IGNORE); /* B */
}

/* Ranks that stand still elsewhere, or end */

static void endless_loop(void) {
    if (rank == 1)
        never();
    MPI_Barrier(world); /* A */
}

static void endless_tests(void) {
    int done = 0;
    if (rank == 0)
        MPI_Recv(&sum, 1, MPI_INT, 1, 3, world, MPI_STATUS_IGNORE); /* A */
    MPI_Ibarrier(world, &request);
    while (!done)
        MPI_Test(&request, &done, MPI_STATUS_IGNORE); /* B */
}

static void calls_abort(void) {
    MPI_Barrier(world);
    if (rank == 1) {
        usleep(300000);
        MPI_Abort(world, 3); /* A */
    }
    MPI_Barrier(world); /* B */
}

static void crashes(void) {
    MPI_Barrier(world);
    if (rank == 1) {
        usleep(300000);
        abort();
    }
    MPI_Barrier(world); /* A */
}

/* Long, many, large */

static void late_fault(void) {
    for (int turn = 0; turn < MANY; turn++)
        MPI_Reduce(&one, &sum, 1, MPI_INT, turn == MANY - 2 && rank == 1 ? MPI_MAX : MPI_SUM, 0, world); /* A */
}

static void sixty_four_ranks(void) {
    MPI_Reduce(&one, &sum, 1, MPI_INT, rank == 63 ? MPI_MAX : MPI_SUM, 0, world); /* A */
}

static void large_count(void) {
    int *much = calloc(2 * LARGE, sizeof *much);
    MPI_Scan(much, much + LARGE, LARGE - (rank == size - 1), MPI_INT, MPI_SUM, world); /* A */
    free(much);
}

static void twentieth_communicator(void) {
    MPI_Comm made[20];
    for (int number = 0; number < 20; number++)
        MPI_Comm_dup(world, &made[number]);
    for (int number = 0; number < 20; number++)
        MPI_Reduce(&one, &sum, 1, MPI_INT, number == 19 && rank ? MPI_MAX : MPI_SUM, 0, made[number]); /* A */
    for (int number = 0; number < 20; number++)
        MPI_Comm_free(&made[number]);
}

/* Threads */

static void *barrier_of(void *comm) {
    MPI_Barrier(*(MPI_Comm *)comm);
    return NULL;
}

/* Each rank has two threads at once. */
static void two_threads(MPI_Comm *first, MPI_Comm *second) {
    pthread_t thread;
    pthread_create(&thread, NULL, barrier_of, first);
    barrier_of(second);
    pthread_join(thread, NULL);
}

static void *reduce_at_root(void *comm) {
    MPI_Reduce(&one, &sum, 1, MPI_INT, MPI_SUM, 0, *(MPI_Comm *)comm);
    return NULL;
}

/* The threads agree on no order, so a bcast may meet a reduce. */
static void threads_without_order(void) {
    pthread_t thread;
    if (rank)
        usleep(100000);
    pthread_create(&thread, NULL, rank ? reduce_at_root : barrier_of, &world);
    usleep(200000);
    if (rank)
        barrier_of(&world);
    else
        reduce_at_root(&world);
    pthread_join(thread, NULL);
}

/* Right programs */

static void right_blocking(void) {
    int counts[4] = {1, 1, 1, 1};
    MPI_Barrier(world);
    MPI_Bcast(row, 8, MPI_INT, 1, world);
    MPI_Gather(row, 2, MPI_INT, other, 2, MPI_INT, 2, world);
    MPI_Scatter(row, 2, MPI_INT, other, 2, MPI_INT, 3, world);
    MPI_Allgather(row, 2, MPI_INT, other, 2, MPI_INT, world);
    MPI_Alltoall(row, 2, MPI_INT, other, 2, MPI_INT, world);
    MPI_Reduce(row, other, 2, MPI_INT, MPI_PROD, 1, world);
    MPI_Allreduce(row, other, 2, MPI_2INT, MPI_MAXLOC, world);
    MPI_Reduce_scatter_block(row, other, 2, MPI_INT, MPI_BXOR, world);
    MPI_Reduce_scatter(row, other, counts, MPI_INT, MPI_SUM, world);
    MPI_Scan(row, other, 2, MPI_DOUBLE, MPI_SUM, world);
    MPI_Exscan(row, other, 2, MPI_BYTE, MPI_BOR, world);
}

static void right_nonblocking(void) {
    MPI_Ibarrier(world, &requests[0]);
    MPI_Ibcast(row, 8, MPI_INT, 1, world, &requests[1]);
    MPI_Igather(row + 8, 2, MPI_INT, other, 2, MPI_INT, 2, world, &requests[2]);
    MPI_Iallgather(row + 16, 2, MPI_INT, other + 64, 2, MPI_INT, world, &requests[3]);
    MPI_Ialltoall(row + 32, 2, MPI_INT, other + 128, 2, MPI_INT, world, &requests[4]);
    MPI_Iallreduce(row + 64, other + 256, 2, MPI_INT, MPI_MIN, world, &requests[5]);
    MPI_Iexscan(row + 64, other + 512, 2, MPI_INT, MPI_MIN, world, &requests[6]);
    MPI_Ireduce(row + 64, other + 768, 2, MPI_INT, MPI_MIN, 0, world, &requests[7]);
    MPI_Waitall(8, requests, MPI_STATUSES_IGNORE);
}

static void right_persistent(void) {
    INIT(Bcast_init)(row, 4, MPI_INT, 0, world, MPI_INFO_NULL, &requests[0]);
    INIT(Allreduce_init)(row + 8, other, 4, MPI_INT, MPI_SUM, world, MPI_INFO_NULL, &requests[1]);
    for (int turn = 0; turn < 3; turn++) {
        MPI_Startall(2, requests);
        MPI_Waitall(2, requests, MPI_STATUSES_IGNORE);
    }
    MPI_Request_free(&requests[0]);
    MPI_Request_free(&requests[1]);
}

static void right_uneven(void) {
    int counts[4] = {1, 2, 0, 4}, places[4] = {0, 1, 3, 6}, mine[4] = {counts[rank], counts[rank], counts[rank], counts[rank]}, rows[4] = {0, 8, 16, 24};
    MPI_Datatype types[4] = {MPI_INT, MPI_INT, MPI_INT, MPI_INT};
    int bytes[4] = {0, 64, 128, 192};
    MPI_Gatherv(row, counts[rank], MPI_INT, other, counts, places, MPI_INT, 0, world);
    MPI_Scatterv(row, counts, places, MPI_INT, other, counts[rank], MPI_INT, 1, world);
    MPI_Allgatherv(row, counts[rank], MPI_INT, other, counts, places, MPI_INT, world);
    MPI_Alltoallv(row, mine, rows, MPI_INT, other, counts, places, MPI_INT, world);
    MPI_Alltoallw(row, mine, bytes, types, other, counts, bytes, types, world);
}

static void right_in_place(void) {
    int counts[4] = {1, 1, 1, 1}, places[4] = {0, 1, 2, 3};
    MPI_Gather(rank ? row : MPI_IN_PLACE, 2, MPI_INT, row, 2, MPI_INT, 0, world);
    MPI_Scatter(row, 2, MPI_INT, rank ? other : MPI_IN_PLACE, 2, MPI_INT, 0, world);
    MPI_Allgather(MPI_IN_PLACE, 0, MPI_DATATYPE_NULL, row, 2, MPI_INT, world);
    MPI_Allgatherv(MPI_IN_PLACE, 0, MPI_DATATYPE_NULL, row, counts, places, MPI_INT, world);
    MPI_Alltoall(MPI_IN_PLACE, 0, MPI_DATATYPE_NULL, row, 2, MPI_INT, world);
    MPI_Allreduce(MPI_IN_PLACE, row, 2, MPI_INT, MPI_SUM, world);
    MPI_Reduce(rank == 1 ? MPI_IN_PLACE : row, rank == 1 ? row : NULL, 2, MPI_INT, MPI_SUM, 1, world);
    MPI_Gatherv(rank ? row : MPI_IN_PLACE, 1, MPI_INT, row, counts, places, MPI_INT, 0, world);
}

/* One rank makes two integers of a type of two, others of a row, and of a vector of two blocks. */
static void right_types(void) {
    MPI_Datatype pair, apart;
    MPI_Type_contiguous(2, MPI_INT, &pair);
    MPI_Type_vector(2, 1, 3, MPI_INT, &apart);
    MPI_Type_commit(&pair);
    MPI_Type_commit(&apart);
    MPI_Bcast(row, rank == 1 ? 2 : 1, rank == 1 ? MPI_INT : rank == 2 ? apart : pair, 0, world);
    MPI_Bcast(row, 0, rank ? MPI_INT : MPI_DOUBLE, 0, world);
    MPI_Type_free(&pair);
    MPI_Type_contiguous(3, MPI_FLOAT, &pair);
    MPI_Type_commit(&pair);
    MPI_Bcast(row, rank ? 1 : 3, rank ? pair : MPI_FLOAT, 0, world);
    MPI_Type_free(&pair);
    MPI_Type_free(&apart);
}

/* The first rank makes one operation more, and then the same as the others. */
static void right_operations(void) {
    MPI_Op extra, sums;
    if (rank == 0)
        MPI_Op_create(greatest, 1, &extra);
    MPI_Op_create(add, 1, &sums);
    MPI_Allreduce(&one, &sum, 1, MPI_INT, sums, world);
    MPI_Op_free(&sums);
    if (rank == 0)
        MPI_Op_free(&extra);
}

static void right_files(void) {
    MPI_File file = open_file();
    MPI_File_set_view(file, 0, MPI_INT, MPI_INT, "native", MPI_INFO_NULL);
    MPI_File_write_at_all(file, rank, &one, 1, MPI_INT, MPI_STATUS_IGNORE);
    MPI_File_sync(file);
    if (rank == 0)
        MPI_File_write_at(file, 9, &one, 1, MPI_INT, MPI_STATUS_IGNORE);
    MPI_File_read_at_all(file, rank, &sum, 1, MPI_INT, MPI_STATUS_IGNORE);
    MPI_File_write_at_all_begin(file, rank, &one, 1, MPI_INT);
    MPI_File_write_at_all_end(file, &one, MPI_STATUS_IGNORE);
    MPI_File_close(&file);
}

static void right_windows(void) {
    MPI_Win window;
    MPI_Win_create(row, sizeof row, sizeof(int), MPI_INFO_NULL, world, &window);
    MPI_Win_fence(0, window);
    MPI_Put(&one, 1, MPI_INT, (rank + 1) % size, rank, 1, MPI_INT, window);
    MPI_Win_fence(MPI_MODE_NOSUCCEED, window);
    MPI_Win_lock(MPI_LOCK_SHARED, 0, 0, window);
    MPI_Get(other, 1, MPI_INT, 0, 0, 1, MPI_INT, window);
    MPI_Win_unlock(0, window);
    MPI_Win_free(&window);
}

static void right_messages(void) {
    int after = (rank + 1) % size, before = (rank + size - 1) % size, flag;
    MPI_Irecv(row, 1, MPI_INT, before, 1, world, &requests[0]);
    MPI_Isend(&one, 1, MPI_INT, after, 1, world, &requests[1]);
    MPI_Waitall(2, requests, MPI_STATUSES_IGNORE);
    MPI_Sendrecv(&one, 1, MPI_INT, after, 2, row, 1, MPI_INT, before, 2, world, MPI_STATUS_IGNORE);
    MPI_Recv_init(row, 1, MPI_INT, MPI_ANY_SOURCE, MPI_ANY_TAG, world, &requests[0]);
    MPI_Start(&requests[0]);
    MPI_Send(&one, 1, MPI_INT, after, 3, world);
    do
        MPI_Test(&requests[0], &flag, MPI_STATUS_IGNORE);
    while (!flag);
    MPI_Request_free(&requests[0]);
    MPI_Barrier(world);
}

static void right_communicators(void) {
    MPI_Comm half, grid, line, bridge, merged, group_of, later;
    MPI_Group all;
    MPI_Comm_split(world, rank % 2, -rank, &half);
    MPI_Allreduce(&one, &sum, 1, MPI_INT, MPI_SUM, half);
    MPI_Cart_create(world, 2, (int[]){2, 2}, (int[]){0, 0}, 0, &grid);
    MPI_Cart_sub(grid, (int[]){0, 1}, &line);
    MPI_Bcast(row, 1, MPI_INT, 1, line);
    MPI_Intercomm_create(half, 0, world, rank % 2 ? 2 : 3, 5, &bridge);
    MPI_Intercomm_merge(bridge, 0, &merged);
    MPI_Comm_group(half, &all);
    MPI_Comm_create_group(world, all, 7, &group_of);
    MPI_Barrier(group_of);
    MPI_Comm_idup(half, &later, &request);
    MPI_Wait(&request, MPI_STATUS_IGNORE);
    MPI_Barrier(later);
    MPI_Comm *made[] = {&line, &grid, &group_of, &later, &merged, &bridge, &half};
    for (int place = 0; place < 7; place++)
        MPI_Comm_free(made[place]);
}

static void right_tests(void) {
    int done = 0, place, count, places[2];
    MPI_Ibarrier(world, &requests[0]);
    MPI_Iallreduce(&one, &sum, 1, MPI_INT, MPI_SUM, world, &requests[1]);
    while (!done)
        MPI_Test(&requests[0], &done, MPI_STATUS_IGNORE);
    MPI_Waitany(2, requests, &place, MPI_STATUS_IGNORE);
    MPI_Ibcast(row, 1, MPI_INT, 0, world, &requests[0]);
    MPI_Waitsome(1, requests, &count, places, MPI_STATUSES_IGNORE);
}

static void right_threads(void) {
    MPI_Comm_dup(world, &twin);
    two_threads(&world, &twin);
    MPI_Comm_free(&twin);
}

static void right_long(void) {
    for (int turn = 0; turn < MANY; turn++)
        MPI_Allreduce(&one, &sum, 1, MPI_INT, MPI_SUM, world);
}

static void right_large(void) {
    int *much = calloc(2 * LARGE, sizeof *much);
    MPI_Allreduce(much, much + LARGE, LARGE, MPI_INT, MPI_SUM, world);
    MPI_Bcast(much, 2 * LARGE, MPI_INT, 0, world);
    free(much);
}

static void right_sixty_four(void) {
    MPI_Reduce(&one, &sum, 1, MPI_INT, MPI_SUM, 0, world);
}

static void right_many_communicators(void) {
    for (int turn = 0; turn < 100; turn++) {
        MPI_Comm_dup(world, &twin);
        MPI_Bcast(row, 1, MPI_INT, turn % size, twin);
        MPI_Comm_free(&twin);
    }
}

static void right_neighbours(void) {
    MPI_Comm ring;
    MPI_Cart_create(world, 1, &size, &one, 0, &ring);
    MPI_Neighbor_allgather(&one, 1, MPI_INT, row, 1, MPI_INT, ring);
    MPI_Ineighbor_alltoall(row, 1, MPI_INT, other, 1, MPI_INT, ring, &request);
    MPI_Wait(&request, MPI_STATUS_IGNORE);
    MPI_Comm_free(&ring);
}

/* Right programs that are ended from outside while they work */

static void ended_among_collectives(void) {
    for (;;)
        MPI_Allreduce(&one, &sum, 1, MPI_INT, MPI_SUM, world);
}

static void ended_among_messages(void) {
    for (;;) {
        if (rank)
            MPI_Recv(&sum, 1, MPI_INT, rank - 1, 1, world, MPI_STATUS_IGNORE);
        MPI_Send(&one, 1, MPI_INT, (rank + 1) % size, 1, world);
        if (!rank)
            MPI_Recv(&sum, 1, MPI_INT, size - 1, 1, world, MPI_STATUS_IGNORE);
    }
}

static void ended_among_pairs(void) {
    for (;;)
        MPI_Sendrecv(&one, 1, MPI_INT, (rank + 1) % size, 1, row, 1, MPI_INT, (rank + size - 1) % size, 1, world, MPI_STATUS_IGNORE);
}

const struct program programs[] = {
    PROGRAM(other_root), PROGRAM(other_count), PROGRAM(other_type), PROGRAM(other_operation), PROGRAM(other_user_operation), PROGRAM(other_structure),
    PROGRAM(other_call), PROGRAM(blocking_meets_nonblocking), PROGRAM(nonblocking_meets_persistent), PROGRAM(gather_count), PROGRAM(scatter_type),
    PROGRAM(gatherv_count), PROGRAM(scatterv_count), PROGRAM(allgatherv_count), PROGRAM(alltoallv_count), PROGRAM(alltoallw_type),
    PROGRAM(reduce_scatter_counts), PROGRAM(neighbours_meet_barrier), PROGRAM(starts_differ), PROGRAM(shifted_dup), PROGRAM(skipped_barrier), PROGRAM(skipped_split),
    PROGRAM(skipped_dup), PROGRAM(skipped_idup), PROGRAM(skipped_cart), PROGRAM(free_meets_barrier), PROGRAM(group_lacks_one),
    PROGRAM(crossed_communicators), PROGRAM(crossed_waits), PROGRAM(skipped_write), PROGRAM(other_write), PROGRAM(skipped_open), PROGRAM(skipped_fence),
    PROGRAM(fence_meets_receive), PROGRAM(skipped_window), PROGRAM(receive_cycle), PROGRAM(receive_ring), PROGRAM(other_tag),
    PROGRAM(other_communicator), PROGRAM(send_cycle), PROGRAM(receive_meets_barrier), PROGRAM(receive_of_finalized), PROGRAM(waitall_of_receives),
    PROGRAM(probe_of_nothing), PROGRAM(receive_of_any), PROGRAM(wait_meets_receive), PROGRAM(endless_loop), PROGRAM(endless_tests),
    PROGRAM(calls_abort), PROGRAM(crashes), PROGRAM(late_fault), PROGRAM(sixty_four_ranks), PROGRAM(large_count), PROGRAM(twentieth_communicator),
    PROGRAM(threads_without_order), PROGRAM(right_blocking), PROGRAM(right_nonblocking), PROGRAM(right_persistent), PROGRAM(right_uneven),
    PROGRAM(right_in_place), PROGRAM(right_types), PROGRAM(right_operations), PROGRAM(right_files), PROGRAM(right_windows), PROGRAM(right_messages),
    PROGRAM(right_communicators), PROGRAM(right_tests), PROGRAM(right_threads), PROGRAM(right_long), PROGRAM(right_large),
    PROGRAM(right_sixty_four), PROGRAM(right_many_communicators), PROGRAM(right_neighbours), PROGRAM(ended_among_collectives),
    PROGRAM(ended_among_messages), PROGRAM(ended_among_pairs), {0},
};
