/* Further small programs for ../tried.py: what MPI allows and programs seldom do, such as handles that are freed while something is under way, arguments
   that aren't significant, and collectives of neighbours and intercommunicators; and faults among such calls. The marks A and B name lines for it. */
#include "tried.h"

#include <stdint.h>

/* Right programs: what is freed while it is under way */

static void add(void *in, void *into, int *count, MPI_Datatype *type) {
    (void)type;
    for (int place = 0; place < 2 * *count; place++)
        ((int *)into)[place] += ((int *)in)[place];
}

static void right_freed_before_wait(void) {
    MPI_Datatype pair;
    MPI_Op sums;
    MPI_Comm_dup(world, &twin);
    MPI_Ibarrier(twin, &requests[0]);
    MPI_Comm_free(&twin);
    MPI_Type_contiguous(2, MPI_INT, &pair);
    MPI_Type_commit(&pair);
    MPI_Op_create(add, 1, &sums);
    MPI_Iallreduce(row, other, 3, pair, sums, world, &requests[1]);
    MPI_Op_free(&sums);
    MPI_Type_free(&pair);
    MPI_Comm_dup(world, &twin); /* it may have the handle of the first one */
    MPI_Barrier(twin);
    MPI_Waitall(2, requests, MPI_STATUSES_IGNORE);
    MPI_Comm_free(&twin);
}

static void right_freed_messages(void) {
    MPI_Recv_init(row, 1, MPI_INT, 1 - rank, 1, world, &requests[0]);
    MPI_Send_init(&one, 1, MPI_INT, 1 - rank, 1, world, &requests[1]);
    MPI_Startall(2, requests);
    MPI_Request_free(&requests[1]);
    MPI_Wait(&requests[0], MPI_STATUS_IGNORE);
    MPI_Start(&requests[0]);
    MPI_Issend(&one, 1, MPI_INT, 1 - rank, 1, world, &request);
    MPI_Request_free(&request);
    MPI_Wait(&requests[0], MPI_STATUS_IGNORE);
    MPI_Request_free(&requests[0]);
    MPI_Barrier(world);
}

/* Copies of communicators that are under way beside other calls, and whose parent is freed before they are there. */
static void right_idup(void) {
    MPI_Comm copies[3];
    int flag = 0, place;
    MPI_Comm_idup(world, &copies[0], &requests[0]);
    MPI_Ibarrier(world, &requests[1]);
    MPI_Allreduce(&one, &sum, 1, MPI_INT, MPI_SUM, world);
    MPI_Waitall(2, requests, MPI_STATUSES_IGNORE);
    MPI_Comm_idup(copies[0], &copies[1], &requests[0]);
    MPI_Comm_idup(world, &copies[2], &requests[1]);
#ifndef OPEN_MPI /* 4.1.4 crashes there, with the recorder and without it */
    MPI_Comm_free(&copies[0]);
#endif
    for (int done = 0; done < 2; done += flag)
        MPI_Testany(2, requests, &place, &flag, MPI_STATUS_IGNORE);
    MPI_Bcast(row, 1, MPI_INT, 1, copies[1]);
    MPI_Reduce(&one, &sum, 1, MPI_INT, MPI_SUM, 2, copies[2]);
#ifdef OPEN_MPI
    MPI_Comm_free(&copies[0]);
#endif
    MPI_Comm_free(&copies[1]);
    MPI_Comm_free(&copies[2]);
}

static int copy_twin(MPI_Comm comm, int key, void *extra, void *value, void *copy, int *flag) {
    static MPI_Comm inner;
    (void)comm, (void)key, (void)extra, (void)value;
    MPI_Comm_dup(twin, &inner);
    *(void **)copy = &inner;
    *flag = 1;
    return MPI_SUCCESS;
}

static int free_inner(MPI_Comm comm, int key, void *value, void *extra) {
    (void)comm, (void)key, (void)extra;
    return value == &one ? MPI_SUCCESS : MPI_Comm_free(value);
}

/* A copy of a communicator copies another one in its callback, as libraries do that keep one of their own. */
static void right_copied_within(void) {
    MPI_Comm copy, *inner;
    int key, flag;
    MPI_Comm_dup(world, &twin);
    MPI_Comm_create_keyval(copy_twin, free_inner, &key, NULL);
    MPI_Comm_set_attr(world, key, &one);
    MPI_Comm_dup(world, &copy);
    MPI_Comm_get_attr(copy, key, &inner, &flag);
    MPI_Allreduce(&one, &sum, 1, MPI_INT, MPI_SUM, *inner);
    MPI_Barrier(copy);
    MPI_Comm_free(&copy);
    MPI_Comm_delete_attr(world, key);
    MPI_Comm_free_keyval(&key);
    MPI_Bcast(row, 1, MPI_INT, 0, twin);
    MPI_Comm_free(&twin);
}

static int send_late(MPI_Comm comm, int key, void *value, void *extra) {
    (void)comm, (void)key, (void)value, (void)extra;
    sleep(30);
    return MPI_Send(&one, 1, MPI_INT, 0, 3, world);
}

/* A rank waits for what another one sends in a callback of MPI_Finalize, and is ended before. */
static void ended_before_callback(void) {
    int key;
    if (rank == 0) {
        MPI_Recv(&sum, 1, MPI_INT, 1, 3, world, MPI_STATUS_IGNORE);
        return;
    }
    MPI_Comm_create_keyval(MPI_COMM_NULL_COPY_FN, send_late, &key, NULL);
    MPI_Comm_set_attr(MPI_COMM_SELF, key, &one);
}

/* Right programs: arguments */

/* What isn't significant at a rank may be anything. */
static void right_insignificant(void) {
    int *nowhere = (int *)(uintptr_t)rank, counts[8], places[8];
    MPI_Datatype types[8], none = MPI_DATATYPE_NULL;
    for (int place = 0; place < size; place++) {
        counts[place] = 1;
        places[place] = place;
        types[place] = MPI_INT;
    }
    int root = rank == 0;
    MPI_Gather(&one, 1, MPI_INT, root ? row : nowhere, root ? 1 : -7, root ? MPI_INT : none, 0, world);
    MPI_Gatherv(&one, 1, MPI_INT, root ? row : nowhere, root ? counts : nowhere, root ? places : nowhere, root ? MPI_INT : none, 0, world);
    MPI_Scatter(root ? row : nowhere, root ? 1 : -7, root ? MPI_INT : none, &sum, 1, MPI_INT, 0, world);
    MPI_Scatterv(root ? row : nowhere, root ? counts : nowhere, root ? places : nowhere, root ? MPI_INT : none, &sum, 1, MPI_INT, 0, world);
    MPI_Reduce(&one, root ? &sum : nowhere, 1, MPI_INT, MPI_SUM, 0, world);
    MPI_Igatherv(root ? MPI_IN_PLACE : (void *)&one, root ? -7 : 1, root ? none : MPI_INT, root ? row : nowhere, root ? counts : nowhere, root ? places : nowhere,
                 root ? MPI_INT : none, 0, world, &request);
    MPI_Wait(&request, MPI_STATUS_IGNORE);
    MPI_Allgather(MPI_IN_PLACE, -7, none, row, 1, MPI_INT, world);
    MPI_Alltoallv(MPI_IN_PLACE, nowhere, nowhere, none, row, counts, places, MPI_INT, world);
    for (int place = 0; place < size; place++)
        places[place] *= 4;
    MPI_Alltoallw(MPI_IN_PLACE, nowhere, nowhere, NULL, row, counts, places, types, world);
}

/* MPI_IN_PLACE wherever MPI has it, in each form. */
static void right_in_place_kinds(void) {
    int counts[8], places[8], root = rank == 1;
    void *mine = root ? MPI_IN_PLACE : (void *)row;
    MPI_Datatype types[8];
    for (int place = 0; place < size; place++) {
        counts[place] = place + 1;
        places[place] = 2 * place * size;
        types[place] = MPI_INT;
    }
    MPI_Igather(mine, 2, MPI_INT, row, 2, MPI_INT, 1, world, &requests[0]);
    MPI_Wait(&requests[0], MPI_STATUS_IGNORE);
    MPI_Iscatter(row, 2, MPI_INT, root ? MPI_IN_PLACE : (void *)other, 2, MPI_INT, 1, world, &requests[0]);
    MPI_Wait(&requests[0], MPI_STATUS_IGNORE);
    MPI_Scatterv(row, counts, places, MPI_INT, root ? MPI_IN_PLACE : (void *)other, rank + 1, MPI_INT, 1, world);
    MPI_Iallgatherv(MPI_IN_PLACE, 0, MPI_INT, row, counts, places, MPI_INT, world, &requests[0]);
    MPI_Wait(&requests[0], MPI_STATUS_IGNORE);
    MPI_Ialltoall(MPI_IN_PLACE, 0, MPI_INT, row, 2, MPI_INT, world, &requests[0]);
    MPI_Wait(&requests[0], MPI_STATUS_IGNORE);
    for (int place = 0; place < size; place++)
        counts[place] = 2;
    MPI_Ialltoallw(MPI_IN_PLACE, NULL, NULL, NULL, row, counts, places, types, world, &requests[0]);
    MPI_Wait(&requests[0], MPI_STATUS_IGNORE);
    MPI_Ireduce(root ? MPI_IN_PLACE : (void *)row, root ? (void *)row : NULL, 3, MPI_INT, MPI_BXOR, 1, world, &requests[0]);
    MPI_Wait(&requests[0], MPI_STATUS_IGNORE);
    MPI_Ireduce_scatter(MPI_IN_PLACE, row, counts, MPI_INT, MPI_MAX, world, &requests[0]);
    MPI_Wait(&requests[0], MPI_STATUS_IGNORE);
    MPI_Reduce_scatter_block(MPI_IN_PLACE, row, 2, MPI_INT, MPI_MIN, world);
    MPI_Scan(MPI_IN_PLACE, row, 2, MPI_INT, MPI_BOR, world);
    MPI_Iexscan(MPI_IN_PLACE, row, 2, MPI_INT, MPI_BAND, world, &requests[0]);
    MPI_Wait(&requests[0], MPI_STATUS_IGNORE);
    INIT(Allreduce_init)(MPI_IN_PLACE, row, 2, MPI_INT, MPI_BOR, world, MPI_INFO_NULL, &requests[0]);
    INIT(Scan_init)(MPI_IN_PLACE, row + 2, 2, MPI_INT, MPI_BOR, world, MPI_INFO_NULL, &requests[1]);
    for (int turn = 0; turn < 3; turn++) {
        MPI_Startall(2, requests);
        MPI_Waitall(2, requests, MPI_STATUSES_IGNORE);
    }
    MPI_Request_free(&requests[0]);
    MPI_Request_free(&requests[1]);
}

/* One type by its precision, another by its name, and types made of them. */
static void right_types_by_precision(void) {
    MPI_Datatype real, integer, rows;
    MPI_Type_create_f90_real(12, 100, &real);
    MPI_Type_create_f90_integer(6, &integer);
    MPI_Type_vector(2, 1, 2, integer, &rows);
    MPI_Type_commit(&rows);
    MPI_Bcast(row, 2, real, 0, world);
    MPI_Bcast(row, rank ? 1 : 2, rank ? rows : integer, 0, world);
    MPI_Allgather(row, 2, integer, other, 1, rows, world);
    MPI_Type_free(&rows);
}

/* Counts of MPI_Count for each rank. */
static void right_counts_of_four(void) {
#if MPI_VERSION >= 4
    MPI_Count counts[8], mine[8];
    MPI_Aint places[8];
    for (int place = 0; place < size; place++) {
        counts[place] = place + 1;
        mine[place] = rank + 1;
        places[place] = 8 * place;
    }
    MPI_Gatherv_c(row, rank + 1, MPI_INT, other, counts, places, MPI_INT, 0, world);
    MPI_Scatterv_c(other, counts, places, MPI_INT, row, rank + 1, MPI_INT, 0, world);
    MPI_Iallgatherv_c(row, rank + 1, MPI_INT, other, counts, places, MPI_INT, world, &request);
    MPI_Wait(&request, MPI_STATUS_IGNORE);
    MPI_Alltoallv_c(row, counts, places, MPI_INT, other, mine, places, MPI_INT, world);
    MPI_Reduce_scatter_c(row, other, counts, MPI_INT, MPI_SUM, world);
    MPI_Allreduce_c(row, other, 5, MPI_INT, MPI_SUM, world);
    MPI_Bcast_c(row, 5, MPI_INT, 0, world);
#else
    MPI_Bcast(row, 5, MPI_INT, 0, world);
#endif
}

/* Right programs: neighbours, intercommunicators, groups */

/* Each rank sends to the next one, the last one to nobody, and the first one gets nothing. */
static void right_neighbour_kinds(void) {
    MPI_Comm line;
    int before = rank - 1, next = rank + 1, in = rank > 0, out = next < size, counts[1] = {2}, places[1] = {0}, weight = 1;
    MPI_Aint distances[1] = {0};
    MPI_Datatype types[1] = {MPI_INT};
    MPI_Dist_graph_create_adjacent(world, in, &before, &weight, out, &next, &weight, MPI_INFO_NULL, 0, &line);
    MPI_Neighbor_allgather(row, 2, MPI_INT, other, 2, MPI_INT, line);
    MPI_Neighbor_allgatherv(row, 2, MPI_INT, other, counts, places, MPI_INT, line);
    MPI_Neighbor_alltoallv(row, counts, places, MPI_INT, other, counts, places, MPI_INT, line);
    MPI_Ineighbor_alltoallw(row, counts, distances, types, other, counts, distances, types, line, &requests[0]);
    MPI_Ineighbor_alltoall(row, 2, MPI_INT, other + 8, 2, MPI_INT, line, &requests[1]);
    MPI_Waitall(2, requests, MPI_STATUSES_IGNORE);
    INIT(Neighbor_alltoall_init)(row, 2, MPI_INT, other, 2, MPI_INT, line, MPI_INFO_NULL, &requests[0]);
    for (int turn = 0; turn < 3; turn++) {
        MPI_Start(&requests[0]);
        MPI_Wait(&requests[0], MPI_STATUS_IGNORE);
    }
    MPI_Request_free(&requests[0]);
    MPI_Allreduce(&one, &sum, 1, MPI_INT, MPI_SUM, line);
    MPI_Comm_free(&line);
}

static void right_bridge(void) {
    MPI_Comm half, bridge, copy, merged;
    int low = rank < size / 2, root = low ? (rank == 0 ? MPI_ROOT : MPI_PROC_NULL) : 0;
    MPI_Comm_split(world, low, 0, &half);
    MPI_Intercomm_create(half, 0, world, low ? size / 2 : 0, 7, &bridge);
    MPI_Bcast(row, 2, MPI_INT, root, bridge);
    MPI_Allreduce(&one, &sum, 1, MPI_INT, MPI_SUM, bridge);
    MPI_Iallgather(row, 1, MPI_INT, other, 1, MPI_INT, bridge, &requests[0]);
    MPI_Ibarrier(world, &requests[1]);
    MPI_Waitall(2, requests, MPI_STATUSES_IGNORE);
    MPI_Comm_dup(bridge, &copy);
    MPI_Ibarrier(copy, &requests[0]);
    MPI_Wait(&requests[0], MPI_STATUS_IGNORE);
    MPI_Intercomm_merge(copy, low, &merged);
    MPI_Bcast(row, 1, MPI_INT, 1, merged);
    MPI_Comm *made[] = {&merged, &copy, &bridge, &half};
    for (int place = 0; place < 4; place++)
        MPI_Comm_free(made[place]);
    MPI_Allreduce(&one, &sum, 1, MPI_INT, MPI_SUM, world);
}

/* Pairs make communicators of their own, each rank in an order of its own. */
static void right_pairs(void) {
    MPI_Comm pairs[8];
    MPI_Group all, pair;
    MPI_Comm_group(world, &all);
    for (int round = 0; round < 2; round++)
        for (int peer = 0; peer < size; peer++) {
            int two[] = {rank < peer ? rank : peer, rank < peer ? peer : rank};
            if (peer == rank)
                continue;
            MPI_Group_incl(all, 2, two, &pair);
            MPI_Comm_create_group(world, pair, 5, &pairs[peer]);
            MPI_Group_free(&pair);
            MPI_Allreduce(&one, &sum, 1, MPI_INT, two[0] == 0 ? MPI_MAX : MPI_SUM, pairs[peer]);
            MPI_Comm_free(&pairs[peer]);
        }
    MPI_Group_free(&all);
    MPI_Barrier(world);
}

static void right_session(void) {
#if MPI_VERSION >= 4
    MPI_Session session;
    MPI_Group group;
    MPI_Session_init(MPI_INFO_NULL, MPI_ERRORS_ARE_FATAL, &session);
    MPI_Group_from_session_pset(session, "mpi://WORLD", &group);
    MPI_Comm_create_from_group(group, "tried", MPI_INFO_NULL, MPI_ERRORS_ARE_FATAL, &twin);
    MPI_Group_free(&group);
    MPI_Allreduce(&one, &sum, 1, MPI_INT, MPI_SUM, twin);
    MPI_Barrier(world);
    MPI_Comm_free(&twin);
    MPI_Session_finalize(&session);
#endif
    MPI_Allreduce(&one, &sum, 1, MPI_INT, MPI_SUM, world);
}

/* Right programs: requests and threads */

static int query_nothing(void *extra, MPI_Status *status) {
    (void)extra;
    MPI_Status_set_elements(status, MPI_INT, 0);
    MPI_Status_set_cancelled(status, 0);
    return MPI_SUCCESS;
}

static int free_nothing(void *extra) { return extra ? MPI_SUCCESS : MPI_ERR_OTHER; }

static int cancel_nothing(void *extra, int complete) { return extra && complete ? MPI_SUCCESS : MPI_ERR_OTHER; }

static void right_own_request(void) {
    int flag = 0;
    MPI_Grequest_start(query_nothing, free_nothing, cancel_nothing, &one, &requests[0]);
    MPI_Ibcast(row, 1, MPI_INT, 0, world, &requests[1]);
    MPI_Grequest_complete(requests[0]);
    while (!flag)
        MPI_Request_get_status(requests[1], &flag, MPI_STATUS_IGNORE);
    MPI_Waitall(2, requests, MPI_STATUSES_IGNORE);
    MPI_Barrier(world);
}

/* Parts of a message that are sent one after the other, with a barrier between them. */
static void right_parts(void) {
#if MPI_VERSION >= 4
    if (rank == 0)
        MPI_Psend_init(row, 4, 2, MPI_INT, 1, 3, world, MPI_INFO_NULL, &request);
    else
        MPI_Precv_init(row, 4, 2, MPI_INT, 0, 3, world, MPI_INFO_NULL, &request);
    MPI_Start(&request);
    for (int part = 0; rank == 0 && part < 4; part++)
        MPI_Pready(part, request);
    MPI_Wait(&request, MPI_STATUS_IGNORE);
    MPI_Request_free(&request);
#endif
    MPI_Barrier(world);
}

/* Each thread has a communicator of its own, and takes operations and makes copies as it comes to them. */
static void *work_on(void *comm) {
    MPI_Comm mine = *(MPI_Comm *)comm, copy;
    MPI_Request under_way;
    int sums, ones = 1;
    for (int turn = 0; turn < 50; turn++) {
        MPI_Iallreduce(&ones, &sums, 1, MPI_INT, MPI_SUM, mine, &under_way);
        MPI_Wait(&under_way, MPI_STATUS_IGNORE);
        MPI_Bcast(&sums, 1, MPI_INT, turn % 2, mine);
    }
    MPI_Comm_dup(mine, &copy);
    MPI_Barrier(copy);
    MPI_Comm_free(&copy);
    return NULL;
}

static void right_threads_apart(void) {
    MPI_Comm comms[3];
    pthread_t threads[3];
    for (int place = 0; place < 3; place++)
        MPI_Comm_dup(world, &comms[place]);
    for (int place = 0; place < 3; place++)
        pthread_create(&threads[place], NULL, work_on, &comms[(place + rank) % 3]);
    for (int place = 0; place < 3; place++)
        pthread_join(threads[place], NULL);
    for (int place = 0; place < 3; place++)
        MPI_Comm_free(&comms[place]);
}

/* Faults */

static void freed_while_active(void) {
    INIT(Allreduce_init)(&one, &sum, 1, MPI_INT, MPI_SUM, world, MPI_INFO_NULL, &request);
    MPI_Start(&request);
    MPI_Request_free(&request); /* A */
    MPI_Barrier(world);
}

static void neighbour_forms(void) {
    MPI_Comm ring;
    MPI_Cart_create(world, 1, &size, (int[]){1}, 0, &ring);
    if (rank) {
        MPI_Ineighbor_allgather(row, 1, MPI_INT, other, 1, MPI_INT, ring, &request); /* B */
        MPI_Wait(&request, MPI_STATUS_IGNORE);
    } else
        MPI_Neighbor_allgather(row, 1, MPI_INT, other, 1, MPI_INT, ring); /* A */
}

static void idup_meets_receive(void) {
    if (rank)
        MPI_Recv(&sum, 1, MPI_INT, 0, 3, world, MPI_STATUS_IGNORE); /* B */
    MPI_Comm_idup(world, &twin, &request);                          /* A */
    MPI_Wait(&request, MPI_STATUS_IGNORE);
    if (rank == 0)
        MPI_Send(&one, 1, MPI_INT, 1, 3, world);
}

static void counts_of_four(void) {
    const int wrong = rank ? 2 : 1;
#if MPI_VERSION >= 4
    MPI_Count counts[] = {1, 1}, mine[] = {wrong, 1};
    MPI_Aint places[] = {0, 4};
    MPI_Alltoallv_c(row, mine, places, MPI_INT, other, counts, places, MPI_INT, world); /* A */
#else
    int counts[] = {1, 1}, mine[] = {wrong, 1}, places[] = {0, 4};
    MPI_Alltoallv(row, mine, places, MPI_INT, other, counts, places, MPI_INT, world);
#endif
}

static void in_place_count(void) {
    if (rank == 0)
        MPI_Allgather(MPI_IN_PLACE, 0, MPI_DATATYPE_NULL, row, 2, MPI_INT, world); /* A */
    else
        MPI_Allgather(&one, 1, MPI_INT, row, 1, MPI_INT, world); /* B */
}

static void *other_root_in_thread(void *comm) {
    MPI_Bcast(row, 1, MPI_INT, rank, *(MPI_Comm *)comm); /* A */
    return NULL;
}

static void threads_other_root(void) {
    pthread_t thread;
    MPI_Comm_dup(world, &twin);
    pthread_create(&thread, NULL, other_root_in_thread, &twin);
    pthread_join(thread, NULL);
    MPI_Barrier(world);
}

/* A pair is as a structure of its value and its index (MPI 4.1, 6.9.4). */
static void right_pair_parts(void) {
    struct { double value; int index; } pair = {0.5, 1};
    MPI_Datatype structure;
    MPI_Aint places[] = {0, (char *)&pair.index - (char *)&pair.value};
    MPI_Type_create_struct(2, (int[]){1, 1}, places, (MPI_Datatype[]){MPI_DOUBLE, MPI_INT}, &structure);
    MPI_Type_commit(&structure);
    MPI_Bcast(&pair, 1, rank ? MPI_DOUBLE_INT : structure, 0, world);
    MPI_Bcast(row, rank ? 1000 : 2000, rank ? MPI_2INT : MPI_INT, 0, world);
    MPI_Type_free(&structure);
}

const struct program programs[] = {
    PROGRAM(right_freed_before_wait), PROGRAM(right_freed_messages), PROGRAM(right_idup), PROGRAM(right_copied_within), PROGRAM(right_insignificant),
    PROGRAM(right_in_place_kinds), PROGRAM(right_types_by_precision), PROGRAM(right_counts_of_four), PROGRAM(right_neighbour_kinds), PROGRAM(right_bridge),
    PROGRAM(right_pairs), PROGRAM(right_session), PROGRAM(right_own_request), PROGRAM(right_parts), PROGRAM(right_threads_apart), PROGRAM(ended_before_callback), PROGRAM(freed_while_active),
    PROGRAM(neighbour_forms), PROGRAM(idup_meets_receive), PROGRAM(counts_of_four), PROGRAM(in_place_count), PROGRAM(threads_other_root), PROGRAM(right_pair_parts), {0},
};
