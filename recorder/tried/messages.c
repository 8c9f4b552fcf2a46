/* Programs whose messages don't fit, get lost, stay open, or meet only where a library copies them; and right ones. */
#include "tried.h"

static double reals[8];
static int peer(void) { return rank ^ 1; }

static void message_types(void) {
    if (rank == 0)
        MPI_Send(row, 2, MPI_INT, 1, 1, world); /* A */
    else
        MPI_Recv(reals, 1, MPI_DOUBLE, 0, 1, world, MPI_STATUS_IGNORE); /* B */
}

/* The last of many messages has another type, and each is sent by a persistent request. */
static void message_type_of_start(void) {
    for (int turn = 0; turn < 5; turn++) {
        MPI_Datatype type = turn == 4 ? MPI_FLOAT : MPI_INT;
        if (rank == 0) {
            MPI_Send_init(row, 1, type, 1, 7, world, &request); /* A */
            MPI_Start(&request);
            MPI_Wait(&request, MPI_STATUS_IGNORE);
            MPI_Request_free(&request);
        } else
            MPI_Recv(row, 4, MPI_INT, 0, 7, world, MPI_STATUS_IGNORE); /* B */
    }
}

static void message_types_of_any(void) {
    if (rank == 0)
        MPI_Send(row, 2, MPI_INT, 1, 1, world); /* A */
    else
        MPI_Recv(reals, 1, MPI_DOUBLE, MPI_ANY_SOURCE, 1, world, MPI_STATUS_IGNORE); /* B */
}

static void lost_message(void) {
    if (rank == 0)
        for (int turn = 0; turn < 3; turn++)
            MPI_Send(row, 1, MPI_INT, 1, 4, world); /* A */
    else
        MPI_Recv(row, 1, MPI_INT, 0, 4, world, MPI_STATUS_IGNORE);
}

static void receive_never_completed(void) {
    if (rank == 0)
        MPI_Irecv(row, 1, MPI_INT, 1, 3, world, &request); /* A */
    else
        MPI_Send(row, 1, MPI_INT, 0, 2, world); /* B */
}

static void sends_never_completed(void) {
    for (int turn = 0; turn < 2; turn++)
        if (rank == 0)
            MPI_Isend(row, 1, MPI_INT, 1, 3, world, &requests[turn]); /* A */
        else
            MPI_Recv(row, 1, MPI_INT, 0, 3, world, MPI_STATUS_IGNORE);
}

static void unsafe_sends(void) {
    MPI_Send(row, 1, MPI_INT, peer(), 1, world); /* A */
    MPI_Recv(other, 1, MPI_INT, peer(), 1, world, MPI_STATUS_IGNORE);
}

static void unsafe_waits_for_sends(void) {
    MPI_Isend(row, 1, MPI_INT, peer(), 1, world, &request); /* A */
    MPI_Wait(&request, MPI_STATUS_IGNORE);                  /* B */
    MPI_Recv(other, 1, MPI_INT, peer(), 1, world, MPI_STATUS_IGNORE);
}

static void unsafe_send_before_barrier(void) {
    if (rank == 0)
        MPI_Send(row, 1, MPI_INT, 1, 1, world); /* A */
    MPI_Barrier(world);                         /* B */
    if (rank == 1)
        MPI_Recv(other, 1, MPI_INT, 0, 1, world, MPI_STATUS_IGNORE);
}

/* Each rank sends to the right before it receives from the left, in a loop that isn't the first one. */
static void unsafe_ring(void) {
    for (int turn = 0; turn < 3; turn++)
        MPI_Sendrecv(row, 1, MPI_INT, (rank + 1) % size, 2, other, 1, MPI_INT, (rank + size - 1) % size, 2, world, MPI_STATUS_IGNORE);
    MPI_Send(row, 1, MPI_INT, (rank + 1) % size, 1, world); /* A */
    MPI_Recv(other, 1, MPI_INT, (rank + size - 1) % size, 1, world, MPI_STATUS_IGNORE);
}

/* What MPI allows: shorter messages, a structure that meets its parts, bytes, packed ones, receives from any rank, a freed send, tests. */
static void right_message_kinds(void) {
    MPI_Datatype two, mixed;
    int flag = 0;
    MPI_Type_contiguous(2, MPI_INT, &two);
    MPI_Type_create_struct(2, (int[]){1, 2}, (MPI_Aint[]){0, 8}, (MPI_Datatype[]){MPI_DOUBLE, MPI_INT}, &mixed);
    MPI_Type_commit(&two);
    MPI_Type_commit(&mixed);
    MPI_Sendrecv(row, 3, two, peer(), 1, other, 100, MPI_INT, peer(), 1, world, MPI_STATUS_IGNORE);
    MPI_Sendrecv(reals, 1, mixed, peer(), 2, other, 2, mixed, peer(), 2, world, MPI_STATUS_IGNORE);
    MPI_Sendrecv(row, 8, MPI_BYTE, peer(), 3, other, 8, MPI_BYTE, peer(), 3, world, MPI_STATUS_IGNORE);
    MPI_Irecv(other, 1, MPI_INT, MPI_ANY_SOURCE, 4, world, &requests[0]);
    MPI_Isend(row, 1, MPI_INT, peer(), 4, world, &requests[1]);
    MPI_Request_free(&requests[1]);
    while (!flag)
        MPI_Test(&requests[0], &flag, MPI_STATUS_IGNORE);
    MPI_Sendrecv_replace(row, 1, MPI_INT, peer(), 5, peer(), 5, world, MPI_STATUS_IGNORE);
    MPI_Send(row, 1, MPI_INT, MPI_PROC_NULL, 1, world);
    MPI_Type_free(&two);
    MPI_Type_free(&mixed);
    MPI_Barrier(world);
}

/* A halo exchange whose sends stand before its receives, but wait for nobody before these are called. */
static void right_halo(void) {
    int left = rank ? rank - 1 : MPI_PROC_NULL, right = rank < size - 1 ? rank + 1 : MPI_PROC_NULL;
    for (int turn = 0; turn < 20; turn++) {
        MPI_Isend(row, 10, MPI_INT, left, 1, world, &requests[0]);
        MPI_Isend(row, 10, MPI_INT, right, 2, world, &requests[1]);
        MPI_Irecv(other, 10, MPI_INT, right, 1, world, &requests[2]);
        MPI_Irecv(other + 10, 10, MPI_INT, left, 2, world, &requests[3]);
        MPI_Waitall(4, requests, MPI_STATUSES_IGNORE);
        MPI_Allreduce(&one, &sum, 1, MPI_INT, MPI_SUM, world);
    }
    if (rank % 2 == 0 && right >= 0)
        MPI_Ssend(row, 1, MPI_INT, right, 3, world);
    else if (rank % 2 && left >= 0)
        MPI_Recv(other, 1, MPI_INT, left, 3, world, MPI_STATUS_IGNORE);
}

const struct program programs[] = {
    PROGRAM(message_types), PROGRAM(message_type_of_start), PROGRAM(message_types_of_any), PROGRAM(lost_message), PROGRAM(receive_never_completed),
    PROGRAM(sends_never_completed), PROGRAM(unsafe_sends), PROGRAM(unsafe_waits_for_sends), PROGRAM(unsafe_send_before_barrier), PROGRAM(unsafe_ring),
    PROGRAM(right_message_kinds), PROGRAM(right_halo), {0},
};
