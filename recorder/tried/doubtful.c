/* Further small programs for ../tried.py, whose records leave something open: what takes long, threads that haven't called MPI yet, jumps,
   callbacks of MPI_Finalize, calls that the library refuses, and those of which MPI leaves open whether they wait. The marks A and B name lines
   for it. */
#include "tried.h"

#include <setjmp.h>

/* Right programs that are ended while they work */

static const size_t BYTES = (size_t)8 << 30;

/* A message takes seconds, and each rank stands in a call until it is there. */
static void send_for_ever(void) {
    char *much = many_bytes(BYTES);
    for (;;) {
        if (rank == 0) {
            MPI_Recv(much, (int)(BYTES / 8), MPI_DOUBLE, 1, 1, world, MPI_STATUS_IGNORE);
            MPI_Barrier(world);
        } else {
            MPI_Isend(much, (int)(BYTES / 8), MPI_DOUBLE, 0, 1, world, &request);
            MPI_Barrier(world);
            MPI_Wait(&request, MPI_STATUS_IGNORE);
        }
    }
}

static void ended_after_cancel(void) {
    if (rank == 0) {
        MPI_Irecv(row, 1, MPI_INT, 1, 1, world, &request);
        MPI_Cancel(&request);
        MPI_Wait(&request, MPI_STATUS_IGNORE);
    }
    MPI_Barrier(world);
    send_for_ever();
}

static void ended_after_refused(void) {
    MPI_Comm_set_errhandler(world, MPI_ERRORS_RETURN);
    if (rank == 0)
        MPI_Recv(row, -1, MPI_INT, 1, 1, world, MPI_STATUS_IGNORE);
    send_for_ever();
}

/* The last rank gives its part after a message of the one whose part takes seconds. */
static void ended_in_a_gatherv(void) {
    int counts[3] = {0, (int)(BYTES / 8), 1}, places[3] = {0, 0, 0};
    char *much = many_bytes(BYTES);
    for (;;) {
        if (rank == 2)
            MPI_Recv(&sum, 1, MPI_INT, 1, 2, world, MPI_STATUS_IGNORE);
        MPI_Gatherv(much, counts[rank], MPI_DOUBLE, much, counts, places, MPI_DOUBLE, 0, world);
        if (rank == 1)
            MPI_Send(&one, 1, MPI_INT, 2, 2, world);
    }
}

/* Nothing goes between the first rank and the last one. */
static void ended_in_an_alltoallv(void) {
    int counts[3] = {0, rank == 0, 0}, places[3] = {0, 0, 0};
    counts[0] = rank == 1;
    if (rank == 1)
        never();
    if (rank == 2)
        MPI_Recv(&sum, 1, MPI_INT, 0, 2, world, MPI_STATUS_IGNORE);
    MPI_Alltoallv(row, counts, places, MPI_INT, other, counts, places, MPI_INT, world);
    if (rank == 0)
        MPI_Send(&one, 1, MPI_INT, 2, 2, world);
}

static void *barrier_later(void *comm) {
    sleep(30);
    MPI_Barrier(*(MPI_Comm *)comm);
    return NULL;
}

/* Each rank's second thread makes the call for which the other rank's first one waits. */
static void ended_before_threads(void) {
    pthread_t thread;
    MPI_Comm_dup(world, &twin);
    pthread_create(&thread, NULL, barrier_later, rank ? &world : &twin);
    MPI_Barrier(rank ? twin : world);
    pthread_join(thread, NULL);
}

/* Right programs */

static void *wait_for_request(void *unused) {
    (void)unused;
    MPI_Wait(&request, MPI_STATUS_IGNORE);
    return NULL;
}

static void right_waiting_threads(void) {
    pthread_t thread;
    MPI_Comm_dup(world, &twin);
    if (rank == 0) {
        MPI_Ibarrier(world, &request);
        pthread_create(&thread, NULL, wait_for_request, NULL);
        usleep(200000);
        MPI_Barrier(twin);
        pthread_join(thread, NULL);
    } else {
        MPI_Barrier(twin);
        MPI_Ibarrier(world, &request);
        wait_for_request(NULL);
    }
}

static jmp_buf before_fault;

static void jump(MPI_Comm *comm, int *code, ...) {
    (void)comm, (void)code;
    longjmp(before_fault, 1);
}

static __attribute__((noinline)) void reduce_below(int levels) {
    volatile char room[4096];
    room[0] = (char)levels;
    if (levels > room[0] - levels)
        reduce_below(levels - 1);
    else
        MPI_Allreduce(&one, &sum, 1, MPI_INT, MPI_SUM, world);
    room[1] = 0;
}

/* What is called after the jump lies lower on the stack than what was left. */
static void right_jump_below(void) {
    MPI_Errhandler handler;
    MPI_Comm_create_errhandler(jump, &handler);
    MPI_Comm_set_errhandler(world, handler);
    if (rank == 0 && !setjmp(before_fault))
        MPI_Send(&one, 1, MPI_INT, size, 0, world);
    MPI_Comm_set_errhandler(world, MPI_ERRORS_ARE_FATAL);
    MPI_Errhandler_free(&handler);
    reduce_below(4);
}

/* Collectives of nothing may have one handle for all, and the program's own copy of a handle stands elsewhere. */
static void right_copied_requests(void) {
    MPI_Comm third;
    MPI_Request copy;
    MPI_Comm_dup(world, &twin);
    MPI_Comm_dup(world, &third);
    MPI_Ibcast(row, 0, MPI_INT, 0, world, &requests[0]);
    if (rank == 0)
        MPI_Ibcast(row, 0, MPI_INT, 0, twin, &requests[1]);
    copy = requests[0];
    MPI_Wait(&copy, MPI_STATUS_IGNORE);
    MPI_Barrier(third);
    if (rank)
        MPI_Ibcast(row, 0, MPI_INT, 0, twin, &requests[1]);
    MPI_Wait(&requests[1], MPI_STATUS_IGNORE);
}

/* One element of three gibibytes, and as many of a mebibyte. */
static void right_huge_type(void) {
    const int parts = 3 << 10;
    MPI_Datatype part, whole;
    char *much = many_bytes((size_t)parts << 20);
    MPI_Type_contiguous(1 << 17, MPI_DOUBLE, &part);
    MPI_Type_contiguous(parts, part, &whole);
    MPI_Type_commit(&part);
    MPI_Type_commit(&whole);
    MPI_Bcast(much, rank ? 1 : parts, rank ? whole : part, 0, world);
    MPI_Type_free(&part);
    MPI_Type_free(&whole);
}

static int call_barrier(MPI_Comm comm, int key, void *value, void *extra) {
    (void)comm, (void)key, (void)value, (void)extra;
    return MPI_Barrier(world);
}

/* What is attached to MPI_COMM_SELF is deleted first in MPI_Finalize, where MPI can still be called. */
static void right_barrier_in_finalize(void) {
    int key;
    MPI_Comm_create_keyval(MPI_COMM_NULL_COPY_FN, call_barrier, &key, NULL);
    if (rank)
        MPI_Comm_set_attr(MPI_COMM_SELF, key, &one);
    else
        MPI_Barrier(world);
}

/* As recorded, the second rank's first barrier of all is its second. */
static void right_other_names(void) {
    MPI_Comm_dup(world, &twin);
    if (rank)
        PMPI_Barrier(world);
    else
        MPI_Barrier(world);
    MPI_Barrier(twin);
    MPI_Barrier(world);
}

/* Programs that end well where a library doesn't wait */

static void unsafe_free(void) {
    MPI_Comm_dup(world, &twin);
    if (rank == 0)
        MPI_Comm_free(&twin); /* A */
    MPI_Barrier(world);
    if (rank)
        MPI_Comm_free(&twin);
}

static void unsafe_tests(void) {
    int done = 0;
    MPI_Comm_dup(world, &twin);
    if (rank == 0) {
        MPI_Ibcast(row, 1, MPI_INT, 0, world, &request); /* A */
        while (!done)
            MPI_Test(&request, &done, MPI_STATUS_IGNORE); /* B */
        MPI_Barrier(twin);
    } else {
        MPI_Barrier(twin);
        MPI_Ibcast(row, 1, MPI_INT, 0, world, &request);
        MPI_Wait(&request, MPI_STATUS_IGNORE);
    }
}

/* Collectives of nothing: a library may wait in one for the others or not. */
static void unsafe_empty_waits(void) {
    MPI_Comm_dup(world, &twin);
    MPI_Iallreduce(row, other, 0, MPI_INT, MPI_SUM, rank ? twin : world, &request); /* A */
    MPI_Wait(&request, MPI_STATUS_IGNORE);                                          /* B */
    MPI_Iallreduce(row, other, 0, MPI_INT, MPI_SUM, rank ? world : twin, &request);
    MPI_Wait(&request, MPI_STATUS_IGNORE);
}

/* A library may make a persistent collective together with the others. */
static void unsafe_inits(void) {
    MPI_Comm_dup(world, &twin);
    INIT(Barrier_init)(rank ? twin : world, MPI_INFO_NULL, &requests[rank != 0]); /* A */
    INIT(Barrier_init)(rank ? world : twin, MPI_INFO_NULL, &requests[rank == 0]);
    MPI_Startall(2, requests);
    MPI_Waitall(2, requests, MPI_STATUSES_IGNORE);
    MPI_Request_free(&requests[0]);
    MPI_Request_free(&requests[1]);
}

/* Faults that a run passes over */

static void never_completed_start(void) {
    INIT(Bcast_init)(row, 1, MPI_INT, 0, world, MPI_INFO_NULL, &requests[0]); /* A */
    MPI_Start(&requests[0]);
}

static void refused_root(void) {
    MPI_Comm_set_errhandler(world, MPI_ERRORS_RETURN);
    MPI_Bcast(row, 1, MPI_INT, 99, world); /* A */
}

static void skipped_info(void) {
    if (rank)
        MPI_Comm_set_info(world, MPI_INFO_ENV); /* A */
    MPI_Barrier(world);                         /* B */
}

static void skipped_window_hints(void) {
    MPI_Win window;
    MPI_Win_create(row, sizeof row, 1, MPI_INFO_NULL, world, &window);
    if (rank)
        MPI_Win_set_info(window, MPI_INFO_ENV); /* A */
    MPI_Win_free(&window);                      /* B */
}

/* Calls in which a rank that waits stands now and then, or for long */

static void ended_in_status_tests(void) {
    int done = 0;
    if (rank == 0)
        MPI_Recv(&sum, 1, MPI_INT, 1, 3, world, MPI_STATUS_IGNORE); /* A */
    MPI_Ibarrier(world, &request);
    while (!done)
        MPI_Request_get_status(request, &done, MPI_STATUS_IGNORE);
}

/* A message takes seconds. */
static void ended_in_a_matched_message(void) {
    const size_t bytes = (size_t)8 << 30;
    char *much = many_bytes(bytes);
    MPI_Message taken;
    for (;;) {
        if (rank == 0) {
            MPI_Mprobe(1, 1, world, &taken, MPI_STATUS_IGNORE);
            MPI_Mrecv(much, (int)(bytes / 8), MPI_DOUBLE, &taken, MPI_STATUS_IGNORE); /* A */
        } else
            MPI_Send(much, (int)(bytes / 8), MPI_DOUBLE, 0, 1, world);
    }
}

static void ended_in_accept(void) {
    char port[MPI_MAX_PORT_NAME] = "";
    MPI_Comm bridge;
    if (rank == 0)
        MPI_Open_port(MPI_INFO_NULL, port);
    MPI_Comm_accept(port, MPI_INFO_NULL, 0, world, &bridge); /* A */
}

static void right_connected(void) {
    char port[MPI_MAX_PORT_NAME] = "";
    MPI_Comm bridge;
    if (rank == 0) {
        MPI_Open_port(MPI_INFO_NULL, port);
        MPI_Send(port, sizeof port, MPI_CHAR, 1, 1, world);
        MPI_Comm_accept(port, MPI_INFO_NULL, 0, MPI_COMM_SELF, &bridge);
    } else {
        MPI_Recv(port, sizeof port, MPI_CHAR, 0, 1, world, MPI_STATUS_IGNORE);
        MPI_Comm_connect(port, MPI_INFO_NULL, 0, MPI_COMM_SELF, &bridge);
    }
    MPI_Barrier(bridge);
    MPI_Comm_disconnect(&bridge);
    if (rank == 0)
        MPI_Close_port(port);
}

static void drop_file(const char *name) {
    char path[4096];
    snprintf(path, sizeof path, "%s/%s.%d", getenv("RECORD_DIR"), name, rank);
    if (unlink(path))
        MPI_Abort(world, 1);
}

/* The files of a rank are lost, as where its machine fails. */
static void right_lost_record(void) {
    INIT(Allreduce_init)(&one, &sum, 1, MPI_INT, MPI_SUM, world, MPI_INFO_NULL, &request);
    for (int turn = 0; turn < 3; turn++) {
        MPI_Start(&request);
        MPI_Wait(&request, MPI_STATUS_IGNORE);
    }
    MPI_Request_free(&request);
    MPI_Comm_dup(world, &twin);
    MPI_Bcast(row, 4, MPI_INT, 1, twin);
    MPI_Comm_free(&twin);
    if (rank == 1) {
        drop_file("rank");
        drop_file("now");
    }
}

const struct program programs[] = {
    PROGRAM(ended_after_cancel), PROGRAM(ended_after_refused), PROGRAM(ended_in_a_gatherv), PROGRAM(ended_in_an_alltoallv),
    PROGRAM(ended_before_threads), PROGRAM(right_waiting_threads), PROGRAM(right_jump_below), PROGRAM(right_copied_requests),
    PROGRAM(right_huge_type), PROGRAM(right_barrier_in_finalize), PROGRAM(right_other_names), PROGRAM(unsafe_free), PROGRAM(unsafe_tests), PROGRAM(unsafe_empty_waits), PROGRAM(unsafe_inits),
    PROGRAM(never_completed_start), PROGRAM(refused_root), PROGRAM(skipped_info), PROGRAM(skipped_window_hints),
    PROGRAM(ended_in_status_tests), PROGRAM(ended_in_a_matched_message), PROGRAM(ended_in_accept), PROGRAM(right_connected), PROGRAM(right_lost_record), {0},
};
