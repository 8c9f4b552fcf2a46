/* Further small programs for ../tried.py: calls that aren't collectives, callbacks, jumps, handles that several have, long runs. The marks A and B
   name lines for it. */
#include "tried.h"

#include <setjmp.h>
#include <stdint.h>

/* Ranks that stand in other calls */

static int never_deleted(MPI_Comm comm, int key, void *value, void *extra) {
    (void)comm, (void)key, (void)value, (void)extra;
    never();
    return MPI_SUCCESS;
}

static void hangs_in_finalize(void) {
    int key;
    MPI_Comm_create_keyval(MPI_COMM_NULL_COPY_FN, never_deleted, &key, NULL);
    if (rank == 1)
        MPI_Comm_set_attr(MPI_COMM_SELF, key, &one);
}

static void merge_meets_receive(void) {
    MPI_Comm alone, bridge, merged;
    MPI_Comm_split(world, rank, 0, &alone);
    MPI_Intercomm_create(alone, 0, world, 1 - rank, 5, &bridge);
    if (rank == 0)
        MPI_Recv(&sum, 1, MPI_INT, 1, 3, world, MPI_STATUS_IGNORE); /* A */
    MPI_Intercomm_merge(bridge, 0, &merged);                        /* B */
}

static void detach_of_unreceived(void) {
    int bytes, *much = calloc(3 * LARGE, sizeof *much);
    void *back;
    if (rank == 0) {
        MPI_Buffer_attach(much + LARGE, 2 * LARGE * (int)sizeof *much);
        MPI_Bsend(much, LARGE, MPI_INT, 1, 4, world);
        MPI_Buffer_detach(&back, &bytes); /* A */
    } else
        MPI_Recv(&sum, 1, MPI_INT, 0, 5, world, MPI_STATUS_IGNORE); /* B */
    free(much);
}

static void take_lock(MPI_Win window) {
    MPI_Win_lock(MPI_LOCK_EXCLUSIVE, 0, 0, window);
    MPI_Put(&one, 1, MPI_INT, 0, 0, 1, MPI_INT, window);
    MPI_Win_flush(0, window);
}

static void lock_cycle(void) {
    MPI_Win first, second;
    MPI_Win_create(row, sizeof row, 1, MPI_INFO_NULL, world, &first);
    MPI_Win_create(other, sizeof other, 1, MPI_INFO_NULL, world, &second);
    take_lock(rank ? second : first);
    MPI_Barrier(world);
    take_lock(rank ? first : second);
}

static void start_without_post(void) {
    MPI_Win window;
    MPI_Group all, peer;
    MPI_Comm_group(world, &all);
    MPI_Group_incl(all, 1, (int[]){1 - rank}, &peer);
    MPI_Win_create(row, sizeof row, 1, MPI_INFO_NULL, world, &window);
    if (rank == 0) {
        MPI_Win_start(peer, 0, window);
        MPI_Put(&one, 1, MPI_INT, 1, 0, 1, MPI_INT, window);
        MPI_Win_complete(window);
    } else
        MPI_Recv(&sum, 1, MPI_INT, 0, 3, world, MPI_STATUS_IGNORE); /* A */
}

static void mprobe_of_nothing(void) {
    MPI_Message taken;
    if (rank == 0)
        MPI_Mprobe(1, 8, world, &taken, MPI_STATUS_IGNORE); /* A */
    MPI_Barrier(world);
}

static void receive_of_any_tag(void) {
    if (rank == 1)
        MPI_Send(&one, 1, MPI_INT, 0, 5, world);
    if (rank == 0) {
        MPI_Recv(&sum, 1, MPI_INT, 1, 5, world, MPI_STATUS_IGNORE);
        MPI_Recv(&sum, 1, MPI_INT, 1, MPI_ANY_TAG, world, MPI_STATUS_IGNORE); /* A */
    }
    MPI_Barrier(world); /* B */
}

/* The first rank awaits a message of each rank, and has none of its own. */
static void one_receive_more(void) {
    for (int turn = 0; rank == 0 && turn < size; turn++)
        MPI_Recv(&sum, 1, MPI_INT, MPI_ANY_SOURCE, 1, world, MPI_STATUS_IGNORE); /* A */
    if (rank)
        MPI_Send(&one, 1, MPI_INT, 0, 1, world);
    MPI_Barrier(world); /* B */
}

static void cycle_of_kinds(void) {
    MPI_Comm two;
    MPI_Comm_split(world, rank > 0, 0, &two);
    if (rank == 0)
        MPI_Recv(&sum, 1, MPI_INT, 1, 2, world, MPI_STATUS_IGNORE); /* A */
    if (rank == 2)
        MPI_Ssend(&one, 1, MPI_INT, 0, 4, world); /* B */
    MPI_Barrier(two);
    if (rank == 1)
        MPI_Send(&one, 1, MPI_INT, 0, 2, world);
}

static void leaves_without_finalize(void) {
    MPI_Barrier(world);
    if (rank == 1) {
        usleep(300000);
        _exit(0);
    }
    MPI_Barrier(world); /* A */
}

/* Faults that a run may pass over */

static void never_completed(void) {
    MPI_Ibarrier(world, &request); /* A */
}

static void dup_meets_split(void) {
    if (rank)
        MPI_Comm_split(world, 0, 0, &twin); /* B */
    else
        MPI_Comm_dup(world, &twin); /* A */
}

static void other_window_copy(void) {
    MPI_Win window;
#if MPI_VERSION >= 4
    MPI_Win_create_c(row, sizeof row, 1, MPI_INFO_NULL, world, &window);
#else
    MPI_Win_create(row, sizeof row, 1, MPI_INFO_NULL, world, &window);
#endif
    if (rank)
        MPI_Win_fence(0, window); /* B */
    MPI_Win_free(&window);        /* A */
}

static void other_large_count(void) {
#if MPI_VERSION >= 4
    MPI_Bcast_c(row, rank ? 2 : 3, MPI_INT, 0, world); /* A */
#else
    MPI_Bcast(row, rank ? 2 : 3, MPI_INT, 0, world);
#endif
}

static void long_meets_int64(void) {
    MPI_Bcast(row, 2, rank ? MPI_LONG : MPI_INT64_T, 0, world); /* A */
}

/* Ends well with libraries whose bcasts of short rows don't wait for the receivers. */
static void late_stall(void) {
    MPI_Comm_dup(world, &twin);
    for (int turn = 0; turn < MANY; turn++)
        MPI_Allreduce(&one, &sum, 1, MPI_INT, MPI_SUM, world);
    if (rank == 0)
        MPI_Bcast(row, 1, MPI_INT, 0, world); /* A */
    MPI_Bcast(row, 1, MPI_INT, 1, twin);      /* B */
    if (rank)
        MPI_Bcast(row, 1, MPI_INT, 0, world);
}

/* The same of a message and a gather: a library may let each rank wait for the root. */
static void unsafe_send_after_gather(void) {
    if (rank == 0)
        MPI_Recv(&sum, 1, MPI_INT, 1, 3, world, MPI_STATUS_IGNORE);
    MPI_Gather(&one, 1, MPI_INT, row, 1, MPI_INT, 0, world);
    if (rank == 1)
        MPI_Send(&one, 1, MPI_INT, 0, 3, world);
}

/* Right programs */

static void right_packed(void) {
    char bytes[64];
    int place = 0;
    MPI_Pack(row, 2, MPI_INT, bytes, sizeof bytes, &place, world);
    MPI_Bcast(rank ? (void *)row : bytes, rank ? 2 : place, rank ? MPI_INT : MPI_PACKED, 0, world);
}

static jmp_buf before_fault;

static void jump(MPI_Comm *comm, int *code, ...) {
    (void)comm, (void)code;
    longjmp(before_fault, 1);
}

static void right_jump(void) {
    MPI_Errhandler handler;
    MPI_Comm_create_errhandler(jump, &handler);
    MPI_Comm_set_errhandler(world, handler);
    if (rank == 0 && !setjmp(before_fault))
        MPI_Send(&one, 1, MPI_INT, size, 0, world);
    MPI_Comm_set_errhandler(world, MPI_ERRORS_ARE_FATAL);
    MPI_Errhandler_free(&handler);
    MPI_Allreduce(&one, &sum, 1, MPI_INT, MPI_SUM, world);
}

static MPI_Datatype cached;

static int free_cached(MPI_Comm comm, int key, void *value, void *extra) {
    (void)comm, (void)key, (void)value, (void)extra;
    return MPI_Type_free(&cached);
}

/* The callback of a call frees a type, and the next one may have its handle. */
static void right_freed_type(void) {
    int key;
    MPI_Comm_create_keyval(MPI_COMM_NULL_COPY_FN, free_cached, &key, NULL);
    MPI_Comm_dup(world, &twin);
    MPI_Comm_set_attr(twin, key, &one);
    MPI_Type_contiguous(3, MPI_FLOAT, &cached);
    MPI_Type_commit(&cached);
    MPI_Bcast(row, 1, cached, 0, twin);
    MPI_Comm_free(&twin);
    MPI_Comm_free_keyval(&key);
    MPI_Type_contiguous(2, MPI_INT, &cached);
    MPI_Type_commit(&cached);
    MPI_Bcast(row, rank ? 1 : 2, rank ? cached : MPI_INT, 0, world);
    MPI_Type_free(&cached);
}

/* Collectives of nothing may have one handle for all. */
static void right_empty_requests(void) {
    MPI_Comm third;
    MPI_Comm_dup(world, &twin);
    MPI_Comm_dup(world, &third);
    MPI_Ibcast(row, 0, MPI_INT, 0, world, &requests[0]);
    if (rank == 0)
        MPI_Ibcast(row, 0, MPI_INT, 0, twin, &requests[1]);
    MPI_Wait(&requests[0], MPI_STATUS_IGNORE);
    MPI_Barrier(third);
    if (rank)
        MPI_Ibcast(row, 0, MPI_INT, 0, twin, &requests[1]);
    MPI_Wait(&requests[1], MPI_STATUS_IGNORE);
}

/* The root's bcast is complete before others start it, and where a library has it wait, the barrier is complete first. */
static void right_first_of_two(void) {
    MPI_Comm third;
    int place;
    MPI_Comm_dup(world, &twin);
    MPI_Comm_dup(world, &third);
    INIT(Bcast_init)(row, 1, MPI_INT, 0, world, MPI_INFO_NULL, &requests[0]);
    if (rank == 0) {
        MPI_Start(&requests[0]);
        MPI_Ibarrier(twin, &requests[1]);
        MPI_Waitany(2, requests, &place, MPI_STATUS_IGNORE);
        MPI_Barrier(third);
        MPI_Wait(&requests[1 - place], MPI_STATUS_IGNORE);
    } else {
        usleep(200000);
        MPI_Ibarrier(twin, &request);
        MPI_Wait(&request, MPI_STATUS_IGNORE);
        MPI_Barrier(third);
        MPI_Start(&requests[0]);
        MPI_Wait(&requests[0], MPI_STATUS_IGNORE);
    }
    MPI_Request_free(&requests[0]);
}

static void right_any(void) {
    for (int turn = 0; turn < 20; turn++) {
        for (int from = 1; rank == 0 && from < size; from++)
            MPI_Recv(&sum, 1, MPI_INT, MPI_ANY_SOURCE, MPI_ANY_TAG, world, MPI_STATUS_IGNORE);
        if (rank)
            MPI_Send(&one, 1, MPI_INT, 0, turn, world);
        MPI_Bcast(row, 1, MPI_INT, 0, world);
    }
}

static void right_cancelled(void) {
    MPI_Irecv(row, 1, MPI_INT, MPI_ANY_SOURCE, 9, world, &request);
    MPI_Cancel(&request);
    MPI_Wait(&request, MPI_STATUS_IGNORE);
    MPI_Sendrecv(&one, 1, MPI_INT, (rank + 1) % size, 1, row, 1, MPI_INT, (rank + size - 1) % size, 1, world, MPI_STATUS_IGNORE);
    MPI_Barrier(world);
}

static void right_tags(void) {
    for (int tag = 0; tag < MANY; tag++)
        MPI_Sendrecv(&one, 1, MPI_INT, (rank + 1) % size, tag, row, 1, MPI_INT, (rank + size - 1) % size, tag, world, MPI_STATUS_IGNORE);
    MPI_Barrier(world);
}

static void right_copied(void) {
    char *room = malloc(1 << 16);
    void *back;
    int bytes;
    MPI_Buffer_attach(room, 1 << 16);
    MPI_Bsend(row, 100, MPI_INT, (rank + 1) % size, 1, world);
    MPI_Ibsend(row, 100, MPI_INT, (rank + 1) % size, 2, world, &request);
    for (int tag = 1; tag < 3; tag++)
        MPI_Recv(other, 100, MPI_INT, (rank + size - 1) % size, tag, world, MPI_STATUS_IGNORE);
    MPI_Wait(&request, MPI_STATUS_IGNORE);
    MPI_Buffer_detach(&back, &bytes);
    free(room);
    MPI_Barrier(world);
}

static void *barrier_of(void *comm) {
    MPI_Barrier(*(MPI_Comm *)comm);
    return NULL;
}

/* Each call is another thread's, one after the other. */
static void right_later_threads(void) {
    for (int turn = 0; turn < 80; turn++) {
        pthread_t thread;
        pthread_create(&thread, NULL, barrier_of, &world);
        pthread_join(thread, NULL);
    }
}

static void right_spawn(void) {
    MPI_Comm bridge, parent;
    char itself[4096] = "", *words[] = {"right_spawn", NULL};
    MPI_Comm_get_parent(&parent);
    MPI_Barrier(world);
    if (parent == MPI_COMM_NULL) {
        if (readlink("/proc/self/exe", itself, sizeof itself - 1) < 0)
            MPI_Abort(world, 1);
        MPI_Comm_spawn(itself, words, 1, MPI_INFO_NULL, 0, world, &bridge, MPI_ERRCODES_IGNORE);
        MPI_Comm_disconnect(&bridge);
    } else
        MPI_Comm_disconnect(&parent);
    MPI_Allreduce(&one, &sum, 1, MPI_INT, MPI_SUM, world);
}

/* Six integers in five ways. */
static void right_derived(void) {
    MPI_Datatype types[4], pair;
    MPI_Type_create_subarray(2, (int[]){4, 4}, (int[]){2, 3}, (int[]){1, 1}, MPI_ORDER_C, MPI_INT, &types[0]);
    MPI_Type_indexed(2, (int[]){2, 4}, (int[]){0, 5}, MPI_INT, &types[1]);
    MPI_Type_create_struct(2, (int[]){1, 5}, (MPI_Aint[]){0, 40}, (MPI_Datatype[]){MPI_INT, MPI_INT}, &types[2]);
    MPI_Type_contiguous(2, MPI_INT, &pair);
    MPI_Type_create_hvector(3, 1, 64, pair, &types[3]);
    for (int place = 0; place < 4; place++)
        MPI_Type_commit(&types[place]);
    MPI_Bcast(row, 1, types[rank % 4], 0, world);
    MPI_Allgather(row, 1, types[rank % 4], other, 6, MPI_INT, world);
    MPI_Gather(row, rank % 2 ? 6 : 1, rank % 2 ? MPI_INT : types[1], other, 6, MPI_INT, 0, world);
    MPI_Type_free(&pair);
    for (int place = 0; place < 4; place++)
        MPI_Type_free(&types[place]);
}

static void right_groups(void) {
    MPI_Group all, mine;
    MPI_Comm part, group_of, reversed;
    MPI_Comm_group(world, &all);
    MPI_Group_incl(all, 2, rank < 2 ? (int[]){0, 1} : (int[]){3, 2}, &mine);
    MPI_Comm_create(world, mine, &part);
    MPI_Comm_create_group(world, mine, 3, &group_of);
    MPI_Comm_split(part, 0, -rank, &reversed);
    MPI_Scan(&one, &sum, 1, MPI_INT, MPI_SUM, reversed);
    MPI_Barrier(group_of);
    MPI_Bcast(row, 1, MPI_INT, 1, part);
    MPI_Comm *made[] = {&reversed, &group_of, &part};
    for (int place = 0; place < 3; place++)
        MPI_Comm_free(made[place]);
    MPI_Group_free(&mine);
    MPI_Group_free(&all);
}

/* Waits for requests that are null or inactive end at once. (With MPICH 4.0.2 they don't for a collective that was never started.) */
static void right_inactive(void) {
    int flag, place;
    INIT(Allreduce_init)(row, other, 1, MPI_INT, MPI_SUM, world, MPI_INFO_NULL, &requests[0]);
    MPI_Recv_init(row, 1, MPI_INT, MPI_ANY_SOURCE, 1, world, &requests[1]);
    requests[2] = MPI_REQUEST_NULL;
    MPI_Start(&requests[0]);
    MPI_Waitall(3, requests, MPI_STATUSES_IGNORE);
    MPI_Testall(2, requests + 1, &flag, MPI_STATUSES_IGNORE);
    MPI_Waitany(2, requests + 1, &place, MPI_STATUS_IGNORE);
    MPI_Wait(&requests[2], MPI_STATUS_IGNORE);
    MPI_Request_free(&requests[0]);
    MPI_Request_free(&requests[1]);
}

static void right_large_calls(void) {
    MPI_File file;
    MPI_File_open(world, getenv("TRIED_FILE"), MPI_MODE_CREATE | MPI_MODE_RDWR | MPI_MODE_DELETE_ON_CLOSE, MPI_INFO_NULL, &file);
#if MPI_VERSION >= 4
    MPI_Win window;
    MPI_Win_create_c(row, sizeof row, 1, MPI_INFO_NULL, world, &window);
    MPI_Win_fence(0, window);
    MPI_Win_free(&window);
    MPI_Allreduce_c(row, other, 2, MPI_INT, MPI_SUM, world);
    MPI_File_write_at_all_c(file, 8 * rank, &one, 1, MPI_INT, MPI_STATUS_IGNORE);
    MPI_Comm_idup_with_info(world, MPI_INFO_NULL, &twin, &request);
    MPI_Wait(&request, MPI_STATUS_IGNORE);
#else
    MPI_File_write_at_all(file, 8 * rank, &one, 1, MPI_INT, MPI_STATUS_IGNORE);
    MPI_Comm_dup(world, &twin);
#endif
    MPI_Barrier(twin);
    MPI_Comm_free(&twin);
    MPI_File_close(&file);
}

/* Of three ranks in a row, the first and the last aren't neighbours, so no library waits for both. */
static void right_neighbours_apart(void) {
    MPI_Comm line;
    MPI_Cart_create(world, 1, &size, (int[]){0}, 0, &line);
    MPI_Comm_dup(world, &twin);
    if (rank == 2)
        MPI_Barrier(twin);
    MPI_Ineighbor_allgather(&one, 1, MPI_INT, row, 1, MPI_INT, line, &request);
    if (rank == 0)
        MPI_Wait(&request, MPI_STATUS_IGNORE);
    if (rank < 2)
        MPI_Barrier(twin);
    MPI_Wait(&request, MPI_STATUS_IGNORE);
}

static void right_many_starts(void) {
    INIT(Allreduce_init)(&one, &sum, 1, MPI_INT, MPI_SUM, world, MPI_INFO_NULL, &requests[0]);
    for (int turn = 0; turn < MANY; turn++) {
        MPI_Start(&requests[0]);
        MPI_Wait(&requests[0], MPI_STATUS_IGNORE);
    }
    MPI_Request_free(&requests[0]);
}

/* A message takes seconds, and each rank stands in a call until it is there. */
static void ended_in_a_message(void) {
    const size_t bytes = (size_t)8 << 30;
    char *much = many_bytes(bytes);
    MPI_Irecv(row, 1, MPI_INT, MPI_ANY_SOURCE, 9, world, &request);
    MPI_Cancel(&request);
    MPI_Wait(&request, MPI_STATUS_IGNORE);
    for (;;) {
        if (rank == 0) {
            MPI_Recv(much, (int)(bytes / 8), MPI_DOUBLE, MPI_ANY_SOURCE, MPI_ANY_TAG, world, MPI_STATUS_IGNORE);
            MPI_Send(&one, 1, MPI_INT, 1, 2, world);
        } else {
            MPI_Isend(much, (int)(bytes / 8), MPI_DOUBLE, 0, 1, world, &request);
            MPI_Recv(&sum, 1, MPI_INT, 0, 2, world, MPI_STATUS_IGNORE);
            MPI_Wait(&request, MPI_STATUS_IGNORE);
        }
    }
}

const struct program programs[] = {
    PROGRAM(hangs_in_finalize), PROGRAM(merge_meets_receive), PROGRAM(detach_of_unreceived), PROGRAM(lock_cycle), PROGRAM(start_without_post),
    PROGRAM(mprobe_of_nothing), PROGRAM(receive_of_any_tag), PROGRAM(one_receive_more), PROGRAM(cycle_of_kinds),
    PROGRAM(leaves_without_finalize), PROGRAM(never_completed), PROGRAM(dup_meets_split), PROGRAM(other_window_copy),
    PROGRAM(other_large_count), PROGRAM(long_meets_int64), PROGRAM(late_stall), PROGRAM(unsafe_send_after_gather), PROGRAM(right_packed),
    PROGRAM(right_jump), PROGRAM(right_freed_type), PROGRAM(right_empty_requests), PROGRAM(right_first_of_two), PROGRAM(right_any),
    PROGRAM(right_cancelled), PROGRAM(right_tags), PROGRAM(right_copied), PROGRAM(right_later_threads), PROGRAM(right_spawn),
    PROGRAM(right_derived), PROGRAM(right_groups), PROGRAM(right_inactive), PROGRAM(right_large_calls), PROGRAM(right_many_starts), PROGRAM(right_neighbours_apart),
    PROGRAM(ended_in_a_message), {0},
};
