/* Programs with windows and one planted mistake each: windows_wrong NAME runs one of them. tests/windows_wrong.want has what wzrun says of each. */
#include <mpi.h>
#include <stdio.h>
#include <stdlib.h>
#include <string.h>

static int rank, size, memory[8], numbers[8], others[8];
static MPI_Win window;

/* Macros, so that each call has the line of the program that makes it. */
#define open_window() MPI_Win_create(memory, sizeof memory, sizeof(int), MPI_INFO_NULL, MPI_COMM_WORLD, &window)
#define put(many, target, at) MPI_Put(numbers, many, MPI_INT, target, at, many, MPI_INT, window)
#define accumulate(target, op) MPI_Accumulate(numbers, 1, MPI_INT, target, 0, 1, MPI_INT, op, window)
#define fence() MPI_Win_fence(0, window)

static MPI_Group group_of(int one) {
    MPI_Group all, some;
    MPI_Win_get_group(window, &all);
    MPI_Group_incl(all, 1, &one, &some);
    MPI_Group_free(&all);
    return some;
}

/* ---- outside an epoch */
static void no_epoch(void) {
    if (rank == 1) put(1, 0, 0);
}
static void after_unlock(void) {
    if (rank != 0) return;
    MPI_Win_lock(MPI_LOCK_SHARED, 1, 0, window);
    put(1, 1, 0);
    MPI_Win_unlock(1, window);
    MPI_Get(others, 1, MPI_INT, 1, 0, 1, MPI_INT, window);
}
static void other_lock(void) {
    if (rank != 0) return;
    MPI_Win_lock(MPI_LOCK_EXCLUSIVE, 1, 0, window);
    put(1, 2, 0);
}
static void not_in_group(void) {
    if (rank == 1) MPI_Win_post(group_of(0), 0, window);
    if (rank != 0) return;
    MPI_Win_start(group_of(1), 0, window);
    put(1, 2, 0);
}
static void no_succeed(void) {
    fence();
    MPI_Win_fence(MPI_MODE_NOSUCCEED, window);
    if (rank == 2) accumulate(0, MPI_SUM);
}
static void request_in_fence(void) {
    MPI_Request request;
    fence();
    if (rank == 1) MPI_Rput(numbers, 1, MPI_INT, 0, 0, 1, MPI_INT, window, &request);
}
static void no_precede(void) {
    fence();
    if (rank == 1) put(1, 0, 0);
    if (rank == 1) MPI_Win_fence(MPI_MODE_NOPRECEDE, window);
}

/* ---- outside the window, or of another type */
static void outside(void) {
    fence();
    if (rank == 0) put(2, 1, 7);
}
static void outside_by_type(void) {
    MPI_Datatype column;
    MPI_Type_vector(3, 1, 4, MPI_INT, &column);
    MPI_Type_commit(&column);
    fence();
    if (rank == 0) MPI_Put(numbers, 3, MPI_INT, 1, 0, 1, column, window);
}
static void negative(void) {
    fence();
    if (rank == 0) put(1, 1, -1);
}
static void no_rank(void) {
    fence();
    if (rank == 0) put(1, 3, 0);
}
static void other_type(void) {
    fence();
    if (rank == 0) MPI_Put(numbers, 2, MPI_INT, 1, 0, 2, MPI_FLOAT, window);
}
static void other_amount(void) {
    fence();
    if (rank == 0) MPI_Get(others, 2, MPI_INT, 1, 0, 3, MPI_INT, window);
}
static void uncommitted(void) {
    MPI_Datatype pair;
    MPI_Type_contiguous(2, MPI_INT, &pair);
    fence();
    if (rank == 0) MPI_Put(numbers, 1, pair, 1, 0, 1, pair, window);
}
static void not_for_type(void) {
    fence();
    if (rank == 0) MPI_Accumulate(numbers, 1, MPI_FLOAT, 1, 0, 1, MPI_FLOAT, MPI_BAND, window);
}
static void nothing(void *in, void *inout, int *len, MPI_Datatype *type) { (void)in, (void)inout, (void)len, (void)type; }
static void own_operation(void) {
    MPI_Op op;
    MPI_Op_create(nothing, 1, &op);
    fence();
    if (rank == 0) accumulate(1, op);
}
static void swapped_real(void) {
    float one = 1, zero = 0, got;
    MPI_Win_lock_all(0, window);
    if (rank == 0) MPI_Compare_and_swap(&one, &zero, &got, MPI_FLOAT, 1, 0, window);
}
static void not_attached(void) {
    MPI_Win dynamic;
    MPI_Aint there;
    MPI_Win_create_dynamic(MPI_INFO_NULL, MPI_COMM_WORLD, &dynamic);
    if (rank == 1) MPI_Win_attach(dynamic, memory, 4);
    MPI_Get_address(memory, &there);
    MPI_Bcast(&there, 1, MPI_AINT, 1, MPI_COMM_WORLD);
    if (rank != 0) return;
    MPI_Win_lock(MPI_LOCK_SHARED, 1, 0, dynamic);
    MPI_Put(numbers, 2, MPI_INT, 1, there, 2, MPI_INT, dynamic);
}

/* ---- conflicts */
static void put_put(void) {
    fence();
    if (rank == 1) put(3, 0, 0);
    MPI_Barrier(MPI_COMM_WORLD);
    if (rank == 2) put(1, 0, 2);
}
static void put_get(void) {
    MPI_Win_lock_all(0, window);
    if (rank == 0) put(1, 1, 0);
    MPI_Barrier(MPI_COMM_WORLD);
    if (rank == 2) MPI_Get(others, 4, MPI_INT, 1, 0, 4, MPI_INT, window);
}
static void put_accumulate(void) {
    if (rank == 0) {
        MPI_Group both;
        MPI_Comm_group(MPI_COMM_WORLD, &both);
        MPI_Group_excl(both, 1, (int[]){ 0 }, &both);
        MPI_Win_post(both, 0, window);
        MPI_Win_wait(window);
        return;
    }
    MPI_Win_start(group_of(0), 0, window);
    if (rank == 1) put(1, 0, 0);
    if (rank == 1) MPI_Win_complete(window);
    if (rank == 1) MPI_Send(numbers, 1, MPI_INT, 2, 0, MPI_COMM_WORLD);
    if (rank == 2) MPI_Recv(numbers, 1, MPI_INT, 1, 0, MPI_COMM_WORLD, MPI_STATUS_IGNORE);
    if (rank == 2) accumulate(0, MPI_SUM);
}
static void own_put_get(void) {
    if (rank != 2) return;
    MPI_Win_lock(MPI_LOCK_EXCLUSIVE, 0, 0, window);
    put(1, 0, 0);
    MPI_Get(others, 1, MPI_INT, 0, 0, 1, MPI_INT, window);
    MPI_Win_unlock(0, window);
}
static void own_put_put(void) {
    if (rank != 2) return;
    MPI_Win_lock(MPI_LOCK_EXCLUSIVE, 0, 0, window);
    put(2, 0, 0);
    put(1, 0, 1);
    MPI_Win_unlock(0, window);
}
static void two_types(void) {
    fence();
    if (rank == 0) accumulate(1, MPI_SUM);
    MPI_Barrier(MPI_COMM_WORLD);
    if (rank == 2) MPI_Accumulate(numbers, 1, MPI_FLOAT, 1, 0, 1, MPI_FLOAT, MPI_SUM, window);
}
static void two_operations(void) {
    fence();
    if (rank == 0) accumulate(1, MPI_SUM);
    MPI_Barrier(MPI_COMM_WORLD);
    if (rank == 2) accumulate(1, MPI_MAX);
}
static void put_store(void) {
    fence();
    if (rank == 0) put(1, 1, 0);
    MPI_Barrier(MPI_COMM_WORLD);
    if (rank == 1) memory[0] = 5;
    fence();
}
static void store_put(void) {
    fence();
    if (rank == 1) memory[0] = 5;
    MPI_Barrier(MPI_COMM_WORLD);
    if (rank == 0) put(1, 1, 0);
    fence();
}
static void get_store(void) {
    fence();
    if (rank == 0) MPI_Get(others, 2, MPI_INT, 1, 0, 2, MPI_INT, window);
    MPI_Barrier(MPI_COMM_WORLD);
    if (rank == 1) memory[1] = 5;
    fence();
}
static void put_into_origin(void) {
    fence();
    if (rank == 0) put(1, 1, 0);
    MPI_Barrier(MPI_COMM_WORLD);
    if (rank == 1) MPI_Put(memory, 2, MPI_INT, 2, 4, 2, MPI_INT, window);
}
static void lock_between_fences(void) {
    fence();
    if (rank == 0) MPI_Win_lock(MPI_LOCK_SHARED, 1, 0, window);
    if (rank == 0) put(1, 1, 0);
    if (rank == 0) MPI_Win_unlock(1, window);
    fence();
}
static void changed_origin(void) {
    fence();
    if (rank == 0) put(1, 1, 0);
    if (rank == 0) numbers[0] = 5;
    fence();
}
static void changed_result(void) {
    if (rank != 0) return;
    MPI_Win_lock(MPI_LOCK_SHARED, 1, 0, window);
    MPI_Get(others, 1, MPI_INT, 1, 0, 1, MPI_INT, window);
    others[0]++;
    MPI_Win_unlock(1, window);
}

/* ---- epochs that don't fit together */
static void lacking_fence(void) {
    fence();
    if (rank != 1) fence();
}
static void fence_and_free(void) {
    if (rank == 1) MPI_Win_free(&window);
    else fence();
}
static void create_and_barrier(void) {
    if (rank == 1) MPI_Barrier(MPI_COMM_WORLD);
    else open_window();
}
static void two_locks(void) {
    if (rank != 0) return;
    MPI_Win_lock(MPI_LOCK_SHARED, 1, 0, window);
    MPI_Win_lock(MPI_LOCK_SHARED, 1, 0, window);
}
static void no_lock(void) {
    if (rank == 1) MPI_Win_unlock(1, window);
}
static void no_lock_to_flush(void) {
    if (rank == 1) MPI_Win_flush_all(window);
}
static void lock_in_fence(void) {
    fence();
    if (rank == 0) put(1, 1, 0);
    if (rank == 0) MPI_Win_lock(MPI_LOCK_SHARED, 1, 0, window);
}
static void fence_in_lock(void) {
    if (rank == 0) MPI_Win_lock(MPI_LOCK_SHARED, 1, 0, window);
    if (rank == 0) fence();
}
static void held_for_ever(void) {
    if (rank == 0) MPI_Win_lock(MPI_LOCK_EXCLUSIVE, 1, 0, window);
    MPI_Barrier(MPI_COMM_WORLD);
    if (rank == 2) MPI_Win_lock(MPI_LOCK_SHARED, 1, 0, window);
    MPI_Barrier(MPI_COMM_WORLD);
}
static void no_start(void) {
    if (rank == 1) MPI_Win_complete(window);
}
static void no_post(void) {
    if (rank == 1) MPI_Win_wait(window);
}
static void two_posts(void) {
    if (rank != 1) return;
    MPI_Win_post(MPI_GROUP_EMPTY, 0, window);
    MPI_Win_post(MPI_GROUP_EMPTY, 0, window);
}
static void lacking_post(void) {
    if (rank == 0) MPI_Win_start(group_of(1), 0, window);
}
static void lacking_complete(void) {
    if (rank == 1) MPI_Win_post(group_of(0), 0, window);
    if (rank == 0) MPI_Win_start(group_of(1), 0, window);
    if (rank == 1) MPI_Win_wait(window);
}
static void freed_while_locked(void) {
    if (rank == 0) MPI_Win_lock(MPI_LOCK_SHARED, 1, 0, window);
    if (rank == 0) MPI_Win_free(&window);
}
static void freed_while_used(void) {
    fence();
    if (rank == 0) put(1, 1, 0);
    if (rank == 0) MPI_Win_free(&window);
}
static void freed(void) {
    MPI_Win kept = window;
    MPI_Win_free(&window);
    if (rank == 1) MPI_Win_fence(0, kept);
}
static void cancelled(void) {
    MPI_Request request;
    MPI_Win_lock_all(0, window);
    if (rank == 0) MPI_Rget(others, 1, MPI_INT, 1, 0, 1, MPI_INT, window, &request);
    if (rank == 0) MPI_Cancel(&request);
}
static void no_unit(void) { MPI_Win_create(memory, sizeof memory, rank == 1 ? 0 : 4, MPI_INFO_NULL, MPI_COMM_WORLD, &window); }
static void no_base(void) { MPI_Win_create(rank == 1 ? NULL : memory, sizeof memory, 4, MPI_INFO_NULL, MPI_COMM_WORLD, &window); }
static void no_info(void) { MPI_Win_create(memory, sizeof memory, 4, rank == 1 ? (MPI_Info)NULL : MPI_INFO_NULL, MPI_COMM_WORLD, &window); }

#define CASE(name) { #name, name }
static const struct {
    const char *name;
    void (*run)(void);
} cases[] = {
    CASE(no_epoch), CASE(after_unlock), CASE(other_lock), CASE(not_in_group), CASE(no_succeed), CASE(request_in_fence), CASE(no_precede),
    CASE(outside), CASE(outside_by_type), CASE(negative), CASE(no_rank), CASE(other_type), CASE(other_amount), CASE(uncommitted), CASE(not_for_type), CASE(own_operation),
    CASE(swapped_real), CASE(not_attached), CASE(put_put), CASE(put_get), CASE(put_accumulate), CASE(own_put_get), CASE(own_put_put), CASE(two_types), CASE(two_operations), CASE(put_store), CASE(store_put),
    CASE(get_store), CASE(put_into_origin), CASE(lock_between_fences),
    CASE(changed_origin), CASE(changed_result), CASE(lacking_fence), CASE(fence_and_free), CASE(create_and_barrier), CASE(two_locks), CASE(no_lock), CASE(no_lock_to_flush),
    CASE(lock_in_fence), CASE(fence_in_lock), CASE(held_for_ever), CASE(no_start), CASE(no_post), CASE(two_posts), CASE(lacking_post), CASE(lacking_complete),
    CASE(freed_while_locked), CASE(freed_while_used), CASE(freed), CASE(cancelled), CASE(no_unit), CASE(no_base), CASE(no_info),
};

int main(int argc, char **argv) {
    MPI_Init(&argc, &argv);
    MPI_Comm_rank(MPI_COMM_WORLD, &rank);
    MPI_Comm_size(MPI_COMM_WORLD, &size);
    open_window();
    for (size_t i = 0; i < sizeof cases / sizeof cases[0]; i++)
        if (argc > 1 && strcmp(argv[1], cases[i].name) == 0) cases[i].run();
    MPI_Finalize();
    return 0;
}
