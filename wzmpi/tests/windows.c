/* Programs with windows and without a mistake: windows NAME runs one of them, which says nothing and ends with 0. */
#include <mpi.h>
#include <stdio.h>
#include <stdlib.h>
#include <string.h>

static int rank, size;

static void fail(int line, const char *what) {
    printf("rank %d: windows.c:%d: not so: %s\n", rank, line, what);
    exit(1);
}
#define HOLDS(what) ((what) ? (void)0 : fail(__LINE__, #what))

static int memory[256];
static MPI_Win window;

static void open_window(void) { HOLDS(MPI_Win_create(memory, sizeof memory, sizeof(int), MPI_INFO_NULL, MPI_COMM_WORLD, &window) == MPI_SUCCESS); }

/* Puts, gets and accumulates between fences. */
static void fences(void) {
    int right = (rank + 1) % size, left = (rank + size - 1) % size, mine = 10 * rank, got = -1, one = rank + 1;
    MPI_Win_fence(MPI_MODE_NOPRECEDE, window);
    MPI_Put(&mine, 1, MPI_INT, right, 0, 1, MPI_INT, window);
    MPI_Win_fence(0, window);
    HOLDS(memory[0] == 10 * left);
    MPI_Get(&got, 1, MPI_INT, left, 0, 1, MPI_INT, window);
    MPI_Accumulate(&one, 1, MPI_INT, 0, 1, 1, MPI_INT, MPI_SUM, window);
    MPI_Accumulate(&one, 1, MPI_INT, 0, 2, 1, MPI_INT, MPI_MAX, window);
    MPI_Accumulate(&one, 1, MPI_INT, right, 3, 1, MPI_INT, MPI_REPLACE, window);
    MPI_Win_fence(MPI_MODE_NOSUCCEED, window);
    HOLDS(got == 10 * ((left + size - 1) % size));
    HOLDS(rank > 0 || (memory[1] == size * (size + 1) / 2 && memory[2] == size));
    HOLDS(memory[3] == left + 1);
}

/* Columns of a matrix, put with gaps side by side; each row has one element of each rank. */
static void types_with_gaps(void) {
    MPI_Datatype column;
    int mine[4];
    for (int i = 0; i < 4; i++) mine[i] = 100 * rank + i;
    MPI_Type_vector(4, 1, size, MPI_INT, &column);
    MPI_Type_commit(&column);
    MPI_Win_fence(0, window);
    for (int i = 0; i < size; i++) MPI_Put(mine, 4, MPI_INT, i, rank, 1, column, window);
    MPI_Win_fence(0, window);
    for (int i = 0; i < 4; i++)
        for (int j = 0; j < size; j++) HOLDS(memory[i * size + j] == 100 * j + i);
    int got[4] = { 0 };
    MPI_Get(got, 4, MPI_INT, size - 1, 0, 1, column, window);
    MPI_Win_fence(0, window);
    for (int i = 0; i < 4; i++) HOLDS(got[i] == i);
    for (int i = 0; i < 4; i++) mine[i] = 1;
    MPI_Accumulate(mine, 4, MPI_INT, 0, 0, 1, column, MPI_SUM, window);
    MPI_Win_fence(0, window);
    for (int i = 0; i < 4 && rank == 0; i++) HOLDS(memory[i * size] == i + size);
    MPI_Type_free(&column);
}

struct pair {
    double value;
    int index;
};

/* Operations over pairs, whose memory has a gap, and over floating point numbers. */
static void operations(void) {
    struct pair *pairs, mine = { 1.5 * rank, rank };
    double *sums, half = 0.5;
    MPI_Win of_pairs, of_sums;
    MPI_Win_allocate(2 * sizeof *pairs, sizeof *pairs, MPI_INFO_NULL, MPI_COMM_WORLD, &pairs, &of_pairs);
    MPI_Win_allocate(3 * sizeof *sums, 1, MPI_INFO_NULL, MPI_COMM_WORLD, &sums, &of_sums);
    MPI_Win_fence(0, of_pairs);
    MPI_Accumulate(&mine, 1, MPI_DOUBLE_INT, 0, 1, 1, MPI_DOUBLE_INT, MPI_MAXLOC, of_pairs);
    MPI_Win_fence(0, of_pairs);
    HOLDS(rank > 0 || (pairs[1].value == 1.5 * (size - 1) && pairs[1].index == size - 1 && pairs[0].value == 0));
    MPI_Win_lock_all(0, of_sums);
    for (int i = 0; i < size; i++) MPI_Accumulate(&half, 1, MPI_DOUBLE, i, 8, 1, MPI_DOUBLE, MPI_SUM, of_sums);
    MPI_Win_unlock_all(of_sums);
    MPI_Barrier(MPI_COMM_WORLD);
    HOLDS(sums[0] == 0 && sums[1] == 0.5 * size && sums[2] == 0);
    MPI_Win_free(&of_pairs);
    MPI_Win_free(&of_sums);
}

/* Each rank is written by its left neighbour alone, and says when. */
static void posts(void) {
    int right = (rank + 1) % size, left = (rank + size - 1) % size, flag = 0;
    MPI_Group all, to, from;
    MPI_Win_get_group(window, &all);
    MPI_Group_incl(all, 1, &right, &to);
    MPI_Group_incl(all, 1, &left, &from);
    for (int turn = 0; turn < 3; turn++) {
        int mine = 10 * turn + rank;
        MPI_Win_post(from, 0, window);
        MPI_Win_start(to, 0, window);
        MPI_Put(&mine, 1, MPI_INT, right, 5, 1, MPI_INT, window);
        MPI_Win_complete(window);
        if (turn < 2) MPI_Win_wait(window);
        for (flag = 0; turn == 2 && !flag;) MPI_Win_test(window, &flag);
        HOLDS(memory[5] == 10 * turn + left);
    }
    MPI_Group_free(&all);
    MPI_Group_free(&to);
    MPI_Group_free(&from);
}

/* Each takes numbers from a counter, under an exclusive lock and by one atomic call. */
static void counters(void) {
    int got, more, one = 1, of_all[64], turns = 20;
    for (int i = 0; i < turns; i++) {
        MPI_Win_lock(MPI_LOCK_EXCLUSIVE, 0, 0, window);
        MPI_Get(&got, 1, MPI_INT, 0, 0, 1, MPI_INT, window);
        MPI_Win_flush(0, window);
        more = got + 1;
        MPI_Put(&more, 1, MPI_INT, 0, 0, 1, MPI_INT, window);
        MPI_Win_unlock(0, window);
        MPI_Win_lock(MPI_LOCK_SHARED, 0, 0, window);
        MPI_Fetch_and_op(&one, &got, MPI_INT, 0, 1, MPI_SUM, window);
        MPI_Win_unlock(0, window);
    }
    MPI_Allgather(&got, 1, MPI_INT, of_all, 1, MPI_INT, MPI_COMM_WORLD);
    for (int i = 0; i < size; i++)
        for (int j = 0; j < i; j++) HOLDS(of_all[i] != of_all[j]);
    HOLDS(rank > 0 || (memory[0] == turns * size && memory[1] == turns * size));
}

/* One rank at a time holds what all compare and swap; whoever spins lets others go on. */
static void swaps(void) {
    int mine = rank + 1, none = 0, got, owner;
    MPI_Win_lock_all(0, window);
    for (int i = 0; i < 5; i++) {
        do {
            MPI_Compare_and_swap(&mine, &none, &got, MPI_INT, 0, 0, window);
            MPI_Win_flush(0, window);
        } while (got != 0);
        MPI_Fetch_and_op(NULL, &owner, MPI_INT, 0, 0, MPI_NO_OP, window);
        MPI_Win_flush(0, window);
        HOLDS(owner == mine);
        MPI_Compare_and_swap(&none, &mine, &got, MPI_INT, 0, 0, window);
        MPI_Win_flush(0, window);
        HOLDS(got == mine);
    }
    MPI_Win_unlock_all(window);
}

/* Accesses with requests. */
static void requests(void) {
    int mine = rank, got[2] = { -1, -1 }, one = 1;
    MPI_Request list[3];
    MPI_Win_lock_all(0, window);
    MPI_Rput(&mine, 1, MPI_INT, (rank + 1) % size, 0, 1, MPI_INT, window, &list[0]);
    MPI_Raccumulate(&one, 1, MPI_INT, 0, 1, 1, MPI_INT, MPI_SUM, window, &list[1]);
    MPI_Waitall(2, list, MPI_STATUSES_IGNORE);
    MPI_Win_flush_all(window);
    MPI_Barrier(MPI_COMM_WORLD);
    MPI_Rget(&got[0], 1, MPI_INT, (rank + 1) % size, 0, 1, MPI_INT, window, &list[0]);
    MPI_Rget_accumulate(NULL, 0, MPI_INT, &got[1], 1, MPI_INT, 0, 1, 1, MPI_INT, MPI_NO_OP, window, &list[1]);
    MPI_Rput(&mine, 1, MPI_INT, MPI_PROC_NULL, 0, 1, MPI_INT, window, &list[2]);
    MPI_Waitall(3, list, MPI_STATUSES_IGNORE);
    HOLDS(got[0] == rank && got[1] == size);
    MPI_Win_unlock_all(window);
}

/* Shared memory is read and written as it is. */
static void shared(void) {
    int *mine, *first, unit;
    MPI_Aint bytes;
    MPI_Win parts;
    MPI_Win_allocate_shared(2 * sizeof(int), sizeof(int), MPI_INFO_NULL, MPI_COMM_WORLD, &mine, &parts);
    MPI_Win_shared_query(parts, MPI_PROC_NULL, &bytes, &unit, &first);
    HOLDS(bytes == 2 * sizeof(int) && unit == sizeof(int) && mine == first + 2 * rank);
    MPI_Win_lock_all(MPI_MODE_NOCHECK, parts);
    mine[0] = mine[1] = rank + 1;
    MPI_Win_sync(parts);
    MPI_Barrier(MPI_COMM_WORLD);
    MPI_Win_sync(parts);
    for (int i = 0; i < size; i++) HOLDS(first[2 * i] == i + 1 && first[2 * i + 1] == i + 1);
    MPI_Win_unlock_all(parts);
    MPI_Win_free(&parts);
}

/* Memory that is attached later; displacements are addresses. */
static void dynamic(void) {
    int *made = calloc(4, sizeof *made), got = 0;
    MPI_Aint here, there[64];
    MPI_Win parts;
    MPI_Win_create_dynamic(MPI_INFO_NULL, MPI_COMM_WORLD, &parts);
    MPI_Win_attach(parts, made, 4 * sizeof *made);
    MPI_Get_address(made, &here);
    MPI_Allgather(&here, 1, MPI_AINT, there, 1, MPI_AINT, MPI_COMM_WORLD);
    MPI_Win_fence(0, parts);
    MPI_Put(&rank, 1, MPI_INT, (rank + 1) % size, MPI_Aint_add(there[(rank + 1) % size], 8), 1, MPI_INT, parts);
    MPI_Win_fence(0, parts);
    HOLDS(made[2] == (rank + size - 1) % size && made[0] == 0);
    MPI_Get(&got, 1, MPI_INT, rank, here + 8, 1, MPI_INT, parts);
    MPI_Win_fence(0, parts);
    HOLDS(got == made[2]);
    MPI_Win_detach(parts, made);
    MPI_Win_attach(parts, made, 8);
    MPI_Win_attach(parts, made + 2, 8); /* what touches is one */
    MPI_Barrier(MPI_COMM_WORLD);
    MPI_Put(&(int[2]){ rank, rank }, 2, MPI_INT, (rank + 1) % size, MPI_Aint_add(there[(rank + 1) % size], 4), 2, MPI_INT, parts);
    MPI_Win_fence(0, parts);
    HOLDS(made[1] == made[2] && made[2] == (rank + size - 1) % size && made[3] == 0);
    MPI_Win_detach(parts, made + 2);
    MPI_Win_detach(parts, made);
    MPI_Win_free(&parts);
    free(made);
}

static int deleted;
static int note_delete(MPI_Win of, int key, void *value, void *extra) {
    (void)of, (void)key, (void)extra;
    deleted += *(int *)value;
    return MPI_SUCCESS;
}

/* Attributes, names, groups, infos. */
static void objects(void) {
    int key, flag, length, three = 3, *kept, *unit, *flavor, *model;
    char name[MPI_MAX_OBJECT_NAME], value[MPI_MAX_INFO_VAL + 1];
    MPI_Aint *bytes;
    void *base;
    MPI_Win other;
    MPI_Info info;
    MPI_Group of_window, of_world;
    MPI_Info_create(&info);
    MPI_Info_set(info, "no_locks", "true");
    MPI_Win_create(memory, 40, 4, info, MPI_COMM_WORLD, &other);
    MPI_Info_free(&info);
    MPI_Win_get_attr(other, MPI_WIN_BASE, &base, &flag);
    HOLDS(flag && base == memory);
    MPI_Win_get_attr(other, MPI_WIN_SIZE, &bytes, &flag);
    HOLDS(flag && *bytes == 40);
    MPI_Win_get_attr(other, MPI_WIN_DISP_UNIT, &unit, &flag);
    HOLDS(flag && *unit == 4);
    MPI_Win_get_attr(other, MPI_WIN_CREATE_FLAVOR, &flavor, &flag);
    HOLDS(flag && *flavor == MPI_WIN_FLAVOR_CREATE);
    MPI_Win_get_attr(other, MPI_WIN_MODEL, &model, &flag);
    HOLDS(flag && *model == MPI_WIN_UNIFIED);
    MPI_Win_create_keyval(MPI_WIN_NULL_COPY_FN, note_delete, &key, NULL);
    MPI_Win_set_attr(other, key, &three);
    MPI_Win_get_attr(other, key, &kept, &flag);
    HOLDS(flag && kept == &three);
    MPI_Win_set_name(other, "numbers");
    MPI_Win_get_name(other, name, &length);
    HOLDS(strcmp(name, "numbers") == 0 && length == 7);
    MPI_Win_get_info(other, &info);
    MPI_Info_get(info, "no_locks", MPI_MAX_INFO_VAL, value, &flag);
    HOLDS(flag && strcmp(value, "true") == 0);
    MPI_Info_free(&info);
    MPI_Win_get_group(other, &of_window);
    MPI_Comm_group(MPI_COMM_WORLD, &of_world);
    MPI_Group_compare(of_window, of_world, &flag);
    HOLDS(flag == MPI_IDENT);
    MPI_Group_free(&of_window);
    MPI_Group_free(&of_world);
    MPI_Win_free(&other);
    HOLDS(deleted == 3 && other == MPI_WIN_NULL);
    MPI_Win_free_keyval(&key);
}

static int handled;
static void handle(MPI_Win *of, int *code, ...) {
    if (*of == window && *code == MPI_ERR_RMA_SYNC) handled++;
}

/* A refused call tells its class, and the window is as it was. */
static void errors(void) {
    int number = 1, class, code;
    MPI_Errhandler handler, got;
    MPI_Win_set_errhandler(window, MPI_ERRORS_RETURN);
    code = MPI_Put(&number, 1, MPI_INT, 0, 0, 1, MPI_INT, window);
    MPI_Error_class(code, &class);
    HOLDS(class == MPI_ERR_RMA_SYNC);
    MPI_Win_fence(0, window);
    HOLDS(MPI_Put(&number, 1, MPI_INT, size, 0, 1, MPI_INT, window) == MPI_ERR_RANK);
    HOLDS(MPI_Put(&number, 1, MPI_INT, 0, 256, 1, MPI_INT, window) == MPI_ERR_RMA_RANGE);
    HOLDS(MPI_Win_lock(7, 0, 0, window) == MPI_ERR_LOCKTYPE);
    HOLDS(MPI_Win_fence(3, window) == MPI_ERR_ASSERT);
    MPI_Win_fence(0, window);
    MPI_Win_create_errhandler(handle, &handler);
    MPI_Win_set_errhandler(window, handler);
    MPI_Win_get_errhandler(window, &got);
    MPI_Win_complete(window);
    HOLDS(handled == 1);
    MPI_Win_call_errhandler(window, MPI_ERR_RMA_SYNC);
    HOLDS(handled == 2);
    MPI_Errhandler_free(&handler);
    MPI_Errhandler_free(&got);
}

/* More accesses in an epoch than are kept, and of one element by turns. */
static void many(void) {
    MPI_Win_fence(0, window);
    for (int turn = 0; turn < 40; turn++)
        for (int i = 0; i < 256; i++)
            if (i % size == rank) MPI_Accumulate(&rank, 1, MPI_INT, turn % size, i, 1, MPI_INT, MPI_SUM, window);
    MPI_Win_fence(0, window);
    int turns = 0;
    for (int turn = 0; turn < 40; turn++) turns += turn % size == rank;
    for (int i = 0; i < 256; i++) HOLDS(memory[i] == turns * (i % size));
}

#define CASE(name) { #name, name }
static const struct {
    const char *name;
    void (*run)(void);
} cases[] = {
    CASE(fences), CASE(types_with_gaps), CASE(operations), CASE(posts), CASE(counters), CASE(swaps), CASE(requests), CASE(shared), CASE(dynamic), CASE(objects), CASE(errors),
    CASE(many),
};

int main(int argc, char **argv) {
    MPI_Init(&argc, &argv);
    MPI_Comm_rank(MPI_COMM_WORLD, &rank);
    MPI_Comm_size(MPI_COMM_WORLD, &size);
    open_window();
    for (size_t i = 0; i < sizeof cases / sizeof cases[0]; i++)
        if (argc > 1 && strcmp(argv[1], cases[i].name) == 0) cases[i].run();
    MPI_Win_free(&window);
    HOLDS(window == MPI_WIN_NULL);
    MPI_Finalize();
    return 0;
}
