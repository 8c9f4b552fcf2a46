/* What windows are asked: attributes, groups, names, infos, error handlers, and where shared memory lies. */
#include "attributes.h"
#include "diagnostics.h"
#include "window.h"

/* ---- attributes (MPI 4.1, 12.2.6 and 7.7) */

int wz_win_dup_fn_(MPI_Win win, int keyval, void *extra, void *value, void *copied, int *flag) {
    return wz_comm_dup_fn_((MPI_Comm)win, keyval, extra, value, copied, flag);
}

/* Functions of windows have a MPI_Win where those of communicators have a MPI_Comm: both are pointers, so they are called alike. */
int MPI_Win_create_keyval(MPI_Win_copy_attr_function *copy, MPI_Win_delete_attr_function *delete, int *number, void *extra) {
    return create_keyval((MPI_Comm_copy_attr_function *)(void (*)(void))copy, (MPI_Comm_delete_attr_function *)(void (*)(void))delete, number, extra, "MPI_Win_create_keyval");
}

int MPI_Win_free_keyval(int *number) { return free_keyval(number, "MPI_Win_free_keyval"); }

int MPI_Win_set_attr(MPI_Win handle, int number, void *value) {
    int code;
    struct window *window = find_window(handle, "MPI_Win_set_attr", &code);
    if (window == NULL) return code;
    struct attributed of = attributes_of(window->comm, handle);
    return set_attribute(&of, number, value, "MPI_Win_set_attr");
}

static bool predefined(struct window *window, int number, void *value) {
    static int unified = MPI_WIN_UNIFIED;
    struct window_member *mine = my_window(window);
    void *values[] = { mine->base, &mine->size, &mine->unit, &window->flavor, &unified };
    if (number < MPI_WIN_BASE || number > MPI_WIN_MODEL) return false;
    *(void **)value = values[number - MPI_WIN_BASE];
    return true;
}

int MPI_Win_get_attr(MPI_Win handle, int number, void *value, int *flag) {
    int code;
    struct window *window = find_window(handle, "MPI_Win_get_attr", &code);
    if (window == NULL) return code;
    *flag = predefined(window, number, value);
    if (*flag) return MPI_SUCCESS;
    struct attributed of = attributes_of(window->comm, handle);
    return get_attribute(&of, number, value, flag, "MPI_Win_get_attr");
}

int MPI_Win_delete_attr(MPI_Win handle, int number) {
    int code;
    struct window *window = find_window(handle, "MPI_Win_delete_attr", &code);
    if (window == NULL) return code;
    struct attributed of = attributes_of(window->comm, handle);
    return delete_attribute(&of, number, "MPI_Win_delete_attr");
}

/* ---- error handlers */

int MPI_Win_create_errhandler(MPI_Win_errhandler_function *function, MPI_Errhandler *made) {
    return create_errhandler((MPI_Comm_errhandler_function *)(void (*)(void))function, made, "MPI_Win_create_errhandler");
}

int MPI_Win_set_errhandler(MPI_Win handle, MPI_Errhandler wanted) {
    int code;
    struct window *window = find_window(handle, "MPI_Win_set_errhandler", &code);
    return window != NULL ? set_errhandler(window->comm, wanted, "MPI_Win_set_errhandler") : code;
}

int MPI_Win_get_errhandler(MPI_Win handle, MPI_Errhandler *handler) {
    int code;
    struct window *window = find_window(handle, "MPI_Win_get_errhandler", &code);
    return window != NULL ? get_errhandler(window->comm, handler) : code;
}

int MPI_Win_call_errhandler(MPI_Win handle, int error) {
    int code;
    struct window *window = find_window(handle, "MPI_Win_call_errhandler", &code);
    return window != NULL ? call_errhandler(window->comm, error, "MPI_Win_call_errhandler") : code;
}

/* ---- names and groups */

int MPI_Win_set_name(MPI_Win handle, const char *name) {
    int code;
    struct window *window = find_window(handle, "MPI_Win_set_name", &code);
    if (window == NULL) return code;
    pthread_mutex_lock(&window->comm->guard);
    snprintf(window->comm->name, sizeof window->comm->name, "%s", name);
    pthread_mutex_unlock(&window->comm->guard);
    return code;
}

int MPI_Win_get_name(MPI_Win handle, char *name, int *length) {
    int code;
    struct window *window = find_window(handle, "MPI_Win_get_name", &code);
    if (window == NULL) return code;
    pthread_mutex_lock(&window->comm->guard);
    *length = snprintf(name, MPI_MAX_OBJECT_NAME, "%s", window->comm->name);
    pthread_mutex_unlock(&window->comm->guard);
    return code;
}

int MPI_Win_get_group(MPI_Win handle, MPI_Group *group) {
    int code, ranks[MOST_RANKS];
    struct window *window = find_window(handle, "MPI_Win_get_group", &code);
    if (window == NULL) return code;
    for (int i = 0; i < window->comm->size; i++) ranks[i] = window->comm->members[i].rank;
    *group = new_group(ranks, window->comm->size);
    return code;
}

/* ---- infos: the hints that MPI 4.1, 12.2.1 names are kept, and none is needed */

static const char *const hints[][2] = {
    { "no_locks", "false" }, { "accumulate_ordering", "rar,raw,war,waw" }, { "accumulate_ops", "same_op_no_op" }, { "mpi_accumulate_granularity", "0" },
    { "same_size", "false" }, { "same_disp_unit", "false" }, { "alloc_shared_noncontig", "false" },
};
enum { HINTS = sizeof hints / sizeof hints[0] };

int MPI_Win_set_info(MPI_Win handle, MPI_Info info) {
    int code;
    struct window *window = find_window(handle, "MPI_Win_set_info", &code);
    if (window != NULL) code = judge_info(info, "MPI_Win_set_info");
    if (window == NULL) return code;
    for (int i = 0; i < HINTS && code == MPI_SUCCESS && info != MPI_INFO_NULL; i++) {
        char value[MPI_MAX_INFO_VAL + 1];
        int flag = 0;
        code = MPI_Info_get(info, hints[i][0], MPI_MAX_INFO_VAL, value, &flag);
        if (code == MPI_SUCCESS && flag) code = MPI_Info_set(my_window(window)->info, hints[i][0], value);
    }
    return code;
}

int MPI_Win_get_info(MPI_Win handle, MPI_Info *info) {
    int code;
    struct window *window = find_window(handle, "MPI_Win_get_info", &code);
    if (window == NULL) return code;
    code = MPI_Info_create(info);
    for (int i = 0; i < HINTS && code == MPI_SUCCESS; i++) {
        char value[MPI_MAX_INFO_VAL + 1];
        int flag = 0;
        code = MPI_Info_get(my_window(window)->info, hints[i][0], MPI_MAX_INFO_VAL, value, &flag);
        if (code == MPI_SUCCESS) code = MPI_Info_set(*info, hints[i][0], flag ? value : hints[i][1]);
    }
    return code;
}

/* ---- shared memory: whatever a window has, since ranks are threads */

int MPI_Win_shared_query_c(MPI_Win handle, int rank, MPI_Aint *size, MPI_Aint *unit, void *base) {
    const char *call = "MPI_Win_shared_query";
    int code;
    struct window *window = find_window(handle, call, &code);
    if (window == NULL) return code;
    if (window->flavor == MPI_WIN_FLAVOR_DYNAMIC) return refuse(window->comm, MPI_ERR_RMA_FLAVOR, call, "a dynamic window has no memory of its own");
    if (rank != MPI_PROC_NULL && (rank < 0 || rank >= window->comm->size))
        return refuse(window->comm, MPI_ERR_RANK, call, "there is no rank %d in the window, which has %d", rank, window->comm->size);
    for (int i = 0; rank == MPI_PROC_NULL && i < window->comm->size; i++)
        if (window->members[i].size > 0) rank = i;
    const struct window_member none = { .base = NULL, .unit = 1 }, *there = rank != MPI_PROC_NULL ? &window->members[rank] : &none;
    *size = there->size;
    *unit = there->unit;
    *(void **)base = there->size > 0 ? there->base : NULL;
    return code;
}

int MPI_Win_shared_query(MPI_Win handle, int rank, MPI_Aint *size, int *unit, void *base) {
    MPI_Aint wide = 1;
    int code = MPI_Win_shared_query_c(handle, rank, size, &wide, base);
    if (code == MPI_SUCCESS) *unit = (int)wide;
    return code;
}
