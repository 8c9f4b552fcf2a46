/* The tool information interface (MPI 4.1, 15.3): there are no variables, events and categories, so what asks for one has no such index, name or handle. Its calls
   return codes alone, and call no error handler. */
#include "base.h"

static atomic_int opened[MOST_RANKS];

static bool is_open(void) { return current_rank != NULL && atomic_load(&opened[current_rank->number]) > 0; }

/* CODE, or that the interface isn't open. */
static int coded(int code) { return is_open() ? code : MPI_T_ERR_NOT_INITIALIZED; }

static int none(int *many) {
    if (is_open()) *many = 0;
    return coded(MPI_SUCCESS);
}

int MPI_T_init_thread(int wanted, int *given) {
    if (rank_of_code(__builtin_return_address(0)) == NULL) return MPI_T_ERR_CANNOT_INIT;
    atomic_fetch_add(&opened[current_rank->number], 1);
    *given = wanted < MPI_THREAD_MULTIPLE ? wanted : MPI_THREAD_MULTIPLE;
    return MPI_SUCCESS;
}

int MPI_T_finalize(void) {
    if (!is_open()) return MPI_T_ERR_NOT_INITIALIZED;
    atomic_fetch_sub(&opened[current_rank->number], 1);
    return MPI_SUCCESS;
}

/* ---- how many there are */

int MPI_T_cvar_get_num(int *many) { return none(many); }
int MPI_T_pvar_get_num(int *many) { return none(many); }
int MPI_T_category_get_num(int *many) { return none(many); }
int MPI_T_event_get_num(int *many) { return none(many); }
int MPI_T_source_get_num(int *many) { return none(many); }

int MPI_T_category_changed(int *stamp) { return none(stamp); }

/* ---- a session of performance variables, which has none */

int MPI_T_pvar_session_create(MPI_T_pvar_session *session) {
    static char any;
    if (is_open()) *session = (MPI_T_pvar_session)(void *)&any;
    return coded(MPI_SUCCESS);
}

int MPI_T_pvar_session_free(MPI_T_pvar_session *session) {
    if (!is_open() || *session == MPI_T_PVAR_SESSION_NULL) return coded(MPI_T_ERR_INVALID_SESSION);
    *session = MPI_T_PVAR_SESSION_NULL;
    return MPI_SUCCESS;
}

/* What is done to all variables of a session is done. */
static int handled(MPI_T_pvar_session session, MPI_T_pvar_handle handle) {
    if (session == MPI_T_PVAR_SESSION_NULL) return coded(MPI_T_ERR_INVALID_SESSION);
    return coded(handle == MPI_T_PVAR_ALL_HANDLES ? MPI_SUCCESS : MPI_T_ERR_INVALID_HANDLE);
}

int MPI_T_pvar_start(MPI_T_pvar_session session, MPI_T_pvar_handle handle) { return handled(session, handle); }
int MPI_T_pvar_stop(MPI_T_pvar_session session, MPI_T_pvar_handle handle) { return handled(session, handle); }
int MPI_T_pvar_reset(MPI_T_pvar_session session, MPI_T_pvar_handle handle) { return handled(session, handle); }

/* ---- what asks for one */

#define NO_INDEX(name, ...) \
    int MPI_T_##name(__VA_ARGS__) { return coded(MPI_T_ERR_INVALID_INDEX); }
#define NO_NAME(name, ...) \
    int MPI_T_##name(__VA_ARGS__) { return coded(MPI_T_ERR_INVALID_NAME); }
#define NO_HANDLE(name, ...) \
    int MPI_T_##name(__VA_ARGS__) { return coded(MPI_T_ERR_INVALID_HANDLE); }

#pragma GCC diagnostic ignored "-Wunused-parameter"
NO_HANDLE(enum_get_info, MPI_T_enum enumtype, int *num, char *name, int *name_len)
NO_HANDLE(enum_get_item, MPI_T_enum enumtype, int index, int *value, char *name, int *name_len)
NO_INDEX(cvar_get_info, int cvar_index, char *name, int *name_len, int *verbosity, MPI_Datatype *datatype, MPI_T_enum *enumtype, char *desc, int *desc_len, int *bind, int *scope)
NO_NAME(cvar_get_index, const char *name, int *cvar_index)
NO_INDEX(cvar_handle_alloc, int cvar_index, void *obj_handle, MPI_T_cvar_handle *handle, int *count)
NO_HANDLE(cvar_handle_free, MPI_T_cvar_handle *handle)
NO_HANDLE(cvar_read, MPI_T_cvar_handle handle, void *buf)
NO_HANDLE(cvar_write, MPI_T_cvar_handle handle, const void *buf)
NO_INDEX(pvar_get_info, int pvar_index, char *name, int *name_len, int *verbosity, int *var_class, MPI_Datatype *datatype, MPI_T_enum *enumtype, char *desc, int *desc_len, int *bind,
         int *readonly, int *continuous, int *atomic)
NO_NAME(pvar_get_index, const char *name, int var_class, int *pvar_index)
NO_INDEX(pvar_handle_alloc, MPI_T_pvar_session session, int pvar_index, void *obj_handle, MPI_T_pvar_handle *handle, int *count)
NO_HANDLE(pvar_handle_free, MPI_T_pvar_session session, MPI_T_pvar_handle *handle)
NO_HANDLE(pvar_read, MPI_T_pvar_session session, MPI_T_pvar_handle handle, void *buf)
NO_HANDLE(pvar_write, MPI_T_pvar_session session, MPI_T_pvar_handle handle, const void *buf)
NO_HANDLE(pvar_readreset, MPI_T_pvar_session session, MPI_T_pvar_handle handle, void *buf)
NO_INDEX(category_get_info, int cat_index, char *name, int *name_len, char *desc, int *desc_len, int *num_cvars, int *num_pvars, int *num_categories)
NO_INDEX(category_get_num_events, int cat_index, int *num_events)
NO_NAME(category_get_index, const char *name, int *cat_index)
NO_INDEX(category_get_cvars, int cat_index, int len, int indices[])
NO_INDEX(category_get_pvars, int cat_index, int len, int indices[])
NO_INDEX(category_get_events, int cat_index, int len, int indices[])
NO_INDEX(category_get_categories, int cat_index, int len, int indices[])
NO_INDEX(event_get_info, int event_index, char *name, int *name_len, int *verbosity, MPI_Datatype array_of_datatypes[], MPI_Aint array_of_displacements[], int *num_elements, MPI_T_enum *enumtype,
         MPI_Info *info, char *desc, int *desc_len, int *bind)
NO_NAME(event_get_index, const char *name, int *event_index)
NO_INDEX(source_get_info, int source_index, char *name, int *name_len, char *desc, int *desc_len, MPI_T_source_order *ordering, MPI_Count *ticks_per_second, MPI_Count *max_ticks, MPI_Info *info)
NO_INDEX(source_get_timestamp, int source_index, MPI_Count *timestamp)
