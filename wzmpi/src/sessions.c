/* Sessions (MPI 4.1, 11.3): a rank may begin by them in place of MPI_Init, or beside it. The process sets are the two that the standard names. */
#include "attributes.h"
#include "diagnostics.h"
#include "warnings.h"

#include <strings.h>

struct session {
    struct errhandler *handler;
    int level;
};

static const char *const sets[] = { "mpi://WORLD", "mpi://SELF" };
enum { SETS = sizeof sets / sizeof sets[0] };
static const char *const levels[] = { "MPI_THREAD_SINGLE", "MPI_THREAD_FUNNELED", "MPI_THREAD_SERIALIZED", "MPI_THREAD_MULTIPLE" };

static int refuse_session(const struct session *session, int class, const char *call, const char *format, ...) __attribute__((format(printf, 4, 5)));
static int refuse_session(const struct session *session, int class, const char *call, const char *format, ...) {
    MPI_Comm handle = session != NULL ? (MPI_Comm)handle_of(SESSION, session) : (MPI_Comm)MPI_SESSION_NULL;
    struct errhandler *handler = session != NULL ? session->handler : this_member(world_comm())->handler;
    va_list rest;
    va_start(rest, format);
    int code = refuse_by(&(struct refusal){ handler, handle, class, false, call }, format, rest);
    va_end(rest);
    return code;
}

static struct session *find_session(MPI_Session handle, const char *call, int *code) {
    this_rank(call);
    struct session *session = find_handle(SESSION, handle);
    *code = MPI_SUCCESS;
    if (session != NULL) return session;
    if (handle == MPI_SESSION_NULL) *code = refuse_session(NULL, MPI_ERR_SESSION, call, "the session is MPI_SESSION_NULL");
    else *code = refuse_session(NULL, MPI_ERR_SESSION, call, was_freed(SESSION, handle) ? "the session was finalized" : "there is no such session");
    return NULL;
}

/* ---- beginning and ending */

/* The level of threads that the info asks for; MPI_THREAD_SINGLE where it asks for none. */
static int level_of(MPI_Info info) {
    char value[MPI_MAX_INFO_VAL + 1];
    int given = 0;
    if (info != MPI_INFO_NULL) MPI_Info_get(info, "thread_level", MPI_MAX_INFO_VAL, value, &given);
    for (int level = MPI_THREAD_MULTIPLE; given && level > MPI_THREAD_SINGLE; level--)
        if (strcmp(value, levels[level]) == 0) return level;
    return MPI_THREAD_SINGLE;
}

int MPI_Session_init(MPI_Info info, MPI_Errhandler wanted, MPI_Session *made) {
    const char *call = "MPI_Session_init";
    struct rank *me = this_rank(call);
    struct errhandler *handler = errhandler_of(wanted);
    if (handler == NULL) return refuse(NULL, MPI_ERR_ARG, call, "there is no such error handler");
    if (judge_info(info, call) != MPI_SUCCESS) return MPI_ERR_INFO;
    struct session *session = must(malloc(sizeof *session));
    *session = (struct session){ handler, level_of(info) };
    hold_errhandler(handler);
    *made = (MPI_Session)add_handle(SESSION, session);
    begin_model(me, session->level);
    me->sessions++;
    return MPI_SUCCESS;
}

int MPI_Session_finalize(MPI_Session *handle) {
    int code;
    struct rank *me = this_rank("MPI_Session_finalize");
    struct session *session = find_session(*handle, "MPI_Session_finalize", &code);
    if (session == NULL) return code;
    unhold_errhandler(session->handler);
    remove_handle(SESSION, *handle);
    free(session);
    *handle = MPI_SESSION_NULL;
    me->sessions--;
    end_model(me);
    return code;
}

/* ---- process sets */

int MPI_Session_get_num_psets(MPI_Session handle, MPI_Info info, int *many) {
    int code;
    (void)info;
    if (find_session(handle, "MPI_Session_get_num_psets", &code) != NULL) *many = SETS;
    return code;
}

int MPI_Session_get_nth_pset(MPI_Session handle, MPI_Info info, int n, int *length, char *name) {
    const char *call = "MPI_Session_get_nth_pset";
    int code;
    struct session *session = find_session(handle, call, &code);
    (void)info;
    if (session == NULL) return code;
    if (n < 0 || n >= SETS) return refuse_session(session, MPI_ERR_ARG, call, "there is no process set %d: there are %d", n, SETS);
    if (*length > 0) snprintf(name, (size_t)*length, "%s", sets[n]);
    *length = (int)strlen(sets[n]) + 1;
    return code;
}

/* The number of a process set, whose name is a URI, which programs also write in small letters; -1: there is no such one. */
static int number_of(const char *name) {
    for (int i = 0; i < SETS; i++)
        if (strcasecmp(name, sets[i]) == 0) return i;
    return -1;
}

int MPI_Session_get_pset_info(MPI_Session handle, const char *name, MPI_Info *info) {
    const char *call = "MPI_Session_get_pset_info";
    char size[20];
    int code, number = number_of(name);
    struct session *session = find_session(handle, call, &code);
    if (session == NULL) return code;
    if (number < 0) return refuse_session(session, MPI_ERR_ARG, call, "there is no process set \"%s\"", name);
    snprintf(size, sizeof size, "%d", number == 0 ? the_run.size : 1);
    code = MPI_Info_create(info);
    return code == MPI_SUCCESS ? MPI_Info_set(*info, "mpi_size", size) : code;
}

int MPI_Session_get_info(MPI_Session handle, MPI_Info *info) {
    int code;
    struct session *session = find_session(handle, "MPI_Session_get_info", &code);
    if (session == NULL) return code;
    code = MPI_Info_create(info);
    return code == MPI_SUCCESS ? MPI_Info_set(*info, "thread_level", levels[session->level]) : code;
}

int MPI_Group_from_session_pset(MPI_Session handle, const char *name, MPI_Group *group) {
    const char *call = "MPI_Group_from_session_pset";
    int code, number = number_of(name);
    struct session *session = find_session(handle, call, &code);
    if (session == NULL) return code;
    if (number < 0) return refuse_session(session, MPI_ERR_ARG, call, "there is no process set \"%s\"", name);
    return MPI_Comm_group(number == 0 ? MPI_COMM_WORLD : MPI_COMM_SELF, group);
}

/* ---- error handlers */

int MPI_Session_create_errhandler(MPI_Session_errhandler_function *function, MPI_Errhandler *made) {
    return create_errhandler((MPI_Comm_errhandler_function *)(void (*)(void))function, made, "MPI_Session_create_errhandler");
}

int MPI_Session_set_errhandler(MPI_Session handle, MPI_Errhandler wanted) {
    const char *call = "MPI_Session_set_errhandler";
    int code;
    struct session *session = find_session(handle, call, &code);
    struct errhandler *handler = errhandler_of(wanted);
    if (session == NULL) return code;
    if (handler == NULL) return refuse_session(session, MPI_ERR_ARG, call, "there is no such error handler");
    hold_errhandler(handler);
    unhold_errhandler(session->handler);
    session->handler = handler;
    return code;
}

int MPI_Session_get_errhandler(MPI_Session handle, MPI_Errhandler *handler) {
    int code;
    struct session *session = find_session(handle, "MPI_Session_get_errhandler", &code);
    if (session != NULL) *handler = errhandler_handle(session->handler);
    return code;
}

int MPI_Session_call_errhandler(MPI_Session handle, int error) {
    const char *call = "MPI_Session_call_errhandler";
    int code;
    struct session *session = find_session(handle, call, &code);
    if (session == NULL) return code;
    if (session->handler->function != NULL) call_handler(session->handler, (MPI_Comm)handle, &error);
    else if (!session->handler->returns) return refuse_session(session, error, call, "the program called it with %s", class_name(error));
    return code;
}
