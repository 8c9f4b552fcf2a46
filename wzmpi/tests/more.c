/* Programs without a mistake, by calls that few programs have: more NAME runs one of them, which says nothing and ends with 0. */
#include <mpi.h>
#include <stdbool.h>
#include <stdio.h>
#include <stdlib.h>
#include <string.h>

static int rank, size;

static void fail(int line, const char *what) {
    printf("rank %d: more.c:%d: not so: %s\n", rank, line, what);
    exit(1);
}
#define HOLDS(what) ((what) ? (void)0 : fail(__LINE__, #what))

/* How types were made, from the outer one in. */
static void contents(void) {
    MPI_Datatype pair, list, copy, parts[3], of[2] = { MPI_INT, MPI_DOUBLE };
    MPI_Aint places[2] = { 0, 8 }, addresses[3];
    int lengths[2] = { 1, 2 }, integers[8], many, many_addresses, many_types, combiner;
    MPI_Type_create_struct(2, lengths, places, of, &pair);
    MPI_Type_vector(3, 2, 4, pair, &list);
    MPI_Type_get_envelope(list, &many, &many_addresses, &many_types, &combiner);
    HOLDS(many == 3 && many_addresses == 0 && many_types == 1 && combiner == MPI_COMBINER_VECTOR);
    MPI_Type_free(&pair);
    MPI_Type_get_contents(list, 3, 0, 1, integers, addresses, parts);
    HOLDS(integers[0] == 3 && integers[1] == 2 && integers[2] == 4);
    MPI_Type_get_envelope(parts[0], &many, &many_addresses, &many_types, &combiner);
    HOLDS(many == 3 && many_addresses == 2 && many_types == 2 && combiner == MPI_COMBINER_STRUCT);
    copy = parts[0];
    MPI_Type_get_contents(copy, 3, 2, 2, integers, addresses, parts);
    HOLDS(integers[0] == 2 && integers[2] == 2 && addresses[1] == 8 && parts[0] == MPI_INT && parts[1] == MPI_DOUBLE);
    MPI_Type_free(&copy);
    MPI_Type_free(&list);
    MPI_Type_create_resized(MPI_INT, 0, 16, &list);
    MPI_Type_get_contents(list, 0, 2, 1, integers, addresses, parts);
    HOLDS(addresses[1] == 16 && parts[0] == MPI_INT);
    MPI_Type_free(&list);
}

/* A matrix of 5 by 6 over a grid of 2 by 2, in blocks and in turns: each element is one process's. */
static void darray(void) {
    int owner[30], sizes[2] = { 5, 6 }, kinds[2] = { MPI_DISTRIBUTE_BLOCK, MPI_DISTRIBUTE_CYCLIC }, arguments[2] = { MPI_DISTRIBUTE_DFLT_DARG, 2 }, grid[2] = { 2, 2 };
    for (int i = 0; i < 30; i++) owner[i] = -1;
    for (int process = 0; process < 4; process++) {
        MPI_Datatype part;
        MPI_Aint low, extent;
        int bytes, own[30];
        MPI_Type_create_darray(4, process, 2, sizes, kinds, arguments, grid, MPI_ORDER_C, MPI_INT, &part);
        MPI_Type_commit(&part);
        MPI_Type_size(part, &bytes);
        MPI_Type_get_extent(part, &low, &extent);
        HOLDS(extent == 120 && bytes == 4 * (process < 2 ? 3 : 2) * (process % 2 == 0 ? 4 : 2));
        for (int i = 0; i < 30; i++) own[i] = process;
        MPI_Sendrecv(own, bytes / 4, MPI_INT, 0, 0, owner, 1, part, 0, 0, MPI_COMM_SELF, MPI_STATUS_IGNORE);
        MPI_Type_free(&part);
    }
    for (int i = 0; i < 30; i++) HOLDS(owner[i] == 2 * (i / 6 / 3) + i % 6 / 2 % 2);
}

/* MPI_C_COMPLEX is what MPI 4.1, table 3.2, has the other name for; what MPI 3.0 removed still has its own. */
static void names(void) {
    const struct {
        MPI_Datatype of;
        const char *name;
    } named[] = { { MPI_C_COMPLEX, "MPI_C_COMPLEX" }, { MPI_C_FLOAT_COMPLEX, "MPI_C_COMPLEX" }, { MPI_LB, "MPI_LB" }, { MPI_UB, "MPI_UB" }, { MPI_INT, "MPI_INT" } };
    for (size_t i = 0; i < sizeof named / sizeof named[0]; i++) {
        char name[MPI_MAX_OBJECT_NAME];
        int length;
        MPI_Type_get_name(named[i].of, name, &length);
        HOLDS(strcmp(name, named[i].name) == 0 && length == (int)strlen(name));
    }
}

static int copies, deletes;
static int copy_more(MPI_Datatype of, int key, void *extra, void *value, void *copied, int *flag) {
    (void)of, (void)key;
    copies++;
    *(void **)copied = (char *)value + *(int *)extra;
    *flag = 1;
    return MPI_SUCCESS;
}
static int note_delete(MPI_Datatype of, int key, void *value, void *extra) {
    (void)of, (void)key, (void)value, (void)extra;
    deletes++;
    return MPI_SUCCESS;
}

/* Attributes of types. */
static void attributes(void) {
    static char values[10];
    static int three = 3;
    MPI_Datatype list, copy;
    int key, flag;
    char *value;
    MPI_Type_contiguous(2, MPI_INT, &list);
    MPI_Type_create_keyval(copy_more, note_delete, &key, &three);
    MPI_Type_set_attr(list, key, values);
    MPI_Type_dup(list, &copy);
    MPI_Type_get_attr(copy, key, &value, &flag);
    HOLDS(flag && value == values + 3 && copies == 1);
    MPI_Type_delete_attr(copy, key);
    MPI_Type_get_attr(copy, key, &value, &flag);
    HOLDS(!flag && deletes == 1);
    MPI_Type_free(&copy);
    MPI_Type_free(&list);
    HOLDS(deletes == 2);
    MPI_Type_free_keyval(&key);
    HOLDS(key == MPI_KEYVAL_INVALID);
}

/* Big-endian bytes. */
static void external(void) {
    int numbers[2] = { 1, -2 }, got[2];
    long large = -5;
    unsigned char bytes[16];
    MPI_Aint at = 0, room;
    MPI_Pack_external_size("external32", 2, MPI_INT, &room);
    HOLDS(room == 8);
    MPI_Pack_external("external32", numbers, 2, MPI_INT, bytes, 16, &at);
    MPI_Pack_external("external32", &large, 1, MPI_LONG, bytes, 16, &at);
    HOLDS(at == 12 && bytes[0] == 0 && bytes[3] == 1 && bytes[4] == 0xff && bytes[7] == 0xfe && bytes[11] == 0xfb);
    at = large = 0;
    MPI_Unpack_external("external32", bytes, 12, &at, got, 2, MPI_INT);
    MPI_Unpack_external("external32", bytes, 12, &at, &large, 1, MPI_LONG);
    HOLDS(got[0] == 1 && got[1] == -2 && large == -5);
}

static int released;
static int query(void *extra, MPI_Status *status) {
    MPI_Status_set_elements(status, MPI_INT, *(int *)extra);
    MPI_Status_set_cancelled(status, 0);
    status->MPI_SOURCE = 0;
    status->MPI_TAG = 7;
    return MPI_SUCCESS;
}
static int release(void *extra) {
    (void)extra;
    released++;
    return MPI_SUCCESS;
}
static int cancel(void *extra, int complete) {
    (void)extra;
    HOLDS(!complete);
    return MPI_SUCCESS;
}

/* Requests that the program completes. */
static void generalized(void) {
    int five = 5, flag, count;
    MPI_Request request;
    MPI_Status status;
    MPI_Grequest_start(query, release, cancel, &five, &request);
    MPI_Test(&request, &flag, &status);
    HOLDS(!flag);
    MPI_Cancel(&request);
    MPI_Grequest_complete(request);
    MPI_Wait(&request, &status);
    MPI_Get_count(&status, MPI_INT, &count);
    HOLDS(request == MPI_REQUEST_NULL && count == 5 && status.MPI_TAG == 7 && released == 1);
}

/* Calls that MPI 3.0 removed. */
static void removed(void) {
    struct {
        int number;
        double value;
    } one = { 4, 2.5 }, two;
    int lengths[3] = { 1, 1, 1 };
    MPI_Aint places[3], extent, high;
    MPI_Datatype of[3] = { MPI_INT, MPI_DOUBLE, MPI_UB }, made;
    MPI_Errhandler handler;
    MPI_Address(&one.number, &places[0]);
    MPI_Address(&one.value, &places[1]);
    places[1] -= places[0];
    places[0] = 0;
    places[2] = 40;
    MPI_Type_create_struct(3, lengths, places, of, &made);
    MPI_Type_extent(made, &extent);
    HOLDS(extent == 40);
    MPI_Type_free(&made);
    MPI_Type_struct(3, lengths, places, of, &made);
    MPI_Type_commit(&made);
    MPI_Type_extent(made, &extent);
    MPI_Type_ub(made, &high);
    HOLDS(extent == 40 && high == 40);
    MPI_Sendrecv(&one, 1, made, 0, 0, &two, 1, made, 0, 0, MPI_COMM_SELF, MPI_STATUS_IGNORE);
    HOLDS(two.number == 4 && two.value == 2.5);
    MPI_Type_free(&made);
    MPI_Errhandler_get(MPI_COMM_WORLD, &handler);
    HOLDS(handler == MPI_ERRORS_ARE_FATAL);
}

/* Handles of Fortran and back, and types by size and precision. */
static void fortran(void) {
    MPI_Comm copy;
    MPI_Datatype real, again;
    MPI_Fint handle;
    MPI_Comm_dup(MPI_COMM_WORLD, &copy);
    handle = MPI_Comm_c2f(copy);
    HOLDS(MPI_Comm_f2c(handle) == copy && MPI_Comm_f2c(MPI_Comm_c2f(MPI_COMM_NULL)) == MPI_COMM_NULL);
    MPI_Comm_free(&copy);
    MPI_Type_match_size(MPI_TYPECLASS_REAL, 8, &real);
    HOLDS(real == MPI_REAL8);
    MPI_Type_create_f90_real(10, MPI_UNDEFINED, &real);
    MPI_Type_create_f90_real(10, MPI_UNDEFINED, &again);
    HOLDS(real == again);
}

/* ---- sessions, in place of MPI_Init and beside it */

static MPI_Comm comm_of(MPI_Session session, const char *set) {
    MPI_Group group;
    MPI_Comm comm;
    MPI_Group_from_session_pset(session, set, &group);
    MPI_Comm_create_from_group(group, "more.c", MPI_INFO_NULL, MPI_ERRORS_ARE_FATAL, &comm);
    MPI_Group_free(&group);
    return comm;
}

static int sum_over(MPI_Comm comm) {
    int one = 1, sum = 0;
    MPI_Allreduce(&one, &sum, 1, MPI_INT, MPI_SUM, comm);
    return sum;
}

/* The process sets, and a communicator of each; twice, one session after the other. */
static void session_alone(void) {
    char set[MPI_MAX_PSET_NAME_LEN], text[20];
    int many, length = 0, flag;
    MPI_Session session;
    MPI_Info info;
    for (int turn = 0; turn < 2; turn++) {
        MPI_Session_init(MPI_INFO_NULL, MPI_ERRORS_ARE_FATAL, &session);
        MPI_Session_get_num_psets(session, MPI_INFO_NULL, &many);
        MPI_Session_get_nth_pset(session, MPI_INFO_NULL, 0, &length, NULL);
        HOLDS(many == 2 && length == 12);
        MPI_Session_get_nth_pset(session, MPI_INFO_NULL, 0, &length, set);
        HOLDS(strcmp(set, "mpi://WORLD") == 0);
        MPI_Session_get_pset_info(session, set, &info);
        MPI_Info_get(info, "mpi_size", 19, text, &flag);
        MPI_Info_free(&info);
        MPI_Comm world = comm_of(session, set), self = comm_of(session, "mpi://self");
        MPI_Comm_size(world, &size);
        HOLDS(flag && atoi(text) == size && sum_over(world) == size && sum_over(self) == 1);
        MPI_Initialized(&flag);
        HOLDS(!flag);
        MPI_Comm_free(&self);
        MPI_Comm_free(&world);
        MPI_Session_finalize(&session);
        HOLDS(session == MPI_SESSION_NULL);
        length = 0;
    }
}

/* One that outlives MPI_Finalize. */
static void session_longer(void) {
    char level[MPI_MAX_INFO_VAL];
    int flag;
    MPI_Session session;
    MPI_Info info;
    MPI_Init(NULL, NULL);
    MPI_Info_create(&info);
    MPI_Info_set(info, "thread_level", "MPI_THREAD_MULTIPLE");
    MPI_Session_init(info, MPI_ERRORS_RETURN, &session);
    MPI_Info_free(&info);
    MPI_Session_get_info(session, &info);
    MPI_Info_get(info, "thread_level", MPI_MAX_INFO_VAL - 1, level, &flag);
    HOLDS(flag && strcmp(level, "MPI_THREAD_MULTIPLE") == 0);
    MPI_Info_free(&info);
    MPI_Comm world = comm_of(session, "mpi://WORLD");
    MPI_Comm_size(MPI_COMM_WORLD, &size);
    MPI_Finalize();
    MPI_Finalized(&flag);
    HOLDS(flag && sum_over(world) == size);
    MPI_Comm_free(&world);
    MPI_Session_finalize(&session);
}

static int calls_of_handler;
static void count_call(MPI_Session *session, int *code, ...) { calls_of_handler += *session != MPI_SESSION_NULL && *code == MPI_ERR_ARG; }

/* Its error handler judges what is asked of it. */
static void session_errors(void) {
    MPI_Session session;
    MPI_Errhandler handler, got;
    MPI_Group group;
    MPI_Session_create_errhandler(count_call, &handler);
    MPI_Session_init(MPI_INFO_NULL, handler, &session);
    HOLDS(MPI_Group_from_session_pset(session, "mpi://NONE", &group) == MPI_ERR_ARG && calls_of_handler == 1);
    HOLDS(MPI_Session_call_errhandler(session, MPI_ERR_ARG) == MPI_SUCCESS && calls_of_handler == 2);
    MPI_Session_get_errhandler(session, &got);
    HOLDS(got == handler);
    MPI_Errhandler_free(&got);
    MPI_Errhandler_free(&handler);
    MPI_Session_set_errhandler(session, MPI_ERRORS_RETURN);
    HOLDS(MPI_Group_from_session_pset(session, "mpi://NONE", &group) == MPI_ERR_ARG && calls_of_handler == 2);
    MPI_Session_finalize(&session);
}

/* The even ranks and the odd ones, as two groups and between the two. */
static void group_comms(void) {
    MPI_Group all, mine, theirs;
    MPI_Comm near, between, none = MPI_COMM_SELF;
    int range[1][3] = { { rank % 2, size - 1, 2 } }, other[1][3] = { { 1 - rank % 2, size - 1, 2 } }, far = -1;
    if (size < 2) return;
    MPI_Comm_group(MPI_COMM_WORLD, &all);
    MPI_Group_range_incl(all, 1, range, &mine);
    MPI_Group_range_incl(all, 1, other, &theirs);
    MPI_Comm_create_from_group(mine, "halves", MPI_INFO_NULL, MPI_ERRORS_ARE_FATAL, &near);
    HOLDS(sum_over(near) == (size + 1 - rank % 2) / 2);
    MPI_Intercomm_create_from_groups(mine, 0, theirs, 0, "between", MPI_INFO_NULL, MPI_ERRORS_ARE_FATAL, &between);
    MPI_Comm_remote_size(between, &far);
    HOLDS(far == (size + rank % 2) / 2 && sum_over(between) == far);
    MPI_Comm_create_from_group(MPI_GROUP_EMPTY, "none", MPI_INFO_NULL, MPI_ERRORS_ARE_FATAL, &none);
    HOLDS(none == MPI_COMM_NULL);
    MPI_Comm_free(&between);
    MPI_Comm_free(&near);
    MPI_Group_free(&mine);
    MPI_Group_free(&theirs);
    MPI_Group_free(&all);
}

/* What would start or find further processes is refused, by a sentence. */
static void further(void) {
    char port[MPI_MAX_PORT_NAME], text[MPI_MAX_ERROR_STRING];
    int length;
    MPI_Comm made = MPI_COMM_SELF;
    MPI_Comm_set_errhandler(MPI_COMM_WORLD, MPI_ERRORS_RETURN);
    MPI_Comm_set_errhandler(MPI_COMM_SELF, MPI_ERRORS_RETURN);
    HOLDS(MPI_Comm_spawn("none", MPI_ARGV_NULL, 1, MPI_INFO_NULL, 0, MPI_COMM_WORLD, &made, MPI_ERRCODES_IGNORE) == MPI_ERR_SPAWN && made == MPI_COMM_NULL);
    MPI_Error_string(MPI_ERR_SPAWN, text, &length);
    HOLDS(strstr(text, "no further process can be started") != NULL);
    HOLDS(MPI_Open_port(MPI_INFO_NULL, port) == MPI_ERR_PORT && MPI_Lookup_name("none", MPI_INFO_NULL, port) == MPI_ERR_NAME);
}

/* The tool information interface has nothing, and is opened and closed as often as a program likes. */
static void tool_information(void) {
    int level, many = -1, index;
    MPI_T_pvar_session session;
    HOLDS(MPI_T_cvar_get_num(&many) == MPI_T_ERR_NOT_INITIALIZED && many == -1);
    HOLDS(MPI_T_init_thread(MPI_THREAD_SERIALIZED, &level) == MPI_SUCCESS && level == MPI_THREAD_SERIALIZED && MPI_T_init_thread(MPI_THREAD_SINGLE, &level) == MPI_SUCCESS);
    HOLDS(MPI_T_cvar_get_num(&many) == MPI_SUCCESS && many == 0 && MPI_T_pvar_get_num(&many) == MPI_SUCCESS && many == 0 && MPI_T_category_get_num(&many) == MPI_SUCCESS && many == 0);
    HOLDS(MPI_T_cvar_get_index("none", &index) == MPI_T_ERR_INVALID_NAME && MPI_T_category_get_categories(0, 0, &index) == MPI_T_ERR_INVALID_INDEX);
    HOLDS(MPI_T_pvar_session_create(&session) == MPI_SUCCESS && MPI_T_pvar_start(session, MPI_T_PVAR_ALL_HANDLES) == MPI_SUCCESS && MPI_T_pvar_session_free(&session) == MPI_SUCCESS);
    HOLDS(session == MPI_T_PVAR_SESSION_NULL && MPI_T_pvar_session_free(&session) == MPI_T_ERR_INVALID_SESSION);
    HOLDS(MPI_T_finalize() == MPI_SUCCESS && MPI_T_finalize() == MPI_SUCCESS && MPI_T_finalize() == MPI_T_ERR_NOT_INITIALIZED);
}

#define CASE(name) { #name, name }
static const struct {
    const char *name;
    void (*run)(void);
} cases[] = { CASE(contents), CASE(darray), CASE(names), CASE(attributes), CASE(external), CASE(generalized), CASE(removed), CASE(fortran), CASE(session_alone), CASE(session_longer),
              CASE(session_errors), CASE(group_comms), CASE(further), CASE(tool_information) };

int main(int argc, char **argv) {
    bool by_session = argc > 1 && strncmp(argv[1], "session_", 8) == 0;
    if (!by_session) {
        MPI_Init(&argc, &argv);
        MPI_Comm_rank(MPI_COMM_WORLD, &rank);
        MPI_Comm_size(MPI_COMM_WORLD, &size);
    }
    for (size_t i = 0; i < sizeof cases / sizeof cases[0]; i++)
        if (argc > 1 && strcmp(argv[1], cases[i].name) == 0) cases[i].run();
    if (!by_session) MPI_Finalize();
    return 0;
}
