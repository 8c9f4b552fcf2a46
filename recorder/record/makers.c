/* What makes and frees communicators. */
#include "makers.h"

/* Writes a call that makes something of all members of a context, and returns the key of what it makes. */
static char *begin_making(struct context *parent, const char *name) {
    write_named(parent, 'b', name);
    return key_of_next(parent);
}

char *begin_making_of_comm(MPI_Comm parent, const char *name) {
    log_lock();
    char *key = begin_making(context_of_comm(parent), name);
    log_unlock();
    return key;
}

static int made_communicator(int result, const MPI_Comm *made, char *key, const char *maker) {
    log_lock();
    if (result == MPI_SUCCESS && *made != MPI_COMM_NULL) {
        log_place(here);
        communicator_made(*made, key, maker);
    }
    free(key);
    log_unlock();
    return result;
}

static int made_unfollowed(int result, const MPI_Comm *made) {
    log_lock();
    if (result == MPI_SUCCESS && *made != MPI_COMM_NULL)
        communicator_unfollowed(*made);
    log_unlock();
    return result;
}

/* A call that has a place, and whose communicator isn't followed: it is between two groups, or was. */
#define PLACED(NAME, parameters, arguments)                                                                                                 \
    INTERPOSED(MPI_##NAME, parameters, arguments) {                                                                                         \
        log_lock();                                                                                                                         \
        write_named(context_of_comm(parent), 'b', #NAME);                                                                                   \
        log_unlock();                                                                                                                       \
        return made_unfollowed(next_MPI_##NAME arguments, made);                                                                            \
    }

/* Communicators */

MAKER(communicator, Comm_dup, (MPI_Comm parent, MPI_Comm *made), (parent, made))
MAKER(communicator, Comm_dup_with_info, (MPI_Comm parent, MPI_Info info, MPI_Comm *made), (parent, info, made))
MAKER(communicator, Comm_split, (MPI_Comm parent, int colour, int order, MPI_Comm *made), (parent, colour, order, made))
MAKER(communicator, Comm_split_type, (MPI_Comm parent, int type, int order, MPI_Info info, MPI_Comm *made), (parent, type, order, info, made))
MAKER(communicator, Comm_create, (MPI_Comm parent, MPI_Group group, MPI_Comm *made), (parent, group, made))
MAKER(communicator, Cart_create, (MPI_Comm parent, int dimensions, const int *sizes, const int *periods, int reorder, MPI_Comm *made),
      (parent, dimensions, sizes, periods, reorder, made))
MAKER(communicator, Cart_sub, (MPI_Comm parent, const int *kept, MPI_Comm *made), (parent, kept, made))
MAKER(communicator, Graph_create, (MPI_Comm parent, int nodes, const int *index, const int *edges, int reorder, MPI_Comm *made),
      (parent, nodes, index, edges, reorder, made))
MAKER(communicator, Dist_graph_create,
      (MPI_Comm parent, int count, const int *sources, const int *degrees, const int *targets, const int *weights, MPI_Info info, int reorder,
       MPI_Comm *made),
      (parent, count, sources, degrees, targets, weights, info, reorder, made))
MAKER(communicator, Dist_graph_create_adjacent,
      (MPI_Comm parent, int sources, const int *from, const int *from_weights, int targets, const int *to, const int *to_weights, MPI_Info info,
       int reorder, MPI_Comm *made),
      (parent, sources, from, from_weights, targets, to, to_weights, info, reorder, made))
PLACED(Intercomm_create, (MPI_Comm parent, int leader, MPI_Comm bridge, int other, int tag, MPI_Comm *made),
       (parent, leader, bridge, other, tag, made))
PLACED(Comm_accept, (const char *port, MPI_Info info, int root, MPI_Comm parent, MPI_Comm *made), (port, info, root, parent, made))
PLACED(Comm_connect, (const char *port, MPI_Info info, int root, MPI_Comm parent, MPI_Comm *made), (port, info, root, parent, made))
PLACED(Intercomm_merge, (MPI_Comm parent, int high, MPI_Comm *made), (parent, high, made))
#if MPI_VERSION >= 4
/* It has no parent, so no place. */
INTERPOSED(MPI_Comm_create_from_group, (MPI_Group group, const char *tag, MPI_Info info, MPI_Errhandler handler, MPI_Comm *made),
           (group, tag, info, handler, made)) {
    now_elsewhere();
    return made_unfollowed(next_MPI_Comm_create_from_group(group, tag, info, handler, made), made);
}
#endif
PLACED(Comm_spawn_multiple,
       (int programs, char **commands, char ***words, const int *most, const MPI_Info *infos, int root, MPI_Comm parent, MPI_Comm *made,
        int *errors),
       (programs, commands, words, most, infos, root, parent, made, errors))
PLACED(Comm_spawn, (const char *command, char **words, int most, MPI_Info info, int root, MPI_Comm parent, MPI_Comm *made, int *errors),
       (command, words, most, info, root, parent, made, errors))

/* The members of the group alone call it, so it has its place among their calls. */
INTERPOSED(MPI_Comm_create_group, (MPI_Comm parent, MPI_Group group, int tag, MPI_Comm *made), (parent, group, tag, made)) {
    log_lock();
    log_place(here);
    char *key = begin_making(context_of_group(context_of_comm(parent), group, tag), "Comm_create_group");
    log_unlock();
    return made_communicator(next_MPI_Comm_create_group(parent, group, tag, made), made, key, "MPI_Comm_create_group");
}

/* What a nonblocking copy of a communicator is before the library has begun it. */
struct copying {
    struct awaited awaited;
    long number;
    char *key;
};

static struct copying begin_copying(MPI_Comm parent, const char *name) {
    struct copying copying = {.awaited = {.kind = AWAITED_OTHER}, .number = NO_REQUEST};
    log_lock();
    struct context *context = context_of_comm(parent);
    write_named(context, 'n', name);
    copying.key = key_of_next(context);
    if (context) {
        copying.awaited = collective_awaited(context);
        copying.number = next_request();
    }
    log_unlock();
    return copying;
}

static int begun_copying(int result, MPI_Comm *made, const MPI_Request *request, const struct copying *copying) {
    log_lock();
    if (result == MPI_SUCCESS) {
        struct request *it = request_made(request, copying->number, false, copying->awaited);
        it->comm = *made;
        it->made = made;
        it->key = copying->key;
    }
    log_unlock();
    return result;
}

INTERPOSED(MPI_Comm_idup, (MPI_Comm parent, MPI_Comm *made, MPI_Request *request), (parent, made, request)) {
    struct copying copying = begin_copying(parent, "Comm_dup");
    *made = MPI_COMM_NULL;
    return begun_copying(next_MPI_Comm_idup(parent, made, request), made, request, &copying);
}

#if MPI_VERSION >= 4
INTERPOSED(MPI_Comm_idup_with_info, (MPI_Comm parent, MPI_Info info, MPI_Comm *made, MPI_Request *request), (parent, info, made, request)) {
    struct copying copying = begin_copying(parent, "Comm_dup_with_info");
    *made = MPI_COMM_NULL;
    return begun_copying(next_MPI_Comm_idup_with_info(parent, info, made, request), made, request, &copying);
}
#endif

INTERPOSED(MPI_Comm_set_info, (MPI_Comm comm, MPI_Info info), (comm, info)) {
    log_lock();
    write_named(context_of_comm(comm), 'b', "Comm_set_info");
    log_unlock();
    return next_MPI_Comm_set_info(comm, info);
}

/* What these two communicators have is deleted as MPI_Finalize begins (MPI 4.1, 11.2.4). */
static void note_attribute(MPI_Comm comm) {
    if (comm == MPI_COMM_SELF || comm == MPI_COMM_WORLD)
        now_callbacks();
}

INTERPOSED(MPI_Comm_set_attr, (MPI_Comm comm, int key, void *value), (comm, key, value)) {
    note_attribute(comm);
    return next_MPI_Comm_set_attr(comm, key, value);
}

INTERPOSED(MPI_Attr_put, (MPI_Comm comm, int key, void *value), (comm, key, value)) {
    note_attribute(comm);
    return next_MPI_Attr_put(comm, key, value);
}

/* Freeing what isn't followed needs no word: no library waits there. */
static void free_communicator(MPI_Comm comm, const char *name) {
    log_lock();
    struct context *context = context_of_comm(comm);
    if (context)
        write_named(context, 'b', name);
    context_gone(context);
    log_unlock();
}

FREEING(MPI_Comm_free, (MPI_Comm * comm), (comm), free_communicator(*comm, "Comm_free")) {
    free_communicator(*comm, "Comm_free");
    return next_MPI_Comm_free(comm);
}

INTERPOSED(MPI_Comm_disconnect, (MPI_Comm * comm), (comm)) {
    free_communicator(*comm, "Comm_disconnect");
    return next_MPI_Comm_disconnect(comm);
}
