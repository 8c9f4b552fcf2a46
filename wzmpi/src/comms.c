/* Communicators: how they are made, found and freed. */
#include "comms.h"

#include "diagnostics.h"

#include <unistd.h>

static pthread_mutex_t coming_guard = PTHREAD_MUTEX_INITIALIZER;
static struct comm *coming; /* those that not all of their members have come to yet */
static struct comm *world, *selves[MOST_RANKS];

static struct comm *new_comm(const char *maker, const int *ranks, int size, int first) {
    static atomic_long made;
    struct comm *comm = NULL;
    size_t bytes = sizeof *comm + sizeof comm->members[0] * (size_t)size;
    comm = must(aligned_alloc(_Alignof(struct comm), (bytes + 63) / 64 * 64));
    memset(comm, 0, bytes);
    comm->serial = atomic_fetch_add(&made, 1);
    comm->maker = maker;
    comm->site = current_rank != NULL ? current_rank->site : NULL;
    comm->size = size;
    comm->first = first;
    memset(comm->member_of, -1, sizeof comm->member_of);
    for (int i = 0; i < size; i++) {
        comm->member_of[ranks[i]] = (int8_t)i;
        comm->members[i].rank = ranks[i];
        comm->members[i].handler = &errors_are_fatal;
        comm->members[i].board = must(calloc(KEPT_PLACES, sizeof(struct slot)));
    }
    pthread_mutex_init(&comm->guard, NULL);
    comm->users = size;
    return comm;
}

void open_world(int size) {
    int all[MOST_RANKS] = { 0 };
    for (int i = 0; i < size; i++) all[i] = i;
    world = new_comm(NULL, all, size, 0);
    for (int i = 0; i < size; i++) selves[i] = new_comm(NULL, &all[i], 1, 0);
}

struct comm *world_comm(void) { return world; }

struct comm *find_comm(MPI_Comm handle) {
    if (handle == MPI_COMM_WORLD) return world;
    if (handle == MPI_COMM_SELF) return selves[current_rank->number];
    return find_handle(COMM, handle);
}

int comm_error(MPI_Comm handle, const char *call) {
    if (handle == MPI_COMM_NULL) return refuse(NULL, MPI_ERR_COMM, call, "the communicator is MPI_COMM_NULL");
    return refuse(NULL, MPI_ERR_COMM, call, was_freed(COMM, handle) ? "the communicator was freed" : "there is no such communicator");
}

/* Of one that serves a window or a file it is that one's handle, which its error handler and attributes get. */
MPI_Comm comm_handle(const struct comm *comm) {
    if (comm->serves != 0) return (MPI_Comm)handle_of(comm->serves, comm->served);
    if (comm == world) return MPI_COMM_WORLD;
    if (comm->maker == NULL) return MPI_COMM_SELF;
    return (MPI_Comm)handle_of(COMM, comm);
}

int my_member(const struct comm *comm) { return comm->member_of[current_rank->number]; }

struct member *this_member(struct comm *comm) { return &comm->members[my_member(comm)]; }

int near_group(const struct comm *comm, int *own) {
    *own = 0;
    if (comm->first == 0) return comm->size;
    if (my_member(comm) < comm->first) return comm->first;
    *own = comm->first;
    return comm->size - comm->first;
}

int far_group_from(const struct comm *comm, int member, int *other) {
    *other = 0;
    if (comm->first == 0) return comm->size;
    if (member >= comm->first) return comm->first;
    *other = comm->first;
    return comm->size - comm->first;
}

int far_group(const struct comm *comm, int *other) { return far_group_from(comm, comm->first > 0 ? my_member(comm) : 0, other); }

/* ---- its users */

void use_comm(struct comm *comm) {
    if (comm->maker != NULL) atomic_fetch_add(&comm->users, 1);
}

static void free_topology(struct topology *topology) {
    if (topology == NULL) return;
    free(topology->sizes);
    free(topology->periods);
    free(topology->index);
    free(topology->edges);
    free(topology->sources);
    free(topology->destinations);
    free(topology->source_weights);
    free(topology->destination_weights);
    free(topology);
}

void unuse_comm(struct comm *comm) {
    if (comm->maker == NULL || atomic_fetch_sub(&comm->users, 1) > 1) return;
    if (comm->served != NULL) comm->end_service(comm->served);
    close_engines(comm);
    for (int i = 0; i < comm->size; i++) {
        free(comm->members[i].board);
        if (comm->topologies != NULL) free_topology(comm->topologies[i]);
    }
    free(comm->topologies);
    pthread_mutex_destroy(&comm->guard);
    free(comm);
}

/* ---- members come to a new one */

static bool is_it(const struct comm *comm, const struct comm *parent, uint64_t key, const int *ranks, int size, int first) {
    if (comm->key != key || comm->parent != parent->serial || comm->size != size || comm->first != first) return false;
    if (comm->joined >> current_rank->number & 1) return false;
    for (int i = 0; i < size; i++)
        if (comm->members[i].rank != ranks[i]) return false;
    return true;
}

MPI_Comm join_comm(struct comm *parent, uint64_t key, const char *maker, const int *ranks, int size, int first) {
    pthread_mutex_lock(&coming_guard);
    struct comm **at = &coming;
    while (*at != NULL && !is_it(*at, parent, key, ranks, size, first)) at = &(*at)->next_coming;
    struct comm *comm = *at;
    if (comm == NULL) {
        comm = new_comm(maker, ranks, size, first);
        comm->parent = parent->serial;
        comm->key = key;
        *at = comm;
    }
    comm->joined |= 1ull << current_rank->number;
    if (count_ranks(comm->joined) == size) *at = comm->next_coming;
    pthread_mutex_unlock(&coming_guard);
    if (parent->member_of[current_rank->number] >= 0) use_handler(comm, this_member(parent)->handler);
    return (MPI_Comm)add_handle(COMM, comm);
}

/* ---- names */

const char *comm_name(struct comm *comm, char text[NAME_TEXT]) {
    const char *kind = comm->serves == WINDOW ? "window" : comm->serves == FILE_ ? "file" : "communicator";
    char name[MPI_MAX_OBJECT_NAME];
    pthread_mutex_lock(&comm->guard);
    memcpy(name, comm->name, sizeof name);
    pthread_mutex_unlock(&comm->guard);
    if (name[0] != '\0') snprintf(text, NAME_TEXT, "%s \"%s\"", kind, name);
    else if (comm == world) snprintf(text, NAME_TEXT, "MPI_COMM_WORLD");
    else if (comm->maker == NULL) snprintf(text, NAME_TEXT, "MPI_COMM_SELF");
    else snprintf(text, NAME_TEXT, "the %s of %s at %s", kind, comm->maker, comm->site);
    return text;
}

int MPI_Comm_set_name(MPI_Comm handle, const char *name) {
    this_rank("MPI_Comm_set_name");
    struct comm *comm = find_comm(handle);
    if (comm == NULL) return comm_error(handle, "MPI_Comm_set_name");
    pthread_mutex_lock(&comm->guard);
    snprintf(comm->name, sizeof comm->name, "%s", name);
    pthread_mutex_unlock(&comm->guard);
    return MPI_SUCCESS;
}

int MPI_Comm_get_name(MPI_Comm handle, char *name, int *length) {
    this_rank("MPI_Comm_get_name");
    struct comm *comm = find_comm(handle);
    if (comm == NULL) return comm_error(handle, "MPI_Comm_get_name");
    const char *standard = comm == world ? "MPI_COMM_WORLD" : comm->maker == NULL ? "MPI_COMM_SELF" : "";
    pthread_mutex_lock(&comm->guard);
    *length = snprintf(name, MPI_MAX_OBJECT_NAME, "%s", comm->name[0] != '\0' ? comm->name : standard);
    pthread_mutex_unlock(&comm->guard);
    return MPI_SUCCESS;
}

/* ---- what they are */

int MPI_Comm_rank(MPI_Comm handle, int *rank) {
    this_rank("MPI_Comm_rank");
    struct comm *comm = find_comm(handle);
    int own;
    if (comm == NULL) return comm_error(handle, "MPI_Comm_rank");
    near_group(comm, &own);
    *rank = my_member(comm) - own;
    return MPI_SUCCESS;
}

int MPI_Comm_size(MPI_Comm handle, int *size) {
    this_rank("MPI_Comm_size");
    struct comm *comm = find_comm(handle);
    int own;
    if (comm == NULL) return comm_error(handle, "MPI_Comm_size");
    *size = near_group(comm, &own);
    return MPI_SUCCESS;
}

int MPI_Comm_remote_size(MPI_Comm handle, int *size) {
    this_rank("MPI_Comm_remote_size");
    struct comm *comm = find_comm(handle);
    int other;
    if (comm == NULL) return comm_error(handle, "MPI_Comm_remote_size");
    if (comm->first == 0) return refuse(comm, MPI_ERR_COMM, "MPI_Comm_remote_size", "this is no intercommunicator");
    *size = far_group(comm, &other);
    return MPI_SUCCESS;
}

int MPI_Comm_test_inter(MPI_Comm handle, int *flag) {
    this_rank("MPI_Comm_test_inter");
    struct comm *comm = find_comm(handle);
    if (comm == NULL) return comm_error(handle, "MPI_Comm_test_inter");
    *flag = comm->first > 0;
    return MPI_SUCCESS;
}

/* How one communicator's members from A on are those of another from B on. */
static int compared(const struct comm *one, int a, int many, const struct comm *two, int b, int others) {
    if (many != others) return MPI_UNEQUAL;
    int how = MPI_CONGRUENT;
    for (int i = 0; i < many; i++) {
        int there = two->member_of[one->members[a + i].rank];
        if (there < b || there >= b + others) return MPI_UNEQUAL;
        if (there != b + i) how = MPI_SIMILAR;
    }
    return how;
}

int MPI_Comm_compare(MPI_Comm first, MPI_Comm second, int *how) {
    this_rank("MPI_Comm_compare");
    struct comm *one = find_comm(first), *two = find_comm(second);
    if (one == NULL || two == NULL) return comm_error(one == NULL ? first : second, "MPI_Comm_compare");
    int a, b, many = near_group(one, &a), others = near_group(two, &b);
    *how = MPI_UNEQUAL;
    if ((one->first > 0) != (two->first > 0)) return MPI_SUCCESS;
    *how = one == two ? MPI_IDENT : compared(one, a, many, two, b, others);
    if (one == two || one->first == 0 || *how == MPI_UNEQUAL) return MPI_SUCCESS;
    many = far_group(one, &a);
    others = far_group(two, &b);
    int far = compared(one, a, many, two, b, others);
    if (far > *how) *how = far;
    return MPI_SUCCESS;
}

int MPI_Comm_free(MPI_Comm *handle) {
    this_rank("MPI_Comm_free");
    struct comm *comm = find_comm(*handle);
    if (comm == NULL) return comm_error(*handle, "MPI_Comm_free");
    if (comm->maker == NULL) return refuse(comm, MPI_ERR_COMM, "MPI_Comm_free", "a predefined communicator can't be freed");
    int code = delete_attributes(comm, *handle);
    if (code != MPI_SUCCESS) return code;
    use_handler(comm, NULL);
    remove_handle(COMM, *handle);
    *handle = MPI_COMM_NULL;
    unuse_comm(comm);
    return MPI_SUCCESS;
}

int MPI_Comm_disconnect(MPI_Comm *handle) { return MPI_Comm_free(handle); }

int MPI_Comm_get_parent(MPI_Comm *parent) {
    *parent = MPI_COMM_NULL;
    return MPI_SUCCESS;
}
