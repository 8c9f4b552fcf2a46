/* How windows are made and freed. Each has a communicator of its own, which no program sees: fences are its collectives, and posts and completions its messages. */
#include "window.h"

#include "counted.h"
#include "diagnostics.h"

enum { MEMORY_ALIGNMENT = 64 };

/* What a member says of itself as the window is made. */
struct exposure {
    void *base, *memory;
    MPI_Aint size;
    int unit;
};

struct window *find_window(MPI_Win handle, const char *call, int *code) {
    struct rank *me = this_rank(call);
    struct window *window = find_handle(WINDOW, handle);
    *code = MPI_SUCCESS;
    if (window != NULL && !atomic_load(&me->finalized)) return window;
    if (window != NULL) *code = refuse(window->comm, MPI_ERR_OTHER, call, "MPI_Finalize was called before");
    else if (handle == MPI_WIN_NULL) *code = refuse(NULL, MPI_ERR_WIN, call, "the window is MPI_WIN_NULL");
    else *code = refuse(NULL, MPI_ERR_WIN, call, was_freed(WINDOW, handle) ? "the window was freed" : "there is no such window");
    return NULL;
}

struct window_member *my_window(struct window *window) { return &window->members[my_member(window->comm)]; }

/* ---- memory */

static void *new_memory(MPI_Aint size) {
    size_t bytes = ((size_t)size + MEMORY_ALIGNMENT) / MEMORY_ALIGNMENT * MEMORY_ALIGNMENT;
    void *memory = aligned_alloc(MEMORY_ALIGNMENT, bytes);
    if (memory != NULL) memset(memory, 0, bytes);
    return memory;
}

static void end_window(void *served) {
    struct window *window = served;
    for (int i = 0; i < window->comm->size; i++) {
        struct window_member *member = &window->members[i];
        free(member->memory);
        free(member->snapshot);
        free_accesses(member);
        for (struct region *region = member->regions, *next; region != NULL; region = next) {
            next = region->next;
            free(region);
        }
        pthread_mutex_destroy(&member->guard);
        pthread_mutex_destroy(&member->lock.guard);
    }
    free(window);
}

/* ---- making one */

static struct window *new_window(struct comm *own, int flavor) {
    struct window *window = must(calloc(1, sizeof *window + sizeof window->members[0] * (size_t)own->size));
    window->comm = own;
    window->flavor = flavor;
    for (int i = 0; i < own->size; i++) {
        struct window_member *member = &window->members[i];
        pthread_mutex_init(&member->guard, NULL);
        pthread_mutex_init(&member->lock.guard, NULL);
        member->lock.owner = -1;
        member->lock.last = &member->lock.first;
        member->fenced_at = "the window's beginning";
    }
    return window;
}

/* A shared window's memory is one piece, in which the members' parts follow one another (MPI 4.1, 12.2.3). */
static void share_memory(struct window *window) {
    MPI_Aint all = 0;
    for (int i = 0; i < window->comm->size; i++) all += window->members[i].size;
    char *at = must(new_memory(all));
    window->members[0].memory = at;
    for (int i = 0; i < window->comm->size; i++) {
        window->members[i].base = at;
        at += window->members[i].size;
    }
}

/* Whoever comes first makes the window, by what all members have said. */
static struct window *join_window(struct comm *own, int flavor, struct request *said) {
    size_t length;
    pthread_mutex_lock(&own->guard);
    if (own->served == NULL) {
        struct window *window = new_window(own, flavor);
        for (int i = 0; i < own->size; i++) {
            const struct exposure *exposure = parcel_bytes(said, i, &length);
            window->members[i].base = exposure->base;
            window->members[i].memory = exposure->memory;
            window->members[i].size = exposure->size;
            window->members[i].unit = exposure->unit;
        }
        if (flavor == MPI_WIN_FLAVOR_SHARED) share_memory(window);
        own->end_service = end_window;
        own->serves = WINDOW;
        own->served = window;
    }
    pthread_mutex_unlock(&own->guard);
    return own->served;
}

/* All members of a communicator make a window; COMM's own communicator for it comes of their common call. */
static int make_window(struct comm *comm, const struct exposure *mine, int flavor, MPI_Info info, MPI_Win *made, const char *call) {
    struct request *done;
    int ranks[MOST_RANKS];
    struct arguments arguments = { .function = EXCHANGE, .form = BLOCKING, .give = mine, .give_count = sizeof *mine, .give_type = MPI_BYTE, .name = call };
    int code = judge_info(info, call);
    if (code == MPI_SUCCESS) code = post_and_wait(comm, &arguments, &done);
    if (code != MPI_SUCCESS) return code;
    for (int i = 0; i < comm->size; i++) ranks[i] = comm->members[i].rank;
    MPI_Comm handle = join_comm(comm, done->place << 32, call, ranks, comm->size, 0);
    struct comm *own = find_comm(handle);
    struct window *window = join_window(own, flavor, done);
    drop_request(done);
    remove_handle(COMM, handle);
    use_handler(own, &errors_are_fatal);
    *made = (MPI_Win)add_handle(WINDOW, window);
    my_window(window)->info = new_hints();
    return info != MPI_INFO_NULL ? MPI_Win_set_info(*made, info) : MPI_SUCCESS;
}

static int judge_making(MPI_Comm handle, MPI_Aint size, MPI_Count unit, const char *call, struct comm **comm) {
    this_rank(call);
    *comm = find_comm(handle);
    if (*comm == NULL) return comm_error(handle, call);
    if ((*comm)->first > 0) return refuse(*comm, MPI_ERR_COMM, call, "a window isn't for an intercommunicator");
    if (size < 0) return refuse(*comm, MPI_ERR_SIZE, call, "the size %lld is negative", (long long)size);
    if (unit <= 0 || unit > INT32_MAX) return refuse(*comm, MPI_ERR_DISP, call, "the displacement unit %lld isn't positive, or too large", (long long)unit);
    return MPI_SUCCESS;
}

int counted_Win_create(void *base, MPI_Aint size, MPI_Count unit, MPI_Info info, MPI_Comm handle, MPI_Win *made) {
    struct comm *comm;
    int code = judge_making(handle, size, unit, "MPI_Win_create", &comm);
    if (code != MPI_SUCCESS) return code;
    if (base == NULL && size > 0) return refuse(comm, MPI_ERR_BASE, "MPI_Win_create", "the base is null, and the size %lld", (long long)size);
    return make_window(comm, &(struct exposure){ base, NULL, size, (int)unit }, MPI_WIN_FLAVOR_CREATE, info, made, "MPI_Win_create");
}

int counted_Win_allocate(MPI_Aint size, MPI_Count unit, MPI_Info info, MPI_Comm handle, void *base, MPI_Win *made) {
    struct comm *comm;
    int code = judge_making(handle, size, unit, "MPI_Win_allocate", &comm);
    if (code != MPI_SUCCESS) return code;
    void *memory = new_memory(size);
    if (memory == NULL) return refuse(comm, MPI_ERR_NO_MEM, "MPI_Win_allocate", "there is no memory of %lld bytes", (long long)size);
    code = make_window(comm, &(struct exposure){ memory, memory, size, (int)unit }, MPI_WIN_FLAVOR_ALLOCATE, info, made, "MPI_Win_allocate");
    *(void **)base = memory;
    return code;
}

int counted_Win_allocate_shared(MPI_Aint size, MPI_Count unit, MPI_Info info, MPI_Comm handle, void *base, MPI_Win *made) {
    struct comm *comm;
    int code = judge_making(handle, size, unit, "MPI_Win_allocate_shared", &comm);
    if (code != MPI_SUCCESS) return code;
    code = make_window(comm, &(struct exposure){ NULL, NULL, size, (int)unit }, MPI_WIN_FLAVOR_SHARED, info, made, "MPI_Win_allocate_shared");
    if (code == MPI_SUCCESS) *(void **)base = my_window(find_handle(WINDOW, *made))->base;
    return code;
}

int MPI_Win_create_dynamic(MPI_Info info, MPI_Comm handle, MPI_Win *made) {
    struct comm *comm;
    int code = judge_making(handle, 0, 1, "MPI_Win_create_dynamic", &comm);
    if (code != MPI_SUCCESS) return code;
    return make_window(comm, &(struct exposure){ MPI_BOTTOM, NULL, 0, 1 }, MPI_WIN_FLAVOR_DYNAMIC, info, made, "MPI_Win_create_dynamic");
}

/* ---- freeing one */

int MPI_Win_free(MPI_Win *handle) {
    const char *call = "MPI_Win_free";
    int code;
    struct window *window = find_window(*handle, call, &code);
    if (window == NULL) return code;
    code = judge_end(window, call);
    struct request *done;
    if (code == MPI_SUCCESS) code = delete_attributes(window->comm, (MPI_Comm)*handle);
    if (code == MPI_SUCCESS) code = post_and_wait(window->comm, &(struct arguments){ .function = COMM_DUP, .form = BLOCKING, .name = call }, &done);
    if (code != MPI_SUCCESS) return code;
    drop_request(done);
    MPI_Info_free(&my_window(window)->info);
    use_handler(window->comm, NULL);
    remove_handle(WINDOW, *handle);
    *handle = MPI_WIN_NULL;
    unuse_comm(window->comm);
    return MPI_SUCCESS;
}

/* ---- memory of a dynamic window */

int MPI_Win_attach(MPI_Win handle, void *base, MPI_Aint size) {
    const char *call = "MPI_Win_attach";
    int code = MPI_SUCCESS;
    struct window *window = find_window(handle, call, &code);
    if (window == NULL) return code;
    if (window->flavor != MPI_WIN_FLAVOR_DYNAMIC) return refuse(window->comm, MPI_ERR_RMA_FLAVOR, call, "the window isn't dynamic");
    if (size < 0 || (base == NULL && size > 0)) return refuse(window->comm, MPI_ERR_SIZE, call, "there is no memory of %lld bytes there", (long long)size);
    struct window_member *mine = my_window(window);
    struct region *region = must(malloc(sizeof *region));
    pthread_mutex_lock(&mine->guard);
    for (const struct region *other = mine->regions; other != NULL; other = other->next)
        if (size > 0 && other->size > 0 && (char *)base < other->base + other->size && other->base < (char *)base + size) code = MPI_ERR_RMA_ATTACH;
    *region = (struct region){ base, size, mine->regions };
    if (code == MPI_SUCCESS) mine->regions = region;
    pthread_mutex_unlock(&mine->guard);
    if (code == MPI_SUCCESS) return code;
    free(region);
    return refuse(window->comm, code, call, "memory there is attached already");
}

int MPI_Win_detach(MPI_Win handle, const void *base) {
    const char *call = "MPI_Win_detach";
    int code;
    struct window *window = find_window(handle, call, &code);
    if (window == NULL) return code;
    struct window_member *mine = my_window(window);
    pthread_mutex_lock(&mine->guard);
    struct region **at = &mine->regions;
    while (*at != NULL && (*at)->base != base) at = &(*at)->next;
    struct region *found = *at;
    if (found != NULL) *at = found->next;
    pthread_mutex_unlock(&mine->guard);
    free(found);
    return found != NULL ? MPI_SUCCESS : refuse(window->comm, MPI_ERR_RMA_ATTACH, call, "no memory there is attached");
}
