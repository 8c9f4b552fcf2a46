/* --check: until an access is completed its origin buffer stays as it is, and where a put will come, or what a get will bring, nobody looks. A put is held back till
   then where its target takes part in the epoch, and a get always: until then there are bytes of 0xa5, as in the buffers of other nonblocking calls. Between
   fences a rank's own stores to what others access are seen by a snapshot of its memory, and by what a get would have brought as it was called. */
#include "diagnostics.h"
#include "window.h"

enum { NOBODYS = 0xa5, LARGEST_SNAPSHOT = 64 << 20 };

struct held {
    struct moved moved;
    const char *site;
    size_t length, target_length;
    char *bytes; /* a put's, or an accumulate's: what the origin buffer had */
    char *seen;  /* a get's, between fences: what the target's memory had */
    struct held *next;
};

static size_t length_of(MPI_Count many, const struct type *type) { return (size_t)many * type->size; }

static void fill(MPI_Count many, const struct type *type, void *at) {
    size_t length = length_of(many, type);
    char *bytes = must(malloc(length + 1));
    memset(bytes, NOBODYS, length);
    unpack(type, (size_t)many, at, bytes);
    free(bytes);
}

/* Whether memory has these bytes; NULL: those that it was filled with. */
static bool has(MPI_Count many, const struct type *type, const void *at, const char *wanted) {
    size_t length = length_of(many, type), i = 0;
    char *bytes = must(malloc(length + 1));
    pack(type, (size_t)many, at, bytes);
    while (i < length && (unsigned char)bytes[i] == (wanted != NULL ? (unsigned char)wanted[i] : NOBODYS)) i++;
    free(bytes);
    return i == length;
}

static bool is_late_put(const struct moved *moved) { return moved->kind == PUTS && moved->target.epoch != LOCK_EPOCH; }

bool hold_back(struct window *window, const struct moved *moved) {
    if (!the_run.checks || moved->target.many == 0) return false;
    struct window_member *mine = my_window(window);
    struct held *held = must(calloc(1, sizeof *held));
    held->moved = *moved;
    held->site = current_rank->site;
    held->length = length_of(moved->origin_many, moved->origin_type);
    type_use(moved->origin_type);
    type_use(moved->target.type);
    if (moved->kind != GETS) {
        held->bytes = must(malloc(held->length + 1));
        pack(moved->origin_type, (size_t)moved->origin_many, moved->origin, held->bytes);
    }
    if (moved->kind == GETS && moved->target.epoch == FENCE_EPOCH) {
        held->seen = must(malloc(length_of(moved->target.many, moved->target.type) + 1));
        pack(moved->target.type, (size_t)moved->target.many, moved->target.at, held->seen);
    }
    if (is_late_put(moved)) fill(moved->target.many, moved->target.type, moved->target.at);
    if (moved->kind == GETS) fill(moved->origin_many, moved->origin_type, moved->origin);
    struct held **last = &mine->held;
    while (*last != NULL) last = &(*last)->next;
    *last = held;
    return moved->kind == GETS || is_late_put(moved);
}

/* Of as many elements as the origin gives. */
static void carry_out_held(const struct held *held) {
    const struct moved *moved = &held->moved;
    size_t length = length_of(moved->target.many, moved->target.type);
    if (is_late_put(moved) && length == held->length) unpack(moved->target.type, (size_t)moved->target.many, moved->target.at, held->bytes);
    if (moved->kind != GETS || length != held->length) return;
    char *bytes = must(malloc(length + 1));
    pack(moved->target.type, (size_t)moved->target.many, moved->target.at, bytes);
    unpack(moved->origin_type, (size_t)moved->origin_many, moved->origin, bytes);
    free(bytes);
}

static int judge_held(struct window *window, const struct held *held, const char *call) {
    const struct moved *moved = &held->moved;
    bool origin_same = has(moved->origin_many, moved->origin_type, moved->origin, held->bytes);
    if (!origin_same)
        return refuse(window->comm, MPI_ERR_BUFFER, call, "what %s at %s %s was changed before it was completed here", moved->call, held->site,
                      moved->kind == GETS ? "reads into" : "gives");
    if (is_late_put(moved) && !has(moved->target.many, moved->target.type, moved->target.at, NULL))
        return refuse(window->comm, MPI_ERR_RMA_CONFLICT, call, "rank %d has changed its own memory where %s at %s puts something in the same epoch",
                      window->comm->members[moved->target.member].rank, moved->call, held->site);
    if (held->seen != NULL && !has(moved->target.many, moved->target.type, moved->target.at, held->seen))
        return refuse(window->comm, MPI_ERR_RMA_CONFLICT, call, "rank %d has changed its own memory where %s at %s reads it in the same epoch",
                      window->comm->members[moved->target.member].rank, moved->call, held->site);
    return MPI_SUCCESS;
}

int release_held(struct window *window, int target, const char *call) {
    int code = MPI_SUCCESS;
    for (struct held **at = &my_window(window)->held; *at != NULL;) {
        struct held *held = *at;
        if (target >= 0 && held->moved.target.member != target) {
            at = &held->next;
            continue;
        }
        *at = held->next;
        int one = judge_held(window, held, call);
        if (one != MPI_SUCCESS) code = one;
        carry_out_held(held);
        type_unuse(held->moved.origin_type);
        type_unuse(held->moved.target.type);
        free(held->bytes);
        free(held->seen);
        free(held);
    }
    return code;
}

/* ---- what a rank has written since a fence */

void take_snapshot(struct window *window) {
    struct window_member *mine = my_window(window);
    free(mine->snapshot);
    mine->snapshot = NULL;
    if (!the_run.checks || mine->size <= 0 || mine->size > LARGEST_SNAPSHOT) return;
    mine->snapshot = must(malloc((size_t)mine->size));
    memcpy(mine->snapshot, mine->base, (size_t)mine->size);
}

int judge_snapshot(struct window *window, const struct target *target, const char *call) {
    const struct window_member *there = &window->members[target->member];
    if (target->epoch != FENCE_EPOCH || there->snapshot == NULL || target->many == 0) return MPI_SUCCESS;
    size_t length = length_of(target->many, target->type);
    char *then = must(malloc(length + 1));
    pack(target->type, (size_t)target->many, there->snapshot + target->first, then);
    bool same = has(target->many, target->type, target->at, then);
    free(then);
    if (same) return MPI_SUCCESS;
    return refuse(window->comm, MPI_ERR_RMA_CONFLICT, call, "rank %d has changed its own memory there since MPI_Win_fence at %s, in the same epoch",
                  window->comm->members[target->member].rank, my_window(window)->fenced_at);
}
