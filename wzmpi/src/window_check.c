/* What a program may access, and when: within an epoch, within the window, and not where another access that isn't complete conflicts (MPI 4.1, 12.7). */
#include "diagnostics.h"
#include "window.h"

enum {
    MOST_ACCESSES = 2000, /* of a target that are kept: later ones are compared with those */
    MOST_SPANS = 4096     /* of an access with gaps; one with more is compared with none */
};

/* ---- epochs */

int judge_epoch(struct window *window, int target, bool by_request, const char *call, enum epoch *epoch) {
    struct window_member *mine = my_window(window);
    bool started = mine->has_started && (mine->started >> target & 1);
    *epoch = mine->has_locked_all || mine->locks[target] != 0 ? LOCK_EPOCH : started ? START_EPOCH : mine->fence_is_open && !mine->has_started ? FENCE_EPOCH : NO_EPOCH;
    if (*epoch == FENCE_EPOCH && !by_request) mine->fence_is_used = true;
    if (by_request && (*epoch == FENCE_EPOCH || *epoch == START_EPOCH))
        return refuse(window->comm, MPI_ERR_RMA_SYNC, call, "an access with a request is for an epoch of MPI_Win_lock or MPI_Win_lock_all alone, and that of %s is open",
                      *epoch == FENCE_EPOCH ? mine->fenced_at : mine->started_at);
    if (*epoch != NO_EPOCH) return MPI_SUCCESS;
    if (mine->has_started)
        return refuse(window->comm, MPI_ERR_RMA_SYNC, call, "rank %d isn't in the group of MPI_Win_start at %s", target, mine->started_at);
    return refuse(window->comm, MPI_ERR_RMA_SYNC, call, "no epoch for rank %d is open: neither MPI_Win_fence, MPI_Win_start nor MPI_Win_lock was called for it", target);
}

/* ---- ranges */

static MPI_Aint low_of(const struct target *target) {
    MPI_Aint across = (MPI_Aint)(target->many - 1) * target->type->extent;
    return target->first + target->type->true_low + (across < 0 ? across : 0);
}

static MPI_Aint high_of(const struct target *target) {
    MPI_Aint across = (MPI_Aint)(target->many - 1) * target->type->extent;
    return target->first + target->type->true_low + target->type->true_extent + (across > 0 ? across : 0);
}

/* The attached region that has an address; NULL: none has. */
static const struct region *region_at(const struct window_member *there, MPI_Aint address) {
    const struct region *region = there->regions;
    while (region != NULL && (address < (MPI_Aint)region->base || address >= (MPI_Aint)region->base + region->size)) region = region->next;
    return region;
}

/* Regions that touch are as one. */
static bool is_attached(struct window_member *there, MPI_Aint low, MPI_Aint high) {
    pthread_mutex_lock(&there->guard);
    while (low < high) {
        const struct region *region = region_at(there, low);
        if (region == NULL) break;
        low = (MPI_Aint)region->base + region->size;
    }
    pthread_mutex_unlock(&there->guard);
    return low >= high;
}

int judge_range(struct window *window, MPI_Aint displacement, const char *call, struct target *target) {
    struct window_member *there = &window->members[target->member];
    bool dynamic = window->flavor == MPI_WIN_FLAVOR_DYNAMIC, nothing = target->many == 0 || target->type->size == 0;
    if (displacement < 0 && !dynamic) return refuse(window->comm, MPI_ERR_DISP, call, "the displacement %lld is negative", (long long)displacement);
    if (__builtin_mul_overflow(displacement, (MPI_Aint)(dynamic ? 1 : there->unit), &target->first))
        return refuse(window->comm, MPI_ERR_DISP, call, "the displacement %lld is too large", (long long)displacement);
    target->at = dynamic ? (char *)target->first : there->base + target->first;
    if (nothing) return MPI_SUCCESS;
    MPI_Aint low = low_of(target), high = high_of(target);
    if (dynamic && !is_attached(there, low, high))
        return refuse(window->comm, MPI_ERR_RMA_RANGE, call, "rank %d has attached no memory that holds the %lld bytes at that address", target->member, (long long)(high - low));
    if (dynamic || (low >= 0 && high <= there->size)) return MPI_SUCCESS;
    return refuse(window->comm, MPI_ERR_RMA_RANGE, call, "it accesses bytes %lld to %lld of rank %d's memory, which has %lld", (long long)low, (long long)high - 1, target->member,
                  (long long)there->size);
}

/* ---- spans */

static int by_low(const void *one, const void *other) {
    const struct span *a = one, *b = other;
    return a->low < b->low ? -1 : a->low > b->low;
}

static size_t bytes_of_run(const struct run_of *run) { return basic_type(run->basic)->size * run->many; }

/* Writes the spans of a target; those that touch are one. How many; 0: there are none, or too many. */
static size_t list_spans(const struct target *target, struct span *spans) {
    const struct type *type = target->type;
    size_t many = 0;
    for (MPI_Count i = 0; i < target->many; i++)
        for (size_t j = 0; j < type->many; j++) {
            MPI_Aint low = target->first + (MPI_Aint)i * type->extent + type->runs[j].at, high = low + (MPI_Aint)bytes_of_run(&type->runs[j]);
            if (many > 0 && spans[many - 1].high == low) spans[many - 1].high = high;
            else if (many == MOST_SPANS) return 0;
            else spans[many++] = (struct span){ low, high };
        }
    for (size_t i = 1; i < many; i++)
        if (spans[i].low < spans[i - 1].low) {
            qsort(spans, many, sizeof *spans, by_low);
            break;
        }
    return many;
}

static struct access *new_access(const struct access *like, const struct target *target) {
    struct span *spans = NULL, one = { low_of(target), high_of(target) };
    size_t many = target->many > 0 && target->type->size > 0;
    if (many > 0 && !target->type->dense) {
        spans = must(malloc(sizeof *spans * MOST_SPANS));
        many = list_spans(target, spans);
    }
    struct access *access = must(malloc(sizeof *access + many * sizeof *spans));
    *access = *like;
    access->many = many;
    if (many > 0) memcpy(access->spans, spans != NULL ? spans : &one, many * sizeof *spans);
    free(spans);
    return access;
}

/* ---- conflicts */

/* The first byte that both have; false: there is none. */
static bool meet_at(const struct access *one, const struct access *other, struct span *common) {
    size_t i = 0, j = 0;
    while (i < one->many && j < other->many) {
        const struct span *a = &one->spans[i], *b = &other->spans[j];
        if (a->low < b->high && b->low < a->high) {
            *common = (struct span){ a->low > b->low ? a->low : b->low, a->high < b->high ? a->high : b->high };
            return true;
        }
        if (a->high <= b->high) i++;
        else j++;
    }
    return false;
}

/* A rank's puts to one place have no order either, though libraries keep one: programs lean on it, so only --strict tells. Accumulates of one type may meet; --strict: with one operation, as the hint accumulate_ops says where a program doesn't set it (MPI 4.1, 12.2.1). */
static bool may_not_meet(const struct access *one, const struct access *other) {
    enum { NO_OPERATION = 14 };
    if (one->fences != other->fences) return false;
    if (one->kind == GETS && other->kind == GETS) return false;
    if (one->kind == PUTS && other->kind == PUTS && one->origin == other->origin && !the_run.strict) return false;
    if (one->kind != ACCUMULATES || other->kind != ACCUMULATES) return true;
    if (one->code != other->code) return true;
    bool idle = one->operation == NO_OPERATION || other->operation == NO_OPERATION || one->origin == other->origin;
    return the_run.strict && !idle && one->operation != other->operation;
}

static const struct access *find_conflict(const struct window_member *there, const struct access *access, struct span *common) {
    for (const struct access *other = there->accesses; other != NULL; other = other->next)
        if (may_not_meet(access, other) && meet_at(access, other, common)) return other;
    return NULL;
}

static int tell_conflict(struct window *window, int target, const struct access *access, const struct access *other, struct span common) {
    static const char *const done[] = { "writes", "reads", "updates" };
    const char *why = access->kind == ACCUMULATES && other->kind == ACCUMULATES ? (access->code != other->code ? " with another type" : " with another operation") : "";
    const char *of = window->flavor == MPI_WIN_FLAVOR_DYNAMIC ? "address" : "byte";
    return refuse(window->comm, MPI_ERR_RMA_CONFLICT, access->call, "it %s %s %lld of rank %d's memory%s, which rank %d %s by %s at %s, and nothing orders the two", done[access->kind], of,
                  (long long)common.low, window->comm->members[target].rank, why, window->comm->members[other->origin].rank, done[other->kind], other->call, other->site);
}

/* Whether an access continues the newest one, as in a loop over elements. */
static bool continues(const struct access *newest, const struct access *access) {
    return newest != NULL && newest->many == 1 && access->many == 1 && newest->spans[0].high == access->spans[0].low && newest->origin == access->origin &&
           newest->kind == access->kind && newest->site == access->site && newest->fences == access->fences && newest->epoch == access->epoch && newest->code == access->code &&
           newest->operation == access->operation && newest->number == 0 && access->number == 0 && newest->target == access->target;
}

static void keep(struct window_member *there, struct access *access) {
    if (continues(there->accesses, access)) {
        there->accesses->spans[0].high = access->spans[0].high;
        free(access);
    } else if (there->many_accesses == MOST_ACCESSES || access->many == 0) {
        free(access);
    } else {
        access->next = there->accesses;
        there->accesses = access;
        there->many_accesses++;
    }
}

int note_access(struct window *window, const struct target *target, const struct access *like, uint64_t *number) {
    static atomic_ullong numbers;
    struct window_member *there = &window->members[target->member], *mine = my_window(window);
    struct access *access = new_access(like, target), copy;
    struct span common;
    access->number = number != NULL ? *number = atomic_fetch_add(&numbers, 1) + 1 : 0;
    access->fences = mine->fences;
    pthread_mutex_lock(&there->guard);
    const struct access *other = find_conflict(there, access, &common);
    if (other != NULL) copy = *other;
    else keep(there, access);
    pthread_mutex_unlock(&there->guard);
    if (other == NULL) return MPI_SUCCESS;
    int code = tell_conflict(window, target->member, access, &copy, common);
    free(access);
    return code;
}

/* The same spans, from the window's beginning on. */
int note_origin(struct window *window, const void *buffer, MPI_Count many, const struct type *type, const struct access *like) {
    struct window_member *mine = my_window(window);
    bool dynamic = window->flavor == MPI_WIN_FLAVOR_DYNAMIC;
    struct target own = { my_member(window->comm), (char *)(uintptr_t)buffer, dynamic ? (MPI_Aint)buffer : (MPI_Aint)((const char *)buffer - mine->base), many, type, like->epoch };
    if (many == 0 || type->size == 0 || buffer == NULL) return MPI_SUCCESS;
    MPI_Aint low = low_of(&own), high = high_of(&own);
    bool inside = dynamic ? is_attached(mine, low, high) : low < mine->size && high > 0;
    if (!inside) return MPI_SUCCESS;
    struct access access = *like;
    access.kind = like->kind == GETS ? PUTS : GETS; /* as it is for this memory */
    access.is_buffer = true;
    return note_access(window, &own, &access, NULL);
}

/* ---- what is complete */

/* Forgets those of a target that WHICH says. */
static void forget(struct window_member *there, bool (*which)(const struct access *access, uint64_t word), uint64_t word) {
    pthread_mutex_lock(&there->guard);
    for (struct access **at = &there->accesses; *at != NULL;) {
        struct access *access = *at;
        if (!which(access, word)) {
            at = &access->next;
            continue;
        }
        *at = access->next;
        there->many_accesses--;
        free(access);
    }
    pthread_mutex_unlock(&there->guard);
}

enum { TARGET_SHIFT = 8 }; /* of a word that has an origin and a target */

static bool is_of_origin(const struct access *access, uint64_t word) {
    return access->epoch == LOCK_EPOCH && access->origin == (int)(word & ((1u << TARGET_SHIFT) - 1)) && access->target == (int)(word >> TARGET_SHIFT);
}

static bool is_here_of_origin(const struct access *access, uint64_t word) { return (access->kind == GETS || access->is_buffer) && is_of_origin(access, word); }

static bool is_own_start(const struct access *access, uint64_t origin) { return access->epoch == START_EPOCH && access->origin == (int)origin; }

static bool has_number(const struct access *access, uint64_t number) { return access->number == number; }

static bool is_of_start(const struct access *access, uint64_t unused) { return (void)unused, access->epoch == START_EPOCH; }

static bool is_before(const struct access *access, uint64_t fences) { return access->fences < fences; }

static bool is_any(const struct access *access, uint64_t unused) { return (void)access, (void)unused, true; }

void end_accesses(struct window *window, int target, bool gets_alone) {
    uint64_t word = (uint64_t)my_member(window->comm) | (uint64_t)target << TARGET_SHIFT;
    forget(&window->members[target], gets_alone ? is_here_of_origin : is_of_origin, word);
    if (target != my_member(window->comm)) forget(my_window(window), is_of_origin, word); /* origin buffers are the program's again */
}

void end_numbered(struct window *window, int target, uint64_t number) { forget(&window->members[target], has_number, number); }

void end_started(struct window *window) { forget(my_window(window), is_own_start, (uint64_t)my_member(window->comm)); }

void end_exposure(struct window *window) { forget(my_window(window), is_of_start, 0); }

void end_fenced(struct window *window) { forget(my_window(window), is_before, my_window(window)->fences); }

void free_accesses(struct window_member *member) { forget(member, is_any, 0); }
