/* Locks of windows (MPI 4.1, 12.5.3): a queue for each member's memory, in which a rank waits until nobody holds what keeps it out. */
#include "diagnostics.h"
#include "window.h"

#include <sched.h>

enum { ALL_TARGETS = -2 }; /* of a flush */

/* ---- the queue, under its guard */

static bool may_hold(const struct window_lock *lock, bool exclusive) { return lock->owner < 0 && (!exclusive || lock->sharers == 0); }

static void hold(struct window_lock *lock, int member, bool exclusive, const char *site) {
    if (exclusive) lock->owner = member;
    else lock->sharers |= 1ull << member;
    lock->sites[member] = site;
}

/* Gives the lock to those that have waited longest. Once `arrived` is set a request is its own rank's again. */
static void grant(struct window *window, struct window_lock *lock) {
    while (lock->first != NULL && may_hold(lock, lock->first->tag == MPI_LOCK_EXCLUSIVE)) {
        struct request *request = lock->first;
        struct rank *rank = &the_run.ranks[window->comm->members[request->member].rank];
        hold(lock, request->member, request->tag == MPI_LOCK_EXCLUSIVE, request->site);
        lock->first = request->next;
        if (lock->first == NULL) lock->last = &lock->first;
        atomic_store(&request->arrived, true);
        wake_rank(rank);
    }
}

int take_lock(struct window *window, int target, bool exclusive, const char *call) {
    struct window_lock *lock = &window->members[target].lock;
    struct request *request = new_request(LOCKING, window->comm, call);
    request->other = target;
    request->tag = exclusive ? MPI_LOCK_EXCLUSIVE : MPI_LOCK_SHARED;
    request->active = true;
    atomic_store(&request->arrived, false);
    pthread_mutex_lock(&lock->guard);
    *lock->last = request;
    lock->last = &request->next;
    grant(window, lock);
    pthread_mutex_unlock(&lock->guard);
    if (!atomic_load(&request->arrived)) wait_for(call, &request, 1, false);
    request->active = false;
    drop_request(request);
    return MPI_SUCCESS;
}

void leave_lock(struct window *window, int target) {
    struct window_lock *lock = &window->members[target].lock;
    int member = my_member(window->comm);
    pthread_mutex_lock(&lock->guard);
    if (lock->owner == member) lock->owner = -1;
    lock->sharers &= ~(1ull << member);
    grant(window, lock);
    pthread_mutex_unlock(&lock->guard);
}

/* ---- for whoever watches */

static struct window_lock *lock_of(const struct request *request) {
    struct window *window = request->comm->served;
    return &window->members[request->other].lock;
}

static uint64_t holding_members(struct window_lock *lock) {
    pthread_mutex_lock(&lock->guard);
    uint64_t members = lock->sharers | (lock->owner >= 0 ? 1ull << lock->owner : 0);
    pthread_mutex_unlock(&lock->guard);
    return members;
}

uint64_t lock_holders(const struct request *request) {
    uint64_t ranks = 0, members = holding_members(lock_of(request));
    for (int i = 0; i < request->comm->size; i++)
        if (members >> i & 1) ranks |= 1ull << request->comm->members[i].rank;
    return ranks;
}

void write_lock(FILE *to, const struct request *request) {
    char name[NAME_TEXT];
    struct window_lock *lock = lock_of(request);
    uint64_t members = holding_members(lock);
    fprintf(to, "\n    for the %s lock of rank %d's memory in %s", request->tag == MPI_LOCK_EXCLUSIVE ? "exclusive" : "shared", request->comm->members[request->other].rank,
            comm_name(request->comm, name));
    for (int i = 0; i < request->comm->size; i++)
        if (members >> i & 1) fprintf(to, ", which rank %d holds since %s", request->comm->members[i].rank, lock->sites[i]);
}

/* ---- the calls */

/* No other epoch of this rank is open: one that a fence has opened ends where nothing was accessed in it. */
static int judge_lock(struct window *window, const char *call) {
    struct window_member *mine = my_window(window);
    if (mine->has_locked_all) return refuse(window->comm, MPI_ERR_RMA_SYNC, call, "MPI_Win_lock_all at %s holds all locks already", mine->locked_all_at);
    if (mine->has_started) return refuse(window->comm, MPI_ERR_RMA_SYNC, call, "the epoch of MPI_Win_start at %s is open", mine->started_at);
    if (mine->fence_is_open && mine->fence_is_used)
        return refuse(window->comm, MPI_ERR_RMA_SYNC, call, "the epoch of MPI_Win_fence at %s is open, and was used", mine->fenced_at);
    if (mine->fence_is_open) mine->between_fences = current_rank->site;
    mine->fence_is_open = false;
    return MPI_SUCCESS;
}

static int judge_target(struct window *window, int target, const char *call) {
    if (target >= 0 && target < window->comm->size) return MPI_SUCCESS;
    return refuse(window->comm, MPI_ERR_RANK, call, "there is no rank %d in the window, which has %d", target, window->comm->size);
}

int MPI_Win_lock(int type, int target, int assertions, MPI_Win handle) {
    const char *call = "MPI_Win_lock";
    int code;
    struct window *window = find_window(handle, call, &code);
    if (window == NULL) return code;
    if (type != MPI_LOCK_SHARED && type != MPI_LOCK_EXCLUSIVE) return refuse(window->comm, MPI_ERR_LOCKTYPE, call, "%d is no type of a lock", type);
    if ((assertions & ~MPI_MODE_NOCHECK) != 0) return refuse(window->comm, MPI_ERR_ASSERT, call, "the assertion %d isn't for this call", assertions);
    if (target == MPI_PROC_NULL) return code;
    code = judge_target(window, target, call);
    if (code == MPI_SUCCESS) code = judge_lock(window, call);
    if (code != MPI_SUCCESS) return code;
    struct window_member *mine = my_window(window);
    if (mine->locks[target] != 0) return refuse(window->comm, MPI_ERR_RMA_SYNC, call, "this rank holds the lock of rank %d since %s", target, mine->locked_at[target]);
    hold_up();
    code = take_lock(window, target, type == MPI_LOCK_EXCLUSIVE, call);
    mine->locks[target] = type;
    mine->locked_at[target] = current_rank->site;
    return code;
}

int MPI_Win_unlock(int target, MPI_Win handle) {
    const char *call = "MPI_Win_unlock";
    int code;
    struct window *window = find_window(handle, call, &code);
    if (window == NULL || target == MPI_PROC_NULL) return code;
    code = judge_target(window, target, call);
    if (code != MPI_SUCCESS) return code;
    struct window_member *mine = my_window(window);
    if (mine->locks[target] == 0) return refuse(window->comm, MPI_ERR_RMA_SYNC, call, "this rank doesn't hold the lock of rank %d", target);
    code = release_held(window, target, call);
    end_accesses(window, target, false);
    mine->locks[target] = 0;
    leave_lock(window, target);
    return code;
}

int MPI_Win_lock_all(int assertions, MPI_Win handle) {
    const char *call = "MPI_Win_lock_all";
    int code;
    struct window *window = find_window(handle, call, &code);
    if (window == NULL) return code;
    if ((assertions & ~MPI_MODE_NOCHECK) != 0) return refuse(window->comm, MPI_ERR_ASSERT, call, "the assertion %d isn't for this call", assertions);
    code = judge_lock(window, call);
    struct window_member *mine = my_window(window);
    for (int i = 0; i < window->comm->size && code == MPI_SUCCESS; i++)
        if (mine->locks[i] != 0) code = refuse(window->comm, MPI_ERR_RMA_SYNC, call, "this rank holds the lock of rank %d since %s", i, mine->locked_at[i]);
    if (code != MPI_SUCCESS) return code;
    hold_up();
    for (int i = 0; i < window->comm->size; i++) take_lock(window, i, false, call);
    mine->has_locked_all = true;
    mine->locked_all_at = current_rank->site;
    return code;
}

int MPI_Win_unlock_all(MPI_Win handle) {
    const char *call = "MPI_Win_unlock_all";
    int code;
    struct window *window = find_window(handle, call, &code);
    if (window == NULL) return code;
    struct window_member *mine = my_window(window);
    if (!mine->has_locked_all) return refuse(window->comm, MPI_ERR_RMA_SYNC, call, "this rank hasn't called MPI_Win_lock_all");
    code = release_held(window, -1, call);
    for (int i = 0; i < window->comm->size; i++) {
        end_accesses(window, i, false);
        leave_lock(window, i);
    }
    mine->has_locked_all = false;
    return code;
}

/* ---- completing accesses under a lock (MPI 4.1, 12.5.4). What is only completed here, and not at the target, still conflicts with others' accesses. */

void let_others_write(struct window *window) {
    enum { PATIENCE = 16 };
    if (++my_window(window)->polls % PATIENCE == 0) sched_yield();
}

static int flush(MPI_Win handle, int target, bool gets_alone, const char *call) {
    int code;
    struct window *window = find_window(handle, call, &code);
    if (window == NULL || target == MPI_PROC_NULL) return code;
    struct window_member *mine = my_window(window);
    bool all = target == ALL_TARGETS;
    if (!all) code = judge_target(window, target, call);
    if (code != MPI_SUCCESS) return code;
    bool locked = mine->has_locked_all || (!all && mine->locks[target] != 0);
    for (int i = 0; all && i < window->comm->size; i++) locked = locked || mine->locks[i] != 0;
    if (!locked) return refuse(window->comm, MPI_ERR_RMA_SYNC, call, "this rank holds no lock of %s", all ? "the window" : "that rank's memory");
    code = release_held(window, all ? -1 : target, call);
    for (int i = all ? 0 : target; i < (all ? window->comm->size : target + 1); i++) end_accesses(window, i, gets_alone);
    let_others_write(window);
    return code;
}

int MPI_Win_flush(int target, MPI_Win window) { return flush(window, target, false, "MPI_Win_flush"); }

int MPI_Win_flush_all(MPI_Win window) { return flush(window, ALL_TARGETS, false, "MPI_Win_flush_all"); }

int MPI_Win_flush_local(int target, MPI_Win window) { return flush(window, target, true, "MPI_Win_flush_local"); }

int MPI_Win_flush_local_all(MPI_Win window) { return flush(window, ALL_TARGETS, true, "MPI_Win_flush_local_all"); }

int MPI_Win_sync(MPI_Win handle) {
    int code;
    struct window *window = find_window(handle, "MPI_Win_sync", &code);
    if (window == NULL) return code;
    atomic_thread_fence(memory_order_seq_cst);
    let_others_write(window);
    return code;
}
