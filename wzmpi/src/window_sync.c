/* Epochs that targets take part in (MPI 4.1, 12.5.1 and 12.5.2): a fence is a collective of the window's communicator; a post is a message to each rank of its
   group, which MPI_Win_start receives, and so is MPI_Win_complete, which MPI_Win_wait receives. */
#include "diagnostics.h"
#include "mailbox.h"
#include "test_loops.h"
#include "window.h"

#include <sched.h>

enum { POST_TAG = -10, COMPLETE_TAG }; /* no program's tag is negative */

static const int fence_assertions = MPI_MODE_NOSTORE | MPI_MODE_NOPUT | MPI_MODE_NOPRECEDE | MPI_MODE_NOSUCCEED;

/* ---- fences */

static int judge_fence(struct window *window, int assertions, const char *call) {
    struct window_member *mine = my_window(window);
    if ((assertions & ~fence_assertions) != 0) return refuse(window->comm, MPI_ERR_ASSERT, call, "the assertion %d isn't for this call", assertions);
    if (mine->has_locked_all) return refuse(window->comm, MPI_ERR_RMA_SYNC, call, "MPI_Win_lock_all at %s holds all locks", mine->locked_all_at);
    if (mine->has_started) return refuse(window->comm, MPI_ERR_RMA_SYNC, call, "the epoch of MPI_Win_start at %s is open", mine->started_at);
    if (mine->is_exposed) return refuse(window->comm, MPI_ERR_RMA_SYNC, call, "the epoch of MPI_Win_post at %s is open", mine->exposed_at);
    for (int i = 0; i < window->comm->size; i++)
        if (mine->locks[i] != 0) return refuse(window->comm, MPI_ERR_RMA_SYNC, call, "this rank holds the lock of rank %d since %s", i, mine->locked_at[i]);
    if ((assertions & MPI_MODE_NOPRECEDE) != 0 && mine->fence_is_used)
        return refuse(window->comm, MPI_ERR_RMA_SYNC, call, "MPI_MODE_NOPRECEDE says that nothing was accessed since MPI_Win_fence at %s, and this rank has accessed something",
                      mine->fenced_at);
    if (the_run.strict && mine->between_fences != NULL && (assertions & MPI_MODE_NOPRECEDE) == 0)
        return refuse(window->comm, MPI_ERR_RMA_SYNC, call, "the lock at %s lies between MPI_Win_fence at %s and this one, whose epoch lacks MPI_MODE_NOSUCCEED and MPI_MODE_NOPRECEDE",
                      mine->between_fences, mine->fenced_at);
    return MPI_SUCCESS;
}

static int meet(struct window *window, const char *call) {
    struct request *done;
    int code = post_and_wait(window->comm, &(struct arguments){ .function = COMM_DUP, .form = BLOCKING, .name = call }, &done);
    if (code == MPI_SUCCESS) drop_request(done);
    return code;
}

/* --check. All have come, so that nobody accesses its own memory any more; nor does it before all that was held back is done, and each has looked at its own. */
static int release_and_look(struct window *window, const char *call) {
    int code = release_held(window, -1, call);
    if (code == MPI_SUCCESS) code = meet(window, call);
    take_snapshot(window);
    return code == MPI_SUCCESS ? meet(window, call) : code;
}

int MPI_Win_fence(int assertions, MPI_Win handle) {
    const char *call = "MPI_Win_fence";
    int code;
    struct window *window = find_window(handle, call, &code);
    if (window == NULL) return code;
    code = judge_fence(window, assertions, call);
    if (code == MPI_SUCCESS) code = meet(window, call);
    if (code != MPI_SUCCESS) return code;
    struct window_member *mine = my_window(window);
    if (the_run.checks) code = release_and_look(window, call);
    if (code != MPI_SUCCESS) return code;
    mine->fences++;
    mine->fence_is_open = (assertions & MPI_MODE_NOSUCCEED) == 0;
    mine->fence_is_used = false;
    mine->between_fences = NULL;
    mine->fenced_at = current_rank->site;
    end_fenced(window);
    return code;
}

/* ---- posts, starts and what ends them */

static int members_of_group(struct window *window, MPI_Group handle, const char *call, uint64_t *members) {
    struct group *group = find_group(handle);
    *members = 0;
    if (group == NULL) return refuse(window->comm, MPI_ERR_GROUP, call, "there is no such group, or it was freed");
    for (int i = 0; i < group->size; i++) {
        int member = window->comm->member_of[group->ranks[i]];
        if (member < 0) return refuse(window->comm, MPI_ERR_GROUP, call, "rank %d of the group isn't in the window", i);
        *members |= 1ull << member;
    }
    return MPI_SUCCESS;
}

static struct request *signal_of(struct window *window, enum sort sort, int other, int tag, const char *call) {
    struct request *request = new_request(sort, window->comm, call);
    request->other = other;
    request->tag = tag;
    request->type = find_type(MPI_BYTE);
    request->awaits = tag == POST_TAG ? "MPI_Win_post" : "MPI_Win_complete";
    return request;
}

static void send_signals(struct window *window, uint64_t members, int tag, const char *call) {
    for (int i = 0; i < window->comm->size; i++) {
        if (!(members >> i & 1)) continue;
        struct request *request = signal_of(window, SENDING, i, tag, call);
        start_message(request);
        complete_request(request, MPI_STATUS_IGNORE, call);
    }
}

/* Waits for all of them at once, so that whoever watches sees all that lack. */
static void receive_signals(struct window *window, uint64_t members, int tag, const char *call) {
    struct request *list[MOST_RANKS];
    int many = 0;
    for (int i = 0; i < window->comm->size; i++) {
        if (!(members >> i & 1)) continue;
        list[many] = signal_of(window, RECEIVING, i, tag, call);
        start_message(list[many++]);
    }
    wait_for(call, list, many, false);
    for (int i = 0; i < many; i++) complete_request(list[i], MPI_STATUS_IGNORE, call);
}

static bool signals_have_come(struct window *window, uint64_t members, int tag, const char *call) {
    bool all = true;
    for (int i = 0; i < window->comm->size && all; i++) {
        if (!(members >> i & 1)) continue;
        struct request *probe = signal_of(window, PROBING, i, tag, call);
        all = message_waits(probe);
        if (!all) test_in_vain(call, &probe, 1);
        drop_request(probe);
    }
    return all;
}

int MPI_Win_post(MPI_Group group, int assertions, MPI_Win handle) {
    const char *call = "MPI_Win_post";
    int code;
    uint64_t members;
    struct window *window = find_window(handle, call, &code);
    if (window == NULL) return code;
    struct window_member *mine = my_window(window);
    if ((assertions & ~(MPI_MODE_NOCHECK | MPI_MODE_NOSTORE | MPI_MODE_NOPUT)) != 0) return refuse(window->comm, MPI_ERR_ASSERT, call, "the assertion %d isn't for this call", assertions);
    if (mine->is_exposed) return refuse(window->comm, MPI_ERR_RMA_SYNC, call, "the epoch of MPI_Win_post at %s is open", mine->exposed_at);
    code = members_of_group(window, group, call, &members);
    if (code != MPI_SUCCESS) return code;
    mine->fence_is_open = mine->fence_is_open && mine->fence_is_used;
    mine->is_exposed = true;
    mine->exposed = members;
    mine->exposed_at = current_rank->site;
    hold_up();
    send_signals(window, members, POST_TAG, call);
    return code;
}

int MPI_Win_start(MPI_Group group, int assertions, MPI_Win handle) {
    const char *call = "MPI_Win_start";
    int code;
    uint64_t members;
    struct window *window = find_window(handle, call, &code);
    if (window == NULL) return code;
    struct window_member *mine = my_window(window);
    if ((assertions & ~MPI_MODE_NOCHECK) != 0) return refuse(window->comm, MPI_ERR_ASSERT, call, "the assertion %d isn't for this call", assertions);
    if (mine->has_started) return refuse(window->comm, MPI_ERR_RMA_SYNC, call, "the epoch of MPI_Win_start at %s is open", mine->started_at);
    if (mine->has_locked_all) return refuse(window->comm, MPI_ERR_RMA_SYNC, call, "MPI_Win_lock_all at %s holds all locks", mine->locked_all_at);
    for (int i = 0; i < window->comm->size; i++)
        if (mine->locks[i] != 0) return refuse(window->comm, MPI_ERR_RMA_SYNC, call, "this rank holds the lock of rank %d since %s", i, mine->locked_at[i]);
    if (mine->fence_is_open && mine->fence_is_used)
        return refuse(window->comm, MPI_ERR_RMA_SYNC, call, "the epoch of MPI_Win_fence at %s is open, and was used", mine->fenced_at);
    code = members_of_group(window, group, call, &members);
    if (code != MPI_SUCCESS) return code;
    hold_up();
    receive_signals(window, members, POST_TAG, call);
    mine->fence_is_open = false;
    mine->has_started = true;
    mine->started = members;
    mine->started_at = current_rank->site;
    return code;
}

int MPI_Win_complete(MPI_Win handle) {
    const char *call = "MPI_Win_complete";
    int code;
    struct window *window = find_window(handle, call, &code);
    if (window == NULL) return code;
    struct window_member *mine = my_window(window);
    if (!mine->has_started) return refuse(window->comm, MPI_ERR_RMA_SYNC, call, "this rank hasn't called MPI_Win_start");
    code = release_held(window, -1, call);
    end_started(window);
    mine->has_started = false;
    send_signals(window, mine->started, COMPLETE_TAG, call);
    return code;
}

static int judge_exposed(struct window *window, const char *call) {
    return my_window(window)->is_exposed ? MPI_SUCCESS : refuse(window->comm, MPI_ERR_RMA_SYNC, call, "this rank hasn't called MPI_Win_post");
}

static int end_post(struct window *window, const char *call) {
    struct window_member *mine = my_window(window);
    receive_signals(window, mine->exposed, COMPLETE_TAG, call);
    end_exposure(window);
    mine->is_exposed = false;
    return MPI_SUCCESS;
}

int MPI_Win_wait(MPI_Win handle) {
    int code;
    struct window *window = find_window(handle, "MPI_Win_wait", &code);
    if (window == NULL) return code;
    code = judge_exposed(window, "MPI_Win_wait");
    if (code != MPI_SUCCESS) return code;
    hold_up();
    return end_post(window, "MPI_Win_wait");
}

int MPI_Win_test(MPI_Win handle, int *flag) {
    const char *call = "MPI_Win_test";
    int code;
    struct window *window = find_window(handle, call, &code);
    if (window == NULL) return code;
    code = judge_exposed(window, call);
    *flag = code == MPI_SUCCESS && signals_have_come(window, my_window(window)->exposed, COMPLETE_TAG, call) && draw_number(4) != 1;
    if (*flag) return end_post(window, call);
    if (code == MPI_SUCCESS) sched_yield();
    return code;
}

/* ---- the window's end */

int judge_end(struct window *window, const char *call) {
    struct window_member *mine = my_window(window);
    if (mine->has_locked_all) return refuse(window->comm, MPI_ERR_RMA_SYNC, call, "MPI_Win_lock_all at %s holds all locks", mine->locked_all_at);
    if (mine->has_started) return refuse(window->comm, MPI_ERR_RMA_SYNC, call, "the epoch of MPI_Win_start at %s is open", mine->started_at);
    if (mine->is_exposed) return refuse(window->comm, MPI_ERR_RMA_SYNC, call, "the epoch of MPI_Win_post at %s is open", mine->exposed_at);
    if (mine->fence_is_used) return refuse(window->comm, MPI_ERR_RMA_SYNC, call, "accesses since MPI_Win_fence at %s aren't completed by another", mine->fenced_at);
    for (int i = 0; i < window->comm->size; i++)
        if (mine->locks[i] != 0) return refuse(window->comm, MPI_ERR_RMA_SYNC, call, "this rank holds the lock of rank %d since %s", i, mine->locked_at[i]);
    return MPI_SUCCESS;
}
