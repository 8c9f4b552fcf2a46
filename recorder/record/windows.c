/* Windows: what makes and frees them, fences, and what one rank waits for another in one. */
#include "makers.h"

static int made_window(int result, const MPI_Win *made, char *key, const char *maker) {
    log_lock();
    if (result == MPI_SUCCESS && key) {
        log_place(here);
        window_made(*made, key, maker);
    }
    free(key);
    log_unlock();
    return result;
}

MAKER(window, Win_create, (void *base, MPI_Aint size, int unit, MPI_Info info, MPI_Comm parent, MPI_Win *made),
      (base, size, unit, info, parent, made))
MAKER(window, Win_allocate, (MPI_Aint size, int unit, MPI_Info info, MPI_Comm parent, void *base, MPI_Win *made),
      (size, unit, info, parent, base, made))
MAKER(window, Win_allocate_shared, (MPI_Aint size, int unit, MPI_Info info, MPI_Comm parent, void *base, MPI_Win *made),
      (size, unit, info, parent, base, made))
MAKER(window, Win_create_dynamic, (MPI_Info info, MPI_Comm parent, MPI_Win *made), (info, parent, made))
#if MPI_VERSION >= 4
MAKER_AS(window, Win_create, _c, (void *base, MPI_Aint size, MPI_Aint unit, MPI_Info info, MPI_Comm parent, MPI_Win *made),
         (base, size, unit, info, parent, made))
MAKER_AS(window, Win_allocate, _c, (MPI_Aint size, MPI_Aint unit, MPI_Info info, MPI_Comm parent, void *base, MPI_Win *made),
         (size, unit, info, parent, base, made))
MAKER_AS(window, Win_allocate_shared, _c, (MPI_Aint size, MPI_Aint unit, MPI_Info info, MPI_Comm parent, void *base, MPI_Win *made),
         (size, unit, info, parent, base, made))
#endif

INTERPOSED(MPI_Win_fence, (int assertion, MPI_Win window), (assertion, window)) {
    log_lock();
    write_named(context_of_window(window), 'b', "Win_fence");
    log_unlock();
    return next_MPI_Win_fence(assertion, window);
}

INTERPOSED(MPI_Win_free, (MPI_Win * window), (window)) {
    log_lock();
    struct context *context = context_of_window(*window);
    write_named(context, 'b', "Win_free");
    context_gone(context);
    log_unlock();
    return next_MPI_Win_free(window);
}

INTERPOSED(MPI_Win_set_info, (MPI_Win window, MPI_Info info), (window, info)) {
    log_lock();
    write_named(context_of_window(window), 'b', "Win_set_info");
    log_unlock();
    return next_MPI_Win_set_info(window, info);
}

/* What one rank waits for another in a window: shown as under way. */

static void await_target(MPI_Win window, int target) {
    log_lock();
    struct context *context = context_of_window(window);
    struct awaited awaited = {.kind = AWAITED_RANK, .context = context ? context->number : -1, .rank = world_rank(context, target)};
    log_unlock();
    now_elsewhere();
    now_awaits(awaited);
}

INTERPOSED(MPI_Win_lock, (int kind, int target, int assertion, MPI_Win window), (kind, target, assertion, window)) {
    await_target(window, target);
    return next_MPI_Win_lock(kind, target, assertion, window);
}

INTERPOSED(MPI_Win_unlock, (int target, MPI_Win window), (target, window)) {
    await_target(window, target);
    return next_MPI_Win_unlock(target, window);
}

INTERPOSED(MPI_Win_flush, (int target, MPI_Win window), (target, window)) {
    await_target(window, target);
    return next_MPI_Win_flush(target, window);
}

INTERPOSED(MPI_Win_flush_local, (int target, MPI_Win window), (target, window)) {
    await_target(window, target);
    return next_MPI_Win_flush_local(target, window);
}

/* Calls that move data: a library may let one wait for its target. */
#define MOVED(count_type) const void *from, count_type count, MPI_Datatype type, int target, MPI_Aint at, count_type target_count, MPI_Datatype target_type
#define MOVED_WORDS from, count, type, target, at, target_count, target_type
#define FETCHED(count_type)                                                                                                                 \
    const void *from, count_type count, MPI_Datatype type, void *to, count_type got_count, MPI_Datatype got_type, int target, MPI_Aint at,  \
        count_type target_count, MPI_Datatype target_type
#define FETCHED_WORDS from, count, type, to, got_count, got_type, target, at, target_count, target_type
#define GOT(count_type) void *to, count_type count, MPI_Datatype type, int target, MPI_Aint at, count_type target_count, MPI_Datatype target_type

#define OF_TARGET(NAME, parameters, arguments)                                                                                              \
    INTERPOSED(MPI_##NAME, parameters, arguments) {                                                                                         \
        await_target(window, target);                                                                                                       \
        return next_MPI_##NAME arguments;                                                                                                   \
    }

OF_TARGET(Put, (MOVED(int), MPI_Win window), (MOVED_WORDS, window))
OF_TARGET(Get, (GOT(int), MPI_Win window), (to, count, type, target, at, target_count, target_type, window))
OF_TARGET(Accumulate, (MOVED(int), MPI_Op op, MPI_Win window), (MOVED_WORDS, op, window))
OF_TARGET(Get_accumulate, (FETCHED(int), MPI_Op op, MPI_Win window), (FETCHED_WORDS, op, window))
OF_TARGET(Fetch_and_op, (const void *from, void *to, MPI_Datatype type, int target, MPI_Aint at, MPI_Op op, MPI_Win window),
          (from, to, type, target, at, op, window))
OF_TARGET(Compare_and_swap, (const void *from, const void *other, void *to, MPI_Datatype type, int target, MPI_Aint at, MPI_Win window),
          (from, other, to, type, target, at, window))
#if MPI_VERSION >= 4
OF_TARGET(Put_c, (MOVED(MPI_Count), MPI_Win window), (MOVED_WORDS, window))
OF_TARGET(Get_c, (GOT(MPI_Count), MPI_Win window), (to, count, type, target, at, target_count, target_type, window))
OF_TARGET(Accumulate_c, (MOVED(MPI_Count), MPI_Op op, MPI_Win window), (MOVED_WORDS, op, window))
OF_TARGET(Get_accumulate_c, (FETCHED(MPI_Count), MPI_Op op, MPI_Win window), (FETCHED_WORDS, op, window))
#endif
SHOWN(MPI_Win_flush_local_all, (MPI_Win window), (window))
SHOWN(MPI_Win_lock_all, (int assertion, MPI_Win window), (assertion, window))
SHOWN(MPI_Win_unlock_all, (MPI_Win window), (window))
SHOWN(MPI_Win_flush_all, (MPI_Win window), (window))
SHOWN(MPI_Win_start, (MPI_Group group, int assertion, MPI_Win window), (group, assertion, window))
SHOWN(MPI_Win_complete, (MPI_Win window), (window))
SHOWN(MPI_Win_post, (MPI_Group group, int assertion, MPI_Win window), (group, assertion, window))
SHOWN(MPI_Win_wait, (MPI_Win window), (window))
SHOWN(MPI_Win_test, (MPI_Win window, int *flag), (window, flag))
