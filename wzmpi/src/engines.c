/* The engines of a communicator: one for each 65,536 places, so that a program may call as often as it wants. An engine is closed once all members are past
   its places and no request has it any longer. */
#include "comms.h"

#include <malloc.h>
#include <unistd.h>

/* MPI_COMM_WORLD has the most slots from the beginning; other communicators have 256 for each member, which take less memory and time to open. */
uint32_t slots_for(const struct comm *comm) {
    uint32_t slots = (uint32_t)comm->size * 256;
    return comm->maker == NULL || slots > 4096 ? 4096 : slots;
}

static uint64_t taken; /* calls of all engines, with --trace */

static struct engine *open_engine(const struct comm *comm, uint64_t number) {
    struct engine *engine = must(malloc(sizeof *engine));
    const uint8_t many = (uint8_t)comm->size;
    uint8_t ranks_of_engine[MOST_RANKS]; /* its rank numbers are the member numbers */
    for (uint8_t i = 0; i < many; i++) ranks_of_engine[i] = i;
    wz_limits limits = wz_greatest_limits(many);
    limits.slots = slots_for(comm);
    int32_t code = wz_shared_open(&engine->shared, &limits, &many, 1, ranks_of_engine, many);
    if (code != WZ_DONE) {
        fprintf(stderr, "wzrun: no engine can be opened for %d ranks: %s\n", comm->size, wz_message(code));
        _exit(1);
    }
    if (the_run.trace != NULL) wz_shared_number_calls(&engine->shared, &taken);
    if (comm->size > 1) code = wz_shared_progress(&engine->shared, the_run.progress);
    if (code != WZ_DONE) {
        fprintf(stderr, "wzrun: --progress %lu: no thread can be started: %s\n", (unsigned long)the_run.progress, wz_message(code));
        _exit(1);
    }
    atomic_init(&engine->requests, 0);
    engine->number = number;
    return engine;
}

static void close_engine(struct engine *engine) {
    wz_shared_close(&engine->shared);
    free(engine);
}

/* Under the guard: closes what nobody needs any longer. */
static void close_old(struct comm *comm) {
    uint64_t least = UINT64_MAX;
    for (int i = 0; i < comm->size; i++) {
        uint64_t posted = atomic_load(&comm->members[i].posted);
        if (posted < least) least = posted;
    }
    struct engine *at = atomic_load(&comm->newest);
    while (at != NULL && at->older != NULL) {
        struct engine *older = at->older;
        if (older->requests == 0 && (older->number + 1) * PLACES_OF_ENGINE <= least) {
            at->older = older->older;
            close_engine(older);
            malloc_trim(0); /* else 16 MiB stay with the threads' arenas, which the next engine doesn't take from */
        } else at = older;
    }
}

static struct engine *find_engine(struct comm *comm, uint64_t number) {
    struct engine *at = atomic_load(&comm->newest);
    while (at != NULL && at->number != number) at = at->older;
    return at;
}

struct engine *engine_at(struct comm *comm, uint64_t place) {
    uint64_t number = place / PLACES_OF_ENGINE;
    struct engine *engine = atomic_load(&comm->newest);
    if (engine != NULL && engine->number == number && place % PLACES_OF_ENGINE != 0) { /* nobody closes the newest */
        atomic_fetch_add(&engine->requests, 1);
        return engine;
    }
    pthread_mutex_lock(&comm->guard);
    engine = find_engine(comm, number);
    if (engine == NULL) { /* the members come to it in order, so it is newer than all others */
        engine = open_engine(comm, number);
        engine->older = atomic_load(&comm->newest);
        atomic_store(&comm->newest, engine);
        close_old(comm);
    }
    atomic_fetch_add(&engine->requests, 1);
    pthread_mutex_unlock(&comm->guard);
    return engine;
}

void leave_engine(struct comm *comm, struct engine *engine) {
    if (engine == atomic_load(&comm->newest)) {
        atomic_fetch_sub(&engine->requests, 1);
        return;
    }
    pthread_mutex_lock(&comm->guard);
    atomic_fetch_sub(&engine->requests, 1);
    close_old(comm);
    pthread_mutex_unlock(&comm->guard);
}

void close_engines(struct comm *comm) {
    for (struct engine *at = atomic_load(&comm->newest), *older; at != NULL; at = older) {
        older = at->older;
        close_engine(at);
    }
    for (struct starts *at = comm->starts, *next; at != NULL; at = next) {
        next = at->next;
        free(at);
    }
}

/* ---- starts of persistent collectives */

struct starts *starts_at(struct comm *comm, uint64_t place) {
    pthread_mutex_lock(&comm->guard);
    struct starts *starts;
    for (starts = comm->starts; starts != NULL; starts = starts->next)
        if (starts->place == place) break;
    if (starts == NULL) {
        starts = must(calloc(1, sizeof *starts + sizeof starts->of[0] * (size_t)comm->size));
        starts->place = place;
        starts->next = comm->starts;
        comm->starts = starts;
    }
    starts->requests++;
    pthread_mutex_unlock(&comm->guard);
    return starts;
}

static bool all_are_past(const struct comm *comm, uint64_t place) {
    for (int i = 0; i < comm->size; i++)
        if (atomic_load(&comm->members[i].posted) <= place) return false;
    return true;
}

void leave_starts(struct comm *comm, struct starts *starts) {
    pthread_mutex_lock(&comm->guard);
    if (--starts->requests == 0 && all_are_past(comm, starts->place)) {
        struct starts **at = &comm->starts;
        while (*at != starts) at = &(*at)->next;
        *at = starts->next;
        free(starts);
    }
    pthread_mutex_unlock(&comm->guard);
}
