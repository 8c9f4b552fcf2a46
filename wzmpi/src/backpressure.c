/* An engine has room for as many requests as it has slots. A post that finds none waits: those of this rank's requests that are done give theirs up, and so may the
   other members'. Where none of these can, the thread that watches says so (deadlock_watch.c), and the post is refused. */
#include "collectives.h"
#include "diagnostics.h"
#include "threads.h"

#include <time.h>

enum { TURNS_TO_WARNING = 1000 }; /* of a millisecond each */

/* Takes over what this rank's requests of the engine have got, of those that are done. Whether there were any. */
static bool make_room(const struct request *request) {
    struct table *table = &current_rank->tables[REQUEST];
    bool any = false;
    for (uint32_t i = 0; i < table->many; i++) {
        struct request *old = table->objects[i];
        if (old == NULL || old->sort != COLLECTIVE || !old->active || old->engine != request->engine || old->persistent || old->collected) continue;
        old->collected = engine_test(old) == WZ_DONE;
        any = any || old->collected;
    }
    return any;
}

static void warn(const struct request *request, const char *call) {
    char name[NAME_TEXT];
    print_warning("rank %d waits in %s at %s for room: %s has %u requests that are neither completed nor freed, and room for no more", current_rank->number, call, current_rank->site,
             comm_name(request->comm, name), slots_for(request->comm));
}

/* One turn, which is in vain where no request of this rank gave its slot up and no slot is free. */
static int32_t try_again(struct request *request, const struct asking *asking) {
    struct rank *me = current_rank;
    bool made = make_room(request);
    if (made) atomic_fetch_add(&me->waits_begun, 1); /* it waits anew */
    int32_t code = asking->ask(request, asking->bytes, asking->length);
    if (code != WZ_FULL || made) return code;
    let_others_in();
    nanosleep(&(struct timespec){ 0, 1000000 }, NULL);
    come_back();
    atomic_fetch_add(&me->turns_in_vain, 1);
    return code;
}

int32_t engine_ask_with_room(struct request *request, const struct asking *asking, const char *call) {
    struct rank *me = current_rank;
    int32_t code = asking->ask(request, asking->bytes, asking->length);
    if (code != WZ_FULL) return code;
    atomic_store(&me->has_no_hope, false);
    begin_wait_for_room(call, request);
    for (int turn = 0; code == WZ_FULL && !atomic_load(&me->has_no_hope); turn++) {
        if (turn == TURNS_TO_WARNING) warn(request, call);
        code = try_again(request, asking);
    }
    end_waiting();
    return code;
}
