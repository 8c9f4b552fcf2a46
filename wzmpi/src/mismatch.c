/* Calls that don't agree: who has which, and who is the odd one. */
#include "collectives.h"
#include "diagnostics.h"
#include "per_rank_libc.h"
#include "deadlock_watch.h"

#include <time.h>

enum {
    LONGEST_TURNS = 3000, /* of a millisecond: so long the others are given to come to the place */
    STUCK_TURNS = 300     /* and so long one that only another's call lets go on: on a busy machine that other may have no turn for 50 */
};

/* Whether a rank won't come to the place any more, as far as can be seen. */
static bool stays_away(const struct rank *rank) { return atomic_load(&rank->ended) || rank == current_rank; }

static uint64_t members_at(struct comm *comm, uint64_t place) {
    struct called called;
    uint64_t members = 0;
    for (int i = 0; i < comm->size; i++)
        if (read_called(comm, i, place, &called)) members |= 1ull << i;
    return members;
}

/* How often in a row each member was seen stuck in one wait. */
struct stuck {
    unsigned waits[MOST_RANKS], turns[MOST_RANKS];
};

/* One turn. Whether each member is there, stays away, or has been stuck for a while. */
static bool nobody_comes(struct comm *comm, uint64_t there, struct stuck *stuck) {
    bool nobody = true;
    for (int i = 0; i < comm->size; i++) {
        struct rank *rank = &the_run.ranks[comm->members[i].rank];
        unsigned waits = atomic_load(&rank->waits_begun);
        bool same = waits == stuck->waits[i] && atomic_load(&rank->waits) && is_stuck(rank);
        stuck->turns[i] = same ? stuck->turns[i] + 1 : 0;
        stuck->waits[i] = waits;
        nobody = nobody && ((there >> i & 1) || stays_away(rank) || stuck->turns[i] > STUCK_TURNS);
    }
    return nobody;
}

/* Gives the others time to come, so that it is seen which of the calls is the odd one. */
static void wait_for_others(struct comm *comm, uint64_t place) {
    struct stuck stuck = { { 0 }, { 0 } };
    for (int turn = 0; turn < LONGEST_TURNS; turn++) {
        hold_watch(true);
        bool nobody = nobody_comes(comm, members_at(comm, place), &stuck);
        hold_watch(false);
        if (nobody) return;
        nanosleep(&(struct timespec){ 0, 1000000 }, NULL);
    }
}

static bool all_alike(const struct called *one, const struct called *other) { return calls_agree(one, other) && strcmp(one->site, other->site) == 0; }

/* What a place of a communicator has, once it is looked at. */
struct place {
    struct comm *comm;
    struct called called[MOST_RANKS];
    uint64_t there; /* members */
};

static uint64_t rank_bit(const struct place *place, int member) { return 1ull << place->comm->members[member].rank; }

/* The ranks whose calls agree with member I's; where EXACTLY, those that stand in the same line too. */
static uint64_t alike(const struct place *place, int i, bool exactly) {
    uint64_t ranks = 0;
    for (int j = 0; j < place->comm->size; j++) {
        if (!(place->there >> j & 1)) continue;
        bool same = exactly ? all_alike(&place->called[i], &place->called[j]) : calls_agree(&place->called[i], &place->called[j]);
        if (same) ranks |= rank_bit(place, j);
    }
    return ranks;
}

static void tell_calls(const struct place *place) {
    char ranks[RANKS_TEXT], call[NAME_TEXT];
    uint64_t told = 0;
    for (int i = 0; i < place->comm->size; i++) {
        if (!(place->there >> i & 1) || (told & rank_bit(place, i))) continue;
        uint64_t same = alike(place, i, true);
        told |= same;
        fprintf(stderr, "  %s: %s: %s\n", ranks_text(same, ranks), place->called[i].site, called_text(&place->called[i], call));
    }
}

static void tell_absent(const struct place *place) {
    for (int i = 0; i < place->comm->size; i++) {
        const struct rank *rank = &the_run.ranks[place->comm->members[i].rank];
        if (place->there >> i & 1) continue;
        const char *what = atomic_load(&rank->ended) ? "has ended; its last call stands at" : atomic_load(&rank->waits) ? "waits at" : "goes on after its call at";
        fprintf(stderr, "  rank %d hasn't come there: it %s %s\n", rank->number, what, atomic_load(&rank->site));
    }
}

/* What differs, and who may be wrong where more than half of those that are there agree. */
static void tell_difference(const struct place *place) {
    char text[RANKS_TEXT];
    uint64_t most = 0, all = 0;
    int common = -1, odd = -1;
    for (int i = 0; i < place->comm->size; i++) {
        if (!(place->there >> i & 1)) continue;
        uint64_t same = alike(place, i, false);
        all |= rank_bit(place, i);
        if (count_ranks(same) > count_ranks(most)) most = same, common = i;
    }
    for (int i = place->comm->size - 1; i >= 0; i--)
        if ((place->there >> i & 1) && !(most & rank_bit(place, i))) odd = i;
    if (odd < 0) return;
    const char *difference = what_differs(&place->called[odd], &place->called[common]);
    if (2 * count_ranks(most) > count_ranks(all))
        fprintf(stderr, "  %d ranks agree, so %s may be wrong: %s\n", count_ranks(most), ranks_text(all & ~most, text), difference);
    else fprintf(stderr, "  %s\n", difference);
}

void tell_mismatch(struct comm *comm, uint64_t number) {
    char name[NAME_TEXT];
    struct place place = { .comm = comm };
    tell_alone();
    wait_for_others(comm, number);
    for (int i = 0; i < comm->size; i++)
        if (read_called(comm, i, number, &place.called[i])) place.there |= 1ull << i;
    flush_streams();
    fprintf(stderr, "%s: collectives don't agree: place %llu of %s (MPI_ERR_ARG)\n", fault_head(), (unsigned long long)number, comm_name(comm, name));
    tell_calls(&place);
    tell_absent(&place);
    tell_difference(&place);
    end_run(fault_status(STATUS_WRONG), complete_mismatch());
}
