/* Stalls: ranks that wait for what can't come any more. A thread looks at all ranks now and then.

   A rank is lost if it waits, nothing of what it waits for is done, and what it waits for lacks calls of ranks that are lost, have ended or have called
   MPI_Finalize. A collective may be done before all members have called it, so it is given up only where all of those that it lacks are lost; under --strict
   where one is. Of the requests of MPI_Waitany and MPI_Waitsome all have to be given up. A rank that waits for room in an engine is lost where all other members of
   the communicator are: each of them might complete requests. The lost ranks are the greatest set that is so. */
#include "deadlock_watch.h"

#include "diagnostics.h"
#include "mailbox.h"
#include "schedule.h"
#include "standing.h"
#include "test_loops.h"
#include "per_rank_libc.h"
#include "window.h"

#include <time.h>

enum {
    PATIENCE = 20,             /* looks that give one answer, before a stall of some of the ranks is told while others go on */
    PATIENCE_OF_THREADS = 120, /* and before one that is not sure */
};

uint64_t all_ranks(void) { return the_run.size == 64 ? UINT64_MAX : (1ull << the_run.size) - 1; }

/* ---- when each rank was last seen to call */

static struct {
    uint64_t calls, progress;
    struct timespec at;
} last_seen[MOST_RANKS];

static void look_at_calls(void) {
    for (int i = 0; i < the_run.size; i++) {
        uint64_t calls = atomic_load(&the_run.ranks[i].lines), progress = atomic_load(&the_run.ranks[i].progress);
        if (last_seen[i].at.tv_sec != 0 && calls == last_seen[i].calls && progress == last_seen[i].progress) continue;
        last_seen[i].calls = calls;
        last_seen[i].progress = progress;
        clock_gettime(CLOCK_MONOTONIC, &last_seen[i].at);
    }
}

double seconds_since_call(int rank) {
    struct timespec now;
    if (last_seen[rank].at.tv_sec == 0) return 0;
    clock_gettime(CLOCK_MONOTONIC, &now);
    return (double)(now.tv_sec - last_seen[rank].at.tv_sec) + (double)(now.tv_nsec - last_seen[rank].at.tv_nsec) / 1e9;
}

/* What a look has seen. */
struct sight {
    uint64_t waiting; /* ranks that wait, with nothing done */
    uint64_t gone;    /* ranks that call nothing any more */
};

static bool is_open(struct request *request) { return request != NULL && request->active; }

bool is_stuck(const struct rank *rank) {
    const struct wait *wait = &rank->wait;
    bool open = false;
    if (wait->room != NULL) return is_at_rest(wait->room->engine);
    for (int i = 0; i < wait->many; i++) {
        if (!is_open(wait->list[i])) continue;
        if (make_progress(wait->list[i]) != GOES_ON) return false;
        open = true;
    }
    return open;
}

static struct sight look(void) {
    struct sight sight = { 0, 0 };
    for (int i = 0; i < the_run.size; i++) {
        struct rank *rank = &the_run.ranks[i];
        if (atomic_load(&rank->ended) || atomic_load(&rank->finalized)) sight.gone |= 1ull << i;
        else if (atomic_load(&rank->waits) && is_stuck(rank)) sight.waiting |= 1ull << i;
    }
    return sight;
}

static bool is_hopeless(const struct request *request, uint64_t lost) {
    uint64_t lacks = lacking(request);
    if (lacks == 0) return false;
    bool one = request->sort == COLLECTIVE && the_run.strict;
    return one ? (lacks & lost) != 0 : (lacks & ~lost) == 0;
}

/* Whether all other members of a communicator are lost. */
static bool gets_no_room(const struct request *request, uint64_t lost) {
    for (int i = 0; i < request->comm->size; i++)
        if (i != request->member && !(lost >> request->comm->members[i].rank & 1)) return false;
    return true;
}

static bool is_lost(const struct rank *rank, uint64_t lost) {
    const struct wait *wait = &rank->wait;
    if (wait->room != NULL) return gets_no_room(wait->room, lost);
    for (int i = 0; i < wait->many; i++) {
        if (!is_open(wait->list[i])) continue;
        bool hopeless = is_hopeless(wait->list[i], lost);
        if (wait->any && !hopeless) return false;
        if (!wait->any && hopeless) return true;
    }
    return wait->any;
}

static uint64_t find_lost(const struct sight *sight) {
    uint64_t lost = sight->waiting, before;
    do {
        before = lost;
        for (int i = 0; i < the_run.size; i++)
            if ((lost >> i & 1) && !is_lost(&the_run.ranks[i], lost | sight->gone)) lost &= ~(1ull << i);
    } while (lost != before);
    return lost;
}

/* ---- telling */

static void write_message(FILE *to, const struct request *request) {
    char ranks[RANKS_TEXT], name[NAME_TEXT];
    const char *what = request->sort == SENDING ? "that its message is received by" : "for a message from";
    const char *whom = request->other == MPI_ANY_SOURCE ? "any rank" : ranks_text(lacking(request), ranks);
    if (request->awaits != NULL) {
        fprintf(to, "\n    for %s of %s on %s", request->awaits, whom, comm_name(request->comm, name));
        return;
    }
    fprintf(to, "\n    %s %s", what, whom);
    if (request->tag >= 0) fprintf(to, ", tag %d", request->tag);
    fprintf(to, ": %s at %s", request->name, request->started_at);
    write_near_miss(to, request);
}

void write_awaited(FILE *to, struct request *request, const char *call) {
    char ranks[RANKS_TEXT], name[NAME_TEXT], root[40] = "", start[300] = "";
    uint64_t lacks = lacking(request);
    if (request->sort == LOCKING) {
        write_lock(to, request);
        return;
    }
    if (request->sort != COLLECTIVE) {
        write_message(to, request);
        return;
    }
    if (is_rooted(request->arguments.function) && request->comm->first == 0) snprintf(root, sizeof root, ", root %d", request->arguments.root);
    if (request->starts != NULL) snprintf(start, sizeof start, ", start %u at %s", request->times, request->started_at);
    const char *where = request->name == call ? "" : " at ";
    fprintf(to, "\n    for %s%s%s%s, place %llu of %s%s, which %s %s not %s", request->name, root, where, request->name == call ? "" : request->site, (unsigned long long)request->place,
            comm_name(request->comm, name), start, ranks_text(lacks, ranks), count_ranks(lacks) == 1 ? "has" : "have", request->starts != NULL ? "made" : "called");
}

/* Whom a rank waits for. */
static uint64_t awaited(const struct rank *rank, uint64_t lost) {
    uint64_t ranks = 0;
    for (int i = 0; i < rank->wait.many; i++)
        if (is_open(rank->wait.list[i]) && (rank->wait.any || is_hopeless(rank->wait.list[i], lost))) ranks |= lacking(rank->wait.list[i]);
    return ranks;
}

static void write_lost(struct standing *standing, const struct rank *rank, uint64_t lost) {
    FILE *to = begin_standing(standing, rank->wait.tests ? "tests in vain in" : "waits in", rank->wait.tests ? "test in vain in" : "wait in");
    fprintf(to, "%s at %s", rank->wait.call, rank->wait.site);
    for (int i = 0; i < rank->wait.many; i++) {
        struct request *request = rank->wait.list[i];
        if (is_open(request) && (rank->wait.any || is_hopeless(request, lost))) write_awaited(to, request, rank->wait.call);
    }
    end_standing(to);
}

static int lowest(uint64_t ranks) {
    int rank = 0;
    while (!(ranks >> rank & 1)) rank++;
    return rank;
}

/* Each lost rank points to one that it waits for; -1: it waits for none of the lost. */
static void point(uint64_t lost, uint64_t gone, int points[MOST_RANKS]) {
    for (int i = 0; i < the_run.size; i++) {
        uint64_t whom = lost >> i & 1 ? awaited(&the_run.ranks[i], lost | gone) & lost : 0;
        if ((whom & ~(1ull << i)) != 0) whom &= ~(1ull << i); /* any rank is another one first */
        points[i] = whom != 0 ? lowest(whom) : -1;
    }
}

/* Follows the pointers for as many steps as there are ranks, which ends within a circle if there is one on the way. -1: there is none. */
static int find_circle(const int points[MOST_RANKS], int rank) {
    for (int step = 0; step < the_run.size && rank >= 0; step++) rank = points[rank];
    return rank;
}

/* Tells of a circle, from its lowest rank on. */
static bool tell_circle(const int points[MOST_RANKS], int from) {
    int within = find_circle(points, from), first = within;
    if (within < 0) return false;
    for (int i = points[within]; i != within; i = points[i])
        if (i < first) first = i;
    fprintf(stderr, "  so they wait for one another: %d", first);
    int at = first;
    do {
        at = points[at];
        fprintf(stderr, " -> %d", at);
    } while (at != first);
    fputc('\n', stderr);
    return true;
}

static void write_other(struct standing *standing, int rank, bool is_gone) {
    char one[100], many[100];
    const struct rank *it = &the_run.ranks[rank];
    bool ended = atomic_load(&it->ended);
    snprintf(one, sizeof one, is_gone ? "has called MPI_Finalize at" : "goes on; its last call stands at");
    snprintf(many, sizeof many, is_gone ? "have called MPI_Finalize at" : "go on; their last calls stand at");
    if (ended) snprintf(one, sizeof one, "has ended with status %d; its last call stands at", it->status);
    if (ended) snprintf(many, sizeof many, "have ended with status %d; their last calls stand at", it->status);
    FILE *to = begin_standing(standing, one, many);
    fputs(atomic_load(&it->site), to);
    end_standing(to);
}

/* A rank that has called MPI_Finalize mostly ends soon: it is given two seconds, so that its status is reported. */
static void wait_for_ends(void) {
    for (int turn = 0; turn < 400; turn++) {
        bool all = true;
        for (int i = 0; i < the_run.size; i++) all = all && (!atomic_load(&the_run.ranks[i].finalized) || atomic_load(&the_run.ranks[i].ended));
        if (all) return;
        nanosleep(&(struct timespec){ 0, 5000000 }, NULL);
    }
}

static void tell_lost(const struct sight *sight, uint64_t lost) {
    struct standing standings[MOST_RANKS];
    int points[MOST_RANKS];
    for (int i = 0; i < the_run.size; i++) {
        if (lost >> i & 1) write_lost(&standings[i], &the_run.ranks[i], lost | sight->gone);
        else write_other(&standings[i], i, sight->gone >> i & 1);
    }
    tell_standings(standings, lost);
    tell_standings(standings, all_ranks() & ~lost);
    point(lost, sight->gone, points);
    for (int i = 0; i < the_run.size; i++)
        if ((lost >> i & 1) && tell_circle(points, i)) break;
    if (the_run.strict) fprintf(stderr, "  (--strict: each collective is taken to wait for all its members, each send for its receive)\n");
}

/* Whether a lost rank may have threads that wait for nothing. */
static bool has_other_threads(uint64_t lost) {
    bool multiple = false;
    for (int i = 0; i < the_run.size; i++) multiple = multiple || ((lost >> i & 1) && the_run.ranks[i].level == MPI_THREAD_MULTIPLE);
    return multiple && makes_threads();
}

static bool some_test(uint64_t lost) {
    bool some = false;
    for (int i = 0; i < the_run.size; i++) some = some || ((lost >> i & 1) && the_run.ranks[i].wait.tests);
    return some;
}

/* Ranks that only test may leave their loops by what isn't MPI. Then this isn't sure, and is told once. */
static bool may_leave_loops(uint64_t lost) {
    bool asks = tells_time();
    for (int i = 0; i < the_run.size; i++) asks = asks || ((lost >> i & 1) && atomic_load(&the_run.ranks[i].asked_time));
    return asks;
}

/* What may be so, and is told once. */
static void warn_of_stall(const struct sight *sight, uint64_t lost, const char *what) {
    static bool told;
    if (told) return;
    told = true;
    flush_streams();
    fprintf(stderr, "%s: no rank goes on: %s\n", warning_head(), what);
    tell_lost(sight, lost);
}

static void tell_stall(const struct sight *sight, uint64_t lost) {
    char ranks[RANKS_TEXT];
    bool all = (lost | sight->gone) == all_ranks(), tests = some_test(lost);
    if (tests && may_leave_loops(lost)) {
        warn_of_stall(sight, lost, "tests can't come true any more (not sure: the program may leave its loops by the time, or by something else than MPI)");
        return;
    }
    if (has_other_threads(lost)) {
        if (all) warn_of_stall(sight, lost, "each waits (not sure: under MPI_THREAD_MULTIPLE another thread of a rank may let it go on)");
        return;
    }
    tell_unfit(lost);
    if (!tells_first()) return; /* whoever tells already ends the run, and may want to look at the ranks before */
    wait_for_ends();
    flush_streams();
    if (tests) fprintf(stderr, "%s: stalled: no rank can go on, and tests can't come true any more\n", fault_head());
    else if (all) fprintf(stderr, "%s: stalled: no rank can go on\n", fault_head());
    else fprintf(stderr, "%s: stalled: %s can't go on\n", fault_head(), ranks_text(lost, ranks));
    tell_lost(sight, lost);
    tell_unread();
    keep_deadlock();
    end_run(fault_status(STATUS_STALLED), tests ? (struct question){ NULL, NULL } : complete_stalled(lost, sight->gone));
}

/* The waits that lost ranks are in, as one number: it changes where one of them has gone on in between. */
static uint64_t waits_of(uint64_t lost) {
    uint64_t number = 0;
    for (int i = 0; i < the_run.size; i++)
        if (lost >> i & 1) number = number * 1000003 + atomic_load(&the_run.ranks[i].waits_begun);
    return number;
}

/* The lowest of the lost ranks that wait for room; NULL: none does. */
static struct rank *first_without_room(uint64_t lost) {
    for (int i = 0; i < the_run.size; i++)
        if ((lost >> i & 1) && the_run.ranks[i].wait.room != NULL) return &the_run.ranks[i];
    return NULL;
}

/* Whether each lost rank that waits for room has begun and ended a turn in vain since BEFORE, which becomes now: the second of two turns that ended was begun since. */
static bool all_tried_again(uint64_t lost, unsigned before[MOST_RANKS]) {
    bool all = true;
    for (int i = 0; i < the_run.size; i++) {
        const struct rank *rank = &the_run.ranks[i];
        if ((lost >> i & 1) && rank->wait.room != NULL && atomic_load(&rank->turns_in_vain) - before[i] < 2) all = false;
    }
    for (int i = 0; all && i < the_run.size; i++) before[i] = atomic_load(&the_run.ranks[i].turns_in_vain);
    return all;
}

/* The nanoseconds for which a thread has run; UINT64_MAX where it sleeps, or where the system doesn't say so: one that keeps no such account has 0. */
static uint64_t time_run(int thread) {
    char path[64], state = 'S';
    unsigned long long time = UINT64_MAX;
    snprintf(path, sizeof path, "/proc/self/task/%d/stat", thread);
    FILE *from = fopen(path, "r");
    if (from == NULL || fscanf(from, "%*d (%*[^)]) %c", &state) != 1) state = 'S';
    if (from != NULL) fclose(from);
    if (state != 'R') return UINT64_MAX;
    snprintf(path, sizeof path, "/proc/self/task/%d/schedstat", thread);
    from = fopen(path, "r");
    if (from == NULL || fscanf(from, "%llu", &time) != 1 || time == 0) time = UINT64_MAX;
    if (from != NULL) fclose(from);
    return time;
}

/* Whether each rank that goes on ran since BEFORE, which becomes now, or sleeps: one to which a busy machine gave no turn may be on its way to a wait. */
static bool all_had_turns(uint64_t others, uint64_t before[MOST_RANKS]) {
    bool all = true;
    for (int i = 0; i < the_run.size; i++) {
        if (!(others >> i & 1)) continue;
        uint64_t time = time_run(atomic_load(&the_run.ranks[i].thread));
        if (time != UINT64_MAX && time == before[i]) all = false;
        before[i] = time;
    }
    return all;
}

/* One look sees the ranks one after the other, so one that it sees last may just have let go on one that it saw first. Where a second look sees the same ranks
   lost in the same waits, nothing that any of them did before the first look's end has let another go on. At that second look an engine at rest stays so; if a rank
   that waits for room then makes a turn in vain, and a third look sees the same, none of its requests gives a slot up. */
static void watch_waits(bool tests) {
    static uint64_t lost_before, waits_before;
    static unsigned turns_before[MOST_RANKS];
    static uint64_t run_before[MOST_RANKS];
    static int looks;
    struct sight sight = look();
    uint64_t lost = sight.waiting != 0 ? find_lost(&sight) : 0, waits = waits_of(lost), all = all_ranks();
    bool same = lost != 0 && lost == lost_before && waits == waits_before, again = all_tried_again(same ? lost : 0, turns_before);
    bool had_turns = all_had_turns(same ? all & ~lost & ~sight.gone : 0, run_before), whole = (lost | sight.gone) == all;
    looks = !same ? 0 : again && had_turns ? looks + 1 : looks;
    lost_before = lost;
    waits_before = waits;
    struct rank *without_room = first_without_room(lost);
    bool is_sure = looks > (has_other_threads(lost) ? PATIENCE_OF_THREADS : whole ? 0 : PATIENCE) + (without_room != NULL) && (whole || !tests);
    if (is_sure && without_room != NULL) {
        atomic_store(&without_room->has_no_hope, true); /* it is refused, and others may go on then */
        lost_before = 0;
    } else if (is_sure) tell_stall(&sight, lost);
}

/* Ranks that rest: they wait, or have ended. */
static uint64_t resting(void) {
    uint64_t ranks = 0;
    for (int i = 0; i < the_run.size; i++) {
        const struct rank *rank = &the_run.ranks[i];
        if (atomic_load(&rank->waits) || atomic_load(&rank->ended) || atomic_load(&rank->finalized)) ranks |= 1ull << i;
    }
    return ranks;
}

/* Where all ranks rest or only test, those that test stand still for some looks, and then for a longer time not. */
void watch_for_deadlock(void) {
    enum { STILL = 8, PAUSE = 200 };
    static int still, pause;
    hold_watch(true);
    look_at_tests();
    look_at_calls();
    if (still == 0 && pause > 0) pause--;
    if (still == 0 && pause == 0 && all_others_test(resting())) {
        show_tests(true);
        still = STILL;
    }
    watch_waits(still > 0);
    if (still > 0 && --still == 0) {
        show_tests(false);
        pause = PAUSE;
    }
    hold_watch(false);
}
