/* Where each rank stands: it waits, tests, computes, or has ended. */
#include "standing.h"

#include "deadlock_watch.h"
#include "test_loops.h"

FILE *begin_standing(struct standing *standing, const char *one, const char *many) {
    snprintf(standing->one, sizeof standing->one, "%s", one);
    snprintf(standing->many, sizeof standing->many, "%s", many);
    return must(open_memstream(&standing->text, &standing->length));
}

void end_standing(FILE *text) { fclose(text); }

static bool alike(const struct standing *one, const struct standing *other) { return strcmp(one->one, other->one) == 0 && strcmp(one->text, other->text) == 0; }

void tell_standings(struct standing standings[MOST_RANKS], uint64_t ranks) {
    char text[RANKS_TEXT];
    for (uint64_t left = ranks; left != 0;) {
        int first = __builtin_ctzll(left);
        uint64_t same = 0;
        for (uint64_t rest = left; rest != 0; rest &= rest - 1)
            if (alike(&standings[first], &standings[__builtin_ctzll(rest)])) same |= rest & -rest;
        const struct standing *standing = &standings[first];
        fprintf(stderr, "  %s %s %s\n", ranks_text(same, text), count_ranks(same) == 1 ? standing->one : standing->many, standing->text);
        left &= ~same;
    }
    for (; ranks != 0; ranks &= ranks - 1) free(standings[__builtin_ctzll(ranks)].text);
}

/* ---- all of them */

static void write_wait(struct standing *standing, const struct rank *rank) {
    FILE *to = begin_standing(standing, "waits in", "wait in");
    fprintf(to, "%s at %s", rank->wait.call, rank->wait.site);
    for (int i = 0; i < rank->wait.many; i++) {
        struct request *request = rank->wait.list[i];
        if (request != NULL && request->active && make_progress(request) == GOES_ON) write_awaited(to, request, rank->wait.call);
    }
    end_standing(to);
}

static void write_other(struct standing *standing, int rank) {
    char one[100], many[100];
    double seconds = is_testing(rank) ? seconds_of_testing(rank) : seconds_since_call(rank);
    const struct rank *it = &the_run.ranks[rank];
    if (atomic_load(&it->ended)) {
        snprintf(one, sizeof one, "has ended with status %d; its last call stands at", it->status);
        snprintf(many, sizeof many, "have ended with status %d; their last calls stand at", it->status);
    } else if (atomic_load(&it->finalized)) {
        snprintf(one, sizeof one, "has called MPI_Finalize at");
        snprintf(many, sizeof many, "have called MPI_Finalize at");
    } else {
        bool tests = is_testing(rank);
        snprintf(one, sizeof one, tests ? "tests in vain for %.0f s, at" : "computes, or waits outside of MPI, for %.0f s since its call at", seconds);
        snprintf(many, sizeof many, tests ? "test in vain for %.0f s, at" : "compute, or wait outside of MPI, for %.0f s since their calls at", seconds);
    }
    FILE *to = begin_standing(standing, one, many);
    fputs(atomic_load(&it->site), to);
    end_standing(to);
}

void tell_where_all_stand(void) {
    struct standing standings[MOST_RANKS];
    hold_watch(true);
    for (int i = 0; i < the_run.size; i++) {
        if (atomic_load(&the_run.ranks[i].waits)) write_wait(&standings[i], &the_run.ranks[i]);
        else write_other(&standings[i], i);
    }
    hold_watch(false);
    tell_standings(standings, all_ranks());
}
