/* What --stats reports. */
#include "trace.h"

#include "diagnostics.h"

enum { COLUMNS = 10, MOST_LENT = 6 };
static const uint64_t NO_SUM = UINT64_MAX; /* of the most lent: ranks have theirs at different times */

/* ---- how many collectives the engine carried out as they are */

static void tell_kinds(void) {
    fprintf(stderr, "wzrun: collectives that were posted or initialised, by all ranks:\n");
    for (int i = 0; i < COLLECTIVES; i++) {
        uint64_t direct = 0, carried = 0;
        for (int j = 0; j < the_run.size; j++) {
            direct += the_run.ranks[j].calls[i][true];
            carried += the_run.ranks[j].calls[i][false];
        }
        if (direct + carried > 0)
            fprintf(stderr, "  %s: %llu direct, %llu carried\n", collective_names[i][BLOCKING], (unsigned long long)direct, (unsigned long long)carried);
    }
}

/* ---- by rank */

static void read_row(const struct notes *notes, uint64_t row[COLUMNS]) {
    const uint64_t it[COLUMNS] = { notes->posts, notes->inits, notes->starts, notes->completed, notes->given, notes->got, notes->most_lent, notes->sent, notes->sent_bytes,
                                   (uint64_t)notes->waited / 1000 };
    memcpy(row, it, sizeof it);
}

static void tell_row(const char *name, const uint64_t row[COLUMNS]) {
    static const int widths[COLUMNS] = { 8, 7, 8, 10, 12, 12, 11, 8, 12, 12 };
    fprintf(stderr, "  %4s", name);
    for (int i = 0; i < COLUMNS; i++)
        if (row[i] == NO_SUM) fprintf(stderr, " %*s", widths[i], "-");
        else fprintf(stderr, " %*llu", widths[i], (unsigned long long)row[i]);
    fputc('\n', stderr);
}

static void tell_ranks(void) {
    uint64_t all[COLUMNS] = { 0 }, row[COLUMNS];
    char name[16];
    fprintf(stderr, "wzrun: by rank:\n  rank    posts   inits   starts  completed  bytes given    bytes got   most lent messages  their bytes   waited us\n");
    for (int i = 0; i < the_run.size; i++) {
        read_row(the_run.ranks[i].notes, row);
        snprintf(name, sizeof name, "%d", i);
        tell_row(name, row);
        for (int j = 0; j < COLUMNS; j++) all[j] += row[j];
    }
    all[MOST_LENT] = NO_SUM;
    tell_row("all", all);
}

/* ---- by collective */

static struct tally *find(struct tally *list, const struct tally *other) {
    while (list != NULL && (list->comm != other->comm || strcmp(list->text, other->text) != 0)) list = list->next;
    return list;
}

/* One list of all ranks' tallies, in which `times` are those of the first member. */
static struct tally *merged(void) {
    struct tally *all = NULL, **end = &all;
    for (int i = 0; i < the_run.size; i++)
        for (const struct tally *tally = the_run.ranks[i].notes->tallies; tally != NULL; tally = tally->next) {
            struct tally *into = find(all, tally);
            if (into == NULL) {
                into = *end = must(calloc(1, sizeof *into));
                end = &into->next;
                *into = (struct tally){ .text = tally->text, .comm = tally->comm, .members = tally->members };
            }
            if (tally->first) into->times = tally->times;
            into->completed += tally->completed;
            into->given += tally->given;
            into->all += tally->all;
            if (tally->longest > into->longest) into->longest = tally->longest;
        }
    return all;
}

static void tell_collectives(void) {
    fprintf(stderr, "wzrun: by collective, with microseconds from a member's call to the end of the one that completed it:\n"
                    "  members    times  bytes given     mean us  longest us\n");
    for (const struct tally *tally = merged(); tally != NULL; tally = tally->next) {
        double mean = tally->completed > 0 ? (double)tally->all / (double)tally->completed / 1000 : 0;
        fprintf(stderr, "  %7d %8llu %12llu %11.1f %11.1f  %s\n", tally->members, (unsigned long long)tally->times, (unsigned long long)tally->given, mean, (double)tally->longest / 1000,
                tally->text);
    }
}

void tell_statistics(void) {
    tell_kinds();
    for (int i = 0; i < the_run.size; i++) pthread_mutex_lock(&the_run.ranks[i].notes->guard);
    tell_ranks();
    tell_collectives();
    for (int i = 0; i < the_run.size; i++) pthread_mutex_unlock(&the_run.ranks[i].notes->guard);
}
