/* Keeps what each call that chooses completes: a rank adds its own steps, and whoever ends the run writes them. A run of colljob's takes their place where --explain
   finds one that deadlocks. */
#include "schedule.h"

#include "record.h"

#include <stdint.h>

enum { MOST_STEPS = 1000000 }; /* of all ranks */

/* A call, or equal ones that complete nothing one after the other. */
struct step {
    const char *call, *site;
    unsigned long times;
    bool waits, from;      /* waits: what it completes isn't noted yet; from: its one number is whom it receives from */
    int many, *completed;  /* indices in its list */
    int listed, *recorded; /* how the text numbers the requests of its list */
    size_t after, text;    /* how long the rank's part of the text was as it began, and where its line stands there; NOWHERE */
};
static const size_t NOWHERE = SIZE_MAX;

static struct kept {
    pthread_mutex_t guard;
    struct step *at;
    long many, room;
    bool full;
} kept[MOST_RANKS] = { [0 ... MOST_RANKS - 1] = { .guard = PTHREAD_MUTEX_INITIALIZER } };

static bool deadlocks;

static int *copied(const int *numbers, int many) {
    if (many == 0) return NULL;
    int *copy = must(malloc(sizeof *copy * (size_t)many));
    memcpy(copy, numbers, sizeof *copy * (size_t)many);
    return copy;
}

/* ---- a rank's own */

long keep_begun(const char *call) {
    if (the_run.schedule_out == NULL) return NO_STEP;
    struct kept *own = &kept[current_rank->number];
    long number = NO_STEP;
    size_t after = record_length();
    pthread_mutex_lock(&own->guard);
    own->full = own->full || own->many >= MOST_STEPS / the_run.size;
    if (!own->full) {
        if (own->many == own->room) {
            own->room = 2 * own->room + 64;
            own->at = must(realloc(own->at, sizeof *own->at * (size_t)own->room));
        }
        number = own->many++;
        own->at[number] = (struct step){ .call = call, .site = current_rank->site, .times = 1, .waits = true, .after = after, .text = NOWHERE };
    }
    pthread_mutex_unlock(&own->guard);
    return number;
}

/* Whether a step that completes nothing is the same as the one before it, as in a loop of tests. */
static bool repeats(const struct kept *own, long number) {
    if (number == 0 || number + 1 != own->many) return false;
    const struct step *one = &own->at[number - 1], *other = &own->at[number];
    return !one->waits && one->many == 0 && one->text == NOWHERE && one->after == other->after && strcmp(one->call, other->call) == 0 && strcmp(one->site, other->site) == 0;
}

void keep_completed(long step, const int *completed, int many) {
    if (step == NO_STEP) return;
    struct kept *own = &kept[current_rank->number];
    pthread_mutex_lock(&own->guard);
    own->at[step].waits = false;
    own->at[step].many = many;
    own->at[step].completed = copied(completed, many);
    if (many == 0 && own->at[step].text == NOWHERE && repeats(own, step)) {
        own->at[step - 1].times++;
        own->many--;
    }
    pthread_mutex_unlock(&own->guard);
}

void keep_source(int rank, long step, int source) {
    if (step == NO_STEP) return;
    pthread_mutex_lock(&kept[rank].guard);
    struct step *it = &kept[rank].at[step];
    it->waits = false;
    it->from = true;
    it->many = 1;
    it->completed = copied(&source, 1);
    pthread_mutex_unlock(&kept[rank].guard);
}

void keep_text(long step, size_t offset, const int *recorded, int many) {
    if (step == NO_STEP) return;
    struct kept *own = &kept[current_rank->number];
    pthread_mutex_lock(&own->guard);
    own->at[step].text = offset;
    own->at[step].listed = many;
    own->at[step].recorded = copied(recorded, many);
    pthread_mutex_unlock(&own->guard);
}

void keep_deadlock(void) { deadlocks = true; }

/* ---- a run of colljob's */

static bool is_among(const int *numbers, int many, int number) {
    for (int i = 0; i < many; i++)
        if (numbers[i] == number) return true;
    return false;
}

static bool is_test(const struct step *step) {
    static const char *const tests[] = { "MPI_Test", "MPI_Request_get", "MPI_Iprobe", "MPI_Improbe" };
    for (size_t i = 0; i < sizeof tests / sizeof tests[0]; i++)
        if (strncmp(step->call, tests[i], strlen(tests[i])) == 0) return true;
    return false;
}

/* A step completes what the pass has. */
static void take_over(struct step *step, const struct pass *pass) {
    free(step->completed);
    step->completed = must(malloc(sizeof *step->completed * (size_t)(step->listed + 1)));
    step->many = 0;
    for (int i = 0; i < step->listed; i++)
        if (step->recorded[i] >= 0 && is_among(pass->completed, pass->many, step->recorded[i])) step->completed[step->many++] = i;
    step->waits = false;
}

/* A rank makes its steps up to the line in which it waits. If a step stands there, it waits; a test says no for as long as it is asked, as without a schedule. */
static void stop_at(struct kept *own, size_t offset) {
    long many = 0;
    while (many < own->many && own->at[many].text != offset && own->at[many].after < offset) many++;
    if (many < own->many && own->at[many].text == offset && !is_test(&own->at[many])) own->at[many++].waits = true;
    own->many = many;
}

void keep_shown(const struct shown_run *run) {
    for (size_t i = 0; i < run->many; i++) {
        const struct pass *pass = &run->passes[i];
        struct kept *own = &kept[pass->rank];
        size_t offset = record_offset(pass->rank, pass->line);
        for (long j = 0; j < own->many; j++)
            if (own->at[j].text == offset) take_over(&own->at[j], pass);
    }
    for (int i = 0; i < the_run.size; i++)
        if (run->stops[i] != 0) stop_at(&kept[i], record_offset(i, run->stops[i]));
    deadlocks = true;
}

/* ---- the file */

static void write_step(FILE *to, const struct step *step) {
    fprintf(to, "%s, %s: ", step->call, step->site);
    if (step->waits) {
        fputs("waits\n", to);
        return;
    }
    fputs(step->many == 0 ? "completes nothing" : step->from ? "from" : "completes", to);
    for (int i = 0; i < step->many; i++) fprintf(to, " %d", step->completed[i]);
    if (step->times > 1) fprintf(to, ", %lu times", step->times);
    fputc('\n', to);
}

static void write_rank(FILE *to, int rank) {
    struct kept *own = &kept[rank];
    fprintf(to, "rank %d\n", rank);
    pthread_mutex_lock(&own->guard);
    for (long i = 0; i < own->many; i++)
        if (!own->at[i].waits || !is_test(&own->at[i])) write_step(to, &own->at[i]);
    if (own->full) fprintf(to, "# the rank's calls after these aren't kept: there is room for %d of all ranks\n", MOST_STEPS);
    pthread_mutex_unlock(&own->guard);
}

bool write_schedule(void) {
    if (the_run.schedule_out == NULL) return true;
    FILE *to = fopen(the_run.schedule_out, "w");
    if (to == NULL) return false;
    fprintf(to, "# What calls complete, as indices of their lists, by rank: wzrun --schedule replays it.\nranks %d\n", the_run.size);
    for (int i = 0; i < the_run.size; i++) write_rank(to, i);
    fputs(deadlocks ? "end deadlock\n" : "end\n", to);
    bool written = ferror(to) == 0;
    return fclose(to) == 0 && written;
}
