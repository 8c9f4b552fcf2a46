/* --schedule: reads a schedule, and has each call that chooses complete what its line says. Where the program has another call, or what a call is to complete can't be
   done, the schedule is another program's, and that is reported. */
#include "schedule.h"

#include "diagnostics.h"
#include "mailbox.h"
#include "per_rank_libc.h"

#include <errno.h>
#include <limits.h>

/* A line of the file. */
struct line {
    int number;
    char *text; /* as the file has it, up to what is completed: CALL, FILE:LINE */
    enum planned what;
    unsigned long times;
    int many, *indices;
};

/* What a rank's calls complete, in their order. */
struct part {
    struct line *at;
    size_t many, next;
    unsigned long used; /* of the next line's times */
};
static struct part parts[MOST_RANKS];
static bool deadlocks; /* so its run ends */

/* ---- reading */

static char reason[600];

static const char *wrong(int number, const char *why) {
    snprintf(reason, sizeof reason, "line %d: %s", number, why);
    return reason;
}

/* A number up to MOST, behind which *AT stands then. Whether there is one. */
static bool read_number(const char **at, unsigned long most, unsigned long *number) {
    char *end;
    if (**at < '0' || **at > '9') return false;
    errno = 0;
    *number = strtoul(*at, &end, 10);
    *at = end;
    return errno == 0 && *number <= most;
}

static const struct {
    const char *words;
    enum planned what;
} outcomes[] = { { "waits", WAITS }, { "completes nothing", NOTHING }, { "completes", SOME }, { "from", SOURCE } };

/* `waits`, `completes nothing`, `completes I ..` or `from R`, and `, N times` behind it. Whether it is so. */
static bool read_outcome(const char *at, struct line *line) {
    unsigned long index;
    size_t found = 0;
    while (found < 4 && strncmp(at, outcomes[found].words, strlen(outcomes[found].words)) != 0) found++;
    if (found == 4) return false;
    line->times = 1;
    line->what = outcomes[found].what;
    bool counts = line->what == SOME || line->what == SOURCE;
    at += strlen(outcomes[found].words);
    while (counts && *at == ' ') {
        at++;
        if (!read_number(&at, INT_MAX - 1, &index)) return false;
        line->indices = must(realloc(line->indices, sizeof *line->indices * (size_t)(line->many + 1)));
        line->indices[line->many++] = (int)index;
    }
    if ((counts && line->many == 0) || (line->what == SOURCE && line->many > 1)) return false;
    if (*at == '\0') return true;
    if (strncmp(at, ", ", 2) != 0) return false;
    at += 2;
    return read_number(&at, ULONG_MAX, &line->times) && line->times > 0 && strcmp(at, " times") == 0;
}

static const char *read_call(struct part *part, const char *text, int number) {
    const char *end = NULL;
    for (const char *at = strstr(text, ": "); at != NULL; at = strstr(at + 1, ": ")) end = at; /* a file's name may have one too */
    struct line line = { .number = number };
    if (strncmp(text, "MPI_", 4) != 0 || end == NULL || strstr(text, ", ") == NULL || strstr(text, ", ") > end || !read_outcome(end + 2, &line))
        return wrong(number, "not CALL, FILE:LINE: completes INDEX .., completes nothing, from RANK, or waits");
    line.text = must(strndup(text, (size_t)(end - text)));
    if (part->many % 64 == 0) part->at = must(realloc(part->at, sizeof *part->at * (part->many + 64)));
    part->at[part->many++] = line;
    return NULL;
}

/* What has been read so far. */
struct reading {
    unsigned long ranks;
    int number;
    struct part *part;
    uint64_t begun; /* ranks whose sections have */
    bool ended;
};

static const char *read_ranks(struct reading *reading, const char *text, int ranks) {
    const char *at = text + 6;
    if (strncmp(text, "ranks ", 6) != 0 || !read_number(&at, MOST_RANKS, &reading->ranks) || *at != '\0' || reading->ranks == 0) return "not a schedule, which begins with `ranks N`";
    if (reading->ranks == (unsigned long)ranks) return NULL;
    snprintf(reason, sizeof reason, "it is of %lu rank%s, and this run has %d: -n %lu", reading->ranks, reading->ranks == 1 ? "" : "s", ranks, reading->ranks);
    return reason;
}

static const char *read_rank(struct reading *reading, const char *text) {
    unsigned long rank;
    const char *at = text + 5;
    if (!read_number(&at, reading->ranks - 1, &rank) || *at != '\0') return wrong(reading->number, "there is no such rank");
    if (reading->begun >> rank & 1) return wrong(reading->number, "the rank has a section already");
    reading->begun |= 1ull << rank;
    reading->part = &parts[rank];
    return NULL;
}

static const char *read_line(struct reading *reading, const char *text, int ranks) {
    if (text[0] == '#' || text[0] == '\0') return NULL;
    if (reading->ranks == 0) return read_ranks(reading, text, ranks);
    if (reading->ended) return wrong(reading->number, "something stands behind its end");
    deadlocks = strcmp(text, "end deadlock") == 0;
    reading->ended = deadlocks || strcmp(text, "end") == 0;
    if (reading->ended) return NULL;
    if (strncmp(text, "rank ", 5) == 0) return read_rank(reading, text);
    return reading->part != NULL ? read_call(reading->part, text, reading->number) : wrong(reading->number, "it stands in no rank's section");
}

const char *read_schedule(const char *path, int ranks) {
    struct reading reading = { .ranks = 0 };
    const char *why = NULL;
    char *text = NULL;
    size_t room = 0;
    FILE *from = fopen(path, "r");
    if (from == NULL) return strerror(errno);
    errno = 0;
    while (why == NULL && getline(&text, &room, from) >= 0) {
        text[strcspn(text, "\r\n")] = '\0';
        reading.number++;
        why = read_line(&reading, text, ranks);
    }
    if (why == NULL && ferror(from)) why = strerror(errno);
    if (why == NULL && reading.ranks == 0) why = "not a schedule, which begins with `ranks N`";
    if (why == NULL && !reading.ended) why = "it was cut: its last line isn't `end` or `end deadlock`";
    free(text);
    fclose(from);
    return why;
}

/* ---- replaying */

static const struct line *line_numbered(int rank, int number) {
    const struct line *line = parts[rank].at;
    while (line->number != number) line++;
    return line;
}

static const char *outcome_text(const struct line *line, char *text, size_t room) {
    if (line->what == WAITS || line->what == NOTHING) return line->what == WAITS ? "waits" : "completes nothing";
    size_t at = (size_t)snprintf(text, room, line->what == SOURCE ? "from" : "completes");
    for (int i = 0; i < line->many && at < room; i++) at += (size_t)snprintf(text + at, room - at, " %d", line->indices[i]);
    return text;
}

/* Whoever calls it has the right to report. */
static void report(const struct rank *rank, int number, const char *call, const char *why) __attribute__((noreturn));
static void report(const struct rank *rank, int number, const char *call, const char *why) {
    char outcome[200];
    const struct line *line = line_numbered(rank->number, number);
    flush_streams();
    fprintf(stderr, "%s: rank %d: %s at %s can't do what %s has in line %d: %s\n", fault_head(), rank->number, call, rank->site, the_run.schedule, number, why);
    fprintf(stderr, "  line %d: %s: %s\n", number, line->text, outcome_text(line, outcome, sizeof outcome));
    end_run(1, (struct question){ NULL, NULL });
}

void misfit(const struct plan *plan, const char *call, const char *why) {
    tell_alone();
    report(current_rank, plan->line, call, why);
}

struct plan next_planned(const char *call) {
    struct part *part = &parts[current_rank->number];
    char text[600];
    if (part->next == part->many) return (struct plan){ .what = FREE };
    const struct line *line = &part->at[part->next];
    struct plan plan = { line->what, line->number, line->many, line->indices };
    snprintf(text, sizeof text, "%s, %s", call, current_rank->site);
    if (strcmp(text, line->text) != 0) misfit(&plan, call, "the schedule has another call");
    if (++part->used == line->times) {
        part->next++;
        part->used = 0;
    }
    return plan;
}

void wait_for_planned(const struct plan *plan, struct request **list, int many, const char *call) {
    struct request **awaited = must(malloc(sizeof(struct request *) * (size_t)plan->many));
    for (int i = 0; i < plan->many; i++) {
        bool there = plan->indices[i] < many && list[plan->indices[i]] != NULL && list[plan->indices[i]]->active;
        if (!there) misfit(plan, call, "its list has no such active request");
        awaited[i] = list[plan->indices[i]];
        for (int j = 0; j < i; j++)
            if (awaited[j] == awaited[i]) misfit(plan, call, "a request stands twice there");
    }
    atomic_store(&current_rank->planned, plan->line);
    wait_for(call, awaited, plan->many, false);
    atomic_store(&current_rank->planned, 0);
    free(awaited);
}

void ask_planned(struct request *request, const struct plan *plan) {
    int other, far = far_group(request->comm, &other);
    if (plan->what == SOME) misfit(plan, request->name, "it completes no request");
    if (plan->what != SOURCE) return;
    if (plan->indices[0] >= far) misfit(plan, request->name, "there is no such rank in the communicator");
    if (!request->from_any && request->other != plan->indices[0]) misfit(plan, request->name, "it asks for another rank");
    request->other = plan->indices[0];
    request->planned = plan->line;
}

/* ---- the end */

/* The line that says what a rank is to complete, or whom it is to receive from, in its wait; 0: none. */
static int line_of_wait(const struct rank *rank) {
    int line = atomic_load(&rank->planned);
    for (int i = 0; line == 0 && i < rank->wait.many; i++)
        if (rank->wait.list[i] != NULL && rank->wait.list[i]->active) line = rank->wait.list[i]->planned;
    return line;
}

void tell_unfit(uint64_t lost) {
    for (int i = 0; i < the_run.size; i++) {
        const struct rank *rank = &the_run.ranks[i];
        int line = lost >> i & 1 ? line_of_wait(rank) : 0;
        if (line == 0 || !tells_first()) continue;
        report(rank, line, rank->wait.call, "what it is to complete isn't done, and those for whom it waits can't go on");
    }
}

/* The first line that a rank hasn't come to; NULL: it has come to all. */
static const struct line *unread(int rank) {
    const struct part *part = &parts[rank];
    return part->next < part->many ? &part->at[part->next] : NULL;
}

void tell_unread(void) {
    for (int i = 0; i < the_run.size; i++)
        if (unread(i) != NULL) fprintf(stderr, "  (not as in %s: rank %d hasn't come to its line %d: %s)\n", the_run.schedule, i, unread(i)->number, unread(i)->text);
}

bool schedule_goes_on(void) {
    bool some = false;
    if (the_run.schedule == NULL) return false;
    for (int i = 0; i < the_run.size; i++) {
        if (unread(i) == NULL) continue;
        some = true;
        fprintf(stderr, "%s: rank %d ended before it came to line %d of %s: %s\n", fault_head(), i, unread(i)->number, the_run.schedule, unread(i)->text);
    }
    if (!some && deadlocks) fprintf(stderr, "%s: all calls were as in %s, whose run deadlocked, and this one ended\n", fault_head(), the_run.schedule);
    return some || deadlocks;
}
