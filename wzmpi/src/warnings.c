/* Warnings: `wzrun: warning: ranks 0-3: never completed: MPI_Irecv at halo.c:12 on MPI_COMM_WORLD (49 times)`. */
#include "warnings.h"

#include "collectives.h"
#include "diagnostics.h"

#include <stdarg.h>

enum { MOST_LINES = 40 };

struct warning {
    char *key, *text;
    unsigned times[MOST_RANKS];
    struct warning *next;
};
static struct warning *first, **end = &first;
static pthread_mutex_t guard = PTHREAD_MUTEX_INITIALIZER;

static struct warning *find_or_add(const char *key, const char *text) {
    struct warning *warning = first;
    while (warning != NULL && strcmp(warning->key, key) != 0) warning = warning->next;
    if (warning != NULL) return warning;
    warning = must(calloc(1, sizeof *warning));
    *warning = (struct warning){ .key = must(strdup(key)), .text = must(strdup(text)) };
    *end = warning;
    end = &warning->next;
    return warning;
}

void warn_at_end(int rank, const char *key, const char *format, ...) {
    char text[1000];
    va_list rest;
    va_start(rest, format);
    vsnprintf(text, sizeof text, format, rest);
    va_end(rest);
    pthread_mutex_lock(&guard);
    find_or_add(key != NULL ? key : text, text)->times[rank]++;
    pthread_mutex_unlock(&guard);
}

/* Once for the ranks that have it equally often. */
static int tell(const struct warning *warning) {
    char ranks[RANKS_TEXT], times[40] = "";
    uint64_t told = 0;
    int lines = 0;
    for (int i = 0; i < the_run.size; i++) {
        if (warning->times[i] == 0 || (told >> i & 1)) continue;
        uint64_t same = 0;
        for (int j = i; j < the_run.size; j++)
            if (warning->times[j] == warning->times[i]) same |= 1ull << j;
        told |= same;
        if (warning->times[i] > 1) snprintf(times, sizeof times, " (%u times)", warning->times[i]);
        else times[0] = '\0';
        fprintf(stderr, "%s: %s: %s%s\n", warning_head(), ranks_text(same, ranks), warning->text, times);
        lines++;
    }
    return lines;
}

void tell_warnings(void) {
    int lines = 0;
    pthread_mutex_lock(&guard);
    for (const struct warning *warning = first; warning != NULL; warning = warning->next) {
        if (lines < MOST_LINES) lines += tell(warning);
        else if (warning->next == NULL) fprintf(stderr, "%s: and there are more such warnings\n", warning_head());
    }
    first = NULL;
    end = &first;
    pthread_mutex_unlock(&guard);
}

/* ---- what a rank leaves behind */

static void warn_of_request(const struct rank *rank, const struct request *request) {
    char name[NAME_TEXT];
    if (request->active) warn_at_end(rank->number, NULL, "never completed: %s at %s on %s", request->name, request->started_at, comm_name(request->comm, name));
    else if (the_run.strict) warn_at_end(rank->number, NULL, "never freed: the request of %s at %s on %s", request->name, request->site, comm_name(request->comm, name));
}

/* Whether a place of a table has an object that the program is to free. */
static bool is_programs(int kind, const struct table *table, uint32_t at) {
    const void *object = table->objects[at];
    return object != NULL && table->makers[at].call != NULL && !(kind == TYPE && ((const struct type *)object)->predefined);
}

void warn_of_left(struct rank *rank) {
    static const char *const kinds[KINDS] = { [COMM] = "the communicator", [GROUP] = "the group", [TYPE] = "the type", [OP] = "the operation", [INFO] = "the info object",
                                              [ERRHANDLER] = "the error handler", [WINDOW] = "the window", [FILE_] = "the file" };
    for (uint32_t i = 0; i < rank->tables[REQUEST].many; i++)
        if (rank->tables[REQUEST].objects[i] != NULL) warn_of_request(rank, rank->tables[REQUEST].objects[i]);
    for (int kind = 0; kind < KINDS && the_run.strict; kind++) {
        const struct table *table = &rank->tables[kind];
        for (uint32_t i = 0; kinds[kind] != NULL && i < table->many; i++)
            if (is_programs(kind, table, i)) warn_at_end(rank->number, NULL, "never freed: %s of %s at %s", kinds[kind], table->makers[i].call, table->makers[i].site);
    }
    const struct table *taken = &rank->tables[TAKEN];
    for (uint32_t i = 0; i < taken->many; i++)
        if (taken->objects[i] != NULL) warn_at_end(rank->number, NULL, "never received: the message of %s at %s", taken->makers[i].call, taken->makers[i].site);
}
