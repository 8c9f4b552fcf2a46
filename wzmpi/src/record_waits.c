/* The lines of calls that complete requests. One that chooses stands as a wait for any of its list, as which it may complete something else in another run of the
   text; and where the program would go on with a line that needs what it completed, as a wait for that alone. */
#include "recording.h"

#include "schedule.h"

enum { MOST_HANDLES = 1 << 16 };

/* ---- handles that became MPI_REQUEST_NULL: in another run such a place may have its request still */

static size_t slot_of(const struct handle_places *places, const void *key) {
    size_t slot = (size_t)((uintptr_t)key / sizeof(MPI_Request) * 0x9e3779b97f4a7c15u >> 20) & (places->room - 1);
    while (places->keys[slot] != NULL && places->keys[slot] != key) slot = (slot + 1) & (places->room - 1);
    return slot;
}

static void grow(struct handle_places *places) {
    struct handle_places old = *places;
    places->room = old.room > 0 ? 2 * old.room : 64;
    places->keys = must(calloc(places->room, sizeof *places->keys));
    places->requests = must(malloc(places->room * sizeof *places->requests));
    for (size_t i = 0; i < old.room; i++) {
        if (old.keys[i] == NULL) continue;
        size_t slot = slot_of(places, old.keys[i]);
        places->keys[slot] = old.keys[i];
        places->requests[slot] = old.requests[i];
    }
    free(old.keys);
    free(old.requests);
}

static void keep_place(struct handle_places *places, const void *key, int request) {
    if (2 * places->many >= places->room && places->room < MOST_HANDLES) grow(places);
    if (2 * places->many >= places->room) return;
    size_t slot = slot_of(places, key);
    places->many += places->keys[slot] == NULL;
    places->keys[slot] = key;
    places->requests[slot] = request;
}

/* -1: none was there. */
static int request_at(const struct handle_places *places, const void *key) {
    if (places->room == 0) return -1;
    size_t slot = slot_of(places, key);
    return places->keys[slot] != NULL ? places->requests[slot] : -1;
}

void record_place(const MPI_Request *handle, const struct request *request) {
    if (request->recorded < 0 || current_rank->fortran_places != NULL) return; /* Fortran's handles are copied for each call */
    struct recording *to = record_open_part();
    if (to == NULL) return;
    keep_place(&to->handles, handle, request->recorded);
    record_close_part(to);
}

/* ---- lists */

/* How the text numbers the requests of a list, each once. How many it has. */
static int number_list(const struct recording *to, struct request **list, const MPI_Request *handles, int many, int *requests) {
    int known = 0;
    for (int i = 0; i < many; i++) {
        bool named = list[i] != NULL && list[i]->active;
        requests[i] = named ? list[i]->recorded : list[i] == NULL && handles != NULL ? request_at(&to->handles, &handles[i]) : -1;
        for (int j = 0; j < i && requests[i] >= 0; j++)
            if (requests[j] == requests[i]) requests[i] = -1;
        known += requests[i] >= 0;
    }
    return known;
}

static void write_command(FILE *to, const char *word, const int *requests, int many) {
    fputs(word, to);
    for (int i = 0; i < many; i++)
        if (requests[i] >= 0) fprintf(to, " %d", requests[i]);
    fputc('\n', to);
}

void record_wait(const char *word, struct request **list, const MPI_Request *handles, int many, const char *call) {
    struct recording *to = record_open_part();
    if (to == NULL) return;
    int *requests = must(malloc(sizeof *requests * (size_t)(many + 1)));
    if (number_list(to, list, handles, many, requests) > 0 && !record_is_full(to, false)) {
        fprintf(to->text, "# %s, %s\n", call, atomic_load(&current_rank->site));
        write_command(to->text, word, requests, many);
    }
    free(requests);
    record_close_part(to);
}

void record_free(struct request *request) {
    if (request->recorded < 0) return;
    struct recording *to = record_open_part();
    if (!record_is_full(to, false)) {
        fprintf(to->text, "# MPI_Request_free, %s\nfree %d\n", atomic_load(&current_rank->site), request->recorded);
        to->made[request->recorded].freed = true;
    }
    record_close_part(to);
}

/* ---- calls that choose */

struct choosing *record_choosing(const char *word, struct request **list, const MPI_Request *handles, int many, const char *call, bool waits) {
    struct recording *to = record_open_part();
    if (to == NULL) return NULL;
    struct choosing *choosing = must(calloc(1, sizeof *choosing));
    int *requests = must(malloc(sizeof *requests * (size_t)(many + 1)));
    *choosing = (struct choosing){ .word = word, .call = call, .site = atomic_load(&current_rank->site), .waits = waits, .many = many, .requests = requests, .next = to->choosing };
    number_list(to, list, handles, many, requests);
    for (int i = 0; i < many; i++) choosing->mixed = choosing->mixed || (list[i] != NULL && list[i]->active && list[i]->recorded < 0);
    to->choosing = choosing;
    record_close_part(to);
    return choosing;
}

static void drop(struct recording *to, struct choosing *choosing) {
    struct choosing **at = &to->choosing;
    while (*at != NULL && *at != choosing) at = &(*at)->next;
    if (*at != NULL) *at = choosing->next; /* else the text was written meanwhile */
    free(choosing->requests);
    free(choosing);
}

static int count_known(const int *requests, int many) {
    int known = 0;
    for (int i = 0; i < many; i++) known += requests[i] >= 0;
    return known;
}

/* The lines of a wait, NULL where it is for none. Its command begins behind *COMMENT bytes. */
static char *wait_lines(const struct choosing *choosing, const char *word, const int *requests, int many, size_t *comment) {
    char *lines;
    size_t length;
    if (count_known(requests, many) == 0) return NULL;
    FILE *to = must(open_memstream(&lines, &length));
    fprintf(to, "# %s, %s\n", choosing->call, choosing->site);
    fflush(to);
    *comment = length;
    write_command(to, word, requests, many);
    fclose(to);
    return lines;
}

/* Whether the lines that follow need what the call completed: a persistent request is started or freed, or the call has completed what the text doesn't have. */
static bool is_bound(const struct recording *to, const struct choosing *choosing, const int *requests, int many) {
    bool bound = choosing->mixed;
    for (int i = 0; i < many; i++) bound = bound || (requests[i] >= 0 && to->made[requests[i]].persistent);
    return bound;
}

static void keep_chosen(struct recording *to, struct chosen chosen) {
    if (to->many_chosen % 64 == 0) to->chosen = must(realloc(to->chosen, sizeof *to->chosen * (size_t)(to->many_chosen + 64)));
    to->chosen[to->many_chosen++] = chosen;
}

/* REQUESTS: the text's numbers of what it completed. */
static void write_chosen(struct recording *to, struct choosing *choosing, const int *requests, int many, long step) {
    size_t comment = 0, begin = to->length;
    bool bound = is_bound(to, choosing, requests, many);
    char *alone = wait_lines(choosing, count_known(requests, many) > 1 ? "waitall" : "wait", requests, many, &comment);
    char *lines = bound ? alone : wait_lines(choosing, choosing->word, choosing->requests, choosing->many, &comment);
    if (lines == NULL) return;
    fputs(lines, to->text);
    fflush(to->text);
    keep_text(step, begin + comment, choosing->requests, choosing->many);
    if (!bound) {
        bool chooses = strcmp(choosing->word, "waitany") == 0 || strcmp(choosing->word, "waitsome") == 0;
        to->has_choices = to->has_choices || (chooses && count_known(choosing->requests, choosing->many) > 1);
        keep_chosen(to, (struct chosen){ begin, to->length, alone != NULL ? alone : must(strdup("")) });
    } else free(alone);
    if (!bound) free(lines);
}

void record_chosen(struct choosing *choosing, const int *completed, int many, long step) {
    if (choosing == NULL) return;
    struct recording *to = record_open_part();
    int *requests = must(malloc(sizeof *requests * (size_t)(many + 1)));
    for (int i = 0; i < many; i++) requests[i] = choosing->requests[completed[i]];
    if (!record_is_full(to, false)) write_chosen(to, choosing, requests, many, step);
    free(requests);
    drop(to, choosing);
    record_close_part(to);
}

void record_write_choosing(struct recording *to) {
    fflush(to->text);
    while (to->choosing != NULL) {
        size_t comment;
        struct choosing *choosing = to->choosing;
        char *lines = choosing->waits ? wait_lines(choosing, choosing->word, choosing->requests, choosing->many, &comment) : NULL;
        if (lines != NULL) fputs(lines, to->text);
        free(lines);
        to->choosing = choosing->next;
    }
    fflush(to->text);
}

size_t record_length(void) {
    struct recording *to = record_open_part();
    if (to == NULL) return 0;
    fflush(to->text);
    size_t length = to->length;
    record_close_part(to);
    return length;
}

size_t record_offset(int rank, size_t line) {
    const struct recording *part = atomic_load(&the_run.ranks[rank].recording);
    size_t at = 0;
    for (size_t number = part != NULL ? part->first_line : line; number < line; number++) {
        const char *end = memchr(part->bytes + at, '\n', part->length - at);
        if (end == NULL) return part->length;
        at = (size_t)(end - part->bytes) + 1;
    }
    return at;
}

bool record_has_choices(void) {
    bool some = false;
    for (int i = 0; i < the_run.size; i++) {
        const struct recording *part = atomic_load(&the_run.ranks[i].recording);
        some = some || (part != NULL && part->has_choices);
    }
    return some;
}

const char *record_lacks(void) {
    for (int i = 0; i < the_run.size; i++) {
        const struct recording *part = atomic_load(&the_run.ranks[i].recording);
        if (part != NULL && part->full) return "the text ends before the calls do";
        if (part != NULL && part->left_out) return "the text has no room for all communicators";
    }
    return NULL;
}
