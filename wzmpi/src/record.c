/* Writes the calls of a run as a job text, as each rank makes them, and what its requests got. A rank writes its own part. A text has room for 4,096 posts and
   1 MiB; where a run has more, it says so. */
#include "recording.h"

#include "../../recorder/record/job_words.h"

/* The communicators that the text names, beside MPI_COMM_WORLD. */
static struct text_comm comms[MOST_COMMS + 1];
static int many_comms = 1;
static atomic_int posts;
static pthread_mutex_t comms_guard = PTHREAD_MUTEX_INITIALIZER;

bool record_is_wanted(void) { return the_run.text != NULL || the_run.values != NULL || the_run.explains; }

/* The rank makes its part, or whoever ends the run, if that comes first. */
struct recording *record_part(struct rank *rank) {
    struct recording *part = atomic_load(&rank->recording), *none = NULL;
    if (part != NULL) return part;
    part = must(calloc(1, sizeof *part));
    part->text = must(open_memstream(&part->bytes, &part->length));
    return atomic_compare_exchange_strong(&rank->recording, &none, part) ? part : none;
}

struct recording *record_open_part(void) {
    if (!record_is_wanted()) return NULL;
    struct recording *part = record_part(current_rank);
    flockfile(part->text);
    return part;
}

void record_close_part(struct recording *part) { funlockfile(part->text); }

/* ---- communicators */

static int comm_of_serial(long serial) {
    for (int i = 1; i < many_comms; i++)
        if (comms[i].serial == serial) return i;
    return -1;
}

/* Under the guard. -1: there is no room for another. */
static int add_comm(long serial, const int *ranks, int size, const char *name) {
    if (many_comms > MOST_COMMS) return -1;
    struct text_comm *comm = &comms[many_comms];
    comm->serial = serial;
    comm->size = size;
    memcpy(comm->ranks, ranks, sizeof *ranks * (size_t)size);
    snprintf(comm->name, sizeof comm->name, "%s", name);
    return many_comms++;
}

/* How the text names a communicator; -1: it can't. */
static int text_number(struct comm *comm) {
    char name[NAME_TEXT];
    int ranks[MOST_RANKS];
    if (comm == world_comm()) return 0;
    comm_name(comm, name);
    for (int i = 0; i < comm->size; i++) ranks[i] = comm->members[i].rank;
    pthread_mutex_lock(&comms_guard);
    int at = comm_of_serial(comm->serial);
    if (at < 0) at = add_comm(comm->serial, ranks, comm->size, name);
    pthread_mutex_unlock(&comms_guard);
    return at;
}

int record_comms(void) {
    pthread_mutex_lock(&comms_guard);
    int many = many_comms;
    pthread_mutex_unlock(&comms_guard);
    return many;
}

const struct text_comm *record_comm(int number) {
    comms[0].size = the_run.size;
    for (int i = 0; number == 0 && i < the_run.size; i++) comms[0].ranks[i] = i;
    return &comms[number];
}

int record_add_comm(const int *ranks, int size, const char *name) {
    pthread_mutex_lock(&comms_guard);
    int at = add_comm(MESSAGE_COMM, ranks, size, name);
    pthread_mutex_unlock(&comms_guard);
    return at;
}

/* ---- values */

#define WRITE_SIGNED(word, constant, mpi, ctype, ...) case WZ_##constant: fprintf(to, " %lld", (long long)*(const ctype *)at); return;
#define WRITE_UNSIGNED(word, constant, mpi, ctype, ...) case WZ_##constant: fprintf(to, " %llu", (unsigned long long)*(const ctype *)at); return;

static void write_element(FILE *to, int type, const void *at) {
    switch (type) {
        EACH_SIGNED(WRITE_SIGNED, )
        EACH_UNSIGNED(WRITE_UNSIGNED, )
    case WZ_2INT: fprintf(to, " %d,%d", ((const int32_t *)at)[0], ((const int32_t *)at)[1]); return;
    default: fprintf(to, " %u", *(const uint8_t *)at);
    }
}

void write_values(FILE *to, int type, const void *bytes, size_t length) {
    size_t width = engine_width(type);
    if (length == 0) return;
    fputs(" :", to);
    for (size_t i = 0; i + width <= length; i += width) {
        _Alignas(8) char element[8];
        memcpy(element, (const char *)bytes + i, width);
        write_element(to, type, element);
    }
}

/* ---- posts, initialisations and starts */

/* A reduction that is carried stands as its own kind over no elements. */
void write_signature(FILE *to, const struct request *request) {
    const wz_call *call = &request->call;
    fputs(wz_kind_word(call->kind), to);
    if (wz_has_root(call->kind)) fprintf(to, " %d", call->root);
    if (call->op != WZ_NO_OPERATION) fprintf(to, " %s", wz_operation_word(call->op));
    if (call->kind == WZ_BARRIER) return;
    fprintf(to, " %s", wz_type_word(request->text_type));
    if (call->kind != WZ_ALLGATHERV) fprintf(to, " %u", request->direct ? call->count : 0);
    else for (int i = 0; i < request->comm->size; i++) fprintf(to, " %u", request->counts[i]);
}

bool record_is_full(struct recording *to, bool posts_more) {
    if (to->full) return true;
    fflush(to->text);
    to->full = (posts_more && atomic_fetch_add(&posts, 1) >= MOST_POSTS) || to->length > MOST_TEXT / (size_t)the_run.size;
    if (to->full) fprintf(to->text, "# the text ends here for this rank: it has room for 4,096 posts and 1 MiB\n");
    return to->full;
}

static void write_where(FILE *to, const struct request *request, const char *call) {
    fprintf(to, "# %s, %s%s\n", call, atomic_load(&current_rank->site), request->direct ? "" : ": carried, so without its values");
}

bool record_begin_post(struct recording *to, const struct made *made) {
    if (record_is_full(to, true)) return false;
    if (to->requests % 64 == 0) to->made = must(realloc(to->made, sizeof *to->made * (size_t)(to->requests + 64)));
    fprintf(to->text, "%s %d ", made->persistent ? "init" : "post", made->comm);
    fflush(to->text);
    struct made *entry = &to->made[to->requests++];
    *entry = *made;
    entry->place = to->places[made->comm]++;
    entry->begin = to->length;
    return true;
}

void record_end_signature(struct recording *to) {
    fflush(to->text);
    to->made[to->requests - 1].end = to->length;
}

/* Writes a post or an initialisation, but for what it gives. Whether it is there. */
static bool write_post(struct recording *to, struct request *request, const char *call) {
    struct made made = { .comm = text_number(request->comm), .persistent = request->persistent, .call = request->call, .name = call, .site = atomic_load(&current_rank->site) };
    if (to->full) return false;
    write_where(to->text, request, call);
    if (made.comm < 0) {
        fprintf(to->text, "# left out, since a text has room for 15 communicators beside MPI_COMM_WORLD\n");
        to->left_out = true;
        return false;
    }
    made.call.type = request->text_type;
    if (!request->direct) made.call.count = 0;
    if (!record_begin_post(to, &made)) return false;
    request->recorded = to->requests - 1;
    write_signature(to->text, request);
    record_end_signature(to);
    return true;
}

void record_post(struct request *request, const char *call, const void *bytes, size_t length) {
    struct recording *to = record_open_part();
    if (to == NULL) return;
    if (write_post(to, request, call)) {
        if (request->direct) write_values(to->text, request->text_type, bytes, length);
        fputc('\n', to->text);
    }
    record_close_part(to);
}

void record_init(struct request *request) {
    struct recording *to = record_open_part();
    if (to == NULL) return;
    if (write_post(to, request, request->name)) fputc('\n', to->text);
    record_close_part(to);
}

void record_start(struct request *request, const char *call, const void *bytes, size_t length) {
    if (request->recorded < 0) return;
    struct recording *to = record_open_part();
    if (!record_is_full(to, false)) {
        write_where(to->text, request, call);
        fprintf(to->text, "start %d", request->recorded);
        if (request->direct) write_values(to->text, request->text_type, bytes, length);
        fputc('\n', to->text);
        to->made[request->recorded].starts++;
    }
    record_close_part(to);
}

void record_refused(struct request *request) {
    void *packed = NULL;
    size_t length = 0;
    if (!record_is_wanted()) return;
    if (request->persistent) {
        record_init(request);
        return;
    }
    const void *bytes = request->direct ? given_bytes(request, &packed, &length) : NULL;
    record_post(request, request->name, bytes, length);
    free(packed);
}

void record_outcome(struct request *request) {
    if (the_run.values == NULL || request->recorded < 0) return;
    struct recording *to = record_open_part();
    size_t size;
    if (to->outcomes % 64 == 0) to->got = must(realloc(to->got, sizeof *to->got * (size_t)(to->outcomes + 64)));
    struct outcome *got = &to->got[to->outcomes++];
    *got = (struct outcome){ request->recorded, request->persistent ? request->times - 1 : 0, NULL };
    FILE *line = must(open_memstream(&got->line, &size));
    fprintf(line, "rank %d req %d start %u", current_rank->number, got->request, got->start);
    if (request->direct && request->room > 0) write_values(line, request->text_type, request->out, request->room);
    else fputs(" :", line);
    fputc('\n', line);
    fclose(line);
    record_close_part(to);
}

/* ---- the files */

/* Where a text of this run ends before its ranks: how many lines it has there. */
static size_t write_head(FILE *to) {
    size_t lines = 1;
    fprintf(to, "ranks %d\n", the_run.size);
    for (int i = 1; i < record_comms(); i++) {
        fprintf(to, "# %s\ncomm", comms[i].name);
        for (int j = 0; j < comms[i].size; j++) fprintf(to, " %d", comms[i].ranks[j]);
        fputc('\n', to);
        lines += 2;
    }
    return lines;
}

/* A rank's part, with its lines that choose as the run has them or, where it is ALONE, as waits for what they completed in it. How many lines it has. */
static size_t write_part(FILE *to, struct recording *part, bool alone) {
    size_t lines = 0, at = 0;
    flockfile(part->text);
    record_write_choosing(part);
    for (int i = 0; alone && i < part->many_chosen; at = part->chosen[i++].end) {
        fwrite(part->bytes + at, 1, part->chosen[i].begin - at, to);
        fputs(part->chosen[i].alone, to);
    }
    fwrite(part->bytes + at, 1, part->length - at, to);
    for (size_t i = 0; i < part->length; i++) lines += part->bytes[i] == '\n';
    funlockfile(part->text);
    return lines;
}

bool record_write_text(const char *path, bool alone) {
    FILE *to = fopen(path, "w");
    if (to == NULL) return false;
    size_t lines = write_head(to);
    for (int i = 0; i < the_run.size; i++) {
        struct recording *part = atomic_load(&the_run.ranks[i].recording);
        fprintf(to, "rank %d\n", i);
        lines++;
        if (part == NULL) continue;
        part->first_line = lines + 1;
        lines += write_part(to, part, alone);
    }
    unsigned long long messages = messages_sent();
    if (messages > 0)
        fprintf(to, "# by themselves: %llu message%s sent beside these calls, which a text doesn't have: what colljob says is of the collectives alone\n", messages, messages == 1 ? " was" : "s were");
    return fclose(to) == 0;
}

/* By request, and then by start. */
static int in_order(const void *one, const void *other) {
    const struct outcome *a = one, *b = other;
    int64_t first = ((int64_t)a->request << 32) + a->start, second = ((int64_t)b->request << 32) + b->start;
    return first < second ? -1 : first > second;
}

static bool write_outcomes(const char *path) {
    FILE *to = fopen(path, "w");
    if (to == NULL) return false;
    for (int i = 0; i < the_run.size; i++) {
        struct recording *part = atomic_load(&the_run.ranks[i].recording);
        if (part == NULL) continue;
        flockfile(part->text);
        if (part->outcomes > 0) qsort(part->got, (size_t)part->outcomes, sizeof *part->got, in_order);
        for (int j = 0; j < part->outcomes; j++) fputs(part->got[j].line, to);
        funlockfile(part->text);
    }
    return fclose(to) == 0;
}

bool record_write(void) {
    bool text = the_run.text == NULL || record_write_text(the_run.text, false);
    return (the_run.values == NULL || write_outcomes(the_run.values)) && text;
}
