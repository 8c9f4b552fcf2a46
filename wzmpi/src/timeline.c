/* The files of --trace and --timeline. */
#include "trace.h"

static struct notes *notes_of(int rank) { return the_run.ranks[rank].notes; }

static bool some_are_full(void) {
    bool full = false;
    for (int i = 0; i < the_run.size; i++) full = full || notes_of(i)->full;
    return full;
}

/* Nobody writes notes any longer. */
static void lock_all(void) {
    for (int i = 0; i < the_run.size; i++) pthread_mutex_lock(&notes_of(i)->guard);
}

static void unlock_all(void) {
    for (int i = 0; i < the_run.size; i++) pthread_mutex_unlock(&notes_of(i)->guard);
}

/* ---- the trace: each accepted call of an engine, in the order in which the engines took them */

struct entry {
    int rank;
    const struct note *note;
};

static int by_order(const void *one, const void *other) {
    uint64_t a = ((const struct entry *)one)->note->order, b = ((const struct entry *)other)->note->order;
    return a < b ? -1 : a > b;
}

static size_t collect_entries(struct entry **entries) {
    size_t many = 0, all = 0;
    for (int i = 0; i < the_run.size; i++) all += notes_of(i)->many;
    *entries = must(malloc(sizeof **entries * (all + 1)));
    for (int i = 0; i < the_run.size; i++)
        for (size_t j = 0; j < notes_of(i)->many; j++)
            if (notes_of(i)->at[j].what <= FREED) (*entries)[many++] = (struct entry){ i, &notes_of(i)->at[j] };
    qsort(*entries, many, sizeof **entries, by_order);
    return many;
}

static void write_entry(FILE *to, const struct entry *entry) {
    static const char *const words[] = { [POSTED] = "posted", [INITIALISED] = "initialised", [STARTED] = "started", [COMPLETED] = "completed", [FREED] = "freed" };
    const struct note *note = entry->note;
    fprintf(to, "rank %d %-11s req %d on %s place %llu", entry->rank, words[note->what], note->request, note->comm, (unsigned long long)note->place);
    if (note->what == POSTED || note->what == INITIALISED) fprintf(to, " %s", note->signature);
    else if (note->what != FREED) fprintf(to, " start %u", note->start);
    if (note->values != NULL) fputs(note->values, to);
    fprintf(to, "  # %s, %s%s\n", note->call, note->site, note->carried ? ": carried" : "");
}

bool write_trace(const char *path) {
    FILE *to = fopen(path, "w");
    struct entry *entries;
    if (to == NULL) return false;
    lock_all();
    size_t many = collect_entries(&entries);
    for (size_t i = 0; i < many; i++) write_entry(to, &entries[i]);
    if (some_are_full()) fprintf(to, "# some ranks' calls end here, for there is room for %d calls and %d MiB of values in all\n", MOST_NOTES, MOST_VALUES >> 20);
    free(entries);
    unlock_all();
    return fclose(to) == 0;
}

/* ---- the timeline: trace events in the JSON object format */

static void write_string(FILE *to, const char *text) {
    fputc('"', to);
    for (; *text != '\0'; text++) {
        unsigned char byte = (unsigned char)*text;
        if (byte == '"' || byte == '\\') fprintf(to, "\\%c", byte);
        else if (byte < 0x20) fprintf(to, "\\u%04x", byte);
        else fputc(byte, to);
    }
    fputc('"', to);
}

static void write_named(FILE *to, const char *name, const char *text) {
    fprintf(to, ",\"%s\":", name);
    write_string(to, text);
}

static void write_time(FILE *to, const char *name, int64_t nanoseconds) { fprintf(to, ",\"%s\":%lld.%03lld", name, (long long)(nanoseconds / 1000), (long long)(nanoseconds % 1000)); }

static void write_place(FILE *to, const char *call, const char *at, const char *name, const char *site) {
    write_named(to, call, name);
    write_named(to, at, site);
}

/* A bar in a lane of its rank. One that was never completed ends where the run does. */
static void write_bar(FILE *to, int rank, int lane, const struct note *note, int64_t end) {
    static const char *const kinds[] = { [POSTED] = "collective", [STARTED] = "persistent collective", [MESSAGE] = "message", [WAITED] = "wait" };
    fprintf(to, ",\n{\"ph\":\"X\",\"pid\":%d,\"tid\":%d", rank, lane);
    write_time(to, "ts", note->begun);
    write_time(to, "dur", (note->ended != 0 ? note->ended : end) - note->begun);
    write_named(to, "name", note->call);
    write_named(to, "cat", kinds[note->what]);
    fputs(",\"args\":{", to);
    fputs("\"at\":", to);
    write_string(to, note->site);
    if (note->what != WAITED) {
        fprintf(to, ",\"bytes\":%zu", note->bytes);
        write_named(to, "communicator", note->comm);
        if (note->ended != 0) write_place(to, "completed by", "completed at", note->ended_by, note->ended_at);
        else fputs(",\"completed\":false", to);
    }
    if (note->what == MESSAGE) fprintf(to, ",\"other\":%d,\"tag\":%d", note->peer, note->tag);
    if (note->what == POSTED || note->what == STARTED) {
        write_named(to, "collective", note->described);
        write_named(to, "engine", note->signature);
        fprintf(to, ",\"request\":%d,\"start\":%u,\"place\":%llu,\"carried\":%s", note->request, note->start, (unsigned long long)note->place, note->carried ? "true" : "false");
    }
    fputs("}}", to);
}

static int by_time(const void *one, const void *other) {
    int64_t a = (*(const struct note *const *)one)->begun, b = (*(const struct note *const *)other)->begun;
    return a < b ? -1 : a > b;
}

/* The lowest lane, from 1 on, that is free again by a time. */
static int free_lane(int64_t **lanes, int *many, int64_t begun, int64_t ended) {
    int lane = 0;
    while (lane < *many && (*lanes)[lane] > begun) lane++;
    if (lane == *many) {
        *lanes = must(realloc(*lanes, sizeof **lanes * (size_t)(lane + 1)));
        ++*many;
    }
    (*lanes)[lane] = ended;
    return lane + 1;
}

static void write_name(FILE *to, int rank, int lane, const char *kind, const char *name) {
    fprintf(to, ",\n{\"ph\":\"M\",\"pid\":%d,\"tid\":%d,\"name\":\"%s\",\"args\":{\"name\":\"%s\"}}", rank, lane, kind, name);
}

static void write_rank(FILE *to, int rank, int64_t end) {
    struct notes *notes = notes_of(rank);
    const struct note **bars = must(malloc(sizeof *bars * (notes->many + 1)));
    int64_t *lanes = NULL;
    int many_lanes = 0;
    size_t many = 0;
    char name[32];
    for (size_t i = 0; i < notes->many; i++) {
        enum what what = notes->at[i].what;
        if (what == POSTED || what == STARTED || what == MESSAGE) bars[many++] = &notes->at[i];
        else if (what == WAITED) write_bar(to, rank, 0, &notes->at[i], end);
    }
    qsort(bars, many, sizeof *bars, by_time);
    for (size_t i = 0; i < many; i++)
        write_bar(to, rank, free_lane(&lanes, &many_lanes, bars[i]->begun, bars[i]->ended != 0 ? bars[i]->ended : end), bars[i], end);
    snprintf(name, sizeof name, "rank %d", rank);
    write_name(to, rank, 0, "process_name", name);
    write_name(to, rank, 0, "thread_name", "waits in MPI");
    for (int i = 0; i < many_lanes; i++) write_name(to, rank, i + 1, "thread_name", "requests");
    free(lanes);
    free(bars);
}

bool write_timeline(const char *path) {
    FILE *to = fopen(path, "w");
    if (to == NULL) return false;
    lock_all();
    fputs("{\"displayTimeUnit\":\"ns\",\"traceEvents\":[\n{\"ph\":\"M\",\"pid\":0,\"tid\":0,\"name\":\"process_sort_index\",\"args\":{\"sort_index\":0}}", to);
    for (int i = 0; i < the_run.size; i++) write_rank(to, i, run_clock());
    fputs("\n]}\n", to);
    if (some_are_full()) fprintf(stderr, "wzrun: warning: the timeline lacks calls, for it has room for %d in all\n", MOST_NOTES);
    unlock_all();
    return fclose(to) == 0;
}
