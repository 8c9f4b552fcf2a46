/* Notes of what a run did. A rank writes its own; they end where there is no room for more, which is reported. */
#include "trace.h"

#include "record.h"
#include "diagnostics.h"

#include <stddef.h>
#include <time.h>

static int64_t beginning;

bool notes_are_wanted(void) { return the_run.trace != NULL || the_run.timeline != NULL || the_run.statistics; }

static int64_t now(void) {
    struct timespec time;
    clock_gettime(CLOCK_MONOTONIC, &time);
    return (int64_t)time.tv_sec * 1000000000 + time.tv_nsec;
}

int64_t run_clock(void) { return the_run.notes ? now() - beginning : 0; }

void begin_notes(void) {
    the_run.notes = notes_are_wanted();
    for (int i = 0; the_run.notes && i < the_run.size; i++) {
        struct notes *notes = must(calloc(1, sizeof *notes));
        pthread_mutex_init(&notes->guard, NULL);
        the_run.ranks[i].notes = notes;
    }
    beginning = now() - 1; /* no time is 0 */
}

/* ---- a rank's list */

static bool keeps_list(void) { return the_run.trace != NULL || the_run.timeline != NULL; }

/* A further note; NULL: there is no room. */
static struct note *add(struct notes *notes, enum what what) {
    if (notes->full || !keeps_list()) return NULL;
    notes->full = notes->many >= MOST_NOTES / (size_t)the_run.size;
    if (notes->full) return NULL;
    if (notes->many == notes->room) {
        notes->room = 2 * notes->room + 64;
        notes->at = must(realloc(notes->at, sizeof *notes->at * notes->room));
    }
    struct note *note = &notes->at[notes->many++];
    *note = (struct note){ .what = what };
    return note;
}

/* The list has many equal texts one after the other, so each is kept once. */
static char *kept_text(struct notes *notes, size_t field, const char *text) {
    for (size_t i = notes->many; i-- > 0 && i + 16 > notes->many;) {
        char *before = *(char **)((char *)&notes->at[i] + field);
        if (before != NULL && strcmp(before, text) == 0) return before;
    }
    return must(strdup(text));
}

static char *values_text(struct notes *notes, const struct request *request, const void *bytes, size_t length) {
    char *text = NULL;
    size_t size;
    if (the_run.trace == NULL || !request->direct || length == 0) return NULL;
    FILE *to = must(open_memstream(&text, &size));
    write_values(to, request->text_type, bytes, length);
    fclose(to);
    notes->value_bytes += size;
    notes->full = notes->full || notes->value_bytes > MOST_VALUES / (size_t)the_run.size;
    return text;
}

static struct note *add_of_request(struct notes *notes, struct request *request, enum what what, const char *call) {
    char text[NAME_TEXT], *signature = NULL;
    size_t size;
    struct note *note = add(notes, what);
    if (note == NULL) return NULL;
    FILE *to = must(open_memstream(&signature, &size));
    write_signature(to, request);
    fclose(to);
    char *comm = kept_text(notes, offsetof(struct note, comm), comm_name(request->comm, text));
    note->signature = kept_text(notes, offsetof(struct note, signature), signature);
    note->comm = comm;
    free(signature);
    note->described = request->tally->text;
    note->carried = !request->direct;
    note->request = request->number;
    note->start = request->persistent && request->times > 0 ? request->times - 1 : 0;
    note->order = request->order;
    note->place = request->place;
    note->call = call;
    note->site = current_rank->site;
    return note;
}

/* ---- tallies */

void note_called(struct request *request, const struct called *called) {
    char text[2 * NAME_TEXT + 4], call[NAME_TEXT], comm[NAME_TEXT];
    if (!the_run.notes) return;
    struct notes *notes = current_rank->notes;
    snprintf(text, sizeof text, "%s on %s", called_text(called, call), comm_name(request->comm, comm));
    pthread_mutex_lock(&notes->guard);
    request->number = notes->requests++;
    struct tally *tally = notes->tallies;
    while (tally != NULL && (tally->comm != request->comm->serial || strcmp(tally->text, text) != 0)) tally = tally->next;
    if (tally == NULL) {
        tally = must(calloc(1, sizeof *tally));
        *tally = (struct tally){ .text = must(strdup(text)), .comm = request->comm->serial, .members = request->comm->size, .first = request->member == 0, .next = notes->tallies };
        notes->tallies = tally;
    }
    request->tally = tally;
    pthread_mutex_unlock(&notes->guard);
}

/* ---- collectives */

static size_t lent_by(const struct request *request) { return request->given + (request->direct ? request->room : 0); }

void note_begun(struct request *request, enum what what, const char *call, const void *bytes, size_t length) {
    if (!the_run.notes) return;
    struct notes *notes = current_rank->notes;
    pthread_mutex_lock(&notes->guard);
    struct note *note = add_of_request(notes, request, what, call);
    request->noted = note != NULL;
    if (note != NULL) {
        request->note = notes->many - 1;
        note->begun = request->begun;
        note->bytes = what == INITIALISED ? 0 : request->given;
        note->values = what == INITIALISED ? NULL : values_text(notes, request, bytes, length);
    }
    if (what == INITIALISED) notes->inits++;
    else {
        *(what == POSTED ? &notes->posts : &notes->starts) += 1;
        notes->given += request->given;
        notes->lent += lent_by(request);
        if (notes->lent > notes->most_lent) notes->most_lent = notes->lent;
        request->tally->times++;
        request->tally->given += request->given;
    }
    pthread_mutex_unlock(&notes->guard);
}

/* Ends the bar of the post or start. */
static void end_bar(struct notes *notes, const struct request *request, const char *call, int64_t time) {
    if (!request->noted) return;
    struct note *note = &notes->at[request->note];
    note->ended = time;
    note->ended_by = call;
    note->ended_at = current_rank->site;
}

void note_completed(struct request *request, const char *call) {
    if (!the_run.notes) return;
    struct notes *notes = current_rank->notes;
    int64_t time = run_clock(), took = time - request->begun;
    pthread_mutex_lock(&notes->guard);
    end_bar(notes, request, call, time);
    struct note *note = the_run.trace != NULL ? add_of_request(notes, request, COMPLETED, call) : NULL;
    if (note != NULL) note->values = values_text(notes, request, request->out, request->room);
    notes->completed++;
    notes->got += request->got;
    notes->lent -= lent_by(request);
    request->tally->completed++;
    request->tally->all += took;
    if (took > request->tally->longest) request->tally->longest = took;
    pthread_mutex_unlock(&notes->guard);
}

void note_freed(struct request *request) {
    if (!the_run.notes) return;
    struct notes *notes = current_rank->notes;
    pthread_mutex_lock(&notes->guard);
    if (the_run.trace != NULL) add_of_request(notes, request, FREED, "MPI_Request_free");
    pthread_mutex_unlock(&notes->guard);
}

/* ---- messages and waits */

void note_message(struct request *request, const char *call) {
    char text[NAME_TEXT];
    if (!the_run.notes || request->other == MPI_PROC_NULL || request->awaits != NULL) return;
    struct notes *notes = current_rank->notes;
    size_t bytes = (size_t)request->many * request->type->size;
    pthread_mutex_lock(&notes->guard);
    if (request->sort == SENDING) notes->sent++, notes->sent_bytes += bytes;
    struct note *note = the_run.timeline != NULL ? add(notes, MESSAGE) : NULL;
    if (note != NULL) {
        *note = (struct note){ .what = MESSAGE, .peer = request->other, .tag = request->tag, .begun = request->begun, .ended = run_clock(), .call = request->name, .site = request->started_at,
                               .ended_by = call, .ended_at = current_rank->site, .bytes = bytes };
        note->comm = kept_text(notes, offsetof(struct note, comm), comm_name(request->comm, text));
    }
    pthread_mutex_unlock(&notes->guard);
}

void note_wait(const char *call, const char *site, int64_t begun) {
    if (!the_run.notes) return;
    struct notes *notes = current_rank->notes;
    int64_t time = run_clock();
    pthread_mutex_lock(&notes->guard);
    notes->waited += time - begun;
    struct note *note = the_run.timeline != NULL ? add(notes, WAITED) : NULL;
    if (note != NULL) *note = (struct note){ .what = WAITED, .call = call, .site = site, .begun = begun, .ended = time };
    pthread_mutex_unlock(&notes->guard);
}

const char *write_notes(void) {
    if (the_run.trace != NULL && !write_trace(the_run.trace)) return the_run.trace;
    return the_run.timeline != NULL && !write_timeline(the_run.timeline) ? the_run.timeline : NULL;
}
