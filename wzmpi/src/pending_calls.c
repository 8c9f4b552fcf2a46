/* The job text of a run that ends badly lacks the calls that its ranks haven't come to, and the messages that they wait for. Here they are written after each
   rank's last call, as they have to be if the ranks agree, so that colljob can tell why the run ends so. */
#include "recording.h"

#include "pending_calls.h"

enum { LONGEST_TEXT = 1048576 };

/* Why colljob can't tell; NULL: it can. */
static const char *untold;
/* Some rank that calls nothing any more lacks a call. */
static bool lacks;

static struct recording *part_of(int rank) { return record_part(&the_run.ranks[rank]); }

/* Nobody writes any longer. */
static void lock_parts(void) {
    for (int i = 0; i < the_run.size; i++) {
        flockfile(part_of(i)->text);
        record_write_choosing(part_of(i));
        if (part_of(i)->full) untold = "the text ends before the calls do";
        if (part_of(i)->left_out) untold = "the text has no room for all communicators";
    }
}

/* ---- calls that others have made */

static struct made *made_at(int rank, int comm, uint32_t place) {
    const struct recording *part = part_of(rank);
    for (int i = 0; i < part->requests; i++)
        if (part->made[i].comm == comm && part->made[i].place == place) return &part->made[i];
    return NULL;
}

static const char *signature_of(int rank, const struct made *made, size_t *length) {
    *length = made->end - made->begin;
    return part_of(rank)->bytes + made->begin;
}

static bool agree(int one, const struct made *a, int other, const struct made *b) {
    size_t length, its_length;
    const char *signature = signature_of(one, a, &length), *its = signature_of(other, b, &its_length);
    return a->persistent == b->persistent && length == its_length && memcmp(signature, its, length) == 0;
}

/* A place of a communicator: the call of the first member that has come there, and the most starts. */
struct place {
    const struct text_comm *comm;
    int number; /* the communicator's, in the text */
    uint32_t at;
    int rank;
    struct made first;
    uint32_t starts;
};

/* Reads place->at. Whether all members that have come there agree. */
static bool read_place(struct place *place) {
    place->rank = -1;
    place->starts = 0;
    for (int i = 0; i < place->comm->size; i++) {
        int rank = place->comm->ranks[i];
        const struct made *made = made_at(rank, place->number, place->at);
        if (made == NULL) continue;
        if (place->rank < 0) {
            place->rank = rank;
            place->first = *made;
        } else if (!agree(place->rank, &place->first, rank, made)) return false;
        if (made->starts > place->starts) place->starts = made->starts;
    }
    return true;
}

/* ---- what a member would give: zeros */

/* The count that an allgatherv's signature, `allgatherv TYPE C0 ..`, has for a member. */
static uint64_t count_of_member(const struct place *place, int member) {
    size_t length;
    const char *at = signature_of(place->rank, &place->first, &length), *end = at + length;
    for (int word = 0; word < member + 2 && at != NULL; word++) {
        at = memchr(at, ' ', (size_t)(end - at));
        if (at != NULL) at++;
    }
    return at != NULL ? strtoull(at, NULL, 10) : 0;
}

static uint64_t elements_due(const struct place *place, int member) {
    const wz_call *call = &place->first.call;
    if (call->kind == WZ_ALLGATHERV) return count_of_member(place, member);
    return wz_blocks_given(call->kind, (uint32_t)member, call->root, (size_t)place->comm->size) * call->count;
}

static void write_zeros(FILE *to, const struct place *place, int member) {
    uint64_t many = elements_due(place, member);
    if (many > 0) fputs(" :", to);
    if (many > LONGEST_TEXT / 2) untold = "the text would be longer than 1 MiB";
    for (uint64_t i = 0; i < many && untold == NULL; i++) fputs(place->first.call.type == WZ_2INT ? " 0,0" : " 0", to);
    fputc('\n', to);
}

/* ---- writing what a member hasn't come to */

static void write_post(const struct place *place, int member) {
    struct recording *to = part_of(place->comm->ranks[member]);
    struct made made = place->first;
    size_t length;
    made.starts = 0;
    made.freed = false;
    const char *what = place->comm->serial == MESSAGE_COMM ? "# never reached: what %s of rank %d at %s waits for\n" : "# never reached: %s, as rank %d has it at %s\n";
    fprintf(to->text, what, made.name, place->rank, made.site);
    if (!record_begin_post(to, &made)) {
        untold = "the text has room for 4,096 posts";
        return;
    }
    const char *signature = signature_of(place->rank, &place->first, &length);
    fwrite(signature, 1, length, to->text);
    record_end_signature(to);
    if (made.persistent) fputc('\n', to->text);
    else write_zeros(to->text, place, member);
    fflush(to->text);
}

static void write_starts(const struct place *place, int member) {
    int rank = place->comm->ranks[member];
    struct recording *to = part_of(rank);
    struct made *own = made_at(rank, place->number, place->at);
    int request = (int)(own - to->made);
    lacks = lacks || (own->freed && own->starts < place->starts);
    while (!own->freed && own->starts < place->starts && untold == NULL) {
        if (own->starts > 0) fprintf(to->text, "wait %d\n", request);
        fprintf(to->text, "# never reached: start %u of %s, which rank %d has at %s\nstart %d", own->starts + 1, own->name, place->rank, place->first.site, request);
        write_zeros(to->text, place, member);
        own->starts++;
    }
    fflush(to->text);
}

static void complete_member(const struct place *place, int member, uint64_t gone) {
    int rank = place->comm->ranks[member];
    const struct made *own = made_at(rank, place->number, place->at);
    if (gone >> rank & 1) {
        lacks = lacks || own == NULL || own->starts < place->starts;
        return;
    }
    if (own == NULL) write_post(place, member);
    if (untold == NULL) write_starts(place, member);
}

static void complete(int number, uint64_t gone) {
    struct place place = { .comm = record_comm(number), .number = number };
    uint32_t places = 0;
    for (int i = 0; i < place.comm->size; i++) {
        uint32_t own = part_of(place.comm->ranks[i])->places[number];
        if (own > places) places = own;
    }
    for (place.at = 0; place.at < places; place.at++)
        if (!read_place(&place)) return; /* a mismatch is reported of this communicator, and nothing else */
    for (place.at = 0; place.at < places; place.at++) {
        read_place(&place);
        for (int i = 0; i < place.comm->size && untold == NULL; i++) complete_member(&place, i, gone);
    }
}

/* ---- messages that a rank waits for: each such wait stands as a collective of the two, or more, ranks */

enum { RECEIVES, SENDS, ANSWERED_SENDS, WAITS };

static int wait_of(const struct request *request) {
    if (request->sort != SENDING) return RECEIVES;
    return strncmp(request->name, "MPI_Ss", 6) == 0 || strncmp(request->name, "MPI_Iss", 7) == 0 ? ANSWERED_SENDS : SENDS;
}

/* A receive waits for its sender whatever the library, as a gather's root does. A send may be complete before it is received, as the root of a bcast may; a
   synchronous one may not. */
static void write_message(struct rank *rank, const struct request *request, int wait, uint64_t others) {
    static const char *const signatures[WAITS] = { "gather 0 byte 1", "bcast 0 byte 1", "barrier" };
    static const wz_call calls[WAITS] = { { WZ_GATHER, 0, WZ_BYTE, 0, 1 }, { WZ_BCAST, 0, WZ_BYTE, 0, 1 }, { WZ_BARRIER, 0, WZ_BYTE, 0, 0 } };
    struct recording *to = part_of(rank->number);
    int ranks[MOST_RANKS] = { rank->number }, size = 1;
    char text[RANKS_TEXT], name[RANKS_TEXT + 40];
    for (int i = 0; i < the_run.size; i++)
        if (others >> i & 1) ranks[size++] = i;
    snprintf(name, sizeof name, "messages of rank %d and %s", rank->number, ranks_text(others, text));
    struct made made = { .comm = record_add_comm(ranks, size, name), .call = calls[wait], .name = request->name, .site = request->started_at };
    if (made.comm < 0) untold = "the text has no room for all communicators";
    if (made.comm < 0 || untold != NULL) return;
    fprintf(to->text, "# %s, %s: a message, which stands as a collective\n", request->name, request->started_at);
    if (!record_begin_post(to, &made)) return;
    fputs(signatures[wait], to->text);
    record_end_signature(to);
    fprintf(to->text, "%s\n# %s, %s\nwait %d\n", wait != ANSWERED_SENDS ? " : 0" : "", rank->wait.call, rank->wait.site, to->requests - 1);
    fflush(to->text);
}

/* The ranks that a message is lacking, those that may still call if there are such. */
static uint64_t others_of(const struct rank *rank, const struct request *request, uint64_t gone) {
    uint64_t others = lacking(request);
    if (request->other != MPI_ANY_SOURCE) return others;
    others &= ~(1ull << rank->number);
    return (others & ~gone) != 0 ? others & ~gone : others;
}

static bool is_open(const struct request *request) { return request != NULL && request->active; }

static void write_messages(struct rank *rank, uint64_t gone) {
    uint64_t others[WAITS] = { 0 };
    const struct request *first[WAITS] = { NULL };
    bool collectives = false;
    for (int i = 0; i < rank->wait.many; i++) {
        const struct request *request = rank->wait.list[i];
        if (!is_open(request)) continue;
        if (request->sort == COLLECTIVE) {
            collectives = true;
            if (request->recorded < 0) untold = "the text lacks a call that a rank waits for";
            continue;
        }
        int wait = wait_of(request);
        if (first[wait] == NULL) first[wait] = request;
        others[wait] |= others_of(rank, request, gone);
    }
    if (rank->wait.any && collectives) return; /* that stands in the text, and is as hopeless */
    for (int wait = 0; wait < WAITS; wait++) {
        if (first[wait] == NULL) continue;
        if (others[wait] == 0 || (others[wait] >> rank->number & 1)) untold = "a rank waits for a message from itself";
        else write_message(rank, first[wait], wait, others[wait]);
    }
}

/* ---- the end of a run */

static struct question asked(const char *words) {
    size_t length = 0;
    for (int i = 0; i < the_run.size; i++) length += part_of(i)->length;
    if (untold == NULL && length > LONGEST_TEXT - 10000) untold = "the text would be longer than 1 MiB";
    return (struct question){ words, untold };
}

struct question complete_stalled(uint64_t lost, uint64_t gone) {
    if (!record_is_wanted()) return (struct question){ NULL, NULL };
    lock_parts();
    for (int i = 0; i < the_run.size && untold == NULL; i++)
        if (lost >> i & 1) write_messages(&the_run.ranks[i], gone);
    for (int i = 0; i < record_comms() && untold == NULL; i++) complete(i, gone);
    return asked(lacks ? "check" : "explain --strict");
}

struct question complete_mismatch(void) {
    uint64_t gone = 0;
    if (!record_is_wanted()) return (struct question){ NULL, NULL };
    lock_parts();
    for (int i = 0; i < the_run.size; i++)
        if (atomic_load(&the_run.ranks[i].ended) || atomic_load(&the_run.ranks[i].finalized)) gone |= 1ull << i;
    for (int i = 0; i < record_comms() && untold == NULL; i++) complete(i, gone);
    return asked("check");
}
