/* Carries out job texts over an MPI library, each process as one rank: mpirun -n 4 colljob-mpi TEXT ... A text of fewer ranks than there
   are processes leaves the others idle. Standard output has the lines of `colljob plain`, after `text NAME` where more than one was
   named; with --compare it has what differs from them. What a text may say is in docs/JOB_TEXT.md; colljob-mpi trusts that it has no fault,
   and stops at what it can't carry out. */
#define _POSIX_C_SOURCE 200809L
#include "../record/job_words.h"
#include "persistent.h"

#include <ctype.h>
#include <errno.h>
#include <stdarg.h>
#include <stdbool.h>
#include <stdint.h>
#include <stdio.h>
#include <stdlib.h>
#include <string.h>
#include <sys/wait.h>
#include <unistd.h>
#ifndef INIT
#error "this MPI library has no persistent collectives"
#endif

enum { MOST_COMMUNICATORS = 16, MOST_RANKS = 64, MOST_COUNT = 65536, LINES_TAG = 1 };

/* A line of the text, cut into words. */
struct line {
    int number, rank; /* the rank of its section, or -1 */
    int count;
    char **words;
};

struct text {
    const char *name;
    char *bytes;
    int ranks, count;
    struct line *lines;
};

#define CONSTANT(constant, ...) constant,
enum kind { EACH_KIND(CONSTANT) KINDS };

#define KIND(constant, word, Name, name, root, op, ...) [constant] = {word, root, op},
static const struct {
    const char *word;
    bool root, op;
} kinds[KINDS] = {EACH_KIND(KIND)};

struct type {
    const char *word;
    MPI_Datatype type;
    int width;
    bool has_sign;
};

/* Bytes that grow. */
struct output {
    char *bytes;
    size_t length, room;
};

struct request {
    MPI_Request handle;
    enum kind kind;
    int root, count, rank, size; /* the last two within the communicator */
    int counts[MOST_RANKS], places[MOST_RANKS], total; /* of an allgatherv: each member's row, where it lies, all rows */
    const struct type *type;
    MPI_Op op;
    MPI_Comm comm;
    unsigned char *given, *got;
    int starts, number;
    bool persistent, active;
    struct output lines;
};

/* What a rank has while it plays a text. */
struct player {
    const struct text *text;
    const struct line *line;
    int rank, communicators, count;
    MPI_Comm comms[MOST_COMMUNICATORS];
    struct request *requests;
};

static int process;
static bool reading;

/* Memory and messages */

/* What all processes meet while they read a text is reported by the first of them; the others wait for the end that it brings. */
static void stop(const char *name, int line, const char *format, ...) {
    char reason[512], where[32] = "";
    va_list rest;
    va_start(rest, format);
    vsnprintf(reason, sizeof reason, format, rest);
    va_end(rest);
    if (line > 0)
        snprintf(where, sizeof where, "line %d: ", line);
    if (reading && process > 0)
        MPI_Barrier(MPI_COMM_WORLD);
    fprintf(stderr, "colljob-mpi: %s: %s%s\n", name, where, reason);
    MPI_Abort(MPI_COMM_WORLD, 2);
    exit(2);
}

static void *must(void *memory) {
    if (!memory)
        stop("memory", 0, "there isn't enough");
    return memory;
}

static void add(struct output *output, const char *format, ...) {
    va_list rest;
    char piece[64];
    va_start(rest, format);
    size_t length = (size_t)vsnprintf(piece, sizeof piece, format, rest);
    va_end(rest);
    if (output->length + length + 1 > output->room) {
        output->room = 2 * (output->room + length + 1);
        output->bytes = must(realloc(output->bytes, output->room));
    }
    memcpy(output->bytes + output->length, piece, length + 1);
    output->length += length;
}

/* Reading a text */

static char *read_file(const char *name) {
    FILE *file = fopen(name, "rb");
    size_t room = 1 << 16, length = 0, got;
    if (!file)
        stop(name, 0, "%s", strerror(errno));
    char *bytes = must(malloc(room + 1));
    while ((got = fread(bytes + length, 1, room - length, file)) > 0) {
        length += got;
        if (length == room)
            bytes = must(realloc(bytes, (room *= 2) + 1));
    }
    if (ferror(file))
        stop(name, 0, "%s", strerror(errno));
    fclose(file);
    bytes[length] = '\0';
    return bytes;
}

static bool is_space(char byte) { return byte == ' ' || byte == '\t' || byte == '\r'; }

/* Cuts a line into words, in place. */
static void cut(struct line *line, char *bytes) {
    int room = 0;
    while (*bytes) {
        while (is_space(*bytes))
            *bytes++ = '\0';
        if (!*bytes)
            break;
        if (line->count == room)
            line->words = must(realloc(line->words, (size_t)(room = 2 * room + 8) * sizeof *line->words));
        line->words[line->count++] = bytes;
        while (*bytes && !is_space(*bytes))
            bytes++;
    }
}

/* The number that a word is, below LIMIT. */
static int number_of(const struct text *text, const struct line *line, int place, long limit) {
    char *end;
    if (place >= line->count)
        stop(text->name, line->number, "a word is missing");
    long number = strtol(line->words[place], &end, 10);
    if (!isdigit((unsigned char)line->words[place][0]) || *end || number >= limit)
        stop(text->name, line->number, "%s isn't a number below %ld", line->words[place], limit);
    return (int)number;
}

static bool is(const struct line *line, const char *word) { return !strcmp(line->words[0], word); }

static struct text read_text(const char *name) {
    struct text text = {.name = name, .bytes = read_file(name)};
    int room = 0, number = 0, rank = -1;
    for (char *next, *bytes = text.bytes; bytes; bytes = next) {
        next = strchr(bytes, '\n');
        if (next)
            *next++ = '\0';
        struct line line = {.number = ++number};
        cut(&line, bytes);
        if (line.count == 0 || line.words[0][0] == '#') {
            free(line.words);
            continue;
        }
        if (text.ranks == 0) {
            if (!is(&line, "ranks"))
                stop(name, number, "the first line doesn't say how many ranks there are");
            text.ranks = number_of(&text, &line, 1, MOST_RANKS + 1);
            if (text.ranks == 0)
                stop(name, number, "there are no ranks");
        }
        if (is(&line, "rank"))
            rank = number_of(&text, &line, 1, text.ranks);
        line.rank = rank;
        if (text.count == room)
            text.lines = must(realloc(text.lines, (size_t)(room = 2 * room + 64) * sizeof *text.lines));
        text.lines[text.count++] = line;
    }
    if (text.ranks == 0)
        stop(name, number, "the text is empty");
    return text;
}

static void free_text(struct text *text) {
    for (int place = 0; place < text->count; place++)
        free(text->lines[place].words);
    free(text->lines);
    free(text->bytes);
}

/* Signatures */

#define TYPE(word, type, width, has_sign) {word, type, width, has_sign},
static const struct type *find_type(const char *word) {
    static const struct type types[] = {EACH_TYPE(TYPE)};
    for (size_t place = 0; place < sizeof types / sizeof *types; place++)
        if (!strcmp(word, types[place].word))
            return &types[place];
    return NULL;
}

/* An operation that MPI hasn't, as a function of the user's for each of its types. */
#define COMBINE(word, constant, mpi, ctype, name, statement)                                                                                \
    static void name##_of_##word(void *left, void *right, int *count, MPI_Datatype *type) {                                                 \
        const ctype *lefts = left;                                                                                                          \
        ctype *rights = right;                                                                                                              \
        (void)type;                                                                                                                         \
        for (int place = 0; place < *count; place++) {                                                                                      \
            ctype a = lefts[place], b = rights[place];                                                                                      \
            statement;                                                                                                                      \
            rights[place] = a;                                                                                                              \
        }                                                                                                                                   \
    }
#define COMBINE_EACH(name, types, statement) types(COMBINE, name, statement)
EACH_OWN_OPERATION(COMBINE_EACH)

/* The operations. One that MPI hasn't is made of its function, for each type of its elements. */
#define OPERATION(word, op) {word, NULL, op, NULL},
#define OWN_OF_TYPE(word, constant, mpi, ctype, name, statement) {#name, #word, MPI_OP_NULL, name##_of_##word},
#define OWN_OPERATION(name, types, statement) types(OWN_OF_TYPE, name, statement)
static struct operation {
    const char *word, *type; /* null: for every type */
    MPI_Op op;
    MPI_User_function *function; /* null: MPI has it */
} operations[] = {EACH_MPI_OPERATION(OPERATION) EACH_OWN_OPERATION(OWN_OPERATION)};
enum { OPERATIONS = sizeof operations / sizeof *operations };

static MPI_Op find_op(const char *word, const char *type) {
    for (size_t place = 0; place < OPERATIONS; place++)
        if (!strcmp(word, operations[place].word) && (!operations[place].type || !strcmp(type, operations[place].type)))
            return operations[place].op;
    return MPI_OP_NULL;
}

static void make_operations(void) {
    for (size_t place = 0; place < OPERATIONS; place++)
        if (operations[place].function)
            MPI_Op_create(operations[place].function, 0, &operations[place].op);
}

static void free_operations(void) {
    for (size_t place = 0; place < OPERATIONS; place++)
        if (operations[place].function)
            MPI_Op_free(&operations[place].op);
}

static enum kind find_kind(const char *word) {
    enum kind kind = 0;
    while (kind < KINDS && strcmp(word, kinds[kind].word))
        kind++;
    return kind;
}

/* Reads a count for each member, and packs their rows. */
static void read_counts(const struct text *text, const struct line *line, int *next, struct request *request) {
    for (int member = 0; member < request->size; member++) {
        request->counts[member] = number_of(text, line, (*next)++, MOST_COUNT + 1);
        request->places[member] = request->total;
        request->total += request->counts[member];
    }
    request->count = request->counts[request->rank];
}

/* Reads `C SIG` after the first word. The place of the word after it goes to END. */
static struct request read_request(struct player *player, int *end) {
    const struct text *text = player->text;
    const struct line *line = player->line;
    struct request request = {.handle = MPI_REQUEST_NULL, .op = MPI_OP_NULL, .persistent = is(line, "init")};
    int next = 3;
    request.comm = player->comms[number_of(text, line, 1, player->communicators)];
    if (request.comm == MPI_COMM_NULL)
        stop(text->name, line->number, "rank %d isn't a member of communicator %s", player->rank, line->words[1]);
    MPI_Comm_rank(request.comm, &request.rank);
    MPI_Comm_size(request.comm, &request.size);
    request.kind = line->count > 2 ? find_kind(line->words[2]) : KINDS;
    if (request.kind == KINDS)
        stop(text->name, line->number, "there is no such collective");
    if (kinds[request.kind].root)
        request.root = number_of(text, line, next++, request.size);
    if (kinds[request.kind].op) {
        request.op = next + 1 < line->count ? find_op(line->words[next], line->words[next + 1]) : MPI_OP_NULL;
        next++;
        if (request.op == MPI_OP_NULL)
            stop(text->name, line->number, "there is no such operation");
    }
    if (request.kind != BARRIER) {
        request.type = next < line->count ? find_type(line->words[next++]) : NULL;
        if (!request.type)
            stop(text->name, line->number, "there is no such type");
        if (request.kind == ALLGATHERV)
            read_counts(text, line, &next, &request);
        else
            request.count = number_of(text, line, next++, MOST_COUNT + 1);
    }
    *end = next;
    return request;
}

#define ELEMENTS(constant, word, Name, name, has_root, has_op, buffers, root, given, got)                                                    \
    case constant: return is_given ? given : got;

/* How many elements the rank gives, or gets. */
static int elements(const struct request *it, bool is_given) {
    int count = it->count, members = it->size, total = it->total;
    bool is_root = it->rank == it->root, is_first = it->rank == 0;
    switch (it->kind) {
        EACH_KIND(ELEMENTS)
    default: return 0;
    }
}

/* Values */

static void put_value(const struct request *it, unsigned char *element, const char *word) {
    if (!strcmp(it->type->word, "2int")) {
        const char *comma = strchr(word, ',');
        int pair[2] = {(int)strtol(word, NULL, 10), comma ? (int)strtol(comma + 1, NULL, 10) : 0};
        memcpy(element, pair, sizeof pair);
        return;
    }
    /* The lowest bytes of a little-endian number are the number in a narrower type. */
    uint64_t bits = word[0] == '-' ? (uint64_t)strtoll(word, NULL, 10) : strtoull(word, NULL, 10);
    memcpy(element, &bits, (size_t)it->type->width);
}

static void put_values(const struct player *player, struct request *it, int place) {
    const struct line *line = player->line;
    int due = elements(it, true), given = line->count > place ? line->count - place - 1 : 0;
    if (given != due)
        stop(player->text->name, line->number, "%d values where %d are due", given, due);
    for (int element = 0; element < due; element++)
        put_value(it, it->given + (size_t)element * (size_t)it->type->width, line->words[place + 1 + element]);
}

static void add_value(struct output *output, const struct type *type, const unsigned char *element) {
    uint64_t bits = 0;
    if (!strcmp(type->word, "2int")) {
        int pair[2];
        memcpy(pair, element, sizeof pair);
        add(output, " %d,%d", pair[0], pair[1]);
        return;
    }
    memcpy(&bits, element, (size_t)type->width);
    int unused = 64 - 8 * type->width;
    if (type->has_sign)
        add(output, " %lld", (long long)((int64_t)(bits << unused) >> unused));
    else
        add(output, " %llu", (unsigned long long)bits);
}

/* The start that is under way has ended: its line is written, before another start overwrites what came. */
static void finish(const struct player *player, struct request *it) {
    if (!it->active)
        return;
    it->active = false;
    add(&it->lines, "rank %d req %d start %d :", player->rank, it->number, it->starts - 1);
    const unsigned char *got = it->kind == BCAST ? it->given : it->got;
    for (int element = 0; element < elements(it, false); element++)
        add_value(&it->lines, it->type, got + (size_t)element * (size_t)it->type->width);
    add(&it->lines, "\n");
}

/* Posts, initialisations, starts */

/* Room for what the rank gives and gets; a bcast has one buffer for both. What comes is unlike what came before. */
static void make_buffers(struct request *it) {
    size_t width = it->type ? (size_t)it->type->width : 1, most = (size_t)it->count * (size_t)it->size + (size_t)it->total + 1;
    it->given = must(calloc(most, width));
    it->got = must(malloc(most * width));
    memset(it->got, 0x5a, most * width);
}

/* What stands in MPI's calls before the communicator. */
#define NO_BUFFER
#define BUFFER it->given, it->count, it->type->type,
#define MOVED it->given, it->count, it->type->type, it->got, it->count, it->type->type,
#define COUNTED it->given, it->count, it->type->type, it->got, it->counts, it->places, it->type->type,
#define COMBINED it->given, it->got, it->count, it->type->type, it->op,
#define ROOT it->root,
#define NO_ROOT

#define POST(constant, word, Name, name, has_root, has_op, buffers, root, ...)                                                              \
    case constant: return MPI_I##name(buffers root it->comm, &it->handle);
#define INITIALISE(constant, word, Name, name, has_root, has_op, buffers, root, ...)                                                        \
    case constant: return INIT(Name)(buffers root it->comm, info, &it->handle);

static int post(struct request *it) {
    switch (it->kind) {
        EACH_KIND(POST)
    default: return MPI_ERR_ARG;
    }
}

static int initialise(struct request *it) {
    MPI_Info info = MPI_INFO_NULL;
    switch (it->kind) {
        EACH_KIND(INITIALISE)
    default: return MPI_ERR_ARG;
    }
}

static void make_request(struct player *player) {
    int end;
    struct request *it = &player->requests[player->count];
    *it = read_request(player, &end);
    it->number = player->count++;
    make_buffers(it);
    if (it->persistent) {
        initialise(it);
        return;
    }
    put_values(player, it, end);
    post(it);
    it->starts = 1;
    it->active = true;
}

static struct request *named(const struct player *player, int place) {
    return &player->requests[number_of(player->text, player->line, place, player->count)];
}

static void start(struct player *player) {
    struct request *it = named(player, 1);
    if (it->active || !it->persistent)
        stop(player->text->name, player->line->number, "request %d can't be started", it->number);
    put_values(player, it, 2);
    MPI_Start(&it->handle);
    it->starts++;
    it->active = true;
}

/* Completion */

/* The requests that a line names, all of them where it names none. */
static int gather_handles(const struct player *player, struct request **requests, MPI_Request *handles) {
    int count = player->line->count > 1 ? player->line->count - 1 : player->count;
    for (int place = 0; place < count; place++) {
        requests[place] = player->line->count > 1 ? named(player, place + 1) : &player->requests[place];
        handles[place] = requests[place]->handle;
    }
    return count;
}

static void complete(struct player *player) {
    size_t room = (size_t)(player->line->count + player->count + 1);
    struct request **requests = must(malloc(room * sizeof *requests));
    MPI_Request *handles = must(malloc(room * sizeof(MPI_Request)));
    MPI_Status *statuses = must(malloc(room * sizeof *statuses));
    int *places = must(malloc(room * sizeof *places)), done = 0, flag;
    int count = gather_handles(player, requests, handles);
    if (is(player->line, "wait") || is(player->line, "waitall")) {
        MPI_Waitall(count, handles, statuses);
        for (done = 0; done < count; done++)
            places[done] = done;
    } else if (is(player->line, "waitany")) {
        MPI_Waitany(count, handles, places, MPI_STATUS_IGNORE);
        done = *places != MPI_UNDEFINED;
    } else if (is(player->line, "waitsome")) {
        MPI_Waitsome(count, handles, &done, places, statuses);
    } else {
        MPI_Test(handles, &flag, MPI_STATUS_IGNORE);
        places[0] = 0;
        done = flag;
    }
    for (int place = 0; place < count; place++)
        requests[place]->handle = handles[place];
    for (int place = 0; done != MPI_UNDEFINED && place < done; place++)
        finish(player, requests[places[place]]);
    free(places);
    free(statuses);
    free(handles);
    free(requests);
}

static void play_line(struct player *player) {
    const struct line *line = player->line;
    if (is(line, "post") || is(line, "init"))
        make_request(player);
    else if (is(line, "start"))
        start(player);
    else if (is(line, "free"))
        MPI_Request_free(&named(player, 1)->handle);
    else if (is(line, "wait") || is(line, "waitall") || is(line, "waitany") || is(line, "waitsome") || is(line, "test"))
        complete(player);
    else if (!is(line, "rank"))
        stop(player->text->name, line->number, "there is no command %s", line->words[0]);
}

/* Texts */

static void make_communicators(struct player *player, MPI_Comm base) {
    MPI_Group all, members;
    player->comms[0] = base;
    player->communicators = 1;
    MPI_Comm_group(base, &all);
    for (int place = 0; place < player->text->count; place++) {
        struct line *line = &player->text->lines[place];
        if (line->rank >= 0 || !is(line, "comm"))
            continue;
        if (player->communicators == MOST_COMMUNICATORS)
            stop(player->text->name, line->number, "there are more than %d communicators", MOST_COMMUNICATORS);
        int ranks[MOST_RANKS], count = 0;
        while (count + 1 < line->count && count < MOST_RANKS) {
            ranks[count] = number_of(player->text, line, count + 1, player->text->ranks);
            count++;
        }
        MPI_Group_incl(all, count, ranks, &members);
        MPI_Comm_create(base, members, &player->comms[player->communicators++]);
        MPI_Group_free(&members);
    }
    MPI_Group_free(&all);
}

/* The unwritten `waitall` names what is under way alone: one library doesn't come back from a wait for what never was started. */
static void complete_all(struct player *player) {
    for (int number = 0; number < player->count; number++) {
        struct request *it = &player->requests[number];
        if (it->active)
            MPI_Wait(&it->handle, MPI_STATUS_IGNORE);
        finish(player, it);
    }
}

/* The requests' lines in their order, and what they had is given back. */
static struct output end_requests(struct player *player) {
    struct output all = {must(calloc(1, 1)), 0, 1};
    for (int number = 0; number < player->count; number++) {
        struct request *it = &player->requests[number];
        if (it->persistent && it->handle != MPI_REQUEST_NULL)
            MPI_Request_free(&it->handle);
        all.bytes = must(realloc(all.bytes, all.room = all.length + it->lines.length + 1));
        memcpy(all.bytes + all.length, it->lines.bytes ? it->lines.bytes : "", it->lines.length + 1);
        all.length += it->lines.length;
        free(it->lines.bytes);
        free(it->given);
        free(it->got);
    }
    return all;
}

/* The texts that were played, with their lines, where these are compared. */
static struct {
    bool wanted;
    int count;
    struct played {
        const char *name;
        struct output lines;
    } *texts;
} compared;

/* Writes lines, or keeps them. */
static void tell(const char *bytes, size_t length) {
    if (!compared.wanted) {
        fwrite(bytes, 1, length, stdout);
        return;
    }
    struct output *lines = &compared.texts[compared.count - 1].lines;
    lines->bytes = must(realloc(lines->bytes, lines->length + length + 1));
    memcpy(lines->bytes + lines->length, bytes, length);
    lines->bytes[lines->length += length] = '\0';
}

static void print_lines(struct output *mine, int rank, int ranks, MPI_Comm base) {
    if (rank > 0) {
        MPI_Send(mine->bytes, (int)mine->length, MPI_CHAR, 0, LINES_TAG, base);
        return;
    }
    tell(mine->bytes, mine->length);
    for (int from = 1; from < ranks; from++) {
        MPI_Status status;
        int length;
        MPI_Probe(from, LINES_TAG, base, &status);
        MPI_Get_count(&status, MPI_CHAR, &length);
        char *bytes = must(malloc((size_t)length + 1));
        MPI_Recv(bytes, length, MPI_CHAR, from, LINES_TAG, base, MPI_STATUS_IGNORE);
        tell(bytes, (size_t)length);
        free(bytes);
    }
    fflush(stdout);
}

static void play(const struct text *text, int rank, MPI_Comm base) {
    struct player player = {.text = text, .rank = rank, .requests = must(calloc((size_t)text->count + 1, sizeof(struct request)))};
    make_communicators(&player, base);
    for (int place = 0; place < text->count; place++) {
        player.line = &text->lines[place];
        if (player.line->rank == rank)
            play_line(&player);
    }
    complete_all(&player);
    struct output lines = end_requests(&player);
    print_lines(&lines, rank, text->ranks, base);
    free(lines.bytes);
    free(player.requests);
    for (int place = 1; place < player.communicators; place++)
        if (player.comms[place] != MPI_COMM_NULL)
            MPI_Comm_free(&player.comms[place]);
}

static void play_file(const char *name, int rank, int size, bool alone) {
    MPI_Comm base;
    reading = true;
    struct text text = read_text(name);
    if (text.ranks > size)
        stop(name, 0, "a text of %d ranks needs as many processes, and there are %d", text.ranks, size);
    reading = false;
    if (rank == 0 && compared.wanted) {
        compared.texts = must(realloc(compared.texts, (size_t)(compared.count + 1) * sizeof *compared.texts));
        compared.texts[compared.count++] = (struct played){.name = name, .lines = {must(calloc(1, 1)), 0, 1}};
    } else if (rank == 0 && !alone) {
        printf("text %s\n", name);
        fflush(stdout);
    }
    MPI_Comm_split(MPI_COMM_WORLD, rank < text.ranks, rank, &base);
    if (rank < text.ranks)
        play(&text, rank, base);
    MPI_Comm_free(&base);
    free_text(&text);
}

/* Comparing: after MPI_Finalize, since a process of some libraries may not fork before. */

/* Starts `colljob plain NAME`, and gives its output; null where it can't be started. */
static FILE *meant(const char *name, pid_t *child) {
    const char *program = getenv("COLLJOB");
    int ends[2];
    if (pipe(ends))
        return NULL;
    *child = fork();
    if (*child == 0) {
        dup2(ends[1], 1);
        close(ends[0]);
        close(ends[1]);
        execlp(program && *program ? program : "colljob", "colljob", "plain", name, (char *)NULL);
        fprintf(stderr, "colljob-mpi: %s: %s: name colljob by the variable COLLJOB\n", program && *program ? program : "colljob", strerror(errno));
        _exit(127);
    }
    close(ends[1]);
    return *child > 0 ? fdopen(ends[0], "r") : NULL;
}

/* Whether a text's lines are those that it means. The first that differs is told. */
static bool is_as_meant(struct played *text) {
    pid_t child = -1;
    FILE *means = meant(text->name, &child);
    char *want = NULL, *got = text->lines.bytes;
    size_t room = 0;
    long number = 0;
    bool same = means != NULL;
    while (same && getline(&want, &room, means) >= 0) {
        size_t length = strcspn(got, "\n"), wanted = strcspn(want, "\n");
        number++;
        same = length == wanted && !memcmp(got, want, length);
        if (!same)
            printf("%s: line %ld: this library gives `%.*s`, and colljob plain `%.*s`\n", text->name, number, (int)length, got, (int)wanted, want);
        got += length + (got[length] == '\n');
    }
    if (same && *got) {
        printf("%s: this library gives more lines than colljob plain\n", text->name);
        same = false;
    }
    int status = 1;
    if (means)
        fclose(means);
    bool ended = child > 0 && waitpid(child, &status, 0) == child && WIFEXITED(status) && WEXITSTATUS(status) == 0;
    if (same && !ended)
        printf("%s: not compared: colljob plain ended badly\n", text->name);
    free(want);
    return same && ended;
}

static int compare_texts(void) {
    int differing = 0;
    for (int place = 0; place < compared.count; place++) {
        bool same = is_as_meant(&compared.texts[place]);
        if (same)
            printf("%s: the values are those of colljob plain\n", compared.texts[place].name);
        differing += !same;
        free(compared.texts[place].lines.bytes);
    }
    free(compared.texts);
    return differing > 0;
}

int main(int count, char **names) {
    int rank, size, first = 1;
    MPI_Init(&count, &names);
    MPI_Comm_rank(MPI_COMM_WORLD, &rank);
    MPI_Comm_size(MPI_COMM_WORLD, &size);
    process = rank;
    if (count > 1 && !strcmp(names[1], "--compare"))
        compared.wanted = first++;
    bool has_texts = count > first && names[first][0] != '-';
    if (!has_texts && rank == 0)
        fprintf(stderr, "usage: mpirun -n RANKS colljob-mpi [--compare] TEXT ...\n"
                        "Carries out job texts over the MPI library. --compare tells what differs from `colljob plain`, with status 1.\n");
    make_operations();
    for (int place = first; has_texts && place < count; place++)
        play_file(names[place], rank, size, count == first + 1);
    free_operations();
    MPI_Finalize();
    if (!has_texts)
        return 2;
    return rank == 0 && compared.wanted ? compare_texts() : 0;
}
