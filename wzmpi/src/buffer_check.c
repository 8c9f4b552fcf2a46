/* --check: what a request that is under way has borrowed of the program's memory. What it sends stays as it is, and where it receives nobody writes, until it is
   completed (MPI 4.1, 3.7.2 and 6.12). Until then the receive buffer has bytes of 0xa5; what it held before is kept, for a message may be shorter than the buffer. */
#include "loans.h"

enum { NOBODYS = 0xa5 };

struct loan {
    size_t given, got;
    char bytes[]; /* those that are sent, and then those that the receive buffer held */
};

static size_t bytes_of(struct piece piece) { return piece.type != NULL ? (size_t)piece.many * piece.type->size : 0; }

/* ---- the pieces that a request lends */

int pieces_sent(const struct request *request) {
    if (request->sort == COLLECTIVE) return given_many(request);
    return request->sort == SENDING && request->other != MPI_PROC_NULL ? 1 : 0;
}

struct piece sent_piece(const struct request *request, int i) {
    if (request->sort == COLLECTIVE) return given_piece(request, i);
    return (struct piece){ (char *)(uintptr_t)request->from, request->many, request->type };
}

/* All that a reduction gets comes into one piece. */
int pieces_received(const struct request *request) {
    if (request->sort != COLLECTIVE) return request->sort == RECEIVING && request->other != MPI_PROC_NULL ? 1 : 0;
    int many = got_many(request);
    return reduces(request->arguments.function) && many > 1 ? 1 : many;
}

struct piece received_piece(const struct request *request, int i) {
    if (request->sort == COLLECTIVE) return got_piece(request, i);
    return (struct piece){ request->to, request->many, request->type };
}

/* A receive buffer that is sent from too, by MPI_IN_PLACE, keeps its bytes. */
static int many_got(const struct request *request) {
    return request->sort == COLLECTIVE && request->arguments.give == MPI_IN_PLACE ? 0 : pieces_received(request);
}

/* ---- bytes of a piece */

static void fill(struct piece piece) {
    size_t length = bytes_of(piece);
    if (length == 0) return;
    if (piece.type->dense) {
        memset(piece.at, NOBODYS, length);
        return;
    }
    char *bytes = must(malloc(length));
    memset(bytes, NOBODYS, length);
    unpack(piece.type, (size_t)piece.many, piece.at, bytes);
    free(bytes);
}

/* Whether a piece has these bytes; NULL: those that it was filled with. */
static bool has(struct piece piece, const char *wanted) {
    size_t length = bytes_of(piece), at = 0;
    if (length == 0) return true;
    char *packed = piece.type->dense ? NULL : must(malloc(length)), *bytes = packed != NULL ? packed : piece.at;
    if (packed != NULL) pack(piece.type, (size_t)piece.many, piece.at, packed);
    while (at < length && (unsigned char)bytes[at] == (wanted != NULL ? (unsigned char)wanted[at] : NOBODYS)) at++;
    free(packed);
    return at == length;
}

/* ---- lending */

void lend(struct request *request) {
    size_t sent = 0, held = 0;
    if (!the_run.checks) return;
    for (int i = 0; i < pieces_sent(request); i++) sent += bytes_of(sent_piece(request, i));
    for (int i = 0; i < many_got(request); i++) held += bytes_of(received_piece(request, i));
    request->loan = must(malloc(sizeof *request->loan + sent + held));
    request->loan->given = sent;
    request->loan->got = held;
    char *to = request->loan->bytes;
    for (int i = 0; i < pieces_sent(request); to += bytes_of(sent_piece(request, i++)))
        if (bytes_of(sent_piece(request, i)) > 0) pack(sent_piece(request, i).type, (size_t)sent_piece(request, i).many, sent_piece(request, i).at, to);
    for (int i = 0; i < many_got(request); to += bytes_of(received_piece(request, i++)))
        if (bytes_of(received_piece(request, i)) > 0) pack(received_piece(request, i).type, (size_t)received_piece(request, i).many, received_piece(request, i).at, to);
    for (int i = 0; i < many_got(request); i++) fill(received_piece(request, i));
}

/* Gives the receive buffer back as it was. Whether nobody has written to it. */
static bool give_back(const struct request *request, const char *before) {
    bool untouched = true;
    for (int i = 0; i < many_got(request); i++) untouched = untouched && has(received_piece(request, i), NULL);
    for (int i = 0; i < many_got(request); before += bytes_of(received_piece(request, i++)))
        if (bytes_of(received_piece(request, i)) > 0) unpack(received_piece(request, i).type, (size_t)received_piece(request, i).many, received_piece(request, i).at, before);
    return untouched;
}

const char *end_loan(struct request *request) {
    if (request->loan == NULL) return NULL;
    const char *at = request->loan->bytes, *changed = NULL;
    for (int i = 0; i < pieces_sent(request); at += bytes_of(sent_piece(request, i++)))
        if (!has(sent_piece(request, i), at)) changed = "sends";
    if (!give_back(request, request->loan->bytes + request->loan->given) && changed == NULL) changed = "receives into";
    free(request->loan);
    request->loan = NULL;
    return changed;
}
