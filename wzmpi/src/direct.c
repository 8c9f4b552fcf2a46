/* Collectives that the engine carries out as they are: what is given as bytes without gaps, and where the outcome goes. */
#include "collectives.h"

#include "diagnostics.h"

/* A direct reduction gives and gets one piece. */
static int pieces_got(const struct request *request) {
    enum function function = request->arguments.function;
    if (function == REDUCE) return is_root(request) ? 1 : 0;
    if (function == EXSCAN) return request->member > 0 ? 1 : 0;
    return reduces(function) ? 1 : got_many(request);
}

static bool follows(struct piece one, struct piece next) {
    return one.type != NULL && next.type != NULL && one.type->dense && next.type->dense && one.at + (size_t)one.many * one.type->size == next.at;
}

static size_t bytes_of(struct piece piece) { return piece.type != NULL ? (size_t)piece.many * piece.type->size : 0; }

const void *given_bytes(struct request *request, void **packed, size_t *length) {
    int many = given_many(request);
    *packed = NULL;
    *length = 0;
    if (many == 0) return NULL;
    struct piece first = given_piece(request, 0), last = first;
    bool together = first.type->dense;
    *length = bytes_of(first);
    for (int i = 1; i < many; i++) {
        struct piece piece = given_piece(request, i);
        together = together && follows(last, piece);
        *length += bytes_of(piece);
        last = piece;
    }
    if (together || *length == 0) return first.at;
    char *to = *packed = must(malloc(*length));
    for (int i = 0; i < many; i++) {
        struct piece piece = given_piece(request, i);
        pack(piece.type, (size_t)piece.many, piece.at, to);
        to += bytes_of(piece);
    }
    return *packed;
}

size_t outcome_bytes(const struct request *request) {
    const wz_call *call = &request->call;
    size_t elements = wz_blocks_got(call->kind, (uint32_t)request->member, call->root, (size_t)request->comm->size) * call->count;
    if (call->kind == WZ_ALLGATHERV)
        for (int i = 0; i < request->comm->size; i++) elements += request->counts[i];
    return elements * engine_width(call->type);
}

void *outcome_place(struct request *request) {
    int many = pieces_got(request);
    if (request->arguments.function == REDUCE_SCATTER || many == 0) return NULL;
    struct piece first = got_piece(request, 0), last = first;
    bool together = first.type != NULL && first.type->dense;
    for (int i = 1; i < many && together; i++) {
        struct piece piece = got_piece(request, i);
        together = follows(last, piece);
        last = piece;
    }
    return together ? first.at : NULL;
}

/* From scratch memory to its places. */
void put_outcome(struct request *request) {
    const char *from = request->out;
    int many = pieces_got(request);
    if (request->arguments.function == REDUCE_SCATTER)
        for (int i = 0; i < request->member; i++) from += (size_t)number_at(request->arguments.give_counts, i) * request->give_type->size;
    for (int i = 0; i < many; i++) {
        struct piece piece = got_piece(request, i);
        if (piece.type == NULL) continue;
        unpack(piece.type, (size_t)piece.many, piece.at, from);
        from += bytes_of(piece);
    }
}
