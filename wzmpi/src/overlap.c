/* Buffers that overlap: MPI doesn't allow that a call writes to memory which it, or another call that isn't completed, uses too (MPI 4.1, 2.3, 3.7.2, 6.12). */
#include "overlap.h"

#include "diagnostics.h"
#include "loans.h"

enum { MOST_SPANS = 100000 }; /* a piece of more isn't looked at byte by byte */

/* Bytes from BEGIN to END. */
struct span {
    uintptr_t begin, end;
};

/* ---- a piece's bytes */

static struct span bounds(struct piece piece) {
    MPI_Aint across = (MPI_Aint)(piece.many - 1) * piece.type->extent;
    uintptr_t at = (uintptr_t)piece.at + (uintptr_t)piece.type->true_low;
    uintptr_t low = at + (uintptr_t)(across < 0 ? across : 0), high = at + (uintptr_t)(across > 0 ? across : 0) + (uintptr_t)piece.type->true_extent;
    return (struct span){ low, high };
}

static bool is_empty(struct piece piece) { return piece.type == NULL || piece.many <= 0 || piece.type->size == 0; }

static int in_order(const void *one, const void *other) {
    const struct span *a = one, *b = other;
    return a->begin < b->begin ? -1 : a->begin > b->begin;
}

/* All spans of a piece, in order. NULL: there are too many. */
static struct span *spans_of(struct piece piece, size_t *many) {
    size_t runs = piece.type->many;
    *many = 0;
    if ((size_t)piece.many > MOST_SPANS / (runs > 0 ? runs : 1)) return NULL;
    struct span *spans = must(malloc(sizeof *spans * ((size_t)piece.many * runs + 1)));
    for (long long i = 0; i < piece.many; i++)
        for (size_t j = 0; j < runs; j++) {
            const struct run_of *run = &piece.type->runs[j];
            uintptr_t at = (uintptr_t)piece.at + (uintptr_t)((MPI_Aint)i * piece.type->extent + run->at);
            spans[(*many)++] = (struct span){ at, at + basic_type(run->basic)->size * run->many };
        }
    qsort(spans, *many, sizeof *spans, in_order);
    return spans;
}

static bool spans_meet(const struct span *one, size_t ones, const struct span *other, size_t others) {
    for (size_t i = 0, j = 0; i < ones && j < others;) {
        if (one[i].begin < other[j].end && other[j].begin < one[i].end) return true;
        if (one[i].end <= other[j].end) i++;
        else j++;
    }
    return false;
}

bool pieces_overlap(struct piece one, struct piece other) {
    if (is_empty(one) || is_empty(other)) return false;
    struct span a = bounds(one), b = bounds(other);
    if (a.begin >= b.end || b.begin >= a.end) return false;
    if (one.type->dense && other.type->dense) return true;
    size_t ones, others = 0;
    struct span *first = spans_of(one, &ones), *second = first != NULL ? spans_of(other, &others) : NULL;
    bool meet = first != NULL && second != NULL && spans_meet(first, ones, second, others);
    free(first);
    free(second);
    return meet;
}

bool type_overlaps(const struct type *type, MPI_Count many) {
    struct piece piece = { NULL, many, type };
    if (is_empty(piece) || type->dense) return false;
    piece.at += type->true_extent + 4096; /* so that no address is below 0 */
    size_t spans;
    struct span *all = spans_of(piece, &spans);
    bool overlaps = false;
    for (size_t i = 1; all != NULL && i < spans && !overlaps; i++) overlaps = all[i].begin < all[i - 1].end;
    free(all);
    return overlaps;
}

/* ---- of calls */

/* Whether some piece of one list overlaps one of another. */
static bool lists_overlap(const struct request *one, bool gets, const struct request *other, bool other_gets) {
    int ones = gets ? pieces_received(one) : pieces_sent(one), others = other_gets ? pieces_received(other) : pieces_sent(other);
    for (int i = 0; i < ones; i++)
        for (int j = 0; j < others; j++)
            if (pieces_overlap(gets ? received_piece(one, i) : sent_piece(one, i), other_gets ? received_piece(other, j) : sent_piece(other, j))) return true;
    return false;
}

int judge_pending(const struct request *request, const char *call) {
    const struct table *table = &current_rank->tables[REQUEST];
    if (!the_run.checks) return MPI_SUCCESS;
    for (uint32_t i = 0; i < table->many; i++) {
        const struct request *other = table->objects[i];
        if (other == NULL || other == request || !other->active || other->sort > RECEIVING || (other->sort == COLLECTIVE && other->arguments.form == BLOCKING)) continue;
        const char *mine = "receives into", *its = "receives into";
        if (!lists_overlap(request, true, other, true)) {
            its = "sends";
            if (!lists_overlap(request, true, other, false)) mine = lists_overlap(request, false, other, true) ? "sends" : NULL;
            if (mine != NULL && strcmp(mine, "sends") == 0) its = "receives into";
        }
        if (mine == NULL) continue;
        return refuse(request->comm, MPI_ERR_BUFFER, call, "it %s memory that %s at %s %s, which isn't completed", mine, other->name, other->started_at, its);
    }
    return MPI_SUCCESS;
}

int judge_received(const struct request *request, const char *call) {
    if (!the_run.strict) return MPI_SUCCESS;
    int many = pieces_received(request);
    for (int i = 0; i < many; i++) {
        struct piece piece = received_piece(request, i);
        if (!is_empty(piece) && type_overlaps(piece.type, piece.many)) return refuse(request->comm, MPI_ERR_TYPE, call, "the type that it receives overlaps itself, so a place would be written to twice");
        for (int j = 0; j < i; j++)
            if (pieces_overlap(piece, received_piece(request, j)))
                return refuse(request->comm, MPI_ERR_BUFFER, call, "what it receives from rank %d overlaps what it receives from rank %d", got_from(request, i), got_from(request, j));
    }
    return MPI_SUCCESS;
}
