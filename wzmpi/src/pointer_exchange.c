/* Collectives that the engine doesn't carry out as they are: gatherv, scatterv, alltoallv and alltoallw; rows beyond the engine's limits; collectives of
   intercommunicators and of neighbours; reductions of other types, or by operations of the program. Each member puts what it gives into parcels, and the engine's
   collective moves the parcels' addresses. So the order of the calls, their agreement and who gets what are the engine's; the bytes, and what is computed of
   them, are not. */
#include "collectives.h"
#include "diagnostics.h"

struct parcel {
    atomic_int takers;
    uint8_t function;
    int slot; /* at the receiver, of a Cartesian topology's neighbours; -1: in the order of its parcels */
    int16_t basic;
    const char *name, *site;
    uint64_t elements, hash, operation;
    size_t bytes;
    struct parcel *next; /* to the same member */
    _Alignas(16) char data[];
};

static struct parcel *fill(struct request *request, struct piece piece, int takers) {
    size_t bytes = (size_t)piece.many * piece.type->size;
    request->given += bytes;
    struct signature signature = type_signature(piece.type, (uint64_t)piece.many);
    struct parcel *parcel = must(malloc(sizeof *parcel + bytes));
    *parcel = (struct parcel){ .takers = takers, .function = (uint8_t)request->arguments.function, .slot = -1, .basic = (int16_t)piece.type->basic, .name = request->name,
                               .site = request->started_at, .elements = signature.elements, .hash = signature.hash,
                               .operation = request->op != NULL ? request->op->identity : 0, .bytes = bytes };
    pack(piece.type, (size_t)piece.many, piece.at, parcel->data);
    return parcel;
}

static void take(struct parcel *parcel) {
    if (atomic_fetch_sub(&parcel->takers, 1) == 1) free(parcel);
}

/* ---- giving */

/* How many members get a parcel from this one, in a call that is carried as an alltoall. */
static int receivers(const struct request *request) {
    int other, function = request->arguments.function, given = given_many(request);
    if (is_neighbor(request->arguments.function)) return request->comm->topologies[request->member]->out;
    if (request->comm->first == 0 || given == 0 || function == GATHER || function == GATHERV || function == REDUCE) return given;
    return far_group(request->comm, &other);
}

static int give_to_each(struct request *request, uint64_t *parcels) {
    const struct topology *topology = is_neighbor(request->arguments.function) ? request->comm->topologies[request->member] : NULL;
    int many = receivers(request), pieces = given_many(request);
    memset(parcels, 0, sizeof *parcels * (size_t)request->comm->size);
    for (int i = 0; i < many; i++) {
        int to = given_to(request, i);
        if (to == MPI_PROC_NULL) continue;
        struct parcel *parcel = fill(request, given_piece(request, pieces == 1 ? 0 : i), 1);
        if (topology != NULL && topology->kind == MPI_CART) parcel->slot = i ^ 1; /* what goes up comes from below */
        struct parcel **link = (struct parcel **)&parcels[to];
        for (; *link != NULL; link = &(*link)->next) {}
        *link = parcel;
    }
    return request->comm->size;
}

int list_parcels(struct request *request, uint64_t parcels[MOST_RANKS]) {
    if (request->alltoall) return give_to_each(request, parcels);
    int many = given_many(request), takers = request->call.kind == WZ_BCAST || request->call.kind == WZ_ALLGATHER ? request->comm->size : 1;
    for (int i = 0; i < many; i++) parcels[i] = (uint64_t)fill(request, given_piece(request, i), takers);
    return many;
}

/* ---- getting */

static struct parcel **cells(const struct request *request) { return request->out; }

/* The parcel of piece I, which is taken out of its cell. */
static struct parcel *next_parcel(const struct request *request, int i) {
    if (!request->alltoall) return cells(request)[request->call.kind == WZ_BCAST || request->call.kind == WZ_SCATTER ? 0 : i];
    struct parcel **at = &cells(request)[got_from(request, i)];
    while (*at != NULL && (*at)->slot >= 0 && (*at)->slot != i) at = &(*at)->next;
    struct parcel *parcel = *at;
    if (parcel != NULL) *at = parcel->next;
    return parcel;
}

static const char *elements_text(uint64_t elements, int basic, char text[80]) {
    if (basic > 0) snprintf(text, 80, "%llu %s", (unsigned long long)elements, basic_type(basic)->name);
    else snprintf(text, 80, "%llu elements of several types", (unsigned long long)elements);
    return text;
}

/* What came has to be what is due there. */
static int judge_parcel(struct request *request, int from, const struct parcel *parcel, struct signature due, const struct type *type, const char *call) {
    int rank = request->comm->members[from].rank;
    char theirs[80], mine[80], where[200] = "";
    if (call != request->name) snprintf(where, sizeof where, "%s at %s: ", request->name, request->started_at);
    if (parcel->function != request->arguments.function) return refuse(request->comm, MPI_ERR_ARG, call, "%srank %d calls %s at %s", where, rank, parcel->name, parcel->site);
    if (request->op != NULL && parcel->operation != request->op->identity) return refuse(request->comm, MPI_ERR_OP, call, "%srank %d has another operation at %s", where, rank, parcel->site);
    if (parcel->elements == due.elements && (parcel->hash == due.hash || due.elements == 0)) return MPI_SUCCESS;
    int class = parcel->elements == due.elements ? MPI_ERR_TYPE : MPI_ERR_TRUNCATE;
    return refuse(request->comm, class, call, "%srank %d gives %s at %s, and %s are due from it", where, rank, elements_text(parcel->elements, parcel->basic, theirs), parcel->site,
                     elements_text(due.elements, type->basic, mine));
}

static int deliver(struct request *request, int i, const char *call) {
    struct piece piece = got_piece(request, i);
    int from = got_from(request, i), code = MPI_SUCCESS;
    if (from == MPI_PROC_NULL) return code;
    struct parcel *parcel = next_parcel(request, i);
    if (parcel == NULL) return refuse(request->comm, MPI_ERR_ARG, call, "rank %d gives nothing to this rank", request->comm->members[from].rank);
    if (piece.type != NULL) code = judge_parcel(request, from, parcel, type_signature(piece.type, (uint64_t)piece.many), piece.type, call);
    request->got += parcel->bytes;
    if (piece.type != NULL && code == MPI_SUCCESS) unpack(piece.type, (size_t)piece.many, piece.at, parcel->data);
    take(parcel);
    return code;
}

/* ---- reductions */

/* A row of elements as C has them, in memory that begins at its first byte. */
struct row {
    char *memory, *at;
};

static struct row new_row(const struct type *type, long long many) {
    MPI_Aint across = many > 0 ? (MPI_Aint)(many - 1) * type->extent : 0;
    MPI_Aint low = type->true_low + (across < 0 ? across : 0), high = type->true_low + type->true_extent + (across > 0 ? across : 0);
    char *memory = must(calloc(1, (size_t)(high - low) + 64));
    return (struct row){ memory, memory - low };
}

/* parcels[0] op (parcels[1] op (.. op parcels[many - 1])), of the elements from FIRST on: in the order of the members, so operations needn't commute. */
static void combine(struct request *request, struct parcel **parcels, int many, long long first, struct piece into) {
    const struct type *type = into.type;
    struct row more = new_row(type, into.many), row = new_row(type, into.many);
    size_t skipped = (size_t)first * type->size;
    unpack(type, (size_t)into.many, more.at, parcels[many - 1]->data + skipped);
    for (int i = many - 1; i-- > 0;) {
        unpack(type, (size_t)into.many, row.at, parcels[i]->data + skipped);
        compute(request->op, request->arguments.give_type, type, into.many, row.at, more.at);
    }
    char *packed = must(malloc((size_t)into.many * type->size + 1));
    pack(type, (size_t)into.many, more.at, packed);
    unpack(type, (size_t)into.many, into.at, packed);
    free(packed);
    free(row.memory);
    free(more.memory);
}

/* The element of a member's row at which this member's part begins. */
static long long first_element(const struct request *request) {
    int own;
    near_group(request->comm, &own);
    if (request->arguments.function == REDUCE_SCATTER_BLOCK) return (request->member - own) * request->arguments.give_count;
    long long first = 0;
    for (int i = 0; request->arguments.function == REDUCE_SCATTER && i < request->member - own; i++) first += number_at(request->arguments.give_counts, i);
    return first;
}

static int open_reduction(struct request *request, const char *call) {
    int many = got_many(request), code = MPI_SUCCESS;
    struct parcel *parcels[MOST_RANKS];
    struct signature due = request->op != NULL ? type_signature(request->give_type, (uint64_t)total_count(request)) : (struct signature){ 0, 0, 0 };
    for (int i = 0; i < many; i++) {
        parcels[i] = next_parcel(request, i);
        if (code == MPI_SUCCESS) code = judge_parcel(request, got_from(request, i), parcels[i], due, request->give_type, call);
    }
    if (many > 0) request->got += (size_t)got_piece(request, 0).many * request->give_type->size;
    if (many > 0 && code == MPI_SUCCESS) combine(request, parcels, many, first_element(request), got_piece(request, 0));
    for (int i = 0; i < many; i++) take(parcels[i]);
    /* a scan's later parcels come too */
    for (int i = many; request->call.kind == WZ_ALLGATHER && i < request->comm->size; i++) take(cells(request)[i]);
    return code;
}

int open_parcels(struct request *request, const char *call) {
    int many = got_many(request), code = MPI_SUCCESS;
    if (request->arguments.function > COMM_DUP) {
        request->has_parcels = true;
        return code;
    }
    if (reduces(request->arguments.function)) return open_reduction(request, call);
    for (int i = 0; i < many; i++) {
        int one = deliver(request, i, call);
        if (one != MPI_SUCCESS) code = one;
    }
    return code;
}

/* ---- exchanges */

const void *parcel_bytes(struct request *request, int member, size_t *length) {
    struct parcel *parcel = cells(request)[member];
    *length = parcel->bytes;
    return parcel->data;
}

void take_parcels(struct request *request) {
    for (int i = 0; i < request->comm->size; i++) take(cells(request)[i]);
}
