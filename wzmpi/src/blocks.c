/* What a member gives to a collective and gets from it, as pieces of the program's memory: the table of MPI 4.1, 6.2.2, with MPI_IN_PLACE, a count for each
   rank, intercommunicators and neighbours. */
#include "collectives.h"

static bool in_place(const void *buffer) { return buffer == MPI_IN_PLACE; }

bool is_rooted(enum function function) {
    return function == BCAST || (function >= GATHER && function <= SCATTERV) || function == REDUCE;
}

bool reduces(enum function function) { return function >= REDUCE && function <= EXSCAN; }

bool is_neighbor(enum function function) { return function >= NEIGHBOR_ALLGATHER && function <= NEIGHBOR_ALLTOALLW; }

/* In an intercommunicator the root says MPI_ROOT, and the others of its group MPI_PROC_NULL (MPI 4.1, 6.2.3). */
bool is_root(const struct request *request) {
    if (request->comm->first > 0) return request->arguments.root == MPI_ROOT;
    return request->arguments.root == request->member;
}

/* Whether this member's group is the one whose members give to the root, or get from it. */
static bool has_far_root(const struct request *request) { return request->comm->first > 0 && request->arguments.root >= 0; }

static const struct topology *topology_of(const struct request *request) { return request->comm->topologies[request->member]; }

static int far_size(const struct request *request) {
    int other;
    return far_group(request->comm, &other);
}

static struct piece piece_at(const void *buffer, long long elements_before, long long many, const struct type *type) {
    return (struct piece){ (char *)(uintptr_t)buffer + elements_before * type->extent, many, type };
}

/* ---- what is given */

long long total_count(const struct request *request) {
    const struct arguments *call = &request->arguments;
    int own, near = near_group(request->comm, &own);
    long long total = 0;
    if (call->function == REDUCE_SCATTER_BLOCK) return call->give_count * near;
    if (call->function != REDUCE_SCATTER) return call->give_count;
    for (int i = 0; i < near; i++) total += number_at(call->give_counts, i);
    return total;
}

/* In an intercommunicator; what goes to the other group. */
static int given_far(const struct request *request) {
    switch (request->arguments.function) {
    case BCAST: return is_root(request) ? 1 : 0;
    case SCATTER:
    case SCATTERV: return is_root(request) ? far_size(request) : 0;
    case GATHER:
    case GATHERV:
    case REDUCE: return has_far_root(request) ? 1 : 0;
    case ALLTOALL:
    case ALLTOALLV:
    case ALLTOALLW: return far_size(request);
    default: return 1;
    }
}

int given_many(const struct request *request) {
    enum function function = request->arguments.function;
    if (function == BARRIER || function == COMM_DUP) return 0;
    if (function > COMM_DUP) return 1;
    if (is_neighbor(function)) return function <= NEIGHBOR_ALLGATHERV ? 1 : topology_of(request)->out;
    if (request->comm->first > 0) return given_far(request);
    switch (function) {
    case BCAST: return is_root(request) ? 1 : 0;
    case SCATTER:
    case SCATTERV: return is_root(request) ? request->comm->size : 0;
    case ALLTOALL:
    case ALLTOALLV:
    case ALLTOALLW: return request->comm->size;
    default: return 1;
    }
}

/* A member whose call has MPI_IN_PLACE gives what lies in its receive buffer. */
static struct piece given_in_place(const struct request *request, int i) {
    const struct arguments *call = &request->arguments;
    switch (call->function) {
    case GATHER:
    case ALLGATHER: return piece_at(call->get, request->member * call->get_count, call->get_count, request->get_type);
    case GATHERV:
    case ALLGATHERV: return piece_at(call->get, number_at(call->get_places, request->member), number_at(call->get_counts, request->member), request->get_type);
    case ALLTOALL: return piece_at(call->get, i * call->get_count, call->get_count, request->get_type);
    case ALLTOALLV: return piece_at(call->get, number_at(call->get_places, i), number_at(call->get_counts, i), request->get_type);
    case ALLTOALLW: return (struct piece){ (char *)call->get + number_at(call->get_places, i), number_at(call->get_counts, i), request->types[i] };
    default: return piece_at(call->get, 0, total_count(request), request->give_type);
    }
}

struct piece given_piece(const struct request *request, int i) {
    const struct arguments *call = &request->arguments;
    if (in_place(call->give)) return given_in_place(request, i);
    switch (call->function) {
    case SCATTER:
    case ALLTOALL:
    case NEIGHBOR_ALLTOALL: return piece_at(call->give, i * call->give_count, call->give_count, request->give_type);
    case SCATTERV:
    case ALLTOALLV:
    case NEIGHBOR_ALLTOALLV: return piece_at(call->give, number_at(call->give_places, i), number_at(call->give_counts, i), request->give_type);
    case ALLTOALLW:
    case NEIGHBOR_ALLTOALLW:
        return (struct piece){ (char *)(uintptr_t)call->give + number_at(call->give_places, i), number_at(call->give_counts, i), request->types[i] };
    case REDUCE_SCATTER:
    case REDUCE_SCATTER_BLOCK: return piece_at(call->give, 0, total_count(request), request->give_type);
    default: return piece_at(call->give, 0, call->give_count, request->give_type);
    }
}

int given_to(const struct request *request, int i) {
    int other, function = request->arguments.function;
    far_group(request->comm, &other);
    if (is_neighbor(request->arguments.function)) return topology_of(request)->destinations[i];
    bool to_root = function == GATHER || function == GATHERV || function == REDUCE;
    return other + (to_root ? request->arguments.root : i);
}

/* ---- what is got */

static int got_far(const struct request *request) {
    switch (request->arguments.function) {
    case BCAST:
    case SCATTER:
    case SCATTERV: return has_far_root(request) ? 1 : 0;
    case GATHER:
    case GATHERV:
    case REDUCE: return is_root(request) ? far_size(request) : 0;
    default: return far_size(request);
    }
}

int got_many(const struct request *request) {
    enum function function = request->arguments.function;
    if (function == BARRIER || function >= COMM_DUP) return 0;
    if (is_neighbor(function)) return topology_of(request)->in;
    if (request->comm->first > 0) return got_far(request);
    switch (function) {
    case BCAST:
    case SCATTER:
    case SCATTERV: return 1;
    case GATHER:
    case GATHERV:
    case REDUCE: return is_root(request) ? request->comm->size : 0;
    case EXSCAN: return request->member;
    case SCAN: return request->member + 1;
    default: return request->comm->size;
    }
}

/* Of a reduction there is one piece, in which all that comes is combined. */
struct piece got_piece(const struct request *request, int i) {
    const struct arguments *call = &request->arguments;
    struct piece nothing = { NULL, 0, NULL };
    switch (call->function) {
    case BCAST: return is_root(request) ? nothing : piece_at(call->get, 0, call->give_count, request->give_type);
    case SCATTER:
    case SCATTERV: return in_place(call->get) ? nothing : piece_at(call->get, 0, call->get_count, request->get_type);
    case GATHER:
    case ALLGATHER:
    case ALLTOALL:
    case NEIGHBOR_ALLGATHER:
    case NEIGHBOR_ALLTOALL: return piece_at(call->get, i * call->get_count, call->get_count, request->get_type);
    case GATHERV:
    case ALLGATHERV:
    case ALLTOALLV:
    case NEIGHBOR_ALLGATHERV:
    case NEIGHBOR_ALLTOALLV: return piece_at(call->get, number_at(call->get_places, i), number_at(call->get_counts, i), request->get_type);
    case ALLTOALLW:
    case NEIGHBOR_ALLTOALLW:
        return (struct piece){ (char *)call->get + number_at(call->get_places, i), number_at(call->get_counts, i), request->types[given_many(request) + i] };
    case REDUCE_SCATTER: {
        int own;
        near_group(request->comm, &own);
        return piece_at(call->get, 0, number_at(call->give_counts, request->member - own), request->give_type);
    }
    default: return piece_at(call->get, 0, call->give_count, request->give_type);
    }
}

int got_from(const struct request *request, int i) {
    int other, function = request->arguments.function;
    far_group(request->comm, &other);
    if (is_neighbor(request->arguments.function)) return topology_of(request)->sources[i];
    bool from_root = function == BCAST || function == SCATTER || function == SCATTERV;
    return from_root && request->comm->first == 0 ? request->arguments.root : other + (from_root ? request->arguments.root : i);
}
