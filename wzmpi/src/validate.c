/* Looks at a collective's arguments, as MPI 4.1, 6 has them, and finds which collective of the engine carries it out. */
#include "collectives.h"
#include "diagnostics.h"

/* A call that is looked at. */
struct judging {
    struct request *request;
    struct comm *comm;
    const struct arguments *call;
    enum function function;
    bool inter, root;
    bool gives, gets; /* whether what it gives, and gets, is said by arguments of its own, and not by MPI_IN_PLACE */
};

#define REFUSE(class, ...) return refuse(judging->comm, class, judging->request->name, __VA_ARGS__)

static bool in_place(const void *buffer) { return buffer == MPI_IN_PLACE; }

/* ---- the root */

static int judge_root(struct judging *judging) {
    int other, far = far_group(judging->comm, &other), root = judging->call->root;
    if (!is_rooted(judging->function)) return MPI_SUCCESS;
    if (judging->inter && (root == MPI_ROOT || root == MPI_PROC_NULL)) return MPI_SUCCESS;
    if (root < 0 || root >= far) REFUSE(MPI_ERR_ROOT, "the root %d is no rank of the %s, which has %d", root, judging->inter ? "remote group" : "communicator", far);
    return MPI_SUCCESS;
}

/* ---- MPI_IN_PLACE */

static bool takes_place_of_given(const struct judging *judging) {
    if (judging->inter || judging->function == BCAST || judging->function == SCATTER || judging->function == SCATTERV || is_neighbor(judging->function)) return false;
    if (judging->function == GATHER || judging->function == GATHERV || judging->function == REDUCE) return judging->root;
    return true;
}

static int judge_in_place(struct judging *judging) {
    if (in_place(judging->call->give) && !takes_place_of_given(judging)) {
        if (judging->inter) REFUSE(MPI_ERR_BUFFER, "MPI_IN_PLACE isn't for an intercommunicator");
        if (judging->function == GATHER || judging->function == GATHERV || judging->function == REDUCE) REFUSE(MPI_ERR_BUFFER, "MPI_IN_PLACE as the send buffer is for the root alone");
        if (judging->function != SCATTER && judging->function != SCATTERV) REFUSE(MPI_ERR_BUFFER, "MPI_IN_PLACE isn't for this buffer");
        if (judging->root) REFUSE(MPI_ERR_BUFFER, "MPI_IN_PLACE is for the receive buffer of a scatter's root");
    }
    if (!in_place(judging->call->get)) return MPI_SUCCESS;
    bool scatter = judging->function == SCATTER || judging->function == SCATTERV;
    if (scatter && judging->root && !judging->inter) return MPI_SUCCESS;
    if (scatter) REFUSE(MPI_ERR_BUFFER, "MPI_IN_PLACE as the receive buffer is for the root alone");
    bool significant = judging->function == GATHER || judging->function == GATHERV || judging->function == REDUCE ? judging->root : true;
    if (significant) REFUSE(MPI_ERR_BUFFER, "MPI_IN_PLACE isn't for the receive buffer");
    return MPI_SUCCESS;
}

/* Which arguments are significant at this member. */
static void find_significant(struct judging *judging) {
    bool far_root = judging->inter && judging->call->root >= 0;
    switch (judging->function) {
    case BARRIER:
    case COMM_DUP: break;
    case COMM_SPLIT:
    case COMM_CREATE:
    case EXCHANGE: judging->gives = true; break;
    case BCAST: judging->gives = !judging->inter || judging->root || far_root; break;
    case GATHER:
    case GATHERV:
        judging->gives = judging->inter ? far_root : !in_place(judging->call->give);
        judging->gets = judging->root;
        break;
    case SCATTER:
    case SCATTERV:
        judging->gives = judging->root;
        judging->gets = judging->inter ? far_root : !in_place(judging->call->get);
        break;
    case REDUCE: judging->gives = !judging->inter || judging->root || far_root; break;
    default:
        judging->gives = reduces(judging->function) || !in_place(judging->call->give);
        judging->gets = !reduces(judging->function);
    }
}

/* ---- types */

static int judge_type(struct judging *judging, MPI_Datatype handle, const struct type **type) {
    struct type *found = find_type(handle);
    if (found == NULL && handle == MPI_DATATYPE_NULL) REFUSE(MPI_ERR_TYPE, "the type is MPI_DATATYPE_NULL");
    if (found == NULL) REFUSE(MPI_ERR_TYPE, was_type(handle) ? "the type was freed" : "there is no such type");
    if (!found->committed) REFUSE(MPI_ERR_TYPE, "the type isn't committed");
    type_use(found);
    *type = found;
    return MPI_SUCCESS;
}

static bool has_many_types(enum function function) { return function == ALLTOALLW || function == NEIGHBOR_ALLTOALLW; }

/* An alltoallw's types: those of what it gives, then those of what it gets. */
static int judge_many_types(struct judging *judging) {
    struct request *request = judging->request;
    int gives = given_many(request), gets = got_many(request);
    bool lacks = (judging->gives && gives > 0 && judging->call->give_types == NULL) || (gets > 0 && judging->call->get_types == NULL);
    if (lacks) REFUSE(MPI_ERR_TYPE, "the array of types is null");
    request->types = must(calloc((size_t)(gives + gets) + 1, sizeof *request->types));
    for (int i = 0; i < gives + gets; i++) {
        MPI_Datatype handle = i >= gives ? judging->call->get_types[i - gives] : judging->gives ? judging->call->give_types[i] : judging->call->get_types[i];
        int code = judge_type(judging, handle, &request->types[i]);
        if (code != MPI_SUCCESS) return code;
    }
    return MPI_SUCCESS;
}

static int judge_types(struct judging *judging) {
    int code = MPI_SUCCESS;
    if (has_many_types(judging->function)) return judge_many_types(judging);
    if (judging->gives) code = judge_type(judging, judging->call->give_type, &judging->request->give_type);
    if (code == MPI_SUCCESS && judging->gets) code = judge_type(judging, judging->call->get_type, &judging->request->get_type);
    return code;
}

/* ---- counts for each rank */

static bool gives_by_counts(enum function function) {
    return function == SCATTERV || function == ALLTOALLV || function == ALLTOALLW || function == REDUCE_SCATTER || function == NEIGHBOR_ALLTOALLV || function == NEIGHBOR_ALLTOALLW;
}

static bool gets_by_counts(enum function function) {
    return function == GATHERV || function == ALLGATHERV || function == ALLTOALLV || function == ALLTOALLW || function == NEIGHBOR_ALLGATHERV || function == NEIGHBOR_ALLTOALLV ||
           function == NEIGHBOR_ALLTOALLW;
}

/* Of what is given, or got: what the program says of it. A type where all have one. */
struct each {
    const char *what;
    struct numbers counts, places;
    int many;
    const void *buffer;
    const struct type *type;
};

static int judge_each(struct judging *judging, const struct each *each) {
    long long all = 0;
    if (each->many == 0) return MPI_SUCCESS;
    if (each->counts.at == NULL) REFUSE(MPI_ERR_COUNT, "the array of the counts that it %s is null", each->what);
    for (int i = 0; i < each->many; i++) {
        long long count = number_at(each->counts, i);
        if (count < 0) REFUSE(MPI_ERR_COUNT, "the count %lld for rank %d is negative", count, i);
        all += count;
    }
    if (judging->function == REDUCE_SCATTER) return MPI_SUCCESS;
    if (each->places.at == NULL) REFUSE(MPI_ERR_ARG, "the array of the displacements of what it %s is null", each->what);
    if (each->buffer == NULL && all > 0 && each->type != NULL && each->type->predefined) REFUSE(MPI_ERR_BUFFER, "the buffer of what it %s is null", each->what);
    return MPI_SUCCESS;
}

/* A nonblocking call's counts and places are copied: the program may give up its arrays though MPI says it has to keep them. */
static void own_numbers(struct numbers *numbers, int many, long long **at) {
    if (numbers->at == NULL) return;
    for (int i = 0; i < many; i++) (*at)[i] = number_at(*numbers, i);
    *numbers = (struct numbers){ *at, true };
    *at += many;
}

static int judge_numbers(struct judging *judging) {
    struct arguments *call = &judging->request->arguments;
    int own, far = is_neighbor(judging->function) ? given_many(judging->request) : far_group(judging->comm, &own), near = judging->function == REDUCE_SCATTER ? near_group(judging->comm, &own) : far;
    int got = is_neighbor(judging->function) ? got_many(judging->request) : far;
    if (!judging->gives) call->give_counts.at = call->give_places.at = NULL;
    if (!judging->gets) call->get_counts.at = call->get_places.at = NULL;
    if (is_neighbor(judging->function) && judging->function <= NEIGHBOR_ALLGATHERV) near = 0;
    int code = MPI_SUCCESS;
    if (judging->gives && gives_by_counts(judging->function)) code = judge_each(judging, &(struct each){ "sends", call->give_counts, call->give_places, near, call->give, judging->request->give_type });
    if (code == MPI_SUCCESS && judging->gets && gets_by_counts(judging->function))
        code = judge_each(judging, &(struct each){ "receives", call->get_counts, call->get_places, got, call->get, judging->request->get_type });
    if (code != MPI_SUCCESS || call->form == BLOCKING) return code;
    size_t all = 2 * (size_t)near + 2 * (size_t)got;
    long long *at = judging->request->own_numbers = must(malloc(sizeof *at * (all + 1)));
    own_numbers(&call->give_counts, near, &at);
    own_numbers(&call->give_places, near, &at);
    own_numbers(&call->get_counts, got, &at);
    own_numbers(&call->get_places, got, &at);
    return code;
}

/* ---- buffers */

static const char *type_text(const struct type *type) { return type->name != NULL ? type->name : "elements of a type of the program"; }

static int judge_buffer(struct judging *judging, const void *buffer, long long many, const struct type *type, const char *what) {
    if (many < 0) REFUSE(MPI_ERR_COUNT, "the count %lld is negative", many);
    if (buffer == NULL && many > 0 && type->predefined) REFUSE(MPI_ERR_BUFFER, "the %s%sbuffer is null", what, what[0] != '\0' ? " " : "");
    return MPI_SUCCESS;
}

/* Pieces that lie one after the other, as memory. */
static int judge_overlap(struct judging *judging, struct piece given, int gives, struct piece got, int gets) {
    if (given.type == NULL || got.type == NULL || !given.type->dense || !got.type->dense) return MPI_SUCCESS;
    uintptr_t a = (uintptr_t)given.at, b = (uintptr_t)got.at;
    size_t length = (size_t)given.many * given.type->size * (size_t)gives, room = (size_t)got.many * got.type->size * (size_t)gets;
    if (length == 0 || room == 0 || a >= b + room || b >= a + length) return MPI_SUCCESS;
    if (a == b) REFUSE(MPI_ERR_BUFFER, "the send and the receive buffer are the same memory, for which MPI has MPI_IN_PLACE");
    REFUSE(MPI_ERR_BUFFER, "the send and the receive buffer overlap");
}

/* What a member gives to each, and gets from each, has to be alike. */
static int judge_alike(struct judging *judging, long long gives, const struct type *given, long long gets, const struct type *got) {
    struct signature one = type_signature(given, (uint64_t)gives), two = type_signature(got, (uint64_t)gets);
    long long bytes = gives * (long long)given->size, room = gets * (long long)got->size;
    if (bytes != room) REFUSE(MPI_ERR_TRUNCATE, "it sends %lld %s, %lld bytes, to each, and receives %lld %s, %lld bytes, from each", gives, type_text(given), bytes, gets, type_text(got), room);
    if (one.elements != two.elements || one.hash != two.hash) REFUSE(MPI_ERR_TYPE, "it sends %lld %s to each, and receives %lld %s from each", gives, type_text(given), gets, type_text(got));
    return MPI_SUCCESS;
}

static int judge_moved(struct judging *judging) {
    const struct arguments *call = judging->call;
    struct request *request = judging->request;
    bool counts = gives_by_counts(judging->function) || gets_by_counts(judging->function), gives_counts = counts && call->give_counts.at != NULL, gets_counts = counts && call->get_counts.at != NULL;
    int code = MPI_SUCCESS;
    if (has_many_types(judging->function)) return code;
    if (judging->gives && !gives_counts) code = judge_buffer(judging, call->give, call->give_count, request->give_type, judging->function == BCAST ? "" : "send");
    if (code == MPI_SUCCESS && judging->gets && !gets_counts) code = judge_buffer(judging, call->get, call->get_count, request->get_type, "receive");
    if (code != MPI_SUCCESS || !judging->gives || !judging->gets || judging->inter || is_neighbor(judging->function)) return code;
    if (judging->function == GATHERV || judging->function == ALLGATHERV)
        return judge_alike(judging, call->give_count, request->give_type, number_at(call->get_counts, request->member), request->get_type);
    if (judging->function == SCATTERV) return judge_alike(judging, number_at(call->give_counts, request->member), request->give_type, call->get_count, request->get_type);
    if (counts) return code;
    code = judge_alike(judging, call->give_count, request->give_type, call->get_count, request->get_type);
    if (code != MPI_SUCCESS) return code;
    return judge_overlap(judging, given_piece(request, 0), given_many(request), got_piece(request, 0), got_many(request));
}

/* ---- operations */

static int judge_reduction(struct judging *judging) {
    struct request *request = judging->request;
    const struct arguments *call = judging->call;
    struct op *op = find_op(call->operation);
    if (!judging->gives) return MPI_SUCCESS;
    if (op == NULL && call->operation == MPI_OP_NULL) REFUSE(MPI_ERR_OP, "the operation is MPI_OP_NULL");
    if (op == NULL) REFUSE(MPI_ERR_OP, was_freed(OP, call->operation) ? "the operation was freed" : "there is no such operation");
    if (!op_takes(op, request->give_type)) REFUSE(MPI_ERR_OP, "%s isn't for %s", op->name, type_text(request->give_type));
    if (op->number == 0) op->uses++;
    request->op = op;
    long long many = total_count(request);
    bool result = judging->function == EXSCAN ? request->member > 0 : judging->function != REDUCE || judging->root, here = in_place(call->give);
    int code = MPI_SUCCESS;
    if (call->give_count < 0) REFUSE(MPI_ERR_COUNT, "the count %lld is negative", call->give_count);
    if (!here && !(judging->inter && judging->root)) code = judge_buffer(judging, call->give, many, request->give_type, "send");
    if (code == MPI_SUCCESS && (result || here)) code = judge_buffer(judging, call->get, got_piece(request, 0).many, request->give_type, "receive");
    if (code != MPI_SUCCESS || here || !result || judging->inter) return code;
    return judge_overlap(judging, given_piece(request, 0), 1, got_piece(request, 0), 1);
}

/* ---- which collective of the engine it is */

static void carry(struct judging *judging) {
    static const uint8_t kinds[COLLECTIVES] = {
        [BCAST] = WZ_BCAST, [GATHER] = WZ_GATHER, [GATHERV] = WZ_GATHER, [SCATTER] = WZ_SCATTER, [SCATTERV] = WZ_SCATTER, [ALLGATHER] = WZ_ALLGATHER,
        [ALLGATHERV] = WZ_ALLGATHER, [ALLTOALL] = WZ_ALLTOALL, [ALLTOALLV] = WZ_ALLTOALL, [ALLTOALLW] = WZ_ALLTOALL, [REDUCE] = WZ_GATHER,
        [ALLREDUCE] = WZ_ALLGATHER, [REDUCE_SCATTER] = WZ_ALLGATHER, [REDUCE_SCATTER_BLOCK] = WZ_ALLGATHER, [SCAN] = WZ_ALLGATHER, [EXSCAN] = WZ_ALLGATHER,
        [COMM_SPLIT] = WZ_ALLGATHER, [COMM_CREATE] = WZ_ALLGATHER, [EXCHANGE] = WZ_ALLGATHER,
    };
    struct request *request = judging->request;
    bool across = (judging->inter && judging->function < COMM_DUP) || is_neighbor(judging->function);
    request->direct = false;
    request->alltoall = across || kinds[judging->function] == WZ_ALLTOALL;
    request->text_type = WZ_BYTE;
    /* No direct collective that moves has this type, so the engine takes the two for different calls. */
    request->call = (wz_call){ across ? WZ_ALLTOALL : kinds[judging->function], WZ_NO_OPERATION, WZ_2INT, request->call.root, 1 };
}

/* The elements of each block, and the blocks of the member that has the most. */
static void move_directly(struct judging *judging, uint8_t kind, const struct type *type, long long many, int blocks) {
    struct request *request = judging->request;
    int engine = type->basic > 0 ? basic_type(type->basic)->engine : -1;
    long long bytes = many * (long long)type->size, elements = engine >= 0 ? many * (long long)type->signature.elements : bytes;
    if (bytes == 0 || engine < 0) engine = WZ_BYTE;
    if (elements > MOST_COUNT || bytes > MOST_BYTES / blocks) {
        carry(judging);
        return;
    }
    request->text_type = (uint8_t)engine;
    request->call = (wz_call){ kind, WZ_NO_OPERATION, engine == WZ_2INT ? WZ_UINT64 : (uint8_t)engine, request->call.root, (uint32_t)elements };
}

static void compute_directly(struct judging *judging) {
    static const uint8_t kinds[COLLECTIVES] = { [REDUCE] = WZ_REDUCE, [ALLREDUCE] = WZ_ALLREDUCE, [REDUCE_SCATTER] = WZ_ALLREDUCE,
                                                [REDUCE_SCATTER_BLOCK] = WZ_REDUCE_SCATTER_BLOCK, [SCAN] = WZ_SCAN, [EXSCAN] = WZ_EXSCAN };
    struct request *request = judging->request;
    const struct type *type = request->give_type;
    const struct basic *basic = basic_type(type->basic);
    long long total = total_count(request), many = judging->function == REDUCE_SCATTER_BLOCK ? judging->call->give_count : total;
    bool whole = basic->class == SIGNED || basic->class == UNSIGNED || basic->class == BITS || basic->class == CHARACTER || basic->class == TRUTH;
    bool computes = request->op->number > 0 && engine_op(request->op) >= 0 && (whole || basic->engine == WZ_2INT) && basic->engine >= 0;
    if (!computes || many > MOST_COUNT || total > MOST_BYTES / (long long)type->size) {
        carry(judging);
        return;
    }
    request->text_type = (uint8_t)basic->engine;
    request->call = (wz_call){ kinds[judging->function], (uint8_t)engine_op(request->op), (uint8_t)basic->engine, request->call.root, (uint32_t)many };
}

static void gather_counts_directly(struct judging *judging) {
    struct request *request = judging->request;
    const struct type *type = request->get_type;
    int engine = type->basic > 0 ? basic_type(type->basic)->engine : -1, size = judging->comm->size;
    long long width = engine >= 0 ? (long long)type->signature.elements : (long long)type->size, most = 0, all = 0;
    for (int i = 0; i < size; i++) {
        long long many = number_at(judging->call->get_counts, i);
        all += many * (long long)type->size;
        if (many * width > most) most = many * width;
    }
    if (most > MOST_COUNT || all > MOST_BYTES) {
        carry(judging);
        return;
    }
    if (all == 0) engine = -1; /* no elements have no type that could differ */
    request->counts = must(malloc(sizeof *request->counts * (size_t)size));
    for (int i = 0; i < size; i++) request->counts[i] = (uint32_t)(number_at(judging->call->get_counts, i) * width);
    request->text_type = engine >= 0 ? (uint8_t)engine : WZ_BYTE;
    request->call = (wz_call){ WZ_ALLGATHERV, WZ_NO_OPERATION, engine == WZ_2INT ? WZ_UINT64 : request->text_type, 0, 0 };
}

static void choose(struct judging *judging) {
    struct request *request = judging->request;
    const struct arguments *call = judging->call;
    int size = judging->comm->size;
    if (judging->function == BARRIER || judging->function == COMM_DUP) return;
    if (judging->inter || judging->function >= NEIGHBOR_ALLGATHER) carry(judging);
    else if (reduces(judging->function)) compute_directly(judging);
    else switch (judging->function) {
        case BCAST: move_directly(judging, WZ_BCAST, request->give_type, call->give_count, 1); break;
        case GATHER: move_directly(judging, WZ_GATHER, judging->gives ? request->give_type : request->get_type, judging->gives ? call->give_count : call->get_count, size); break;
        case SCATTER: move_directly(judging, WZ_SCATTER, judging->gets ? request->get_type : request->give_type, judging->gets ? call->get_count : call->give_count, size); break;
        case ALLGATHER: move_directly(judging, WZ_ALLGATHER, request->get_type, call->get_count, size); break;
        case ALLTOALL: move_directly(judging, WZ_ALLTOALL, request->get_type, call->get_count, size); break;
        case ALLGATHERV: gather_counts_directly(judging); break;
        default: carry(judging);
        }
}

/* ---- what others compare their calls with */

static uint64_t counts_word(struct numbers counts, int many, const struct type *type) {
    uint64_t word = 1;
    for (int i = 0; i < many; i++) word = word * 0x9e3779b97f4a7c15u + type_signature(type, (uint64_t)number_at(counts, i)).hash + (uint64_t)number_at(counts, i) * type->size;
    return word;
}

static void write_block(struct called *called, const struct type *type, long long many) {
    struct signature signature = type_signature(type, (uint64_t)many);
    called->elements = signature.elements;
    called->signature = signature.hash;
    called->basic = (int16_t)(signature.elements > 0 ? type->basic : -1);
    called->structure = called->basic == 0 ? structure_of(type) : NULL;
}

/* MPI_IN_PLACE has to stand at all members (MPI 4.1, 6.7, 6.8 and 6.9.6). */
static bool is_in_place_for_all(enum function function) {
    return function == ALLGATHER || function == ALLGATHERV || function == ALLTOALL || function == ALLTOALLV || function == ALLTOALLW || function == ALLREDUCE;
}

static void write_called(struct judging *judging, struct called *called) {
    const struct arguments *call = judging->call;
    const struct request *request = judging->request;
    *called = (struct called){ .function = (uint8_t)judging->function, .form = (uint8_t)call->form, .basic = -1, .root = -1, .name = request->name, .site = request->site };
    if (judging->inter || judging->function >= NEIGHBOR_ALLGATHER) return;
    if (the_run.strict && in_place(call->give) && is_in_place_for_all(judging->function)) called->form |= IN_PLACE_FORM;
    if (is_rooted(judging->function)) called->root = call->root;
    if (request->op != NULL) {
        called->operation = request->op->identity;
        called->operation_name = request->op->name;
    }
    switch (judging->function) {
    case BCAST: write_block(called, request->give_type, call->give_count); break;
    case GATHER: write_block(called, judging->gives ? request->give_type : request->get_type, judging->gives ? call->give_count : call->get_count); break;
    case SCATTER: write_block(called, judging->gets ? request->get_type : request->give_type, judging->gets ? call->get_count : call->give_count); break;
    case ALLGATHER:
    case ALLTOALL: write_block(called, request->get_type, call->get_count); break;
    case ALLGATHERV: called->counts = counts_word(call->get_counts, judging->comm->size, request->get_type); break;
    case REDUCE_SCATTER:
        called->counts = counts_word(call->give_counts, judging->comm->size, request->give_type);
        write_block(called, request->give_type, total_count(request));
        break;
    default:
        if (reduces(judging->function)) write_block(called, request->give_type, call->give_count);
    }
}

int validate(struct request *request, struct called *called) {
    struct comm *comm = request->comm;
    struct judging judging = { .request = request, .comm = comm, .call = &request->arguments, .function = request->arguments.function, .inter = comm->first > 0 };
    judging.root = is_rooted(judging.function) && is_root(request);
    request->direct = true;
    request->text_type = WZ_BYTE;
    request->call = (wz_call){ WZ_BARRIER, WZ_NO_OPERATION, WZ_BYTE, 0, 0 };
    if (judging.inter && (judging.function == SCAN || judging.function == EXSCAN)) return refuse(comm, MPI_ERR_COMM, request->name, "a scan isn't for an intercommunicator");
    if (is_neighbor(judging.function) && comm->topologies == NULL) return refuse(comm, MPI_ERR_TOPOLOGY, request->name, "the communicator has no topology");
    int code = judge_root(&judging);
    if (code == MPI_SUCCESS) code = judge_in_place(&judging);
    if (code != MPI_SUCCESS) return code;
    if (is_rooted(judging.function) && !judging.inter) request->call.root = (uint8_t)judging.call->root;
    find_significant(&judging);
    code = judge_types(&judging);
    if (code == MPI_SUCCESS) code = judge_numbers(&judging);
    if (code == MPI_SUCCESS) code = reduces(judging.function) ? judge_reduction(&judging) : judge_moved(&judging);
    if (code != MPI_SUCCESS) return code;
    choose(&judging);
    write_called(&judging, called);
    return code;
}
