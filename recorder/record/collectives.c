/* The collectives that move or combine data: what each call says, and its three forms. */
#include "entries.h"
#include "log.h"

#include <string.h>
#ifdef OPEN_MPI
#include <mpi-ext.h>
#endif

/* What a call says */

static struct call plain(const char *name, MPI_Comm comm) {
    return (struct call){.name = name, .context = context_of_comm(comm), .root = NO_ROOT, .op = MPI_OP_NULL, .type = MPI_DATATYPE_NULL};
}

static int rank_in(const struct call *call) { return call->context ? call->context->rank : 0; }
static int size_of(const struct call *call) { return call->context ? call->context->size : 0; }

static struct side side(MPI_Datatype type, long count) { return (struct side){.stands = true, .type = type, .count = count}; }

static struct side side_for_each(MPI_Datatype type, struct counts counts) { return (struct side){.stands = true, .type = type, .counts = counts}; }

static void give(struct call *call, MPI_Datatype type, long count, const void *given, long blocks) {
    call->type = type;
    call->count = count;
    call->given = given;
    call->blocks = blocks;
}

/* Where a block of a buffer lies. */
static const void *block(const void *buffer, MPI_Datatype type, long count, long number) {
    MPI_Aint least, extent = 0;
    if (type != MPI_DATATYPE_NULL)
        PMPI_Type_get_extent(type, &least, &extent);
    return (const char *)buffer + extent * count * number;
}

static struct call describe_Barrier(MPI_Comm comm) { return plain("Barrier", comm); }

static struct call describe_Bcast(void *buffer, long count, MPI_Datatype type, int root, MPI_Comm comm) {
    struct call call = plain("Bcast", comm);
    call.root = root;
    call.sent = side(type, count);
    give(&call, type, count, buffer, rank_in(&call) == root);
    return call;
}

static struct call describe_Gather(const void *sent, long sent_count, MPI_Datatype sent_type, void *got, long got_count, MPI_Datatype got_type,
                                   int root, MPI_Comm comm) {
    struct call call = plain("Gather", comm);
    int rank = rank_in(&call);
    call.root = root;
    if (rank == root)
        call.got = side(got_type, got_count);
    if (rank == root && sent == MPI_IN_PLACE) {
        give(&call, got_type, got_count, block(got, got_type, got_count, rank), 1);
        return call;
    }
    call.sent = side(sent_type, sent_count);
    give(&call, sent_type, sent_count, sent, 1);
    return call;
}

static struct call describe_Scatter(const void *sent, long sent_count, MPI_Datatype sent_type, void *got, long got_count,
                                    MPI_Datatype got_type, int root, MPI_Comm comm) {
    struct call call = plain("Scatter", comm);
    call.root = root;
    if (got != MPI_IN_PLACE || rank_in(&call) != root)
        call.got = side(got_type, got_count);
    if (rank_in(&call) == root) {
        call.sent = side(sent_type, sent_count);
        give(&call, sent_type, sent_count, sent, size_of(&call));
    }
    return call;
}

static struct call describe_Allgather(const void *sent, long sent_count, MPI_Datatype sent_type, void *got, long got_count,
                                      MPI_Datatype got_type, MPI_Comm comm) {
    struct call call = plain("Allgather", comm);
    call.got = side(got_type, got_count);
    if (sent == MPI_IN_PLACE) {
        give(&call, got_type, got_count, block(got, got_type, got_count, rank_in(&call)), 1);
        return call;
    }
    call.sent = side(sent_type, sent_count);
    give(&call, sent_type, sent_count, sent, 1);
    return call;
}

static struct call describe_Alltoall(const void *sent, long sent_count, MPI_Datatype sent_type, void *got, long got_count,
                                     MPI_Datatype got_type, MPI_Comm comm) {
    struct call call = plain("Alltoall", comm);
    call.got = side(got_type, got_count);
    if (sent == MPI_IN_PLACE) {
        give(&call, got_type, got_count, got, size_of(&call));
        return call;
    }
    call.sent = side(sent_type, sent_count);
    give(&call, sent_type, sent_count, sent, size_of(&call));
    return call;
}

static struct call combining(const char *name, const void *sent, const void *got, long count, MPI_Datatype type, MPI_Op op, MPI_Comm comm) {
    struct call call = plain(name, comm);
    call.op = op;
    call.sent = side(type, count);
    give(&call, type, count, sent == MPI_IN_PLACE ? got : sent, 1);
    return call;
}

static struct call describe_Reduce(const void *sent, void *got, long count, MPI_Datatype type, MPI_Op op, int root, MPI_Comm comm) {
    struct call call = combining("Reduce", sent, got, count, type, op, comm);
    call.root = root;
    return call;
}

static struct call describe_Allreduce(const void *sent, void *got, long count, MPI_Datatype type, MPI_Op op, MPI_Comm comm) {
    return combining("Allreduce", sent, got, count, type, op, comm);
}

static struct call describe_Scan(const void *sent, void *got, long count, MPI_Datatype type, MPI_Op op, MPI_Comm comm) {
    return combining("Scan", sent, got, count, type, op, comm);
}

static struct call describe_Exscan(const void *sent, void *got, long count, MPI_Datatype type, MPI_Op op, MPI_Comm comm) {
    return combining("Exscan", sent, got, count, type, op, comm);
}

static struct call describe_Reduce_scatter_block(const void *sent, void *got, long count, MPI_Datatype type, MPI_Op op, MPI_Comm comm) {
    struct call call = combining("Reduce_scatter_block", sent, got, count, type, op, comm);
    call.blocks = size_of(&call);
    return call;
}

static struct call describe_Reduce_scatter(struct counts counts, MPI_Datatype type, MPI_Op op, MPI_Comm comm) {
    struct call call = plain("Reduce_scatter", comm);
    call.op = op;
    call.sent = side_for_each(type, counts);
    return call;
}

/* Of a collective with a count for each rank no values stand in a text, but for an MPI_Allgatherv. */
static struct call describe_Gatherv(const void *sent, long sent_count, MPI_Datatype sent_type, struct counts counts, MPI_Datatype got_type,
                                    int root, MPI_Comm comm) {
    struct call call = plain("Gatherv", comm);
    call.root = root;
    if (rank_in(&call) == root)
        call.got = side_for_each(got_type, counts);
    if (rank_in(&call) != root || sent != MPI_IN_PLACE)
        call.sent = side(sent_type, sent_count);
    return call;
}

static struct call describe_Scatterv(struct counts counts, MPI_Datatype sent_type, void *got, long got_count, MPI_Datatype got_type, int root,
                                     MPI_Comm comm) {
    struct call call = plain("Scatterv", comm);
    call.root = root;
    if (rank_in(&call) == root)
        call.sent = side_for_each(sent_type, counts);
    if (rank_in(&call) != root || got != MPI_IN_PLACE)
        call.got = side(got_type, got_count);
    return call;
}

static struct call describe_Allgatherv(const void *sent, long sent_count, MPI_Datatype sent_type, void *got, struct counts counts,
                                       struct counts places, MPI_Datatype got_type, MPI_Comm comm) {
    struct call call = plain("Allgatherv", comm);
    call.got = side_for_each(got_type, counts);
    if (sent == MPI_IN_PLACE) {
        const void *mine = block(got, got_type, 1, count_at(places, rank_in(&call)));
        give(&call, got_type, count_at(counts, rank_in(&call)), mine, 1);
        return call;
    }
    call.sent = side(sent_type, sent_count);
    give(&call, sent_type, sent_count, sent, 1);
    return call;
}

static struct call describe_Alltoallv(const void *sent, struct counts sent_counts, MPI_Datatype sent_type, struct counts got_counts,
                                      MPI_Datatype got_type, MPI_Comm comm) {
    struct call call = plain("Alltoallv", comm);
    if (sent != MPI_IN_PLACE)
        call.sent = side_for_each(sent_type, sent_counts);
    call.got = side_for_each(got_type, got_counts);
    return call;
}

static struct call describe_Alltoallw(const void *sent, struct counts sent_counts, const MPI_Datatype *sent_types, struct counts got_counts,
                                      const MPI_Datatype *got_types, MPI_Comm comm) {
    struct call call = plain("Alltoallw", comm);
    if (sent != MPI_IN_PLACE)
        call.sent = (struct side){.stands = true, .type = MPI_DATATYPE_NULL, .counts = sent_counts, .types = sent_types};
    call.got = (struct side){.stands = true, .type = MPI_DATATYPE_NULL, .counts = got_counts, .types = got_types};
    return call;
}

/* Of a collective among neighbours the name alone is recorded. */
static struct call describe_by_name(const char *name, MPI_Comm comm) { return plain(name, comm); }

/* The lines */

/* What was written of a request before the library has made it. */
struct posting {
    struct context *written; /* where it has a place in the order, or null */
    long number;
    bool persistent;
    struct gift gift;
    struct awaited awaited;
};

static struct posting write_collective(char form, struct call call) {
    struct posting posting = {.persistent = form == 'p'};
    if (!call.context) {
        write_unknown(call.name);
        return posting;
    }
    begin_command();
    call.form = form;
    posting.written = call.context;
    posting.gift = write_call(&call);
    if (form == 'p')
        log_text("\n");
    else
        write_gift(&posting.gift);
    posting.awaited = collective_awaited(call.context);
    if (form == 'b')
        now_awaits(posting.awaited);
    else
        posting.number = next_request();
    return posting;
}

/* Whether a library says of a call that its arguments are wrong: it looks at these before it begins. */
static bool is_of_arguments(int result) {
    static const int classes[] = {MPI_ERR_BUFFER, MPI_ERR_COUNT, MPI_ERR_TYPE,    MPI_ERR_COMM, MPI_ERR_RANK,
                                  MPI_ERR_ROOT,   MPI_ERR_OP,    MPI_ERR_REQUEST, MPI_ERR_ARG,  MPI_ERR_INFO};
    int class = MPI_SUCCESS;
    PMPI_Error_class(result, &class);
    for (size_t place = 0; place < sizeof classes / sizeof *classes; place++)
        if (class == classes[place])
            return true;
    return false;
}

/* A call that was refused for its arguments took no place in the order of its context. Where another thread has called there meanwhile, both
   keep theirs. */
static void write_refused(int result, const struct posting *posting) {
    if (result == MPI_SUCCESS)
        return;
    bool gone = posting->written && posting->written->calls == posting->awaited.index + 1 && is_of_arguments(result);
    if (gone)
        posting->written->calls--;
    log_thread();
    log_place(here);
    log_text("refused ");
    log_signed(result);
    log_text(gone ? " unmade\n" : "\n");
}

static int made_request(int result, const struct posting *posting, const MPI_Request *request) {
    log_lock();
    write_refused(result, posting);
    if (result == MPI_SUCCESS && posting->written)
        request_made(request, posting->number, posting->persistent, posting->awaited)->gift = posting->gift;
    log_unlock();
    if (result == MPI_SUCCESS && posting->written)
        now_makes(posting->awaited);
    return result;
}

static int returned(int result, const struct posting *posting) {
    if (result == MPI_SUCCESS)
        return result;
    log_lock();
    write_refused(result, posting);
    log_unlock();
    return result;
}

#define BLOCKING(NAME, parameters, arguments, call)                                                                                         \
    INTERPOSED(NAME, parameters, arguments) {                                                                                               \
        log_lock();                                                                                                                         \
        struct posting posting = write_collective('b', call);                                                                               \
        log_unlock();                                                                                                                       \
        return returned(next_##NAME arguments, &posting);                                                                                   \
    }

#define REQUESTING(NAME, form, parameters, arguments, call)                                                                                 \
    INTERPOSED(NAME, parameters, arguments) {                                                                                               \
        log_lock();                                                                                                                         \
        struct posting posting = write_collective(form, call);                                                                              \
        log_unlock();                                                                                                                       \
        return made_request(next_##NAME arguments, &posting, request);                                                                      \
    }

#if MPI_VERSION >= 4
#define PERSISTENT(NAME, suffix, parameters, arguments, call)                                                                               \
    REQUESTING(MPI_##NAME##_init##suffix, 'p', (UNWRAP parameters, MPI_Info info, MPI_Request * request), (UNWRAP arguments, info, request), call)
#elif defined(OMPI_HAVE_MPI_EXT_PCOLLREQ)
#define PERSISTENT(NAME, suffix, parameters, arguments, call)                                                                               \
    REQUESTING(MPIX_##NAME##_init##suffix, 'p', (UNWRAP parameters, MPI_Info info, MPI_Request * request), (UNWRAP arguments, info, request), call)
#else
#define PERSISTENT(NAME, suffix, parameters, arguments, call)
#endif

/* The three forms of a collective. LOWER is how its nonblocking form is written after MPI_I. */
#define FORMS(NAME, LOWER, suffix, parameters, arguments, call)                                                                             \
    BLOCKING(MPI_##NAME##suffix, parameters, arguments, call)                                                                               \
    REQUESTING(MPI_I##LOWER##suffix, 'n', (UNWRAP parameters, MPI_Request * request), (UNWRAP arguments, request), call)                    \
    PERSISTENT(NAME, suffix, parameters, arguments, call)

/* MPI 4 has each also with counts of another type, under a name of its own. PARAMETERS is a macro of the types of counts and of places. */
#if MPI_VERSION >= 4
#define COLLECTIVE(NAME, LOWER, PARAMETERS, arguments, call)                                                                                \
    FORMS(NAME, LOWER, , PARAMETERS(int, int), arguments, call)                                                                             \
    FORMS(NAME, LOWER, _c, PARAMETERS(MPI_Count, MPI_Aint), arguments, call)
#else
#define COLLECTIVE(NAME, LOWER, PARAMETERS, arguments, call) FORMS(NAME, LOWER, , PARAMETERS(int, int), arguments, call)
#endif

/* Counts of another type than those that a library has are never read: they are of int or of MPI_Count. */
#define COUNTS(row) ((struct counts){row, sizeof *(row)})

#define BCAST(count_type, place_type) (void *buffer, count_type count, MPI_Datatype type, int root, MPI_Comm comm)
#define MOVED(count_type) const void *sent, count_type sent_count, MPI_Datatype sent_type, void *got, count_type got_count, MPI_Datatype got_type
#define MOVE(count_type, place_type) (MOVED(count_type), MPI_Comm comm)
#define MOVE_ROOTED(count_type, place_type) (MOVED(count_type), int root, MPI_Comm comm)
#define COMBINE(count_type, place_type) (const void *sent, void *got, count_type count, MPI_Datatype type, MPI_Op op, MPI_Comm comm)
#define COMBINE_ROOTED(count_type, place_type)                                                                                              \
    (const void *sent, void *got, count_type count, MPI_Datatype type, MPI_Op op, int root, MPI_Comm comm)
#define COMBINE_PARTS(count_type, place_type)                                                                                               \
    (const void *sent, void *got, const count_type *counts, MPI_Datatype type, MPI_Op op, MPI_Comm comm)
#define GATHER_PARTS(count_type, place_type)                                                                                                \
    (const void *sent, count_type sent_count, MPI_Datatype sent_type, void *got, const count_type *counts, const place_type *places,        \
     MPI_Datatype got_type, int root, MPI_Comm comm)
#define SCATTER_PARTS(count_type, place_type)                                                                                               \
    (const void *sent, const count_type *counts, const place_type *places, MPI_Datatype sent_type, void *got, count_type got_count,         \
     MPI_Datatype got_type, int root, MPI_Comm comm)
#define ALLGATHER_PARTS(count_type, place_type)                                                                                             \
    (const void *sent, count_type sent_count, MPI_Datatype sent_type, void *got, const count_type *counts, const place_type *places,        \
     MPI_Datatype got_type, MPI_Comm comm)
#define ALLTOALL_PARTS(count_type, place_type)                                                                                              \
    (const void *sent, const count_type *sent_counts, const place_type *sent_places, MPI_Datatype sent_type, void *got,                     \
     const count_type *got_counts, const place_type *got_places, MPI_Datatype got_type, MPI_Comm comm)
#define ALLTOALL_TYPES(count_type, place_type)                                                                                              \
    (const void *sent, const count_type *sent_counts, const place_type *sent_places, const MPI_Datatype *sent_types, void *got,             \
     const count_type *got_counts, const place_type *got_places, const MPI_Datatype *got_types, MPI_Comm comm)

#define MOVED_WORDS sent, sent_count, sent_type, got, got_count, got_type
#define COMBINED_WORDS sent, got, count, type, op

FORMS(Barrier, barrier, , (MPI_Comm comm), (comm), describe_Barrier(comm))
COLLECTIVE(Bcast, bcast, BCAST, (buffer, count, type, root, comm), describe_Bcast(buffer, count, type, root, comm))
COLLECTIVE(Gather, gather, MOVE_ROOTED, (MOVED_WORDS, root, comm), describe_Gather(MOVED_WORDS, root, comm))
COLLECTIVE(Scatter, scatter, MOVE_ROOTED, (MOVED_WORDS, root, comm), describe_Scatter(MOVED_WORDS, root, comm))
COLLECTIVE(Allgather, allgather, MOVE, (MOVED_WORDS, comm), describe_Allgather(MOVED_WORDS, comm))
COLLECTIVE(Alltoall, alltoall, MOVE, (MOVED_WORDS, comm), describe_Alltoall(MOVED_WORDS, comm))
COLLECTIVE(Reduce, reduce, COMBINE_ROOTED, (COMBINED_WORDS, root, comm), describe_Reduce(COMBINED_WORDS, root, comm))
COLLECTIVE(Allreduce, allreduce, COMBINE, (COMBINED_WORDS, comm), describe_Allreduce(COMBINED_WORDS, comm))
COLLECTIVE(Reduce_scatter_block, reduce_scatter_block, COMBINE, (COMBINED_WORDS, comm), describe_Reduce_scatter_block(COMBINED_WORDS, comm))
COLLECTIVE(Scan, scan, COMBINE, (COMBINED_WORDS, comm), describe_Scan(COMBINED_WORDS, comm))
COLLECTIVE(Exscan, exscan, COMBINE, (COMBINED_WORDS, comm), describe_Exscan(COMBINED_WORDS, comm))
COLLECTIVE(Reduce_scatter, reduce_scatter, COMBINE_PARTS, (sent, got, counts, type, op, comm),
           describe_Reduce_scatter(COUNTS(counts), type, op, comm))
COLLECTIVE(Gatherv, gatherv, GATHER_PARTS, (sent, sent_count, sent_type, got, counts, places, got_type, root, comm),
           describe_Gatherv(sent, sent_count, sent_type, COUNTS(counts), got_type, root, comm))
COLLECTIVE(Scatterv, scatterv, SCATTER_PARTS, (sent, counts, places, sent_type, got, got_count, got_type, root, comm),
           describe_Scatterv(COUNTS(counts), sent_type, got, got_count, got_type, root, comm))
COLLECTIVE(Allgatherv, allgatherv, ALLGATHER_PARTS, (sent, sent_count, sent_type, got, counts, places, got_type, comm),
           describe_Allgatherv(sent, sent_count, sent_type, got, COUNTS(counts), COUNTS(places), got_type, comm))
COLLECTIVE(Alltoallv, alltoallv, ALLTOALL_PARTS, (sent, sent_counts, sent_places, sent_type, got, got_counts, got_places, got_type, comm),
           describe_Alltoallv(sent, COUNTS(sent_counts), sent_type, COUNTS(got_counts), got_type, comm))
COLLECTIVE(Alltoallw, alltoallw, ALLTOALL_TYPES, (sent, sent_counts, sent_places, sent_types, got, got_counts, got_places, got_types, comm),
           describe_Alltoallw(sent, COUNTS(sent_counts), sent_types, COUNTS(got_counts), got_types, comm))

/* Among neighbours */

#define NEIGHBOURS(NAME, LOWER, PARAMETERS, arguments)                                                                                      \
    COLLECTIVE(Neighbor_##NAME, neighbor_##LOWER, PARAMETERS, arguments, describe_by_name("Neighbor_" #NAME, comm))
#define NEIGHBOUR_TYPES(count_type, place_type) ALLTOALL_TYPES(count_type, MPI_Aint)

NEIGHBOURS(allgather, allgather, MOVE, (MOVED_WORDS, comm))
NEIGHBOURS(allgatherv, allgatherv, ALLGATHER_PARTS, (sent, sent_count, sent_type, got, counts, places, got_type, comm))
NEIGHBOURS(alltoall, alltoall, MOVE, (MOVED_WORDS, comm))
NEIGHBOURS(alltoallv, alltoallv, ALLTOALL_PARTS, (sent, sent_counts, sent_places, sent_type, got, got_counts, got_places, got_type, comm))
NEIGHBOURS(alltoallw, alltoallw, NEIGHBOUR_TYPES, (sent, sent_counts, sent_places, sent_types, got, got_counts, got_places, got_types, comm))
