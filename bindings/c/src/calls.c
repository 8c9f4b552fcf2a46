/* MPI's collectives in MPI's order of arguments, over the operations of ranks. */
#include "combiner.h"

/* ---- lengths, by the table of kinds in worzsunab.h */

size_t wz_type_bytes(uint8_t type) {
    /* tools/words: widths */
    static const uint8_t bytes[] = { 1, 2, 4, 8, 1, 2, 4, 8, 1, 8 };
    /* tools/words: end of widths */
    return type < WZ_TYPES ? bytes[type] : 0;
}

/* The rank's member number, or the communicator's size where it isn't a member. */
static uint32_t member_of(const struct wz_combiner *combiner, uint32_t comm, uint8_t rank) {
    uint32_t member = 0;
    while (member < combiner->sizes[comm] && combiner->members[comm][member] != rank) member++;
    return member;
}

/* tools/words: blocks */
size_t wz_blocks_given(uint8_t kind, uint32_t member, uint32_t root, size_t members) {
    bool is_root = member == root;
    switch (kind) {
    case WZ_BARRIER:
    case WZ_ALLGATHERV: return 0;
    case WZ_BCAST: return is_root ? 1 : 0;
    case WZ_GATHER:
    case WZ_ALLGATHER:
    case WZ_REDUCE:
    case WZ_ALLREDUCE:
    case WZ_SCAN:
    case WZ_EXSCAN: return 1;
    case WZ_SCATTER: return is_root ? members : 0;
    case WZ_ALLTOALL:
    case WZ_REDUCE_SCATTER_BLOCK: return members;
    default: return 0;
    }
}

size_t wz_blocks_got(uint8_t kind, uint32_t member, uint32_t root, size_t members) {
    bool is_root = member == root;
    switch (kind) {
    case WZ_BARRIER:
    case WZ_ALLGATHERV: return 0;
    case WZ_BCAST:
    case WZ_SCATTER:
    case WZ_ALLREDUCE:
    case WZ_REDUCE_SCATTER_BLOCK:
    case WZ_SCAN: return 1;
    case WZ_GATHER: return is_root ? members : 0;
    case WZ_ALLGATHER:
    case WZ_ALLTOALL: return members;
    case WZ_REDUCE: return is_root ? 1 : 0;
    case WZ_EXSCAN: return member > 0 ? 1 : 0;
    default: return 0;
    }
}
/* tools/words: end of blocks */

/* Who asks for a collective, and how. */
struct caller {
    wz_shared *shared;
    uint8_t rank;
    uint32_t comm;
    bool persistent;
    wz_request *request;
};

/* Its buffers: what it gives, and where the outcome goes. */
struct memory {
    const void *given;
    void *out;
};

static int32_t perform_made(struct caller caller, struct operation *operation, struct memory memory) {
    operation->comm = caller.comm;
    operation->bytes = memory.given;
    operation->out = memory.out;
    operation->request = caller.request;
    return caller.persistent ? perform(caller.shared, operation) : perform_giving(caller.shared, operation);
}

/* Posts a call, or makes it persistent. */
static int32_t make(struct caller caller, wz_call call, struct memory memory) {
    const struct wz_combiner *combiner = caller.shared->at;
    struct operation operation =
        caller.persistent ? operation_of(ONCE, caller.rank, apply_init) : operation_of(BEGINS, caller.rank, apply_post);
    if (combiner != NULL && caller.comm < MOST_COMMUNICATORS) {
        uint32_t member = member_of(combiner, caller.comm, caller.rank);
        size_t block = call.count * wz_type_bytes(call.type), members = combiner->sizes[caller.comm];
        operation.length = block * wz_blocks_given(call.kind, member, call.root, members);
        operation.room = block * wz_blocks_got(call.kind, member, call.root, members);
    }
    operation.call = &call;
    return perform_made(caller, &operation, memory);
}

/* The same of an allgatherv. */
static int32_t make_counted(struct caller caller, uint8_t type, const uint32_t *counts, struct memory memory) {
    const struct wz_combiner *combiner = caller.shared->at;
    struct operation operation = caller.persistent ? operation_of(ONCE, caller.rank, apply_init_allgatherv)
                                                   : operation_of(BEGINS, caller.rank, apply_post_allgatherv);
    if (combiner != NULL && caller.comm < MOST_COMMUNICATORS) {
        uint32_t member = member_of(combiner, caller.comm, caller.rank);
        operation.many = combiner->sizes[caller.comm];
        if (member < operation.many) operation.length = counts[member] * wz_type_bytes(type);
        for (size_t i = 0; i < operation.many; i++) operation.room += counts[i] * wz_type_bytes(type);
    }
    operation.type = type;
    operation.counts = counts;
    return perform_made(caller, &operation, memory);
}

/* ---- nonblocking */

/* tools/words: nonblocking */
int32_t wz_ibarrier(wz_shared *shared, uint8_t rank, uint32_t comm, wz_request *request) {
    struct caller caller = { shared, rank, comm, false, request };
    return make(caller, (wz_call){ WZ_BARRIER, WZ_NO_OPERATION, WZ_BYTE, 0, 0 }, (struct memory){ NULL, NULL });
}

int32_t wz_ibcast(wz_shared *shared, uint8_t rank, uint32_t comm, void *buffer, uint32_t count, uint8_t type,
                  uint8_t root, wz_request *request) {
    struct caller caller = { shared, rank, comm, false, request };
    return make(caller, (wz_call){ WZ_BCAST, WZ_NO_OPERATION, type, root, count }, (struct memory){ buffer, buffer });
}

int32_t wz_igather(wz_shared *shared, uint8_t rank, uint32_t comm, const void *send, void *receive, uint32_t count,
                   uint8_t type, uint8_t root, wz_request *request) {
    struct caller caller = { shared, rank, comm, false, request };
    return make(caller, (wz_call){ WZ_GATHER, WZ_NO_OPERATION, type, root, count }, (struct memory){ send, receive });
}

int32_t wz_iscatter(wz_shared *shared, uint8_t rank, uint32_t comm, const void *send, void *receive, uint32_t count,
                    uint8_t type, uint8_t root, wz_request *request) {
    struct caller caller = { shared, rank, comm, false, request };
    return make(caller, (wz_call){ WZ_SCATTER, WZ_NO_OPERATION, type, root, count }, (struct memory){ send, receive });
}

int32_t wz_iallgather(wz_shared *shared, uint8_t rank, uint32_t comm, const void *send, void *receive, uint32_t count,
                      uint8_t type, wz_request *request) {
    struct caller caller = { shared, rank, comm, false, request };
    return make(caller, (wz_call){ WZ_ALLGATHER, WZ_NO_OPERATION, type, 0, count }, (struct memory){ send, receive });
}

int32_t wz_ialltoall(wz_shared *shared, uint8_t rank, uint32_t comm, const void *send, void *receive, uint32_t count,
                     uint8_t type, wz_request *request) {
    struct caller caller = { shared, rank, comm, false, request };
    return make(caller, (wz_call){ WZ_ALLTOALL, WZ_NO_OPERATION, type, 0, count }, (struct memory){ send, receive });
}

int32_t wz_ireduce(wz_shared *shared, uint8_t rank, uint32_t comm, const void *send, void *receive, uint32_t count,
                   uint8_t type, uint8_t op, uint8_t root, wz_request *request) {
    struct caller caller = { shared, rank, comm, false, request };
    return make(caller, (wz_call){ WZ_REDUCE, op, type, root, count }, (struct memory){ send, receive });
}

int32_t wz_iallreduce(wz_shared *shared, uint8_t rank, uint32_t comm, const void *send, void *receive, uint32_t count,
                      uint8_t type, uint8_t op, wz_request *request) {
    struct caller caller = { shared, rank, comm, false, request };
    return make(caller, (wz_call){ WZ_ALLREDUCE, op, type, 0, count }, (struct memory){ send, receive });
}

int32_t wz_ireduce_scatter_block(wz_shared *shared, uint8_t rank, uint32_t comm, const void *send, void *receive,
                                 uint32_t count, uint8_t type, uint8_t op, wz_request *request) {
    struct caller caller = { shared, rank, comm, false, request };
    return make(caller, (wz_call){ WZ_REDUCE_SCATTER_BLOCK, op, type, 0, count }, (struct memory){ send, receive });
}

int32_t wz_iscan(wz_shared *shared, uint8_t rank, uint32_t comm, const void *send, void *receive, uint32_t count,
                 uint8_t type, uint8_t op, wz_request *request) {
    struct caller caller = { shared, rank, comm, false, request };
    return make(caller, (wz_call){ WZ_SCAN, op, type, 0, count }, (struct memory){ send, receive });
}

int32_t wz_iexscan(wz_shared *shared, uint8_t rank, uint32_t comm, const void *send, void *receive, uint32_t count,
                   uint8_t type, uint8_t op, wz_request *request) {
    struct caller caller = { shared, rank, comm, false, request };
    return make(caller, (wz_call){ WZ_EXSCAN, op, type, 0, count }, (struct memory){ send, receive });
}

int32_t wz_iallgatherv(wz_shared *shared, uint8_t rank, uint32_t comm, const void *send, void *receive,
                       const uint32_t *counts, uint8_t type, wz_request *request) {
    struct caller caller = { shared, rank, comm, false, request };
    return make_counted(caller, type, counts, (struct memory){ send, receive });
}
/* tools/words: end of nonblocking */

/* ---- persistent */

/* tools/words: persistent */
int32_t wz_barrier_init(wz_shared *shared, uint8_t rank, uint32_t comm, wz_request *request) {
    struct caller caller = { shared, rank, comm, true, request };
    return make(caller, (wz_call){ WZ_BARRIER, WZ_NO_OPERATION, WZ_BYTE, 0, 0 }, (struct memory){ NULL, NULL });
}

int32_t wz_bcast_init(wz_shared *shared, uint8_t rank, uint32_t comm, void *buffer, uint32_t count, uint8_t type,
                      uint8_t root, wz_request *request) {
    struct caller caller = { shared, rank, comm, true, request };
    return make(caller, (wz_call){ WZ_BCAST, WZ_NO_OPERATION, type, root, count }, (struct memory){ buffer, buffer });
}

int32_t wz_gather_init(wz_shared *shared, uint8_t rank, uint32_t comm, const void *send, void *receive, uint32_t count,
                       uint8_t type, uint8_t root, wz_request *request) {
    struct caller caller = { shared, rank, comm, true, request };
    return make(caller, (wz_call){ WZ_GATHER, WZ_NO_OPERATION, type, root, count }, (struct memory){ send, receive });
}

int32_t wz_scatter_init(wz_shared *shared, uint8_t rank, uint32_t comm, const void *send, void *receive, uint32_t count,
                        uint8_t type, uint8_t root, wz_request *request) {
    struct caller caller = { shared, rank, comm, true, request };
    return make(caller, (wz_call){ WZ_SCATTER, WZ_NO_OPERATION, type, root, count }, (struct memory){ send, receive });
}

int32_t wz_allgather_init(wz_shared *shared, uint8_t rank, uint32_t comm, const void *send, void *receive,
                          uint32_t count, uint8_t type, wz_request *request) {
    struct caller caller = { shared, rank, comm, true, request };
    return make(caller, (wz_call){ WZ_ALLGATHER, WZ_NO_OPERATION, type, 0, count }, (struct memory){ send, receive });
}

int32_t wz_alltoall_init(wz_shared *shared, uint8_t rank, uint32_t comm, const void *send, void *receive,
                         uint32_t count, uint8_t type, wz_request *request) {
    struct caller caller = { shared, rank, comm, true, request };
    return make(caller, (wz_call){ WZ_ALLTOALL, WZ_NO_OPERATION, type, 0, count }, (struct memory){ send, receive });
}

int32_t wz_reduce_init(wz_shared *shared, uint8_t rank, uint32_t comm, const void *send, void *receive, uint32_t count,
                       uint8_t type, uint8_t op, uint8_t root, wz_request *request) {
    struct caller caller = { shared, rank, comm, true, request };
    return make(caller, (wz_call){ WZ_REDUCE, op, type, root, count }, (struct memory){ send, receive });
}

int32_t wz_allreduce_init(wz_shared *shared, uint8_t rank, uint32_t comm, const void *send, void *receive,
                          uint32_t count, uint8_t type, uint8_t op, wz_request *request) {
    struct caller caller = { shared, rank, comm, true, request };
    return make(caller, (wz_call){ WZ_ALLREDUCE, op, type, 0, count }, (struct memory){ send, receive });
}

int32_t wz_reduce_scatter_block_init(wz_shared *shared, uint8_t rank, uint32_t comm, const void *send, void *receive,
                                     uint32_t count, uint8_t type, uint8_t op, wz_request *request) {
    struct caller caller = { shared, rank, comm, true, request };
    return make(caller, (wz_call){ WZ_REDUCE_SCATTER_BLOCK, op, type, 0, count }, (struct memory){ send, receive });
}

int32_t wz_scan_init(wz_shared *shared, uint8_t rank, uint32_t comm, const void *send, void *receive, uint32_t count,
                     uint8_t type, uint8_t op, wz_request *request) {
    struct caller caller = { shared, rank, comm, true, request };
    return make(caller, (wz_call){ WZ_SCAN, op, type, 0, count }, (struct memory){ send, receive });
}

int32_t wz_exscan_init(wz_shared *shared, uint8_t rank, uint32_t comm, const void *send, void *receive, uint32_t count,
                       uint8_t type, uint8_t op, wz_request *request) {
    struct caller caller = { shared, rank, comm, true, request };
    return make(caller, (wz_call){ WZ_EXSCAN, op, type, 0, count }, (struct memory){ send, receive });
}

int32_t wz_allgatherv_init(wz_shared *shared, uint8_t rank, uint32_t comm, const void *send, void *receive,
                           const uint32_t *counts, uint8_t type, wz_request *request) {
    struct caller caller = { shared, rank, comm, true, request };
    return make_counted(caller, type, counts, (struct memory){ send, receive });
}
/* tools/words: end of persistent */

/* ---- completion */

/* The buffers of a request; of a null one, none. */
static struct buffers buffers_of(const wz_shared *shared, const wz_request *request) {
    const struct wz_combiner *combiner = shared->at;
    const struct buffers none = { NULL, 0, NULL, 0 };
    bool is_slot = combiner != NULL && request->generation != 0 && request->slot < combiner->slots;
    return is_slot ? combiner->buffers[request->slot] : none;
}

int32_t wz_begin(wz_shared *shared, uint8_t rank, const wz_request *request) {
    struct buffers buffers = buffers_of(shared, request);
    return wz_shared_start(shared, rank, request, buffers.given, buffers.length);
}

int32_t wz_wait(wz_shared *shared, uint8_t rank, wz_request *request) {
    struct buffers buffers = buffers_of(shared, request);
    size_t count = 0;
    return wz_shared_wait(shared, rank, request, buffers.out, buffers.room, &count);
}

int32_t wz_try(wz_shared *shared, uint8_t rank, wz_request *request) {
    struct buffers buffers = buffers_of(shared, request);
    size_t count = 0;
    return wz_shared_test(shared, rank, request, buffers.out, buffers.room, &count);
}

int32_t wz_wait_all(wz_shared *shared, uint8_t rank, size_t many, wz_request *requests) {
    int32_t code = WZ_DONE;
    for (size_t i = 0; i < many && code == WZ_DONE; i++) code = wz_wait(shared, rank, &requests[i]);
    return code;
}

int32_t wz_wait_any(wz_shared *shared, uint8_t rank, size_t many, wz_request *requests, size_t *index) {
    struct operation operation = operation_of(WAITS, rank, apply_find);
    operation.requests = requests;
    operation.many = many;
    operation.count = index;
    int32_t code = perform(shared, &operation);
    return code == WZ_DONE && *index != WZ_UNDEFINED ? wz_wait(shared, rank, &requests[*index]) : code;
}
