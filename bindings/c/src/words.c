/* Answers, collectives and MPI's error classes in words. */
#include "combiner.h"

#include <string.h>

/* ---- the greatest limits */

wz_limits wz_greatest_limits(uint32_t ranks) {
    wz_limits limits = { 0, 4096, 65536, 4294967295u, 1048576 };
    limits.ranks = ranks;
    return limits;
}

/* ---- answers and collectives */
const char *wz_message(int32_t code) {
    switch (code) {
    case WZ_DONE: return "done";
    case WZ_PENDING: return "the request isn't done yet";
    case WZ_BAD_COMM: return "there is no such communicator";
    case WZ_NOT_MEMBER: return "the rank isn't in the communicator's group";
    case WZ_BAD_SIGNATURE: return "the root, operation, count or size breaks a rule";
    case WZ_BAD_LENGTH:
        return "the bytes have another length than the call gives, or there is too little room for the outcome";
    case WZ_MISMATCH: return "another member has another collective at that place";
    case WZ_STALE: return "the request is null, completed or freed";
    case WZ_NOT_YOURS: return "the request belongs to another rank";
    case WZ_ACTIVE: return "the request to start or free is active";
    case WZ_NOT_PERSISTENT: return "the request to start or free isn't persistent";
    case WZ_PLACES_USED: return "the member has used all its places on the communicator";
    case WZ_STARTS_USED: return "the request has had all its starts";
    case WZ_FULL: return "no request slot is free";
    case WZ_TRACE_FULL: return "the trace would pass its limit";
    case WZ_STALLED: return "no wait can end: each rank waits or has left";
    case WZ_STILL_ACTIVE: return "a rank has an active request at the close";
    case WZ_TORN: return "the ports and the trace disagree at the close";
    case WZ_NO_MEMORY: return "memory was refused";
    case WZ_BAD_CONFIG: return "a limit or a communicator is out of its range";
    case WZ_BAD_NUMBER: return "a number names no kind, operation or type";
    case WZ_CLOSED: return "the engine is closed";
    case WZ_OPEN: return "the engine is open already";
    case WZ_NO_WORK: return "there is no combination";
    case WZ_HAS_WORK: return "there is a combination already";
    case WZ_TWICE: return "a request stands twice in the list";
    case WZ_NO_PLACE: return "no member has posted so much on the communicator";
    case WZ_NO_BYTES: return "there are no bytes";
    case WZ_HAS_BYTES: return "there are bytes already";
    default: return "no answer of this library";
    }
}

const char *wz_name(int32_t code) {
    static const char *const names[] = { "Done",        "BadComm",    "NotMember", "BadSignature", "BadLength",
                                         "Mismatch",    "Stale",      "NotYours",  "Active",       "NotPersistent",
                                         "PlacesUsed",  "StartsUsed", "Full",      "TraceFull",    "Stalled",
                                         "StillActive", "Torn",       "NoMemory",  "BadConfig",    "BadNumber",
                                         "Closed",      "Open",       "NoWork",    "HasWork",      "Twice",
                                         "NoPlace",     "NoBytes",    "HasBytes" };
    if (code == WZ_PENDING) return "Pending";
    return code >= 0 && code <= WZ_HAS_BYTES ? names[code] : "Unknown";
}

/* tools/words: words */
const char *wz_kind_word(uint8_t kind) {
    static const char *const words[] = { "barrier", "bcast", "gather", "scatter", "allgather", "alltoall", "reduce",
                                         "allreduce", "rsblock", "scan", "exscan", "allgatherv" };
    return kind < WZ_KINDS ? words[kind] : "?";
}

const char *wz_operation_word(uint8_t op) {
    static const char *const words[] = { "no operation", "max", "min", "sum", "prod", "land", "lor", "lxor", "band",
                                         "bor", "bxor", "lastnz", "maxloc", "minloc" };
    return op < WZ_OPERATIONS ? words[op] : "?";
}

const char *wz_type_word(uint8_t type) {
    static const char *const words[] = { "i8", "i16", "i32", "i64", "u8", "u16", "u32", "u64", "byte", "2int" };
    return type < WZ_TYPES ? words[type] : "?";
}

bool wz_has_operation(uint8_t kind) {
    static const bool has_operation[WZ_KINDS] = {
        [WZ_REDUCE] = true, [WZ_ALLREDUCE] = true, [WZ_REDUCE_SCATTER_BLOCK] = true, [WZ_SCAN] = true,
        [WZ_EXSCAN] = true
    };
    return kind < WZ_KINDS && has_operation[kind];
}

bool wz_has_root(uint8_t kind) {
    static const bool has_root[WZ_KINDS] = {
        [WZ_BCAST] = true, [WZ_GATHER] = true, [WZ_SCATTER] = true, [WZ_REDUCE] = true
    };
    return kind < WZ_KINDS && has_root[kind];
}
/* tools/words: end of words */

wz_posted wz_posted_of_call(const wz_call *call, bool persistent) {
    wz_posted posted;
    memset(&posted, 0, sizeof posted);
    posted.call = *call;
    posted.persistent = persistent;
    return posted;
}

wz_posted wz_posted_of_counts(uint8_t type, const uint32_t *counts, size_t many, bool persistent) {
    wz_posted posted;
    memset(&posted, 0, sizeof posted);
    posted.call.kind = WZ_ALLGATHERV;
    posted.call.type = type;
    posted.persistent = persistent;
    for (size_t i = 0; i < many && i < 64; i++) posted.counts[i] = counts[i];
    return posted;
}

/* ---- MPI's error classes (MPI 4.1, 9.4) */

const char *wz_mpi_class(int32_t code) {
    switch (code) {
    case WZ_DONE: return "MPI_SUCCESS";
    case WZ_PENDING: return "MPI_ERR_PENDING";
    case WZ_BAD_COMM: return "MPI_ERR_COMM";
    case WZ_NOT_MEMBER: return "MPI_ERR_RANK";
    case WZ_BAD_LENGTH: return "MPI_ERR_TRUNCATE";
    case WZ_STALE:
    case WZ_NOT_YOURS:
    case WZ_ACTIVE:
    case WZ_NOT_PERSISTENT:
    case WZ_TWICE: return "MPI_ERR_REQUEST";
    case WZ_BAD_SIGNATURE:
    case WZ_MISMATCH:
    case WZ_BAD_CONFIG:
    case WZ_BAD_NUMBER:
    case WZ_CLOSED:
    case WZ_OPEN:
    case WZ_NO_WORK:
    case WZ_HAS_WORK:
    case WZ_NO_PLACE:
    case WZ_NO_BYTES:
    case WZ_HAS_BYTES: return "MPI_ERR_ARG";
    case WZ_NO_MEMORY: return "MPI_ERR_NO_MEM";
    case WZ_PLACES_USED:
    case WZ_STARTS_USED:
    case WZ_FULL:
    case WZ_TRACE_FULL:
    case WZ_STALLED:
    case WZ_STILL_ACTIVE:
    case WZ_TORN: return "MPI_ERR_OTHER";
    default: return "MPI_ERR_UNKNOWN";
    }
}

const char *wz_reason_mpi_class(const wz_reason *reason) {
    if (reason->code == WZ_BAD_SIGNATURE) {
        switch (reason->cause) {
        case WZ_RULE_ROOT: return "MPI_ERR_ROOT";
        case WZ_RULE_OPERATION: return "MPI_ERR_OP";
        case WZ_RULE_COUNT:
        case WZ_RULE_SIZE: return "MPI_ERR_COUNT";
        default: break;
        }
    }
    return wz_mpi_class(reason->code);
}
