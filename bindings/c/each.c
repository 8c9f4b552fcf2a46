/* Each kind, and each operation on each type, by the table tools/words.txt. One thread plays all ranks. */
#include <string.h>

#include "../../recorder/record/job_words.h"
#include "check.h"
#include "worzsunab_calls.h"

PAIR;

/* tools/words: examples */
/* What three members give and get: how many bytes, and which. */
static const struct kind_example {
    wz_call call;
    uint32_t gives[3];
    uint8_t given[3][8];
    uint32_t gets[3];
    uint8_t got[3][8];
} kind_examples[] = {
    { { WZ_BARRIER, WZ_NO_OPERATION, WZ_UINT8, 0, 0 }, { 0, 0, 0 }, { { 0 }, { 0 }, { 0 } }, { 0, 0, 0 }, { { 0 }, { 0 }, { 0 } } },
    { { WZ_BCAST, WZ_NO_OPERATION, WZ_UINT8, 1, 1 }, { 0, 1, 0 }, { { 0 }, { 7 }, { 0 } }, { 1, 1, 1 }, { { 7 }, { 7 }, { 7 } } },
    { { WZ_GATHER, WZ_NO_OPERATION, WZ_UINT8, 1, 1 }, { 1, 1, 1 }, { { 1 }, { 2 }, { 3 } }, { 0, 3, 0 }, { { 0 }, { 1, 2, 3 }, { 0 } } },
    { { WZ_SCATTER, WZ_NO_OPERATION, WZ_UINT8, 1, 1 }, { 0, 3, 0 }, { { 0 }, { 1, 2, 3 }, { 0 } }, { 1, 1, 1 }, { { 1 }, { 2 }, { 3 } } },
    { { WZ_ALLGATHER, WZ_NO_OPERATION, WZ_UINT8, 0, 1 }, { 1, 1, 1 }, { { 1 }, { 2 }, { 3 } }, { 3, 3, 3 }, { { 1, 2, 3 }, { 1, 2, 3 }, { 1, 2, 3 } } },
    { { WZ_ALLTOALL, WZ_NO_OPERATION, WZ_UINT8, 0, 1 }, { 3, 3, 3 }, { { 1, 2, 3 }, { 4, 5, 6 }, { 7, 8, 9 } }, { 3, 3, 3 }, { { 1, 4, 7 }, { 2, 5, 8 }, { 3, 6, 9 } } },
    { { WZ_REDUCE, WZ_SUM, WZ_UINT8, 1, 1 }, { 1, 1, 1 }, { { 1 }, { 2 }, { 3 } }, { 0, 1, 0 }, { { 0 }, { 6 }, { 0 } } },
    { { WZ_ALLREDUCE, WZ_SUM, WZ_UINT8, 0, 1 }, { 1, 1, 1 }, { { 1 }, { 2 }, { 3 } }, { 1, 1, 1 }, { { 6 }, { 6 }, { 6 } } },
    { { WZ_REDUCE_SCATTER_BLOCK, WZ_SUM, WZ_UINT8, 0, 1 }, { 3, 3, 3 }, { { 1, 2, 3 }, { 4, 5, 6 }, { 7, 8, 9 } }, { 1, 1, 1 }, { { 12 }, { 15 }, { 18 } } },
    { { WZ_SCAN, WZ_SUM, WZ_UINT8, 0, 1 }, { 1, 1, 1 }, { { 1 }, { 2 }, { 3 } }, { 1, 1, 1 }, { { 1 }, { 3 }, { 6 } } },
    { { WZ_EXSCAN, WZ_SUM, WZ_UINT8, 0, 1 }, { 1, 1, 1 }, { { 1 }, { 2 }, { 3 } }, { 0, 1, 1 }, { { 0 }, { 1 }, { 3 } } },
    { { WZ_ALLGATHERV, WZ_NO_OPERATION, WZ_UINT8, 0, 0 }, { 2, 0, 1 }, { { 1, 2 }, { 0 }, { 9 } }, { 3, 3, 3 }, { { 1, 2, 9 }, { 1, 2, 9 }, { 1, 2, 9 } } },
};

/* What members give, an element each, and what an allreduce gives to all. */
static const struct operation_example {
    uint8_t op, type, members;
    uint8_t given[32], got[8];
} operation_examples[] = {
    { WZ_MAX, WZ_INT8, 3, { 255, 128, 254 }, { 255 } },
    { WZ_MIN, WZ_UINT16, 2, { 188, 2, 3, 0 }, { 3, 0 } },
    { WZ_SUM, WZ_INT8, 3, { 127, 1, 0 }, { 128 } },
    { WZ_PROD, WZ_UINT8, 3, { 20, 13, 2 }, { 8 } },
    { WZ_LAND, WZ_INT32, 2, { 5, 0, 0, 0, 5, 0, 0, 0 }, { 1, 0, 0, 0 } },
    { WZ_LOR, WZ_INT16, 3, { 0, 0, 4, 0, 0, 0 }, { 1, 0 } },
    { WZ_LXOR, WZ_INT8, 3, { 5, 5, 5 }, { 1 } },
    { WZ_BAND, WZ_BYTE, 2, { 12, 10 }, { 8 } },
    { WZ_BOR, WZ_UINT64, 2, { 12, 0, 0, 0, 0, 0, 0, 0, 10, 0, 0, 0, 0, 0, 0, 0 }, { 14, 0, 0, 0, 0, 0, 0, 0 } },
    { WZ_BXOR, WZ_BYTE, 2, { 12, 10 }, { 6 } },
    { WZ_LASTNZ, WZ_INT32, 4, { 3, 0, 0, 0, 0, 0, 0, 0, 5, 0, 0, 0, 0, 0, 0, 0 }, { 5, 0, 0, 0 } },
    { WZ_MAXLOC, WZ_2INT, 3, { 7, 0, 0, 0, 2, 0, 0, 0, 9, 0, 0, 0, 5, 0, 0, 0, 9, 0, 0, 0, 1, 0, 0, 0 }, { 9, 0, 0, 0, 1, 0, 0, 0 } },
    { WZ_MINLOC, WZ_2INT, 3, { 7, 0, 0, 0, 4, 0, 0, 0, 7, 0, 0, 0, 2, 0, 0, 0, 9, 0, 0, 0, 1, 0, 0, 0 }, { 7, 0, 0, 0, 2, 0, 0, 0 } },
};
/* tools/words: end of examples */

static wz_engine opened(uint8_t ranks) {
    wz_engine engine = WZ_CLOSED_ENGINE;
    wz_limits limits = wz_greatest_limits(ranks);
    const uint8_t members[] = { 0, 1, 2, 3, 4, 5, 6, 7 };
    DONE(wz_open(&engine, &limits, &ranks, 1, members, ranks));
    return engine;
}

/* A request that is done has just these bytes. */
static void gives(wz_engine *engine, uint8_t rank, wz_request *request, const void *want, size_t length) {
    uint8_t out[512];
    size_t count = 999;
    DONE(wz_test(engine, rank, request, out, sizeof out, &count));
    HOLDS(count == length && memcmp(out, want, length) == 0);
}

/* Posts what a member of three gives; of a kind with counts they are the lengths. */
static void post_example(wz_engine *engine, uint8_t rank, const struct kind_example *it, wz_request *request) {
    if (it->call.kind == WZ_ALLGATHERV)
        DONE(wz_post_allgatherv(engine, rank, 0, it->call.type, it->gives, 3, it->given[rank], it->gives[rank], request));
    else DONE(wz_post(engine, rank, 0, &it->call, it->given[rank], it->gives[rank], request));
}

static void each_kind(void) {
    wz_engine engine = opened(3);
    bool has_kind[WZ_KINDS] = { false };
    wz_request requests[3];
    for (size_t i = 0; i < sizeof kind_examples / sizeof *kind_examples; i++) {
        const struct kind_example *it = &kind_examples[i];
        has_kind[it->call.kind] = true;
        for (uint8_t rank = 0; rank < 3; rank++) post_example(&engine, rank, it, &requests[rank]);
        DONE(wz_settle(&engine));
        for (uint8_t rank = 0; rank < 3; rank++) gives(&engine, rank, &requests[rank], it->got[rank], it->gets[rank]);
        for (uint8_t rank = 0; rank < 3 && it->call.kind != WZ_ALLGATHERV; rank++) {
            HOLDS(wz_blocks_given(it->call.kind, rank, it->call.root, 3) == it->gives[rank]);
            HOLDS(wz_blocks_got(it->call.kind, rank, it->call.root, 3) == it->gets[rank]);
        }
    }
    for (uint8_t kind = 0; kind < WZ_KINDS; kind++) HOLDS(has_kind[kind]);
    HOLDS(wz_blocks_given(WZ_KINDS, 0, 0, 3) == 0 && wz_blocks_got(WZ_KINDS, 0, 0, 3) == 0);
    DONE(wz_close(&engine));
}

/* tools/words: calls */
static int32_t call_in_order(wz_shared *shared, uint8_t rank, const struct kind_example *it, bool persistent, void *send, void *receive,
                             wz_request *request) {
    const wz_call *call = &it->call;
    switch (call->kind) {
    case WZ_BARRIER:
        return persistent ? wz_barrier_init(shared, rank, 0, request)
                          : wz_ibarrier(shared, rank, 0, request);
    case WZ_BCAST:
        return persistent ? wz_bcast_init(shared, rank, 0, receive, call->count, call->type, call->root, request)
                          : wz_ibcast(shared, rank, 0, receive, call->count, call->type, call->root, request);
    case WZ_GATHER:
        return persistent ? wz_gather_init(shared, rank, 0, send, receive, call->count, call->type, call->root, request)
                          : wz_igather(shared, rank, 0, send, receive, call->count, call->type, call->root, request);
    case WZ_SCATTER:
        return persistent ? wz_scatter_init(shared, rank, 0, send, receive, call->count, call->type, call->root, request)
                          : wz_iscatter(shared, rank, 0, send, receive, call->count, call->type, call->root, request);
    case WZ_ALLGATHER:
        return persistent ? wz_allgather_init(shared, rank, 0, send, receive, call->count, call->type, request)
                          : wz_iallgather(shared, rank, 0, send, receive, call->count, call->type, request);
    case WZ_ALLTOALL:
        return persistent ? wz_alltoall_init(shared, rank, 0, send, receive, call->count, call->type, request)
                          : wz_ialltoall(shared, rank, 0, send, receive, call->count, call->type, request);
    case WZ_REDUCE:
        return persistent ? wz_reduce_init(shared, rank, 0, send, receive, call->count, call->type, call->op, call->root, request)
                          : wz_ireduce(shared, rank, 0, send, receive, call->count, call->type, call->op, call->root, request);
    case WZ_ALLREDUCE:
        return persistent ? wz_allreduce_init(shared, rank, 0, send, receive, call->count, call->type, call->op, request)
                          : wz_iallreduce(shared, rank, 0, send, receive, call->count, call->type, call->op, request);
    case WZ_REDUCE_SCATTER_BLOCK:
        return persistent ? wz_reduce_scatter_block_init(shared, rank, 0, send, receive, call->count, call->type, call->op, request)
                          : wz_ireduce_scatter_block(shared, rank, 0, send, receive, call->count, call->type, call->op, request);
    case WZ_SCAN:
        return persistent ? wz_scan_init(shared, rank, 0, send, receive, call->count, call->type, call->op, request)
                          : wz_iscan(shared, rank, 0, send, receive, call->count, call->type, call->op, request);
    case WZ_EXSCAN:
        return persistent ? wz_exscan_init(shared, rank, 0, send, receive, call->count, call->type, call->op, request)
                          : wz_iexscan(shared, rank, 0, send, receive, call->count, call->type, call->op, request);
    case WZ_ALLGATHERV:
        return persistent ? wz_allgatherv_init(shared, rank, 0, send, receive, it->gives, call->type, request)
                          : wz_iallgatherv(shared, rank, 0, send, receive, it->gives, call->type, request);
    default: return WZ_BAD_NUMBER;
    }
}
/* tools/words: end of calls */

/* A bcast has one buffer, that of the outcome. */
static void each_call(bool persistent) {
    wz_shared shared = { 0 };
    wz_request requests[3];
    DONE(wz_shared_open_world(&shared, 3));
    for (size_t i = 0; i < sizeof kind_examples / sizeof *kind_examples; i++) {
        const struct kind_example *it = &kind_examples[i];
        uint8_t given[3][8], got[3][8];
        memcpy(given, it->given, sizeof given);
        memcpy(got, it->given, sizeof got);
        for (uint8_t rank = 0; rank < 3; rank++) {
            DONE(call_in_order(&shared, rank, it, persistent, given[rank], got[rank], &requests[rank]));
            if (persistent) DONE(wz_begin(&shared, rank, &requests[rank]));
        }
        for (uint8_t rank = 0; rank < 3; rank++) {
            DONE(wz_wait(&shared, rank, &requests[rank]));
            HOLDS(memcmp(got[rank], it->got[rank], it->gets[rank]) == 0);
            if (persistent) DONE(wz_shared_free(&shared, rank, &requests[rank]));
        }
    }
    for (uint8_t rank = 0; rank < 3; rank++) wz_shared_leave(&shared, rank);
    DONE(wz_shared_close(&shared));
}

static void each_operation(void) {
    for (size_t i = 0; i < sizeof operation_examples / sizeof *operation_examples; i++) {
        const struct operation_example *it = &operation_examples[i];
        size_t width = wz_type_bytes(it->type);
        wz_engine engine = opened(it->members);
        wz_call call = { WZ_ALLREDUCE, it->op, it->type, 0, 1 };
        wz_request requests[8];
        for (uint8_t rank = 0; rank < it->members; rank++)
            DONE(wz_post(&engine, rank, 0, &call, it->given + rank * width, width, &requests[rank]));
        DONE(wz_settle(&engine));
        for (uint8_t rank = 0; rank < it->members; rank++) gives(&engine, rank, &requests[rank], it->got, width);
        DONE(wz_close(&engine));
    }
}

/* ---- each operation on each type, beside a loop in C */

enum { ELEMENTS = 48 };

/* Bytes of which one in four is 0, and elements that are equal now and then. */
static void fill(uint8_t *row, size_t length) {
    static uint32_t state = 1;
    for (size_t i = 0; i < length; i++) {
        state = state * 1664525 + 1013904223;
        row[i] = (state >> 16) % 4 == 0 ? 0 : (uint8_t)(state >> 24);
    }
}

static void reduces(uint8_t op, uint8_t type, const void *left, const void *right, const void *want, size_t length) {
    wz_engine engine = opened(2);
    wz_call call = { WZ_ALLREDUCE, op, type, 0, ELEMENTS };
    wz_request requests[2];
    DONE(wz_post(&engine, 0, 0, &call, left, length, &requests[0]));
    DONE(wz_post(&engine, 1, 0, &call, right, length, &requests[1]));
    DONE(wz_settle(&engine));
    for (uint8_t rank = 0; rank < 2; rank++) gives(&engine, rank, &requests[rank], want, length);
    DONE(wz_close(&engine));
}

#define LOOP(word, constant, mpi, ctype, op, statement)                                 \
    do {                                                                                \
        ctype left[ELEMENTS], right[ELEMENTS], want[ELEMENTS];                          \
        fill((uint8_t *)left, sizeof left);                                             \
        fill((uint8_t *)right, sizeof right);                                           \
        memcpy(right, left, sizeof left / 4);                                           \
        for (int i = 0; i < ELEMENTS; i++) {                                            \
            ctype a = left[i], b = right[i];                                            \
            statement;                                                                  \
            want[i] = a;                                                                \
        }                                                                               \
        reduces(WZ_##op, WZ_##constant, left, right, want, sizeof want);                \
        pairs++;                                                                        \
    } while (0);

#define LOOPS(word, constant, types, statement) types(LOOP, constant, statement)

/* Returns how many pairs of an operation and a type there are. */
static int each_pair(void) {
    int pairs = 0;
    EACH_OPERATION(LOOPS)
    return pairs;
}

/* No other operation is for a type. */
static int allowed_pairs(void) {
    int pairs = 0;
    wz_engine engine = opened(1);
    for (uint8_t op = 1; op < WZ_OPERATIONS; op++)
        for (uint8_t type = 0; type < WZ_TYPES; type++) {
            wz_call call = { WZ_ALLREDUCE, op, type, 0, 1 };
            wz_request request;
            int32_t code = wz_init(&engine, 0, 0, &call, &request);
            HOLDS(code == WZ_DONE || (code == WZ_BAD_SIGNATURE && engine.reason.cause == WZ_RULE_OPERATION));
            pairs += code == WZ_DONE;
        }
    DONE(wz_close(&engine));
    return pairs;
}

int main(void) {
    each_kind();
    each_call(false);
    each_call(true);
    each_operation();
    HOLDS(each_pair() == allowed_pairs());
    puts("each: all as it should be");
    return 0;
}
