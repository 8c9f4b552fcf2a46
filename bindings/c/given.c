/* Bytes that are copied without an engine: each answer of the seven functions, with nothing changed where one refuses; and that under the shim no
   long row is copied under the lock: linked with -Wl,--wrap of wz_post, wz_start and wz_test, it refuses to see one there. */
#include <string.h>

#include "check.h"
#include "worzsunab_threads.h"

enum { LONG = 1024 }; /* numbers: 4,096 bytes, as many as are copied outside */

static const wz_call sum = { WZ_ALLREDUCE, WZ_SUM, WZ_INT32, 0, 1 };
static const wz_call rows = { WZ_ALLREDUCE, WZ_SUM, WZ_INT32, 0, LONG };
static const wz_call short_rows = { WZ_ALLREDUCE, WZ_SUM, WZ_INT32, 0, LONG - 1 };

/* ---- what is copied under the lock */

static size_t longest;

static void note(size_t bytes) {
    if (bytes > longest) longest = bytes;
}

int32_t __real_wz_post(wz_engine *engine, uint8_t rank, uint32_t comm, const wz_call *call, const void *bytes,
                       size_t length, wz_request *request);
int32_t __wrap_wz_post(wz_engine *engine, uint8_t rank, uint32_t comm, const wz_call *call, const void *bytes,
                       size_t length, wz_request *request);
int32_t __real_wz_start(wz_engine *engine, uint8_t rank, const wz_request *request, const void *bytes, size_t length);
int32_t __wrap_wz_start(wz_engine *engine, uint8_t rank, const wz_request *request, const void *bytes, size_t length);
int32_t __real_wz_test(wz_engine *engine, uint8_t rank, wz_request *request, void *out, size_t room, size_t *count);
int32_t __wrap_wz_test(wz_engine *engine, uint8_t rank, wz_request *request, void *out, size_t room, size_t *count);

int32_t __wrap_wz_post(wz_engine *engine, uint8_t rank, uint32_t comm, const wz_call *call, const void *bytes,
                       size_t length, wz_request *request) {
    note(length);
    return __real_wz_post(engine, rank, comm, call, bytes, length, request);
}

int32_t __wrap_wz_start(wz_engine *engine, uint8_t rank, const wz_request *request, const void *bytes, size_t length) {
    note(length);
    return __real_wz_start(engine, rank, request, bytes, length);
}

int32_t __wrap_wz_test(wz_engine *engine, uint8_t rank, wz_request *request, void *out, size_t room, size_t *count) {
    int32_t code = __real_wz_test(engine, rank, request, out, room, count);
    if (code == WZ_DONE) note(*count);
    return code;
}

/* ---- one thread plays both ranks */

static wz_engine opened(void) {
    const uint8_t two = 2, members[] = { 0, 1 };
    wz_engine engine = WZ_CLOSED_ENGINE;
    wz_limits limits = wz_greatest_limits(2);
    limits.places = 3;
    DONE(wz_open(&engine, &limits, &two, 1, members, 2));
    return engine;
}

static wz_bytes given(const void *from, size_t length) {
    wz_bytes bytes = WZ_EMPTY_BYTES;
    DONE(wz_give(&bytes, from, length));
    HOLDS(bytes.full);
    return bytes;
}

/* Without an engine. */
static void copies(void) {
    wz_bytes bytes = WZ_EMPTY_BYTES;
    char out[9] = "********";
    size_t count = 77;
    WANT(WZ_NO_BYTES, wz_copy_out(&bytes, out, 8, &count));
    WANT(WZ_NO_BYTES, wz_drop_bytes(&bytes));
    bytes = given("12345", 5);
    WANT(WZ_HAS_BYTES, wz_give(&bytes, "6", 1));
    WANT(WZ_BAD_LENGTH, wz_copy_out(&bytes, out, 4, &count));
    HOLDS(count == 77 && strcmp(out, "********") == 0 && bytes.full);
    DONE(wz_copy_out(&bytes, out, 8, &count));
    HOLDS(count == 5 && strcmp(out, "12345***") == 0 && !bytes.full);
    bytes = given(NULL, 0);
    DONE(wz_copy_out(&bytes, NULL, 0, &count));
    HOLDS(count == 0);
    bytes = given("12345", 5);
    DONE(wz_drop_bytes(&bytes));
    HOLDS(!bytes.full && bytes.at == NULL);
}

/* A refusal leaves the bytes where they are. */
static void refused(void) {
    wz_engine engine = WZ_CLOSED_ENGINE;
    wz_request request = { 5, 5 }, null = WZ_NULL_REQUEST;
    int32_t one = 1;
    uint32_t counts[] = { 1, 1 };
    wz_bytes bytes = WZ_EMPTY_BYTES;
    wz_call bad = sum;
    bad.type = 77;
    WANT(WZ_NO_BYTES, wz_post_given(&engine, 0, 0, &sum, &bytes, &request));
    WANT(WZ_NO_BYTES, wz_post_allgatherv_given(&engine, 0, 0, WZ_INT32, counts, 2, &bytes, &request));
    WANT(WZ_NO_BYTES, wz_start_given(&engine, 0, &request, &bytes));
    WANT(WZ_NO_BYTES, wz_take_outcome(&engine, 0, &request, 4, &bytes));
    bytes = given(&one, sizeof one);
    WANT(WZ_CLOSED, wz_post_given(&engine, 0, 0, &sum, &bytes, &request));
    WANT(WZ_CLOSED, wz_start_given(&engine, 0, &request, &bytes));
    WANT(WZ_CLOSED, wz_take_outcome(&engine, 0, &request, 4, &bytes));
    engine = opened();
    WANT(WZ_BAD_NUMBER, wz_post_given(&engine, 0, 0, &bad, &bytes, &request));
    WANT(WZ_BAD_NUMBER, wz_post_allgatherv_given(&engine, 0, 0, 77, counts, 2, &bytes, &request));
    WANT(WZ_BAD_COMM, wz_post_given(&engine, 0, 9, &sum, &bytes, &request));
    HOLDS(engine.reason.comm == 9);
    WANT(WZ_BAD_LENGTH, wz_post_given(&engine, 0, 0, &rows, &bytes, &request));
    HOLDS(engine.reason.want == 4 * LONG && engine.reason.got == 4);
    WANT(WZ_STALE, wz_start_given(&engine, 0, &null, &bytes));
    WANT(WZ_STALE, wz_take_outcome(&engine, 0, &request, 4, &bytes));
    HOLDS(request.slot == 5 && request.generation == 5 && bytes.full);
    DONE(wz_post_given(&engine, 0, 0, &sum, &bytes, &request)); /* they are still there */
    HOLDS(!bytes.full);
    DONE(wz_post(&engine, 1, 0, &sum, &one, sizeof one, &null));
    bytes = given("abc", 3);
    WANT(WZ_PENDING, wz_take_outcome(&engine, 0, &request, 4, &bytes));
    DONE(wz_settle(&engine));
    WANT(WZ_NOT_YOURS, wz_take_outcome(&engine, 1, &request, 4, &bytes));
    WANT(WZ_BAD_LENGTH, wz_take_outcome(&engine, 0, &request, 3, &bytes));
    HOLDS(engine.reason.want == 4 && engine.reason.got == 3 && request.generation != 0);
    char out[4] = "***";
    size_t count = 7;
    DONE(wz_copy_out(&bytes, out, 3, &count));
    HOLDS(count == 3 && strcmp(out, "abc") == 0);
    DONE(wz_close(&engine));
}

/* Outcomes outlive their requests and the engine, and may be given again. */
static void goes_on(void) {
    wz_engine engine = opened();
    wz_request requests[2], again[2];
    wz_bytes outcomes[2];
    static int32_t mine[2][LONG], got[LONG];
    size_t count = 7;
    for (uint8_t rank = 0; rank < 2; rank++) {
        for (int at = 0; at < LONG; at++) mine[rank][at] = rank + at;
        wz_bytes bytes = given(mine[rank], sizeof mine[rank]);
        DONE(wz_post_given(&engine, rank, 0, &rows, &bytes, &requests[rank]));
        DONE(wz_init(&engine, rank, 0, &rows, &again[rank]));
    }
    DONE(wz_settle(&engine));
    for (uint8_t rank = 0; rank < 2; rank++) {
        outcomes[rank] = given(NULL, 0);
        DONE(wz_take_outcome(&engine, rank, &requests[rank], sizeof got, &outcomes[rank]));
        HOLDS(requests[rank].generation == 0 && outcomes[rank].full);
        DONE(wz_start_given(&engine, rank, &again[rank], &outcomes[rank]));
        HOLDS(!outcomes[rank].full);
    }
    DONE(wz_settle(&engine));
    for (uint8_t rank = 0; rank < 2; rank++) {
        outcomes[rank] = given("abc", 3);
        DONE(wz_take_outcome(&engine, rank, &again[rank], sizeof got, &outcomes[rank]));
        HOLDS(again[rank].generation != 0);
    }
    wz_bytes none = given("abc", 3);
    DONE(wz_take_outcome(&engine, 0, &again[0], 0, &none)); /* it isn't active any longer */
    DONE(wz_copy_out(&none, NULL, 0, &count));
    HOLDS(count == 0);
    DONE(wz_close(&engine));
    DONE(wz_copy_out(&outcomes[0], got, sizeof got, &count));
    for (int at = 0; at < LONG; at++) HOLDS(got[at] == 2 * (1 + 2 * at));
    HOLDS(count == sizeof got);
    DONE(wz_drop_bytes(&outcomes[1]));
}

static void counted(void) {
    wz_engine engine = opened();
    const uint32_t counts[] = { 2, 1 };
    const int16_t mine[] = { 5, 6 };
    int16_t got[3];
    wz_request requests[2];
    size_t count = 7;
    for (uint8_t rank = 0; rank < 2; rank++) {
        wz_bytes bytes = given(mine, sizeof mine[0] * counts[rank]);
        DONE(wz_post_allgatherv_given(&engine, rank, 0, WZ_INT16, counts, 2, &bytes, &requests[rank]));
    }
    DONE(wz_settle(&engine));
    DONE(wz_test(&engine, 1, &requests[1], got, sizeof got, &count));
    HOLDS(count == 6 && got[0] == 5 && got[1] == 6 && got[2] == 5);
    DONE(wz_close(&engine)); /* with an outcome that nobody takes */
}

/* ---- a thread for each rank */

static wz_shared shared;

static void add_up(uint8_t me, const wz_call *call) {
    static int32_t mine[2][LONG], got[2][LONG];
    const size_t bytes = sizeof mine[0][0] * call->count;
    wz_request once, again;
    size_t count = 0;
    for (int at = 0; at < LONG; at++) mine[me][at] = me + at;
    DONE(wz_shared_init(&shared, me, 0, call, &again));
    for (int start = 0; start < 20; start++) {
        DONE(wz_shared_post(&shared, me, 0, call, mine[me], bytes, &once));
        DONE(wz_shared_start(&shared, me, &again, mine[me], bytes));
        DONE(wz_shared_wait(&shared, me, &once, got[me], bytes, &count));
        for (uint32_t at = 0; at < call->count; at++) HOLDS(got[me][at] == 1 + 2 * (int32_t)at);
        int32_t code = WZ_PENDING;
        while (code == WZ_PENDING) code = wz_shared_test(&shared, me, &again, got[me], sizeof got[me], &count);
        DONE(code);
        HOLDS(count == bytes);
        DONE(wz_shared_wait(&shared, me, &again, got[me], sizeof got[me], &count)); /* it isn't active */
        HOLDS(count == 0);
    }
    WANT(WZ_BAD_COMM, wz_shared_post(&shared, me, 9, call, mine[me], bytes, &once)); /* what was copied is given up */
    DONE(wz_shared_free(&shared, me, &again));
}

static void *rank(void *number) {
    uint8_t me = (uint8_t)(size_t)number;
    add_up(me, &rows);
    return NULL;
}

static void *short_rank(void *number) {
    uint8_t me = (uint8_t)(size_t)number;
    add_up(me, &short_rows);
    return NULL;
}

static void play(void *(*rank_of)(void *)) {
    pthread_t threads[2];
    longest = 0;
    DONE(wz_shared_open_world(&shared, 2));
    for (size_t i = 0; i < 2; i++) pthread_create(&threads[i], NULL, rank_of, (void *)i);
    for (int i = 0; i < 2; i++) pthread_join(threads[i], NULL);
    DONE(wz_shared_close(&shared));
}

int main(void) {
    copies();
    refused();
    goes_on();
    counted();
    play(rank);
    HOLDS(longest == 0);
    play(short_rank);
    HOLDS(longest == 4 * (LONG - 1)); /* shorter ones are */
    puts("given: all as it should be");
    return 0;
}
