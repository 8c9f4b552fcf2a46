/* Each answer of each function, and that nothing changes where one refuses. One thread plays all ranks.
   refusals table: prints the numbers and names of the refusals. refusals answers: prints all answers as docs/C.md has them. */
#include <stdio.h>
#include <stdlib.h>
#include <string.h>

#include "check.h"

static const wz_call sum = { WZ_ALLREDUCE, WZ_SUM, WZ_INT32, 0, 1 };
static const wz_call barrier = { WZ_BARRIER, WZ_NO_OPERATION, WZ_BYTE, 0, 0 };
static const uint8_t all_of_two[] = { 0, 1 };

static wz_engine opened(uint32_t slots, uint32_t places, uint32_t starts) {
    wz_engine engine = WZ_CLOSED_ENGINE;
    wz_limits limits = wz_greatest_limits(2);
    uint8_t sizes[] = { 2, 1 }, members[] = { 0, 1, 1 };
    limits.slots = slots;
    limits.places = places;
    limits.starts = starts;
    WANT(WZ_DONE, wz_open(&engine, &limits, sizes, 2, members, 3));
    return engine;
}

static void closed(void) {
    wz_engine engine = WZ_CLOSED_ENGINE;
    wz_request request = WZ_NULL_REQUEST;
    int32_t number = 1;
    size_t count = 7;
    uint8_t phase = 7;
    uint32_t actions = 7;
    uint64_t bytes = 7;
    uint32_t counts[] = { 1, 1 };
    wz_about_request about = { 7, true, 7, 7, 7 };
    wz_work work = WZ_EMPTY_WORK;
    for (int again = 0; again < 2; again++) {
        WANT(WZ_CLOSED, wz_post(&engine, 0, 0, &sum, &number, 4, &request));
        WANT(WZ_CLOSED, wz_init(&engine, 0, 0, &sum, &request));
        WANT(WZ_CLOSED, wz_post_allgatherv(&engine, 0, 0, WZ_INT32, counts, 2, &number, 4, &request));
        WANT(WZ_CLOSED, wz_init_allgatherv(&engine, 0, 0, WZ_INT32, counts, 2, &request));
        WANT(WZ_CLOSED, wz_about(&engine, &request, &about));
        WANT(WZ_CLOSED, wz_take_work(&engine, &work));
        WANT(WZ_NO_WORK, wz_run_work(&work));
        WANT(WZ_NO_WORK, wz_return_work(&engine, &work));
        WANT(WZ_NO_WORK, wz_drop_work(&work));
        HOLDS(about.rank == 7 && about.starts == 7 && !work.full && engine.reason.code == 0);
        WANT(WZ_CLOSED, wz_start(&engine, 0, &request, &number, 4));
        WANT(WZ_CLOSED, wz_free(&engine, 0, &request));
        WANT(WZ_CLOSED, wz_test(&engine, 0, &request, &number, 4, &count));
        WANT(WZ_CLOSED, wz_phase(&engine, 0, &request, &phase));
        WANT(WZ_CLOSED, wz_outcome_length(&engine, 0, &request, &count));
        WANT(WZ_CLOSED, wz_step(&engine, 1, &actions));
        WANT(WZ_CLOSED, wz_settle(&engine));
        WANT(WZ_CLOSED, wz_lent(&engine, &bytes));
        WANT(WZ_CLOSED, wz_close(&engine));
        HOLDS(count == 7 && phase == 7 && actions == 7 && bytes == 7 && number == 1 && request.generation == 0);
        if (again == 0) {
            engine = opened(1, 1, 1);
            WANT(WZ_DONE, wz_close(&engine)); /* a closed engine is as one that never was open */
        }
    }
}

static void configurations(void) {
    wz_engine engine = WZ_CLOSED_ENGINE;
    uint8_t sizes[17], members[17] = { 0 }, twice[] = { 0, 0 }, above[] = { 0, 2 }, two = 2, none = 0;
    wz_limits good = wz_greatest_limits(2), bad;
    memset(sizes, 1, sizeof sizes);
#define BAD(field, value)                                                                                          \
    do {                                                                                                           \
        bad = good;                                                                                                \
        bad.field = (value);                                                                                       \
        WANT(WZ_BAD_CONFIG, wz_open(&engine, &bad, &two, 1, all_of_two, 2));                                       \
        HOLDS(!engine.opened);                                                                                       \
    } while (0)
    BAD(ranks, 0);
    BAD(ranks, 65);
    BAD(ranks, 258);
    BAD(slots, 0);
    BAD(slots, 4097);
    BAD(places, 0);
    BAD(places, 65537);
    BAD(wear, 0);
    BAD(starts, 0);
    BAD(starts, 1048577);
    WANT(WZ_BAD_CONFIG, wz_open(&engine, &good, NULL, 0, NULL, 0));
    WANT(WZ_BAD_CONFIG, wz_open(&engine, &good, sizes, 17, members, 17));
    WANT(WZ_BAD_CONFIG, wz_open(&engine, &good, &none, 1, NULL, 0));
    WANT(WZ_BAD_CONFIG, wz_open(&engine, &good, &two, 1, twice, 2));
    WANT(WZ_BAD_CONFIG, wz_open(&engine, &good, &two, 1, above, 2));
    WANT(WZ_BAD_CONFIG, wz_open(&engine, &good, &two, 1, all_of_two, 1)); /* fewer members than the sizes tell */
    WANT(WZ_BAD_CONFIG, wz_open(&engine, &good, sizes, 1, all_of_two, 2)); /* more */
    WANT(WZ_DONE, wz_open(&engine, &good, &two, 1, all_of_two, 2));
    WANT(WZ_OPEN, wz_open(&engine, &good, &two, 1, all_of_two, 2));
    WANT(WZ_DONE, wz_close(&engine));
}

static void posts(void) {
    wz_engine engine = opened(2, 3, 1);
    wz_request request = { 5, 5 }, other;
    int32_t number = 1;
    wz_call call;
#define BAD_CALL(answer, field, value)                                                                             \
    do {                                                                                                           \
        call = sum;                                                                                                \
        call.field = (value);                                                                                      \
        WANT(answer, wz_post(&engine, 0, 0, &call, &number, 4, &request));                                         \
        WANT(answer, wz_init(&engine, 0, 0, &call, &request));                                                     \
    } while (0)
    BAD_CALL(WZ_BAD_NUMBER, kind, WZ_KINDS);
    BAD_CALL(WZ_BAD_NUMBER, kind, 200);
    BAD_CALL(WZ_BAD_NUMBER, op, WZ_OPERATIONS);
    BAD_CALL(WZ_BAD_NUMBER, op, 255);
    BAD_CALL(WZ_BAD_NUMBER, type, WZ_TYPES);
    BAD_CALL(WZ_BAD_SIGNATURE, root, 1);
    BAD_CALL(WZ_BAD_SIGNATURE, op, WZ_NO_OPERATION);
    BAD_CALL(WZ_BAD_SIGNATURE, op, WZ_MAXLOC);
    BAD_CALL(WZ_BAD_SIGNATURE, count, 65537);
    call = barrier;
    call.count = 1;
    WANT(WZ_BAD_SIGNATURE, wz_post(&engine, 0, 0, &call, NULL, 0, &request));
    WANT(WZ_BAD_COMM, wz_post(&engine, 0, 2, &sum, &number, 4, &request));
    WANT(WZ_NOT_MEMBER, wz_post(&engine, 0, 1, &sum, &number, 4, &request));
    WANT(WZ_NOT_MEMBER, wz_post(&engine, 9, 0, &sum, &number, 4, &request));
    WANT(WZ_BAD_LENGTH, wz_post(&engine, 0, 0, &sum, &number, 3, &request));
    WANT(WZ_BAD_LENGTH, wz_post(&engine, 0, 0, &sum, NULL, 0, &request));
    HOLDS(request.slot == 5 && request.generation == 5);
    WANT(WZ_DONE, wz_post(&engine, 0, 0, &sum, &number, 4, &request));
    call = sum;
    call.op = WZ_MAX;
    WANT(WZ_MISMATCH, wz_post(&engine, 1, 0, &call, &number, 4, &other));
    WANT(WZ_MISMATCH, wz_init(&engine, 1, 0, &sum, &other)); /* once and persistent differ */
    WANT(WZ_DONE, wz_post(&engine, 0, 0, &sum, &number, 4, &other));
    WANT(WZ_FULL, wz_post(&engine, 1, 0, &sum, &number, 4, &other));
    WANT(WZ_FULL, wz_init(&engine, 1, 1, &sum, &other));
    WANT(WZ_DONE, wz_close(&engine)); /* also with requests under way */
    engine = opened(3, 1, 1);
    WANT(WZ_DONE, wz_post(&engine, 0, 0, &sum, &number, 4, &request));
    WANT(WZ_PLACES_USED, wz_post(&engine, 0, 0, &sum, &number, 4, &request));
    WANT(WZ_DONE, wz_close(&engine));
}

static void tells(const wz_engine *engine, const char *sentence) {
    char text[200];
    HOLDS(wz_explain(&engine->reason, text, sizeof text) == (int)strlen(sentence));
    HOLDS(strcmp(text, sentence) == 0);
}

/* What is known of a refusal. */
static void reasons(void) {
    wz_engine engine = opened(4, 3, 1);
    wz_request request, held;
    wz_call call = sum;
    int32_t number = 1;
    size_t count = 0;
    wz_limits limits = wz_greatest_limits(2);
    uint8_t two = 2;
    HOLDS(engine.reason.code == 0);
    WANT(WZ_BAD_COMM, wz_post(&engine, 0, 7, &sum, &number, 4, &request));
    HOLDS(engine.reason.code == WZ_BAD_COMM && engine.reason.comm == 7);
    tells(&engine, "there is no communicator 7");
    WANT(WZ_NOT_MEMBER, wz_post(&engine, 0, 1, &sum, &number, 4, &request));
    HOLDS(engine.reason.code == WZ_NOT_MEMBER && engine.reason.rank == 0 && engine.reason.comm == 0);
    tells(&engine, "rank 0 isn't in the communicator's group");
    call.root = 1;
    WANT(WZ_BAD_SIGNATURE, wz_init(&engine, 0, 0, &call, &request));
    HOLDS(engine.reason.cause == WZ_RULE_ROOT && strcmp(wz_reason_mpi_class(&engine.reason), "MPI_ERR_ROOT") == 0);
    tells(&engine, "the root isn't a member, or isn't 0 for a collective without a root");
    call = sum;
    call.op = WZ_MINLOC;
    WANT(WZ_BAD_SIGNATURE, wz_init(&engine, 0, 0, &call, &request));
    HOLDS(engine.reason.cause == WZ_RULE_OPERATION && strcmp(wz_reason_mpi_class(&engine.reason), "MPI_ERR_OP") == 0);
    tells(&engine, "the operation is missing, isn't for that type, or is one too many");
    call = sum;
    call.count = 65537;
    WANT(WZ_BAD_SIGNATURE, wz_init(&engine, 0, 0, &call, &request));
    HOLDS(engine.reason.cause == WZ_RULE_COUNT && strcmp(wz_reason_mpi_class(&engine.reason), "MPI_ERR_COUNT") == 0);
    tells(&engine, "a count is above 65,536, or one is given that has no meaning");
    WANT(WZ_BAD_LENGTH, wz_post(&engine, 1, 0, &sum, &number, 3, &request));
    HOLDS(engine.reason.code == WZ_BAD_LENGTH && engine.reason.want == 4 && engine.reason.got == 3);
    tells(&engine, "4 bytes are due, not 3");
    HOLDS(strcmp(wz_reason_mpi_class(&engine.reason), "MPI_ERR_TRUNCATE") == 0);
    WANT(WZ_DONE, wz_post(&engine, 0, 0, &sum, &number, 4, &held));
    HOLDS(engine.reason.code == WZ_BAD_LENGTH); /* what is done leaves it */
    call = sum;
    call.type = WZ_UINT32;
    WANT(WZ_MISMATCH, wz_post(&engine, 1, 0, &call, &number, 4, &request));
    HOLDS(engine.reason.first == 0 && engine.reason.place == 0 && !engine.reason.persistent);
    HOLDS(memcmp(&engine.reason.call, &sum, sizeof sum) == 0);
    tells(&engine, "at place 0 rank 0 has another collective: allreduce, sum, i32, count 1");
    WANT(WZ_DONE, wz_post(&engine, 1, 0, &sum, &number, 4, &request));
    WANT(WZ_DONE, wz_settle(&engine));
    WANT(WZ_BAD_LENGTH, wz_test(&engine, 0, &held, &number, 1, &count));
    HOLDS(engine.reason.want == 4 && engine.reason.got == 1);
    call.op = WZ_MINLOC;
    call.type = WZ_2INT;
    WANT(WZ_DONE, wz_init(&engine, 0, 0, &call, &request));
    WANT(WZ_MISMATCH, wz_init(&engine, 1, 0, &sum, &request));
    tells(&engine, "at place 1 rank 0 has another collective: persistent allreduce, minloc, 2int, count 1");
    WANT(WZ_DONE, wz_close(&engine));
    HOLDS(engine.reason.code == 0 && engine.at == NULL);
    limits.places = 0;
    WANT(WZ_BAD_CONFIG, wz_open(&engine, &limits, &two, 1, all_of_two, 2));
    HOLDS(engine.reason.code == WZ_BAD_CONFIG && engine.reason.cause == WZ_FIELD_PLACES);
    tells(&engine, "what is given as places is out of its range");
}

/* Allgathervs: member 0 gives two numbers, member 1 gives one. */
static void counted(void) {
    wz_engine engine = opened(4, 4, 2);
    uint32_t counts[65] = { 2, 1 }, others[] = { 1, 2 };
    int32_t two[] = { 5, 6 }, one = 7, out[4] = { -1, -1, -1, -1 };
    wz_request mine = { 9, 9 }, yours;
    wz_call call = { WZ_ALLGATHERV, WZ_NO_OPERATION, WZ_INT32, 0, 0 };
    wz_posted posted;
    size_t count = 0;
    WANT(WZ_BAD_NUMBER, wz_post(&engine, 0, 0, &call, two, 8, &mine)); /* a wz_call has no counts */
    WANT(WZ_BAD_NUMBER, wz_post_allgatherv(&engine, 0, 0, 10, counts, 2, two, 8, &mine));
    WANT(WZ_BAD_NUMBER, wz_post_allgatherv(&engine, 0, 0, WZ_INT32, counts, 65, two, 8, &mine));
    WANT(WZ_BAD_NUMBER, wz_init_allgatherv(&engine, 0, 0, 10, counts, 2, &mine));
    counts[2] = 1;
    WANT(WZ_BAD_SIGNATURE, wz_post_allgatherv(&engine, 0, 0, WZ_INT32, counts, 3, two, 8, &mine)); /* behind the last member */
    HOLDS(engine.reason.cause == WZ_RULE_COUNT);
    WANT(WZ_BAD_SIGNATURE, wz_init_allgatherv(&engine, 0, 0, WZ_INT32, counts, 3, &mine));
    counts[2] = 0;
    WANT(WZ_BAD_COMM, wz_post_allgatherv(&engine, 0, 2, WZ_INT32, counts, 2, two, 8, &mine));
    WANT(WZ_NOT_MEMBER, wz_init_allgatherv(&engine, 0, 1, WZ_INT32, counts, 1, &mine));
    WANT(WZ_BAD_LENGTH, wz_post_allgatherv(&engine, 0, 0, WZ_INT32, counts, 2, two, 4, &mine));
    HOLDS(engine.reason.want == 8 && engine.reason.got == 4 && mine.slot == 9 && mine.generation == 9);
    WANT(WZ_DONE, wz_post_allgatherv(&engine, 0, 0, WZ_INT32, counts, 64, two, 8, &mine)); /* zeros behind may be left out */
    WANT(WZ_MISMATCH, wz_post_allgatherv(&engine, 1, 0, WZ_INT32, others, 2, two, 8, &yours));
    HOLDS(engine.reason.call.kind == WZ_ALLGATHERV && engine.reason.call.op == WZ_NO_OPERATION);
    WANT(WZ_DONE, wz_posted_at(&engine, 0, engine.reason.place, &posted)); /* the counts that the reason leaves out */
    HOLDS(memcmp(&posted.call, &engine.reason.call, sizeof posted.call) == 0 && !posted.persistent);
    HOLDS(posted.counts[0] == 2 && posted.counts[1] == 1 && posted.counts[2] == 0 && posted.counts[63] == 0);
    WANT(WZ_NO_PLACE, wz_posted_at(&engine, 0, 1, &posted));
    WANT(WZ_NO_PLACE, wz_posted_at(&engine, 2, 0, &posted));
    HOLDS(posted.counts[0] == 2 && engine.reason.code == WZ_MISMATCH);
    WANT(WZ_DONE, wz_post_allgatherv(&engine, 1, 0, WZ_INT32, counts, 2, &one, 4, &yours));
    WANT(WZ_DONE, wz_settle(&engine));
    WANT(WZ_DONE, wz_test(&engine, 1, &yours, out, sizeof out, &count));
    HOLDS(count == 12 && out[0] == 5 && out[1] == 6 && out[2] == 7 && out[3] == -1);
    WANT(WZ_DONE, wz_test(&engine, 0, &mine, out, sizeof out, &count));
    HOLDS(count == 12);
    WANT(WZ_DONE, wz_init_allgatherv(&engine, 0, 0, WZ_INT32, others, 2, &mine));
    WANT(WZ_DONE, wz_init_allgatherv(&engine, 1, 0, WZ_INT32, others, 2, &yours));
    for (int start = 0; start < 2; start++) {
        out[0] = out[1] = out[2] = -1;
        WANT(WZ_DONE, wz_start(&engine, 0, &mine, &one, 4));
        WANT(WZ_DONE, wz_start(&engine, 1, &yours, two, 8));
        WANT(WZ_DONE, wz_settle(&engine));
        WANT(WZ_DONE, wz_test(&engine, 0, &mine, out, 12, &count));
        HOLDS(count == 12 && out[0] == 7 && out[1] == 5 && out[2] == 6);
        WANT(WZ_DONE, wz_test(&engine, 1, &yours, out, 12, &count));
    }
    WANT(WZ_DONE, wz_post_allgatherv(&engine, 1, 1, WZ_INT32, NULL, 0, NULL, 0, &yours)); /* nobody gives anything */
    WANT(WZ_DONE, wz_settle(&engine));
    WANT(WZ_DONE, wz_test(&engine, 1, &yours, NULL, 0, &count));
    HOLDS(count == 0);
    WANT(WZ_DONE, wz_close(&engine));
}

static void abouts(void) {
    wz_engine engine = opened(4, 8, 2);
    wz_request once, persistent, null = WZ_NULL_REQUEST;
    wz_about_request about = { 9, true, 9, 9, 9 };
    int32_t number = 1;
    WANT(WZ_STALE, wz_about(&engine, &null, &about));
    HOLDS(about.rank == 9 && engine.reason.code == WZ_STALE);
    tells(&engine, "the request is null, completed or freed");
    WANT(WZ_DONE, wz_post(&engine, 1, 1, &sum, &number, 4, &once));
    WANT(WZ_DONE, wz_init(&engine, 1, 1, &sum, &persistent));
    WANT(WZ_DONE, wz_about(&engine, &once, &about));
    HOLDS(about.rank == 1 && !about.persistent && about.comm == 1 && about.place == 0 && about.starts == 1);
    WANT(WZ_DONE, wz_about(&engine, &persistent, &about));
    HOLDS(about.rank == 1 && about.persistent && about.comm == 1 && about.place == 1 && about.starts == 0);
    WANT(WZ_DONE, wz_start(&engine, 1, &persistent, &number, 4));
    WANT(WZ_DONE, wz_about(&engine, &persistent, &about));
    HOLDS(about.starts == 1);
    WANT(WZ_DONE, wz_close(&engine));
}

/* Combinations that are taken out, in every order. */
static void works(void) {
    wz_engine engine = opened(4, 8, 4), other = opened(4, 8, 4);
    wz_work work = WZ_EMPTY_WORK, second = WZ_EMPTY_WORK, spent;
    wz_request mine, yours, late;
    int32_t two = 2, three = 3, out = -1;
    size_t count = 0;
    uint32_t actions = 9;
    int taken = 0;
    WANT(WZ_NO_WORK, wz_take_work(&engine, &work));
    WANT(WZ_DONE, wz_post(&engine, 0, 0, &sum, &two, 4, &mine));
    WANT(WZ_NO_WORK, wz_take_work(&engine, &work)); /* the other's bytes aren't there */
    WANT(WZ_DONE, wz_post(&engine, 1, 0, &sum, &three, 4, &yours));
    WANT(WZ_DONE, wz_take_work(&engine, &work));
    HOLDS(work.full);
    WANT(WZ_HAS_WORK, wz_take_work(&engine, &work));
    WANT(WZ_DONE, wz_return_work(&engine, &work)); /* undone */
    HOLDS(!work.full && work.at == NULL);
    WANT(WZ_NO_WORK, wz_return_work(&engine, &work));
    WANT(WZ_DONE, wz_take_work(&engine, &work));
    WANT(WZ_DONE, wz_run_work(&work));
    WANT(WZ_DONE, wz_run_work(&work)); /* once is enough */
    WANT(WZ_DONE, wz_take_work(&engine, &second)); /* the other member's */
    WANT(WZ_NO_WORK, wz_take_work(&engine, &(wz_work)WZ_EMPTY_WORK));
    WANT(WZ_DONE, wz_step(&engine, 5, &actions)); /* nothing else can be done */
    HOLDS(actions == 0);
    WANT(WZ_PENDING, wz_test(&engine, 0, &mine, &out, 4, &count));
    WANT(WZ_STALE, wz_return_work(&other, &second)); /* that engine has none outside: it is given up */
    HOLDS(!second.full && other.reason.code == WZ_STALE);
    WANT(WZ_DONE, wz_return_work(&engine, &work));
    WANT(WZ_DONE, wz_settle(&engine));
    WANT(WZ_DONE, wz_post(&engine, 0, 0, &sum, &two, 4, &late));
    while (wz_take_work(&engine, &work) == WZ_DONE) {
        taken++;
        WANT(WZ_DONE, wz_run_work(&work));
        WANT(WZ_DONE, wz_return_work(&engine, &work));
    }
    HOLDS(taken == 0);
    WANT(WZ_DONE, wz_close(&engine));
    engine = opened(4, 8, 4);
    WANT(WZ_DONE, wz_post(&engine, 0, 0, &sum, &two, 4, &mine));
    WANT(WZ_DONE, wz_post(&engine, 1, 0, &sum, &three, 4, &yours));
    while (wz_take_work(&engine, &work) == WZ_DONE) {
        taken++;
        if (taken % 2 == 1) WANT(WZ_DONE, wz_run_work(&work)); /* every other one goes back undone, and comes again */
        WANT(WZ_DONE, wz_return_work(&engine, &work));
    }
    HOLDS(taken == 3);
    WANT(WZ_DONE, wz_test(&engine, 0, &mine, &out, 4, &count));
    HOLDS(out == 5 && count == 4);
    WANT(WZ_DONE, wz_test(&engine, 1, &yours, &out, 4, &count));
    WANT(WZ_DONE, wz_post(&engine, 0, 0, &sum, &two, 4, &mine));
    WANT(WZ_DONE, wz_post(&engine, 1, 0, &sum, &three, 4, &yours));
    WANT(WZ_DONE, wz_take_work(&engine, &work));
    WANT(WZ_DONE, wz_close(&engine));
    WANT(WZ_CLOSED, wz_return_work(&engine, &work));
    HOLDS(work.full);
    WANT(WZ_DONE, wz_run_work(&work)); /* it needs no engine */
    spent = work;
    WANT(WZ_DONE, wz_drop_work(&work));
    HOLDS(!work.full && work.at == NULL && spent.full);
    WANT(WZ_NO_WORK, wz_drop_work(&work));
    WANT(WZ_DONE, wz_close(&other));
}

static void requests(void) {
    wz_engine engine = opened(4, 8, 2);
    wz_request mine = WZ_NULL_REQUEST, yours, once, null = WZ_NULL_REQUEST, gone;
    int32_t two = 2, three = 3, out[2] = { -1, -1 };
    size_t count = 9;
    uint8_t phase = 9;
    uint64_t lent = 9;
    WANT(WZ_DONE, wz_test(&engine, 0, &null, NULL, 0, &count)); /* a null request is complete */
    HOLDS(count == 0);
    WANT(WZ_STALE, wz_start(&engine, 0, &null, &two, 4));
    WANT(WZ_STALE, wz_free(&engine, 0, &null));
    WANT(WZ_STALE, wz_phase(&engine, 0, &null, &phase));
    WANT(WZ_DONE, wz_init(&engine, 0, 0, &sum, &mine));
    WANT(WZ_DONE, wz_init(&engine, 1, 0, &sum, &yours));
    WANT(WZ_DONE, wz_phase(&engine, 0, &mine, &phase));
    HOLDS(phase == WZ_IDLE);
    WANT(WZ_DONE, wz_test(&engine, 0, &mine, NULL, 0, &count)); /* as is an idle one */
    HOLDS(count == 0 && mine.generation != 0);
    WANT(WZ_NOT_YOURS, wz_start(&engine, 0, &yours, &two, 4));
    WANT(WZ_NOT_YOURS, wz_test(&engine, 0, &yours, out, 4, &count));
    WANT(WZ_NOT_YOURS, wz_phase(&engine, 0, &yours, &phase));
    WANT(WZ_NOT_YOURS, wz_free(&engine, 0, &yours));
    WANT(WZ_BAD_LENGTH, wz_start(&engine, 0, &mine, &two, 2));
    WANT(WZ_DONE, wz_start(&engine, 0, &mine, &two, 4));
    WANT(WZ_ACTIVE, wz_start(&engine, 0, &mine, &two, 4));
    WANT(WZ_ACTIVE, wz_free(&engine, 0, &mine));
    WANT(WZ_DONE, wz_settle(&engine));
    WANT(WZ_PENDING, wz_test(&engine, 0, &mine, out, 4, &count));
    WANT(WZ_DONE, wz_phase(&engine, 0, &mine, &phase));
    WANT(WZ_DONE, wz_lent(&engine, &lent));
    WANT(WZ_DONE, wz_outcome_length(&engine, 0, &mine, &count));
    HOLDS(phase == WZ_IS_PENDING && lent == 8 && out[0] == -1 && count == 4);
    WANT(WZ_NOT_YOURS, wz_outcome_length(&engine, 0, &yours, &count));
    WANT(WZ_STALE, wz_outcome_length(&engine, 0, &null, &count));
    count = 0;
    WANT(WZ_DONE, wz_start(&engine, 1, &yours, &three, 4));
    WANT(WZ_DONE, wz_settle(&engine));
    WANT(WZ_DONE, wz_phase(&engine, 0, &mine, &phase));
    HOLDS(phase == WZ_IS_DONE);
    WANT(WZ_BAD_LENGTH, wz_test(&engine, 0, &mine, out, 3, &count)); /* nothing is lost */
    HOLDS(out[0] == -1 && count == 0);
    WANT(WZ_DONE, wz_test(&engine, 0, &mine, out, sizeof out, &count));
    HOLDS(out[0] == 5 && out[1] == -1 && count == 4 && mine.generation != 0);
    WANT(WZ_DONE, wz_test(&engine, 1, &yours, out, 4, &count));
    WANT(WZ_DONE, wz_lent(&engine, &lent));
    HOLDS(lent == 0);
    WANT(WZ_DONE, wz_start(&engine, 0, &mine, &two, 4));
    WANT(WZ_DONE, wz_start(&engine, 1, &yours, &three, 4));
    WANT(WZ_DONE, wz_settle(&engine));
    WANT(WZ_DONE, wz_test(&engine, 0, &mine, out, 4, &count));
    WANT(WZ_STARTS_USED, wz_start(&engine, 0, &mine, &two, 4));
    gone = mine;
    WANT(WZ_DONE, wz_free(&engine, 0, &mine));
    HOLDS(mine.generation == 0);
    WANT(WZ_STALE, wz_test(&engine, 0, &gone, out, 4, &count));
    WANT(WZ_STALE, wz_start(&engine, 0, &gone, &two, 4));
    WANT(WZ_DONE, wz_post(&engine, 1, 1, &sum, &three, 4, &once));
    WANT(WZ_NOT_PERSISTENT, wz_start(&engine, 1, &once, &two, 4));
    WANT(WZ_NOT_PERSISTENT, wz_free(&engine, 1, &once));
    WANT(WZ_DONE, wz_settle(&engine));
    gone = once;
    WANT(WZ_DONE, wz_test(&engine, 1, &once, out, 4, &count));
    HOLDS(out[0] == 3 && once.generation == 0 && once.slot == 0);
    WANT(WZ_STALE, wz_test(&engine, 1, &gone, out, 4, &count));
    WANT(WZ_DONE, wz_close(&engine));
}

static void budgets(void) {
    wz_engine engine = opened(4, 8, 2);
    wz_request mine, yours;
    int32_t number = 1;
    uint32_t actions = 9, more = 0, all = 0;
    uint8_t phase = 9;
    WANT(WZ_DONE, wz_step(&engine, 5, &actions));
    HOLDS(actions == 0);
    WANT(WZ_DONE, wz_post(&engine, 0, 0, &sum, &number, 4, &mine));
    WANT(WZ_DONE, wz_post(&engine, 1, 0, &sum, &number, 4, &yours));
    WANT(WZ_DONE, wz_step(&engine, 0, &actions));
    HOLDS(actions == 0);
    do {
        WANT(WZ_DONE, wz_step(&engine, 1, &more));
        HOLDS(more <= 1);
        all += more;
    } while (more != 0);
    HOLDS(all > 2);
    WANT(WZ_DONE, wz_phase(&engine, 1, &yours, &phase));
    HOLDS(phase == WZ_IS_DONE);
    WANT(WZ_DONE, wz_close(&engine));
}

static void lists(void) {
    wz_engine engine = opened(8, 16, 4);
    enum { MANY = 3, LIST = MANY + 1 };
    wz_part mine[LIST];
    wz_request yours[MANY], first;
    int32_t out[LIST] = { 0 }, given[MANY] = { 1, 2, 3 };
    size_t index = 7, some = 7, started = 7;
    for (size_t i = 0; i < LIST; i++) mine[i] = (wz_part){ WZ_NULL_REQUEST, 4 * i, 4, 9, true };
    WANT(WZ_DONE, wz_test_any(&engine, 0, mine, LIST, out, sizeof out, &index)); /* only null requests */
    WANT(WZ_DONE, wz_test_some(&engine, 0, mine, LIST, out, sizeof out, &some));
    HOLDS(index == WZ_UNDEFINED && some == WZ_UNDEFINED && mine[0].completed);
    WANT(WZ_DONE, wz_test_all(&engine, 0, mine, LIST, out, sizeof out));
    HOLDS(!mine[0].completed && mine[0].count == 0);
    WANT(WZ_DONE, wz_test_all(&engine, 0, NULL, 0, NULL, 0));
    for (int i = 0; i < MANY; i++) {
        WANT(WZ_DONE, wz_init(&engine, 0, 0, &sum, &mine[i].request));
        WANT(WZ_DONE, wz_init(&engine, 1, 0, &sum, &yours[i]));
    }
    mine[2].room = 3;
    WANT(WZ_BAD_LENGTH, wz_start_all(&engine, 0, mine, MANY, given, sizeof given, &started));
    HOLDS(started == 2 && engine.reason.want == 4 && engine.reason.got == 3);
    mine[2].room = 4;
    WANT(WZ_BAD_LENGTH, wz_start_all(&engine, 0, mine + 2, 1, given, 10, &started)); /* two of its bytes lie beyond */
    HOLDS(started == 0 && engine.reason.got == 2);
    WANT(WZ_ACTIVE, wz_start_all(&engine, 0, mine, MANY, given, sizeof given, &started));
    HOLDS(started == 0);
    WANT(WZ_DONE, wz_start_all(&engine, 0, mine + 2, 1, given, sizeof given, &started));
    HOLDS(started == 1);
    WANT(WZ_PENDING, wz_test_any(&engine, 0, mine, LIST, out, sizeof out, &index));
    WANT(WZ_DONE, wz_test_some(&engine, 0, mine, LIST, out, sizeof out, &some));
    HOLDS(some == 0 && index == WZ_UNDEFINED);
    WANT(WZ_DONE, wz_start(&engine, 1, &yours[1], &given[0], 4));
    WANT(WZ_DONE, wz_start(&engine, 1, &yours[2], &given[0], 4));
    WANT(WZ_DONE, wz_settle(&engine));
    WANT(WZ_PENDING, wz_test_all(&engine, 0, mine, LIST, out, sizeof out));
    WANT(WZ_NOT_YOURS, wz_test_all(&engine, 1, mine, LIST, out, sizeof out));
    WANT(WZ_NOT_YOURS, wz_test_any(&engine, 1, mine, LIST, out, sizeof out, &index));
    first = mine[3].request;
    mine[3].request = mine[1].request;
    WANT(WZ_TWICE, wz_test_all(&engine, 0, mine, LIST, out, sizeof out));
    WANT(WZ_TWICE, wz_test_some(&engine, 0, mine, LIST, out, sizeof out, &some));
    mine[3].request = first;
    mine[2].room = 3;
    WANT(WZ_BAD_LENGTH, wz_test_some(&engine, 0, mine, LIST, out, sizeof out, &some)); /* none is completed */
    HOLDS(out[1] == 0 && engine.reason.want == 4 && engine.reason.got == 3);
    WANT(WZ_BAD_LENGTH, wz_test_any(&engine, 0, mine, LIST, out, 7, &index));
    HOLDS(engine.reason.got == 3);
    WANT(WZ_DONE, wz_test_any(&engine, 0, mine, LIST, out, sizeof out, &index));
    HOLDS(index == 1 && out[1] == 3 && mine[1].count == 4 && mine[1].completed);
    mine[2].room = 4;
    WANT(WZ_DONE, wz_test_some(&engine, 0, mine, LIST, out, sizeof out, &some));
    HOLDS(some == 1 && mine[2].completed && !mine[0].completed && !mine[1].completed && out[2] == 4 && out[0] == 0);
    WANT(WZ_DONE, wz_start(&engine, 1, &yours[0], &given[0], 4));
    WANT(WZ_DONE, wz_settle(&engine));
    WANT(WZ_DONE, wz_test_all(&engine, 0, mine, LIST, out, sizeof out));
    HOLDS(out[0] == 2 && mine[0].count == 4 && mine[1].count == 0 && mine[0].request.generation != 0);
    WANT(WZ_DONE, wz_close(&engine));
    WANT(WZ_CLOSED, wz_test_any(&engine, 0, mine, LIST, out, sizeof out, &index));
    WANT(WZ_CLOSED, wz_test_some(&engine, 0, mine, LIST, out, sizeof out, &some));
    WANT(WZ_CLOSED, wz_test_all(&engine, 0, mine, LIST, out, sizeof out));
    WANT(WZ_CLOSED, wz_start_all(&engine, 0, mine, LIST, out, sizeof out, &started));
}

int main(int argc, char **argv) {
    if (argc > 1 && strcmp(argv[1], "table") == 0) {
        for (int32_t code = 1; code <= WZ_BAD_CONFIG; code++) printf("%d %s\n", (int)code, wz_name(code));
        return 0;
    }
    if (argc > 1 && strcmp(argv[1], "answers") == 0) {
        for (int32_t code = -1; code <= WZ_HAS_BYTES; code++)
            printf("| %d | %s | %s | %s |\n", (int)code, wz_name(code), wz_message(code), wz_mpi_class(code));
        return 0;
    }
    for (int32_t code = -1; code <= WZ_HAS_BYTES; code++)
        HOLDS(strlen(wz_message(code)) > 3 && strcmp(wz_name(code), "Unknown") != 0 && strncmp(wz_mpi_class(code), "MPI_", 4) == 0);
    HOLDS(strcmp(wz_name(WZ_HAS_BYTES + 1), "Unknown") == 0);
    closed();
    configurations();
    posts();
    reasons();
    counted();
    abouts();
    works();
    requests();
    budgets();
    lists();
    puts("refusals: all as it should be");
    return 0;
}
