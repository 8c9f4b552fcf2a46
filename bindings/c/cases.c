/* Worked cases of docs/CASES.md through C, each with the answer that must come. One thread plays all ranks. */
#include <stdio.h>
#include <stdlib.h>
#include <string.h>

#include "check.h"

static wz_engine opened(uint8_t ranks, uint32_t slots, uint32_t wear) {
    wz_engine engine = WZ_CLOSED_ENGINE;
    wz_limits limits = wz_greatest_limits(ranks);
    uint8_t members[64];
    for (uint8_t i = 0; i < ranks; i++) members[i] = i;
    limits.slots = slots;
    limits.wear = wear;
    DONE(wz_open(&engine, &limits, &ranks, 1, members, ranks));
    return engine;
}

/* Each rank gives its part of `given`, blocks of that many bytes, and gets the bytes of `want` at its place, as many as `gets` says. */
static void value(wz_call call, uint8_t ranks, const void *given, const size_t *gives, const void *want, const size_t *gets) {
    wz_engine engine = opened(ranks, 64, 9);
    wz_request requests[8];
    const uint8_t *from = (const uint8_t *)given, *to = (const uint8_t *)want;
    for (uint8_t rank = 0; rank < ranks; rank++) {
        DONE(wz_post(&engine, rank, 0, &call, from, gives[rank], &requests[rank]));
        from += gives[rank];
    }
    DONE(wz_settle(&engine));
    for (uint8_t rank = 0; rank < ranks; rank++) {
        uint8_t out[64];
        size_t count = 99, length = 98;
        DONE(wz_outcome_length(&engine, rank, &requests[rank], &length));
        DONE(wz_test(&engine, rank, &requests[rank], out, sizeof out, &count));
        HOLDS(count == gets[rank] && length == count && memcmp(out, to, count) == 0);
        to += count;
    }
    DONE(wz_close(&engine));
}

static void values(void) {
    const size_t fours[] = { 4, 4, 4 }, ones[] = { 1, 1, 1, 1, 1 }, threes[] = { 3, 3, 3 }, none[] = { 0, 0, 0 }, twos[] = { 2, 2, 2, 2, 2 };
    const size_t last[] = { 0, 0, 4 }, later[] = { 0, 4, 4 }, tens[] = { 10, 10, 10, 10, 10 };
    /* sum_of_three, one_member_keeps_its_value, land_of_two, sum_wraps, lastnz_in_order */
    value((wz_call){ WZ_ALLREDUCE, WZ_SUM, WZ_INT32, 0, 1 }, 3, (int32_t[]){ 1, 2, 3 }, fours, (int32_t[]){ 6, 6, 6 }, fours);
    value((wz_call){ WZ_ALLREDUCE, WZ_LAND, WZ_INT32, 0, 1 }, 1, (int32_t[]){ 5 }, fours, (int32_t[]){ 5 }, fours);
    value((wz_call){ WZ_ALLREDUCE, WZ_LAND, WZ_INT32, 0, 1 }, 2, (int32_t[]){ 5, 5 }, fours, (int32_t[]){ 1, 1 }, fours);
    value((wz_call){ WZ_ALLREDUCE, WZ_SUM, WZ_INT8, 0, 1 }, 2, (int8_t[]){ 127, 1 }, ones, (int8_t[]){ -128, -128 }, ones);
    value((wz_call){ WZ_REDUCE, WZ_LASTNZ, WZ_INT32, 2, 1 }, 3, (int32_t[]){ 3, 0, 5 }, fours, (int32_t[]){ 5 }, last);
    /* alltoall_of_three, exscan_of_three, allgather_of_five, empty_bcast, a barrier, and a pair */
    value((wz_call){ WZ_ALLTOALL, WZ_NO_OPERATION, WZ_UINT8, 0, 1 }, 3, (uint8_t[]){ 1, 2, 3, 4, 5, 6, 7, 8, 9 }, threes,
          (uint8_t[]){ 1, 4, 7, 2, 5, 8, 3, 6, 9 }, threes);
    value((wz_call){ WZ_EXSCAN, WZ_SUM, WZ_INT32, 0, 1 }, 3, (int32_t[]){ 1, 2, 3 }, fours, (int32_t[]){ 1, 3 }, later);
    value((wz_call){ WZ_ALLGATHER, WZ_NO_OPERATION, WZ_UINT16, 0, 1 }, 5, (uint16_t[]){ 10, 20, 30, 40, 50 }, twos,
          (uint16_t[]){ 10, 20, 30, 40, 50, 10, 20, 30, 40, 50, 10, 20, 30, 40, 50, 10, 20, 30, 40, 50, 10, 20, 30, 40, 50 }, tens);
    value((wz_call){ WZ_BCAST, WZ_NO_OPERATION, WZ_INT32, 1, 0 }, 2, "", none, "", none);
    value((wz_call){ WZ_BARRIER, WZ_NO_OPERATION, WZ_BYTE, 0, 0 }, 3, "", none, "", none);
    value((wz_call){ WZ_REDUCE, WZ_MINLOC, WZ_2INT, 0, 1 }, 2, (int32_t[]){ 7, 4, 7, 2 }, (size_t[]){ 8, 8 }, (int32_t[]){ 7, 2 }, (size_t[]){ 8, 0 });
}

/* Member r gives counts[r] numbers of `given`, and each gets all of them; then the same by persistent requests, twice. */
static void rows(uint8_t ranks, const uint32_t *counts, const int16_t *given, size_t total) {
    wz_engine engine = opened(ranks, 64, 9);
    wz_request once[8], again[8];
    for (int start = 0; start < 3; start++) {
        const int16_t *from = given;
        for (uint8_t rank = 0; rank < ranks; rank++) {
            size_t length = 2 * counts[rank];
            if (start == 0) {
                DONE(wz_post_allgatherv(&engine, rank, 0, WZ_INT16, counts, ranks, from, length, &once[rank]));
                DONE(wz_init_allgatherv(&engine, rank, 0, WZ_INT16, counts, ranks, &again[rank]));
            } else {
                DONE(wz_start(&engine, rank, &again[rank], from, length));
            }
            from += counts[rank];
        }
        DONE(wz_settle(&engine));
        for (uint8_t rank = 0; rank < ranks; rank++) {
            wz_request *request = start == 0 ? &once[rank] : &again[rank];
            int16_t out[32];
            size_t count = 99, length = 98;
            DONE(wz_outcome_length(&engine, rank, request, &length));
            DONE(wz_test(&engine, rank, request, out, sizeof out, &count));
            HOLDS(count == 2 * total && length == count && memcmp(out, given, count) == 0);
        }
    }
    DONE(wz_close(&engine));
}

/* allgatherv_of_three, of one, and where nobody gives anything */
static void rows_that_differ(void) {
    rows(3, (uint32_t[]){ 2, 0, 1 }, (int16_t[]){ 1, 2, 9 }, 3);
    rows(1, (uint32_t[]){ 4 }, (int16_t[]){ 1, 2, 3, 4 }, 4);
    rows(4, (uint32_t[]){ 0, 0, 0, 0 }, (int16_t[]){ 0 }, 0);
}

/* The values once more, where each combination is taken out, and what isn't run comes again. */
static void combined_outside(void) {
    wz_engine engine = opened(5, 10, 9);
    wz_call reduce = { WZ_REDUCE, WZ_LASTNZ, WZ_INT32, 2, 1 }, scan = { WZ_SCAN, WZ_SUM, WZ_INT32, 0, 1 };
    int32_t given[5] = { 3, 0, 5, 0, 0 }, sums[5] = { 3, 3, 8, 8, 8 };
    wz_request reduces[5], scans[5];
    wz_work works[3] = { WZ_EMPTY_WORK, WZ_EMPTY_WORK, WZ_EMPTY_WORK };
    size_t count;
    for (uint8_t rank = 0; rank < 5; rank++) {
        DONE(wz_post(&engine, rank, 0, &reduce, &given[rank], 4, &reduces[rank]));
        DONE(wz_post(&engine, rank, 0, &scan, &given[rank], 4, &scans[rank]));
    }
    for (int turn = 0;; turn++) {
        int full = 0;
        for (int i = 0; i < 3; i++) full += wz_take_work(&engine, &works[i]) == WZ_DONE;
        if (full == 0) break;
        for (int i = 3; i-- > 0;) {
            if (!works[i].full) continue;
            if ((turn + i) % 2 == 0) DONE(wz_run_work(&works[i]));
            DONE(wz_return_work(&engine, &works[i]));
        }
    }
    for (uint8_t rank = 0; rank < 5; rank++) {
        int32_t out = -1;
        DONE(wz_test(&engine, rank, &reduces[rank], &out, 4, &count));
        HOLDS(rank == 2 ? out == 5 && count == 4 : count == 0);
        DONE(wz_test(&engine, rank, &scans[rank], &out, 4, &count));
        HOLDS(out == sums[rank]);
    }
    DONE(wz_close(&engine));
}

static const wz_call bcast = { WZ_BCAST, WZ_NO_OPERATION, WZ_INT32, 0, 1 };
static const wz_call sum = { WZ_ALLREDUCE, WZ_SUM, WZ_INT32, 0, 1 };

static void late_member_gets_its_bcast(void) {
    wz_engine engine = opened(2, 8, 9);
    wz_request root, late;
    int32_t seven = 7, got = 0;
    size_t count;
    DONE(wz_post(&engine, 0, 0, &bcast, &seven, 4, &root));
    DONE(wz_settle(&engine));
    DONE(wz_test(&engine, 0, &root, &got, 4, &count)); /* the root has left */
    got = 0;
    DONE(wz_post(&engine, 1, 0, &bcast, NULL, 0, &late));
    DONE(wz_settle(&engine));
    DONE(wz_test(&engine, 1, &late, &got, 4, &count));
    HOLDS(got == 7);
    DONE(wz_close(&engine));
}

static void barrier_waits_for_all(void) {
    wz_engine engine = opened(3, 8, 9);
    wz_call barrier = { WZ_BARRIER, WZ_NO_OPERATION, WZ_BYTE, 0, 0 };
    wz_request requests[3];
    uint8_t phase;
    uint32_t actions;
    size_t count;
    for (uint8_t rank = 0; rank < 2; rank++) DONE(wz_post(&engine, rank, 0, &barrier, NULL, 0, &requests[rank]));
    DONE(wz_step(&engine, 100, &actions));
    HOLDS(actions == 4);
    for (uint8_t rank = 0; rank < 2; rank++) {
        DONE(wz_phase(&engine, rank, &requests[rank], &phase));
        HOLDS(phase == WZ_IS_PENDING);
    }
    DONE(wz_post(&engine, 2, 0, &barrier, NULL, 0, &requests[2]));
    DONE(wz_step(&engine, 100, &actions));
    HOLDS(actions == 8);
    for (uint8_t rank = 0; rank < 3; rank++) DONE(wz_test(&engine, rank, &requests[rank], NULL, 0, &count));
    DONE(wz_close(&engine));
}

static void lent_bytes(void) {
    wz_engine engine = opened(2, 8, 9);
    wz_call sums = { WZ_ALLREDUCE, WZ_SUM, WZ_INT32, 0, 3 };
    wz_request requests[2];
    int32_t given[3] = { 1, 2, 3 }, out[3];
    size_t count;
    uint64_t lent[5];
    for (uint8_t rank = 0; rank < 2; rank++) {
        DONE(wz_post(&engine, rank, 0, &sums, given, sizeof given, &requests[rank]));
        DONE(wz_lent(&engine, &lent[rank]));
    }
    DONE(wz_settle(&engine));
    DONE(wz_lent(&engine, &lent[2]));
    for (uint8_t rank = 0; rank < 2; rank++) {
        DONE(wz_test(&engine, rank, &requests[rank], out, sizeof out, &count));
        DONE(wz_lent(&engine, &lent[3 + rank]));
    }
    HOLDS(lent[0] == 24 && lent[1] == 48 && lent[2] == 48 && lent[3] == 24 && lent[4] == 0);
    DONE(wz_close(&engine));
}

static void starts_out_of_order(void) {
    wz_engine engine = opened(2, 8, 9);
    wz_call max = sum;
    wz_request sums[2], greatest[2];
    int32_t mine[3][2] = { { 1, 10 }, { 2, 20 }, { 3, 30 } }, yours[3][2] = { { 4, 11 }, { 5, 19 }, { 6, 31 } };
    max.op = WZ_MAX;
    for (uint8_t rank = 0; rank < 2; rank++) {
        DONE(wz_init(&engine, rank, 0, &sum, &sums[rank]));
        DONE(wz_init(&engine, rank, 0, &max, &greatest[rank]));
    }
    for (int i = 0; i < 3; i++) {
        int32_t total = 0, most = 0;
        size_t count;
        DONE(wz_start(&engine, 0, &sums[0], &mine[i][0], 4));
        DONE(wz_start(&engine, 0, &greatest[0], &mine[i][1], 4));
        DONE(wz_start(&engine, 1, &greatest[1], &yours[i][1], 4));
        DONE(wz_start(&engine, 1, &sums[1], &yours[i][0], 4));
        DONE(wz_settle(&engine));
        for (uint8_t rank = 0; rank < 2; rank++) {
            DONE(wz_test(&engine, rank, &sums[rank], &total, 4, &count));
            DONE(wz_test(&engine, rank, &greatest[rank], &most, 4, &count));
            HOLDS(total == 5 + 2 * i && most == (i == 0 ? 11 : i == 1 ? 20 : 31));
        }
    }
    DONE(wz_close(&engine));
}

/* A slot that is given to two requests is worn then; the first name is none from the first completion on. */
static void worn_slot(void) {
    wz_engine engine = opened(1, 1, 2);
    wz_request request, first, never;
    int32_t one = 1;
    size_t count;
    for (uint32_t generation = 1; generation <= 2; generation++) {
        DONE(wz_post(&engine, 0, 0, &sum, &one, 4, &request));
        HOLDS(request.slot == 0 && request.generation == generation);
        if (generation == 1) first = request;
        HOLDS(wz_post(&engine, 0, 0, &sum, &one, 4, &never) == WZ_FULL);
        DONE(wz_settle(&engine));
        DONE(wz_test(&engine, 0, &request, &one, 4, &count));
        HOLDS(wz_test(&engine, 0, &first, &one, 4, &count) == WZ_STALE);
    }
    HOLDS(wz_post(&engine, 0, 0, &sum, &one, 4, &never) == WZ_FULL);
    DONE(wz_close(&engine));
}

/* Of three requests that are done the second is completed: the others stay. Its slot goes behind the one that is free. */
static void retire_the_named(void) {
    wz_engine engine = opened(1, 4, 2);
    wz_call own = { WZ_BCAST, WZ_NO_OPERATION, WZ_INT32, 0, 1 };
    wz_request requests[3], later[2];
    int32_t got = -1;
    size_t count;
    uint8_t phase;
    for (int32_t i = 0; i < 3; i++) {
        DONE(wz_post(&engine, 0, 0, &own, &i, 4, &requests[i]));
        HOLDS(requests[i].slot == (uint32_t)i && requests[i].generation == 1);
    }
    DONE(wz_settle(&engine));
    DONE(wz_test(&engine, 0, &requests[1], &got, 4, &count));
    HOLDS(got == 1);
    for (int i = 0; i < 2; i++) DONE(wz_post(&engine, 0, 0, &own, &got, 4, &later[i]));
    HOLDS(later[0].slot == 3 && later[0].generation == 1 && later[1].slot == 1 && later[1].generation == 2);
    for (int i = 0; i < 3; i += 2) {
        DONE(wz_phase(&engine, 0, &requests[i], &phase));
        HOLDS(phase == WZ_IS_DONE);
        DONE(wz_test(&engine, 0, &requests[i], &got, 4, &count));
        HOLDS(got == i);
    }
    DONE(wz_close(&engine));
}

/* 32 members of 65,536 u64 each are as much as a root may get. */
static void gather_size_limit(void) {
    wz_call gather = { WZ_GATHER, WZ_NO_OPERATION, WZ_UINT64, 0, 65536 };
    for (uint8_t ranks = 32; ranks <= 33; ranks++) {
        wz_engine engine = opened(ranks, 1, 1);
        wz_request request;
        HOLDS(wz_init(&engine, 0, 0, &gather, &request) == (ranks == 32 ? WZ_DONE : WZ_BAD_SIGNATURE));
        DONE(wz_close(&engine));
    }
}

/* A null, an Idle and a Pending request: none is completed, but one is active. */
static void some_over_inactive(void) {
    wz_engine engine = opened(2, 8, 9);
    wz_part parts[3] = { { WZ_NULL_REQUEST, 0, 4, 0, false }, { WZ_NULL_REQUEST, 4, 4, 0, false }, { WZ_NULL_REQUEST, 8, 4, 0, false } };
    int32_t one = 1, out[3];
    size_t completed = 9;
    DONE(wz_init(&engine, 0, 0, &sum, &parts[1].request));
    DONE(wz_post(&engine, 0, 0, &sum, &one, 4, &parts[2].request));
    DONE(wz_settle(&engine));
    DONE(wz_test_some(&engine, 0, parts, 3, out, sizeof out, &completed));
    HOLDS(completed == 0);
    DONE(wz_test_some(&engine, 0, parts, 2, out, sizeof out, &completed));
    HOLDS(completed == WZ_UNDEFINED);
    DONE(wz_close(&engine));
}

/* Rank 0 posts a bcast, then rank 1 an allreduce: it is told what rank 0 has, and its own place stays 0. */
static void mismatch_names_the_first(void) {
    wz_engine engine = opened(2, 8, 9);
    wz_request first, second;
    wz_about_request about;
    wz_posted posted;
    int32_t seven = 7;
    DONE(wz_post(&engine, 0, 0, &bcast, &seven, 4, &first));
    HOLDS(wz_post(&engine, 1, 0, &sum, &seven, 4, &second) == WZ_MISMATCH);
    HOLDS(engine.reason.place == 0 && engine.reason.first == 0 && memcmp(&engine.reason.call, &bcast, sizeof bcast) == 0);
    DONE(wz_posted_at(&engine, 0, 0, &posted));
    HOLDS(memcmp(&posted.call, &bcast, sizeof bcast) == 0 && !posted.persistent && posted.counts[0] == 0);
    DONE(wz_post(&engine, 1, 0, &bcast, NULL, 0, &second));
    DONE(wz_about(&engine, &second, &about));
    HOLDS(about.rank == 1 && about.place == 0);
    DONE(wz_close(&engine));
}

/* Start and free of an active request are refused; once it is completed and freed, it is none. */
static void persistent_life(void) {
    wz_engine engine = opened(1, 8, 9);
    wz_request request, gone;
    int32_t three = 3, got = 0;
    size_t count = 9;
    DONE(wz_init(&engine, 0, 0, &sum, &request));
    DONE(wz_start(&engine, 0, &request, &three, 4));
    HOLDS(wz_start(&engine, 0, &request, &three, 4) == WZ_ACTIVE && wz_free(&engine, 0, &request) == WZ_ACTIVE);
    DONE(wz_settle(&engine));
    DONE(wz_test(&engine, 0, &request, &got, 4, &count));
    HOLDS(got == 3 && count == 4);
    DONE(wz_test(&engine, 0, &request, &got, 4, &count));
    HOLDS(count == 0);
    gone = request;
    DONE(wz_free(&engine, 0, &request));
    HOLDS(wz_start(&engine, 0, &gone, &three, 4) == WZ_STALE);
    DONE(wz_close(&engine));
}

/* Another rank's request is refused, with nothing changed; a list has one place. */
static void another_ranks_ticket(void) {
    wz_engine engine = WZ_CLOSED_ENGINE;
    wz_limits limits = wz_greatest_limits(2);
    wz_request request, second;
    uint8_t two = 2, members[2] = { 0, 1 }, phase = 9;
    int32_t one = 1, got = 0;
    size_t count = 9;
    limits.places = 1;
    DONE(wz_open(&engine, &limits, &two, 1, members, 2));
    DONE(wz_post(&engine, 0, 0, &sum, &one, 4, &request));
    HOLDS(wz_test(&engine, 1, &request, &got, 4, &count) == WZ_NOT_YOURS && count == 9);
    DONE(wz_phase(&engine, 0, &request, &phase));
    HOLDS(phase == WZ_IS_PENDING);
    HOLDS(wz_post(&engine, 0, 0, &sum, &one, 4, &second) == WZ_PLACES_USED);
    DONE(wz_close(&engine));
}

/* What isn't said is 0: no operation, and root 0. */
static void zeroed_calls(void) {
    const wz_call calls[] = { { .kind = WZ_BCAST, .type = WZ_INT32, .count = 1 }, { .kind = WZ_ALLGATHER, .type = WZ_INT32, .count = 1 } };
    wz_call none;
    memset(&none, 0, sizeof none);
    HOLDS(none.kind == WZ_BARRIER && none.op == WZ_NO_OPERATION);
    for (int i = 0; i < 2; i++) {
        wz_engine engine = opened(1, 8, 9);
        wz_request request;
        int32_t seven = 7, got = 0;
        size_t count = 9;
        DONE(wz_post(&engine, 0, 0, &calls[i], &seven, 4, &request));
        DONE(wz_settle(&engine));
        DONE(wz_test(&engine, 0, &request, &got, 4, &count));
        HOLDS(got == 7 && count == 4);
        DONE(wz_post(&engine, 0, 0, &none, NULL, 0, &request)); /* all zeros is a barrier */
        DONE(wz_close(&engine));
    }
}

/* Sums of raw bytes aren't defined. */
static void byte_has_no_sum(void) {
    wz_engine engine = opened(1, 8, 9);
    wz_call bytes = { WZ_ALLREDUCE, WZ_SUM, WZ_BYTE, 0, 1 };
    wz_request request;
    HOLDS(wz_post(&engine, 0, 0, &bytes, "x", 1, &request) == WZ_BAD_SIGNATURE && engine.reason.cause == WZ_RULE_OPERATION);
    DONE(wz_close(&engine));
}

int main(void) {
    values();
    rows_that_differ();
    combined_outside();
    late_member_gets_its_bcast();
    barrier_waits_for_all();
    lent_bytes();
    starts_out_of_order();
    worn_slot();
    retire_the_named();
    gather_size_limit();
    some_over_inactive();
    mismatch_names_the_first();
    persistent_life();
    another_ranks_ticket();
    byte_has_no_sum();
    zeroed_calls();
    puts("cases: all as it should be");
    return 0;
}
