/* The combiner: answers, progress, the lock, and how an operation is seen through. combiner.h has the protocol. */
#include "combiner.h"

#include <string.h>

/* ---- under the lock: answers */

void answer(struct wz_combiner *combiner, struct record *record, int32_t code) {
    int stage = load(&record->stage);
    if ((stage == WAITING || stage == CALLED) && !is_helper(combiner, record)) combiner->waiting--;
    if (code == WZ_DONE && combiner->numbers != NULL) record->number = atomic_fetch_add(combiner->numbers, 1);
    record->answer = code;
    store(&record->stage, ANSWERED);
}

/* Notes why a rank's operation was refused: of a post or an initialisation, with both collectives. */
static void note_refusal(struct wz_combiner *combiner, struct record *record, int32_t code) {
    static const wz_reason none = WZ_NO_REASON;
    const struct operation *operation = record->operation;
    if (code <= 0) return;
    record->reason = code <= WZ_BAD_CONFIG ? combiner->engine.reason : none;
    record->reason.code = code;
    if (code != WZ_BAD_SIGNATURE && code != WZ_MISMATCH) return;
    bool persistent = operation->answered != BEGINS;
    record->refused = operation->call != NULL
                          ? wz_posted_of_call(operation->call, persistent)
                          : wz_posted_of_counts(operation->type, operation->counts, operation->many, persistent);
    if (code == WZ_MISMATCH) wz_posted_at(&combiner->engine, operation->comm, record->reason.place, &record->present);
}

/* Answers each rank that tests, and each that waits for what isn't pending any longer; where progress failed, each that
   waits. */
static void answer_waits(struct wz_combiner *combiner, int32_t progress) {
    for (uint32_t rank = 0; rank <= combiner->ranks; rank++) {
        struct record *record = &combiner->records[rank];
        int stage = load(&record->stage);
        if (stage < TESTED) continue;
        int32_t code = record->operation->apply(combiner, record->operation);
        if (code == WZ_PENDING && progress == WZ_DONE && stage != TESTED) continue;
        if (code == WZ_PENDING && progress != WZ_DONE) code = progress;
        note_refusal(combiner, record, code);
        answer(combiner, record, code);
    }
}

/* ---- under the lock: serving */

void note_row(struct wz_combiner *combiner, size_t bytes) {
    if (bytes >= WZ_LONG && bytes > combiner->longest) combiner->longest = bytes;
}

/* Before something is begun: once no request has bytes any longer, no row is long. */
static void forget_long(struct wz_combiner *combiner) {
    uint64_t lent = 0;
    if (combiner->longest == 0 || combiner->outside > 0 || combiner->is_left) return;
    if (wz_lent(&combiner->engine, &lent) == WZ_DONE && lent == 0) combiner->longest = 0;
}

/* A rank that had left and begins, tests or waits again is there again: else it would count both as waiting and as
   gone. */
static void come_back(struct wz_combiner *combiner, struct record *record) {
    if (!record->left || record->operation->answered == ONCE) return;
    record->left = false;
    combiner->gone--;
}

static void wait_for_progress(struct wz_combiner *combiner, struct record *record) {
    combiner->waiting++;
    store(&record->stage, WAITING);
    if (!combiner->stalled || combiner->unsettled) return;
    note_stall(combiner, record);
    answer(combiner, record, WZ_STALLED);
}

/* Applies what a rank has published. */
static void apply_published(struct wz_combiner *combiner, struct record *record) {
    struct operation *operation = record->operation;
    come_back(combiner, record);
    if (operation->answered == BEGINS) forget_long(combiner);
    int32_t code = operation->apply(combiner, operation);
    if (code == WZ_PENDING && operation->answered == TESTS && combiner->unsettled) {
        store(&record->stage, TESTED);
        return;
    }
    if (code == WZ_PENDING && operation->answered == WAITS && operation->rank < combiner->ranks) {
        wait_for_progress(combiner, record);
        return;
    }
    if (code == WZ_DONE && operation->answered == BEGINS) {
        combiner->stalled = false;
        combiner->unsettled = true;
        if (operation->parts == NULL) note_row(combiner, operation->length);
    }
    note_refusal(combiner, record, code);
    answer(combiner, record, code);
}

/* Returns what a rank has computed. */
static void take_back(struct wz_combiner *combiner, struct record *record) {
    wz_return_work(&combiner->engine, record->work);
    combiner->outside--;
    combiner->unsettled = true;
    combiner->is_short = record->run != WZ_DONE;
    if (record->run != WZ_DONE) answer_waits(combiner, record->run);
    store(&record->combination, NONE);
}

/* Applies what ranks have published, and takes their combinations back. Whether there was something. */
static bool serve(struct wz_combiner *combiner) {
    bool any = false;
    uint32_t records = count_records(combiner);
    for (uint32_t i = 0; i < records; i++) {
        struct record *record = &combiner->records[i];
        if (load(&record->combination) == COMPUTED) {
            any = true;
            take_back(combiner, record);
        }
        if (load(&record->stage) == PUBLISHED) {
            any = true;
            apply_published(combiner, record);
        }
    }
    return any;
}

/* ---- under the lock: progress */

/* Takes the next combination out, unless that is done; `unsettled` is false where there is none. */
static int32_t find_next(struct wz_combiner *combiner) {
    if (combiner->is_left) return WZ_DONE;
    int32_t code = wz_take_work(&combiner->engine, combiner->next);
    combiner->is_left = code == WZ_DONE;
    if (code != WZ_NO_WORK) return code;
    combiner->unsettled = false;
    return WZ_DONE;
}

/* Whether a rank leaves combinations to those who wait and to progress threads. One that waits doesn't, nor one that
   has found too often that the called one hadn't come: that one's thread may get no processor, or never find the lock
   free beside ranks that test again and again. Beside progress threads one whose wait is over leaves them too. */
static bool leaves_work(struct wz_combiner *combiner, struct record *me) {
    bool has_helpers = load(&combiner->helpers) > 0 && !combiner->is_short;
    bool waits = me->operation->answered == WAITS && !(has_helpers && load(&me->stage) == ANSWERED);
    return !waits && (combiner->waiting > 0 || has_helpers) && me->late < WZ_LOOKS;
}

/* Whether one more may compute beside those who do: beside progress threads, or where rows are wide and not all
   processors compute. Two ranks combine the same operands, so that the second would only wait for the first. */
static bool has_room(struct wz_combiner *combiner) {
    if (load(&combiner->helpers) > 0) return true;
    return combiner->ranks > 2 && combiner->longest >= WZ_WIDE && combiner->outside < combiner->processors;
}

/* Makes actions up to the next combination, which its thread is to compute with the lock free, or leaves. A combination
   that is left stays taken out, because the engine would compare its rows, under the lock, to take it back. Where there
   is room, one more is left to another thread, which computes it at the same time. */
static int32_t take_combination(struct wz_combiner *combiner, struct record *me) {
    int32_t code = find_next(combiner);
    if (!combiner->is_left || leaves_work(combiner, me)) return code;
    wz_work *taken = combiner->next;
    combiner->next = me->work;
    me->work = taken;
    combiner->is_left = false;
    combiner->outside++;
    store(&me->combination, COMPUTING);
    return has_room(combiner) ? find_next(combiner) : WZ_DONE;
}

/* Makes some progress, and answers whom it concerns. */
static void make_some_progress(struct wz_combiner *combiner, struct record *me) {
    uint32_t actions = 0;
    int32_t code;
    if (combiner->longest > 0) {
        code = take_combination(combiner, me);
    } else {
        code = wz_step(&combiner->engine, STEPS, &actions);
        combiner->unsettled = code != WZ_DONE || actions == STEPS;
    }
    combiner->is_short = code != WZ_DONE;
    answer_waits(combiner, code);
}

/* As long as one who waits has no answer, no combination to compute and something to do, or for some looks more; once
   for another. A progress thread ends where memory is short: no answer would end its tries. */
static void make_progress(struct wz_combiner *combiner, struct record *me) {
    for (int look = 0; look < LOOKS_UNDER_LOCK; look++) {
        if (serve(combiner)) look = 0;
        if (combiner->unsettled) {
            make_some_progress(combiner, me);
            look = 0;
        }
        judge(combiner);
        if (load(&me->stage) == ANSWERED || load(&me->combination) == COMPUTING) return;
        if (combiner->is_short && is_helper(combiner, me)) return;
        if (look == 0) wake_sleepers(combiner);
    }
}

/* ---- the lock */

bool try_lock(struct wz_combiner *combiner) { return !load(&combiner->held) && !swap(&combiner->held, 1); }

/* Under the lock: where work is left and nobody computes who waits, calls one who waits, or else a progress thread, or
   notes that the one who was called hasn't come yet. Where there is room, it does so too while others compute, if there
   is a combination besides theirs. */
static void hand_on(struct wz_combiner *combiner, struct record *me) {
    struct record *found = NULL;
    int late = me->late;
    uint32_t records = count_records(combiner);
    bool is_helped = combiner->waiting > 0 || records > combiner->ranks + 1;
    bool is_parallel = combiner->is_left && has_room(combiner);
    if (is_helped && !combiner->unsettled) return;
    me->late = 0;
    if (!is_helped) return;
    for (uint32_t i = 0; i < records; i++) {
        struct record *record = &combiner->records[i];
        int stage = load(&record->stage);
        if (stage == CALLED) me->late = late < WZ_LOOKS ? late + 1 : late;
        bool computes = stage == WAITING && load(&record->combination) != NONE;
        if (stage == CALLED || (computes && !is_parallel)) return;
        if (stage == WAITING && !computes && found == NULL) found = record;
    }
    if (found == NULL || (combiner->is_short && is_helper(combiner, found))) return;
    store(&found->stage, CALLED);
}

static void unlock(struct wz_combiner *combiner, struct record *me) {
    hand_on(combiner, me);
    store(&combiner->held, 0);
    wake_sleepers(combiner);
}

/* Where only a combination was left to return, it makes no progress. */
void combine(struct wz_combiner *combiner, struct record *me) {
    if (load(&me->stage) == ANSWERED) {
        serve(combiner);
        answer_waits(combiner, WZ_DONE);
        judge(combiner);
    } else {
        if (load(&me->stage) == CALLED) store(&me->stage, WAITING);
        make_progress(combiner, me);
    }
    unlock(combiner, me);
    if (load(&me->combination) != COMPUTING) return;
    begin_unlocked_call();
    me->run = wz_run_work(me->work);
    end_unlocked_call();
    store(&me->combination, COMPUTED);
}

/* ---- a rank's operation */

struct operation operation_of(enum answered answered, uint8_t rank,
                              int32_t (*apply)(struct wz_combiner *, struct operation *)) {
    struct operation operation;
    memset(&operation, 0, sizeof operation);
    operation.apply = apply;
    operation.answered = answered;
    operation.rank = rank;
    return operation;
}

/* How an operation was seen through: its thread had nothing to wait for, or was answered while it looked, or slept. */
enum seen_through { AT_ONCE, LOOKED, SLEPT };

/* Until the operation is over: combines where it needs the lock and finds it free, looks so often, and then sleeps. */
static enum seen_through see_through(struct wz_combiner *combiner, struct record *me, int looks) {
    enum seen_through how = AT_ONCE;
    for (int look = 0; !is_over(me); look++) {
        if (needs_lock(me) && try_lock(combiner)) {
            combine(combiner, me);
            look = 0;
        } else if (look < looks) {
            if (how == AT_ONCE) how = LOOKED;
            let_time_pass(me, look);
        } else {
            sleep_at(combiner, me);
            how = SLEPT;
            look = 0;
        }
    }
    return how;
}

static int32_t perform_at(struct wz_combiner *combiner, struct record *me, struct operation *operation) {
    bool few = me->in_vain >= IN_VAIN && (operation->answered != WAITS || ++me->waits % TRIES != 0);
    me->operation = operation;
    store(&me->stage, PUBLISHED);
    enum seen_through how = see_through(combiner, me, few ? WZ_FEW_LOOKS : WZ_LOOKS);
    if (!few && how == SLEPT && me->in_vain <= IN_VAIN) me->in_vain++;
    if (!few && how == LOOKED && me->in_vain > 0) me->in_vain--;
    return me->answer;
}

int32_t perform(wz_shared *shared, struct operation *operation) {
    struct wz_combiner *combiner = shared->at;
    if (combiner == NULL) return WZ_CLOSED;
    if (operation->rank < combiner->ranks) return perform_at(combiner, &combiner->records[operation->rank], operation);
    pthread_mutex_lock(&combiner->guests);
    int32_t answer = perform_at(combiner, &combiner->records[combiner->ranks], operation);
    pthread_mutex_unlock(&combiner->guests);
    return answer;
}
