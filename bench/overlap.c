/* Overlap by the definition of the Intel MPI Benchmarks (IMB-NBC): a rank posts, computes a percentage of the time that the
 * collective takes alone, and waits. It prints the collective and the per cent, and then nanoseconds, medians of the slowest rank:
 * `pure`, the collective alone; `alone`, the computation alone; then of both together `post`, `computing`, `wait` and `total`. A rank
 * writes its row before it posts, as a program computes what it gives; that isn't timed. */
#include "overlap.h"

#include <stdio.h>
#include <stdlib.h>
#include <string.h>
#include <time.h>

enum { MOST_COLLECTIVES = 32, MOST_SAMPLES = 2000, WORDS = 32768, CHUNK = 128, CALIBRATION = 100 };

struct plan {
    bool by_work;
    int64_t between_tests;
    int many;
    struct collective collectives[MOST_COLLECTIVES];
    int64_t percents[MOST_COLLECTIVES];
};

/* How long a rank computes, in nanoseconds by the clock, or in chunks of work; and so long between tests, 0: never. */
struct computing {
    bool by_work;
    int64_t length, between_tests;
};

enum part { POST, COMPUTING, WAIT, TOTAL, PARTS };

/* One rank's samples, and the words that it computes on. */
struct samples {
    int64_t times[PARTS][MOST_SAMPLES];
    uint64_t words[WORDS];
    size_t next;
};

static const char *const names[KINDS] = { "allreduce", "bcast", "alltoall", "barrier" };

static int64_t now(void) {
    struct timespec time;
    clock_gettime(CLOCK_MONOTONIC, &time);
    return (int64_t)time.tv_sec * 1000000000 + time.tv_nsec;
}

/* Each word depends on the word before. */
static void compute_chunk(struct samples *samples) {
    uint64_t carried = 1;
    for (size_t at = samples->next; at < samples->next + CHUNK; at++) {
        carried = carried * 6364136223846793005u + samples->words[at];
        samples->words[at] = carried;
    }
    samples->next = (samples->next + CHUNK) % WORDS;
}

static void compute(struct rank *rank, struct samples *samples, struct computing computing, bool posted) {
    int64_t begun = now(), tested = 0;
    for (int64_t chunk = 0;; chunk++) {
        int64_t done = computing.by_work ? chunk : now() - begun;
        if (done >= computing.length) return;
        if (posted && computing.between_tests > 0 && done - tested >= computing.between_tests) {
            posted = !test_request(rank);
            tested = done;
        }
        if (computing.by_work) compute_chunk(samples);
    }
}

static void sample(struct rank *rank, struct samples *samples, int turn, const struct collective *collective, struct computing computing) {
    if (collective != NULL) memset(rank->given, rank->number + turn, collective->kind == ALLTOALL ? rank->ranks * collective->bytes : collective->bytes);
    /* All ranks begin together, because a rank that comes late would be counted as the collective's time. */
    (void)greatest(rank, 0);
    int64_t begun = now();
    if (collective != NULL) post_collective(rank, *collective);
    int64_t posted = now();
    compute(rank, samples, computing, collective != NULL);
    int64_t computed = now();
    if (collective != NULL) wait_for_request(rank);
    int64_t ended = now();
    samples->times[POST][turn] = posted - begun;
    samples->times[COMPUTING][turn] = computed - posted;
    samples->times[WAIT][turn] = ended - computed;
    samples->times[TOTAL][turn] = ended - begun;
}

static int is_less(const void *left, const void *right) {
    int64_t l = *(const int64_t *)left, r = *(const int64_t *)right;
    return (l > r) - (l < r);
}

/* Each part's median at this rank; true at the slowest rank. */
static bool medians(struct rank *rank, struct samples *samples, int many, int64_t median[PARTS]) {
    for (int part = 0; part < PARTS; part++) {
        qsort(samples->times[part], many, sizeof(int64_t), is_less);
        median[part] = samples->times[part][many / 2];
    }
    int64_t mine = median[TOTAL] * rank->ranks + rank->number;
    return greatest(rank, mine) == mine;
}

/* The slowest rank's time of a part. */
static int64_t slowest(struct rank *rank, struct samples *samples, int many, const struct collective *collective, struct computing computing,
                       enum part part) {
    int64_t median[PARTS];
    for (int turn = 0; turn < many; turn++) sample(rank, samples, turn, collective, computing);
    bool mine = medians(rank, samples, many, median);
    return greatest(rank, mine ? median[part] : 0);
}

static int samples_of(size_t bytes) { return bytes <= 1024 ? MOST_SAMPLES : bytes <= 131072 ? 200 : 30; }

static void measure_one(struct rank *rank, struct samples *samples, const struct plan *plan, int at) {
    const struct collective *collective = &plan->collectives[at];
    struct computing nothing = { plan->by_work, 0, 0 }, chunks = { true, CALIBRATION, 0 };
    int64_t median[PARTS];
    int many = samples_of(collective->bytes);
    int64_t chunk = slowest(rank, samples, 300, NULL, chunks, COMPUTING) / CALIBRATION;
    int64_t unit = plan->by_work && chunk > 0 ? chunk : 1;
    int64_t pure = slowest(rank, samples, many, collective, nothing, TOTAL);
    int64_t between = plan->between_tests / unit;
    if (plan->between_tests > 0 && between == 0) between = 1;
    struct computing computing = { plan->by_work, pure * plan->percents[at] / 100 / unit, between };
    int64_t alone = slowest(rank, samples, many, NULL, computing, COMPUTING);
    for (int turn = 0; turn < many; turn++) sample(rank, samples, turn, collective, computing);
    if (!medians(rank, samples, many, median)) return;
    printf("%s %zu %lld pure %lld alone %lld post %lld computing %lld wait %lld total %lld\n", names[collective->kind], collective->bytes,
           (long long)plan->percents[at], (long long)pure, (long long)alone, (long long)median[POST], (long long)median[COMPUTING], (long long)median[WAIT],
           (long long)median[TOTAL]);
    fflush(stdout);
}

static void *allocated(size_t bytes) {
    void *memory = calloc(1, bytes);
    if (memory == NULL) {
        fprintf(stderr, "overlap: no memory\n");
        exit(1);
    }
    memset(memory, 1, bytes);
    return memory;
}

void measure(struct rank *rank, const struct plan *plan) {
    size_t most = 8;
    for (int i = 0; i < plan->many; i++)
        if (plan->collectives[i].bytes > most) most = plan->collectives[i].bytes;
    struct samples *samples = allocated(sizeof *samples);
    samples->next = 0;
    rank->given = allocated(rank->ranks * most);
    rank->taken = allocated(rank->ranks * most);
    for (int i = 0; i < plan->many; i++) measure_one(rank, samples, plan, i);
    free(rank->given);
    free(rank->taken);
    free(samples);
}

/* ---- the words */

static bool is_number(const char *word) { return *word != '\0' && strspn(word, "0123456789") == strlen(word) && strlen(word) <= 9; }

/* Adds the collective of three words. */
static bool add_collective(struct plan *plan, char **word) {
    for (int kind = 0; kind < KINDS; kind++) {
        if (strcmp(word[0], names[kind]) != 0 || !is_number(word[1]) || !is_number(word[2])) continue;
        if (atol(word[1]) % 8 != 0 || plan->many == MOST_COLLECTIVES) continue;
        plan->percents[plan->many] = atol(word[2]);
        plan->collectives[plan->many++] = (struct collective){ kind, (size_t)atol(word[1]) };
        return true;
    }
    return false;
}

struct plan *plan_of(int words, char **word) {
    struct plan *plan = allocated(sizeof *plan);
    bool good = words >= 3 && words % 3 == 0 && is_number(word[2]);
    plan->many = 0;
    plan->by_work = good && strcmp(word[1], "work") == 0;
    good = good && (plan->by_work || strcmp(word[1], "clock") == 0);
    for (int i = 3; good && i < words; i += 3) good = add_collective(plan, word + i);
    if (!good) {
        fprintf(stderr, "usage: clock|work TESTS [allreduce|bcast|alltoall|barrier BYTES PERCENT]..\n");
        free(plan);
        return NULL;
    }
    plan->between_tests = atol(word[2]);
    return plan;
}
