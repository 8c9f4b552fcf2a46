/* The C library's functions that keep something between calls, as a process of its own has them: each rank keeps its own. */
#include "per_rank_libc.h"

#include <setjmp.h>
#include <time.h>

/* ---- the way out of a rank's main */

static struct {
    jmp_buf back; /* behind main */
    int code;
    bool entered;
} mains[MOST_RANKS];
static __thread bool plays_rank;

int run_main(int (*run)(int, char **), int argc, char **argv) {
    int rank = current_rank->number;
    plays_rank = mains[rank].entered = true;
    switch (setjmp(mains[rank].back)) {
    case 0: mains[rank].code = run(argc, argv); break;
    default: break; /* exit has set the code */
    }
    mains[rank].entered = false;
    return mains[rank].code;
}

/* By the rank's thread it ends the rank; by another thread of the program, all. */
__attribute__((noreturn)) void __wrap_exit(int code);
void __wrap_exit(int code) {
    if (plays_rank && mains[current_rank->number].entered) {
        mains[current_rank->number].code = code;
        longjmp(mains[current_rank->number].back, 1);
    }
    exit(code);
}

/* ---- what a rank keeps. The last is for threads that are no rank's. */

static struct kept {
    char additive_table[128];
    struct random_data additive; /* of random and of rand, which are one in the C library too */
    bool has_additive;
    struct drand48_data congruential;
    unsigned short congruential_before[3];
    char *strtok_place;
    struct tm parts_of_time;
    char time_text[64];
} kept_by[MOST_RANKS + 1];

static struct kept *kept_at(const void *address) {
    const struct rank *rank = rank_of_code(address);
    return &kept_by[rank != NULL ? rank->number : MOST_RANKS];
}
#define KEPT kept_at(__builtin_return_address(0))

/* ---- draws: a process of its own has the same ones for the same seed, and so has a rank */

static void seed(struct kept *kept, unsigned from) {
    if (!kept->has_additive) initstate_r(from, kept->additive_table, sizeof kept->additive_table, &kept->additive);
    else srandom_r(from, &kept->additive);
    kept->has_additive = true;
}

static int32_t draw(struct kept *kept) {
    int32_t number = 0;
    if (!kept->has_additive) seed(kept, 1);
    random_r(&kept->additive, &number);
    return number;
}

OF_PROGRAM(void, srand, unsigned from) { seed(KEPT, from); }
OF_PROGRAM(int, rand, void) { return draw(KEPT); }
OF_PROGRAM(void, srandom, unsigned from) { seed(KEPT, from); }
OF_PROGRAM(long, random, void) { return draw(KEPT); }

/* The C library's own give back the table that was used before. */
OF_PROGRAM(char *, initstate, unsigned from, char *table, size_t bytes) {
    struct kept *kept = KEPT;
    if (!kept->has_additive) seed(kept, 1);
    char *before = (char *)(kept->additive.state - 1);
    return initstate_r(from, table, bytes, &kept->additive) == 0 ? before : NULL;
}
OF_PROGRAM(char *, setstate, char *table) {
    struct kept *kept = KEPT;
    if (!kept->has_additive) seed(kept, 1);
    char *before = (char *)(kept->additive.state - 1);
    return setstate_r(table, &kept->additive) == 0 ? before : NULL;
}

OF_PROGRAM(void, srand48, long from) { srand48_r(from, &KEPT->congruential); }
OF_PROGRAM(void, lcong48, unsigned short from[7]) { lcong48_r(from, &KEPT->congruential); }
OF_PROGRAM(unsigned short *, seed48, unsigned short from[3]) {
    struct kept *kept = KEPT;
    seed48_r(from, &kept->congruential);
    memcpy(kept->congruential_before, kept->congruential.__old_x, sizeof kept->congruential_before);
    return kept->congruential_before;
}
OF_PROGRAM(double, drand48, void) {
    double number = 0;
    drand48_r(&KEPT->congruential, &number);
    return number;
}
OF_PROGRAM(long, lrand48, void) {
    long number = 0;
    lrand48_r(&KEPT->congruential, &number);
    return number;
}
OF_PROGRAM(long, mrand48, void) {
    long number = 0;
    mrand48_r(&KEPT->congruential, &number);
    return number;
}

/* ---- places in texts and times */

OF_PROGRAM(char *, strtok, char *text, const char *between) { return strtok_r(text, between, &KEPT->strtok_place); }
OF_PROGRAM(struct tm *, localtime, const time_t *time) { return localtime_r(time, &KEPT->parts_of_time); }
OF_PROGRAM(struct tm *, gmtime, const time_t *time) { return gmtime_r(time, &KEPT->parts_of_time); }
OF_PROGRAM(char *, ctime, const time_t *time) { return ctime_r(time, KEPT->time_text); }
OF_PROGRAM(char *, asctime, const struct tm *parts) { return asctime_r(parts, KEPT->time_text); }
