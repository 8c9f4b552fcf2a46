#define _GNU_SOURCE
#include "now.h"

#include <errno.h>
#include <fcntl.h>
#include <pthread.h>
#include <signal.h>
#include <stdatomic.h>
#include <stdbool.h>
#include <stdio.h>
#include <string.h>
#include <sys/mman.h>
#include <sys/syscall.h>
#include <time.h>
#include <unistd.h>

/* Of each rank the times of its first calls are kept, and of its last ones. */
enum { FIRST_CALLS = 1024, LAST_CALLS = 3072 };

enum { THREADS = 64, SHOWN = 24, NAME = 40, MESSAGES = 4096, TRIES = 64, VERSION = 1, UNSEEN = 1, LOST = 2, UNSHOWN = 4, ELSEWHERE = 8, CALLBACKS = 16 };

/* The beat is a lower bound of the time up to which the process lived. A tenth of a second is short beside a hang that a person notices. */
static const struct timespec BEAT = {.tv_nsec = 100000000};

/* One thread's call, or its last one. */
struct standing {
    uint64_t since; /* nanoseconds of the clock at which it was entered or left */
    uint64_t calls; /* how many it has entered */
    _Atomic int32_t inside;
    int32_t place;
    int32_t awaited; /* how many things it waits for */
    int32_t any;
    uint64_t ran;    /* nanoseconds of the processor that the thread was seen to use since then */
    uint64_t asleep; /* how many beats in a row it was seen asleep since then */
    char name[NAME];
    struct awaited shown[SHOWN]; /* the first of them */
};

/* Messages alike that this rank has called. A kind of 0 is an empty slot. */
struct message_count {
    int32_t kind, context, rank, tag;
    int64_t calls;
};

struct now {
    uint32_t version, rank, size;
    _Atomic uint32_t finalized;
    uint64_t run;
    _Atomic uint64_t beat;
    uint32_t uncounted; /* whether a message wasn't counted, or one was cancelled */
    _Atomic uint32_t unseen; /* UNSEEN where the program called MPI past the recorder, LOST where the record couldn't be written further, UNSHOWN
                           where more threads called MPI than there is room for, ELSEWHERE where the program waits by other calls too, CALLBACKS where MPI_Finalize may call back */
    struct standing threads[THREADS];
    struct message_count messages[MESSAGES];
};

/* The file of the calls' times. */
struct timed {
    uint32_t version, rank, size, unused;
    uint64_t run;
    _Atomic uint64_t calls; /* how many were over */
    struct timed_call first[FIRST_CALLS], last[LAST_CALLS];
};

static struct now *now;
static struct timed *timed;
static _Thread_local struct timed_call under_way; /* what isn't awaited, of the call under way */
static atomic_int threads;

/* What the beat knows of each thread. */
static struct watched {
    _Atomic int task; /* the system's number, or 0 */
    clockid_t clock;
    uint64_t since, used;
} watched[THREADS];
static _Thread_local int thread = -1;

static uint64_t clock_now(void) {
    struct timespec time;
    clock_gettime(CLOCK_REALTIME, &time);
    return (uint64_t)time.tv_sec * 1000000000u + (uint64_t)time.tv_nsec;
}

static uint64_t processor_time(clockid_t clock) {
    struct timespec time;
    return clock_gettime(clock, &time) ? 0 : (uint64_t)time.tv_sec * 1000000000u + (uint64_t)time.tv_nsec;
}

/* Whether the system says that a thread sleeps or has ended, and doesn't just lack a processor. */
static bool sleeps(int task) {
    char path[64], line[512] = "";
    snprintf(path, sizeof path, "/proc/self/task/%d/stat", task);
    int file = open(path, O_RDONLY | O_CLOEXEC);
    if (file < 0)
        return true;
    ssize_t length = read(file, line, sizeof line - 1);
    close(file);
    const char *state = length > 0 ? strrchr(line, ')') : NULL;
    return state && strlen(state) > 2 && (state[2] == 'S' || state[2] == 'D');
}

/* A thread that neither ran nor slept since it entered its call has had no turn, so it doesn't wait for anybody. */
static void look_at(struct watched *thread, struct standing *standing) {
    uint64_t used = processor_time(thread->clock), since = standing->since;
    if (thread->since != since) {
        thread->since = since;
        thread->used = used;
        standing->asleep = 0;
    }
    standing->ran = used > thread->used ? used - thread->used : 0;
    standing->asleep = sleeps(thread->task) ? standing->asleep + 1 : 0;
}

static void *beat(void *unused) {
    (void)unused;
    while (!now->finalized) {
        for (int number = 0; number < THREADS; number++)
            if (watched[number].task)
                look_at(&watched[number], &now->threads[number]);
        atomic_store(&now->beat, clock_now());
        nanosleep(&BEAT, NULL);
    }
    return NULL;
}

/* The thread takes no signal of the program's. Where it can't be made, the reader knows no time up to which the process lived. */
static void begin_beat(void) {
    sigset_t all, before;
    pthread_t thread;
    pthread_attr_t attributes;
    sigfillset(&all);
    pthread_sigmask(SIG_SETMASK, &all, &before);
    pthread_attr_init(&attributes);
    pthread_attr_setdetachstate(&attributes, PTHREAD_CREATE_DETACHED);
    if (pthread_create(&thread, &attributes, beat, NULL))
        fprintf(stderr, "record: no thread for the beat: how long calls last isn't recorded\n");
    pthread_attr_destroy(&attributes);
    pthread_sigmask(SIG_SETMASK, &before, NULL);
}

/* A fresh file of this rank in memory, or null. LOST says what isn't recorded then. */
static void *map_file(const char *folder, const char *name, int rank, size_t bytes, const char *lost) {
    char path[4096];
    snprintf(path, sizeof path, "%s/%s.%d", folder, name, rank);
    unlink(path);
    int file = open(path, O_RDWR | O_CREAT | O_TRUNC | O_CLOEXEC, 0666);
    void *found = MAP_FAILED;
    if (file >= 0 && !(errno = posix_fallocate(file, 0, (off_t)bytes)))
        found = mmap(NULL, bytes, PROT_READ | PROT_WRITE, MAP_SHARED, file, 0);
    if (found == MAP_FAILED)
        fprintf(stderr, "record: %s: %s; %s of rank %d isn't recorded\n", path, strerror(errno), lost, rank);
    if (file >= 0)
        close(file);
    return found == MAP_FAILED ? NULL : found;
}

void now_open(const char *folder, int rank, int size, long run) {
    timed = map_file(folder, "times", rank, sizeof *timed, "when its calls began and ended");
    if (timed) {
        timed->version = VERSION;
        timed->rank = (uint32_t)rank;
        timed->size = (uint32_t)size;
        timed->run = (uint64_t)run;
    }
    now = map_file(folder, "now", rank, sizeof *now, "where it stands");
    if (!now)
        return;
    now->version = VERSION;
    now->rank = (uint32_t)rank;
    now->size = (uint32_t)size;
    now->run = (uint64_t)run;
    begin_beat();
}

void now_finalized(void) {
    if (now)
        now->finalized = 1;
}

static void now_flag(uint32_t flag) {
    if (now && !(now->unseen & flag))
        atomic_fetch_or(&now->unseen, flag);
}

int now_thread(void) {
    if (thread >= 0)
        return thread;
    thread = atomic_fetch_add(&threads, 1);
    if (thread < THREADS && !pthread_getcpuclockid(pthread_self(), &watched[thread].clock))
        watched[thread].task = (int)syscall(SYS_gettid);
    if (thread >= THREADS)
        now_flag(UNSHOWN);
    return thread;
}

static struct standing *mine(void) { return now && now_thread() < THREADS ? &now->threads[thread] : NULL; }

void now_enter(const char *name, int place) {
    struct standing *standing = mine();
    if (!standing)
        return;
    atomic_store_explicit(&standing->inside, 0, memory_order_release);
    standing->since = clock_now();
    standing->ran = standing->asleep = 0;
    standing->calls++;
    standing->place = place;
    standing->awaited = standing->any = under_way.awaited = 0;
    strncpy(standing->name, name, NAME - 1);
    atomic_store_explicit(&standing->inside, 1, memory_order_release);
}

void now_awaits(struct awaited awaited) {
    struct standing *standing = mine();
    if (!standing)
        return;
    if (standing->awaited < SHOWN)
        standing->shown[standing->awaited] = awaited;
    standing->awaited++;
}

void now_any(void) {
    struct standing *standing = mine();
    if (standing)
        standing->any = 1;
}

void now_makes(struct awaited awaited) {
    if (under_way.awaited < SHOWN_OF_CALL)
        under_way.shown[under_way.awaited++] = awaited;
}

/* Threads may end calls at once, so each takes a place of its own. */
static void note_times(const struct standing *standing, uint64_t begun) {
    uint64_t number = atomic_fetch_add(&timed->calls, 1);
    struct timed_call *call = number < FIRST_CALLS ? &timed->first[number] : &timed->last[(number - FIRST_CALLS) % LAST_CALLS];
    call->begun = begun;
    call->ended = standing->since;
    call->place = standing->place;
    call->thread = thread;
    call->any = standing->any;
    memcpy(call->name, standing->name, sizeof call->name - 1);
    int made = under_way.awaited, waited = standing->awaited < SHOWN_OF_CALL - made ? standing->awaited : SHOWN_OF_CALL - made;
    memcpy(call->shown, under_way.shown, (size_t)made * sizeof *call->shown);
    memcpy(call->shown + made, standing->shown, (size_t)waited * sizeof *call->shown);
    call->awaited = made + waited;
}

void now_leave(void) {
    struct standing *standing = mine();
    if (!standing)
        return;
    uint64_t begun = standing->since;
    standing->since = clock_now();
    atomic_store_explicit(&standing->inside, 0, memory_order_release);
    if (timed)
        note_times(standing, begun);
}

void now_cancelled(void) {
    if (now)
        now->uncounted = 1;
}

void now_unseen(void) { now_flag(UNSEEN); }
void now_lost(void) { now_flag(LOST); }
void now_elsewhere(void) { now_flag(ELSEWHERE); }

void now_callbacks(void) { now_flag(CALLBACKS); }

/* The slot of messages alike. A message for which none is found in some tries isn't counted, and the reader then trusts no count. */
static struct message_count *slot_of(struct awaited message) {
    uint64_t hash = (uint64_t)(uint32_t)message.kind << 62 ^ (uint64_t)(uint32_t)message.context << 44 ^ (uint64_t)(uint32_t)message.rank << 24 ^ (uint32_t)message.tag;
    uint64_t first = hash * UINT64_C(0x9e3779b97f4a7c15) >> 32;
    for (unsigned step = 0; now && step < TRIES; step++) {
        struct message_count *count = &now->messages[(first + step) % MESSAGES];
        if (!count->kind)
            *count = (struct message_count){message.kind, message.context, message.rank, message.tag, 0};
        if (count->kind == message.kind && count->context == message.context && count->rank == message.rank && count->tag == message.tag)
            return count;
    }
    now_cancelled();
    return NULL;
}

long now_count(struct awaited message) {
    struct message_count *slot = slot_of(message);
    return slot ? slot->calls++ : 0;
}

long now_counted(struct awaited message) {
    struct message_count *slot = slot_of(message);
    return slot ? slot->calls : 0;
}
