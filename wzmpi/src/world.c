/* The beginning and the end of a run, and the calls that need no communicator. */
#include "trace.h"
#include "record.h"
#include "diagnostics.h"
#include "per_rank_libc.h"
#include "threads.h"
#include "warnings.h"

#include <dlfcn.h>
#include <time.h>
#include <unistd.h>

struct run the_run;
__thread struct rank *current_rank;

/* Where each rank's copies of the program and of libraries lie, so that a thread that the program makes has the rank of the copy whose code it runs. */
struct place_of_copy {
    int rank;
    const void *base;
    struct place_of_copy *next;
};
static struct place_of_copy *_Atomic copies;

void note_copy(int rank, const void *base) {
    struct place_of_copy *copy = must(malloc(sizeof *copy));
    *copy = (struct place_of_copy){ rank, base, atomic_load(&copies) };
    while (!atomic_compare_exchange_weak(&copies, &copy->next, copy)) {}
}

static struct rank *rank_of_address(const void *address) {
    Dl_info about;
    if (dladdr(address, &about) == 0) return NULL;
    for (const struct place_of_copy *copy = atomic_load(&copies); copy != NULL; copy = copy->next)
        if (copy->base == about.dli_fbase) return &the_run.ranks[copy->rank];
    return NULL;
}

struct rank *rank_of_code(const void *address) {
    if (current_rank == NULL) current_rank = rank_of_address(address);
    return current_rank;
}

struct rank *this_rank(const char *call) {
    if (rank_of_code(__builtin_return_address(0)) != NULL) return current_rank;
    fprintf(stderr, "%s: %s: the thread that calls it isn't one of a rank\n", fault_head(), call);
    _exit(fault_status(STATUS_WRONG));
}

void begin_run(int size) {
    the_run.size = size;
    for (int i = 0; i < size; i++) {
        the_run.ranks[i].number = i;
        the_run.ranks[i].site = "its beginning";
        the_run.ranks[i].random = the_run.seed * 64 + (uint64_t)i;
    }
    begin_notes();
    open_mailboxes(size);
    open_world(size);
}

/* ---- MPI_Init and MPI_Finalize */

/* The highest level that was asked for holds for all. */
void begin_model(struct rank *rank, int level) {
    if (!rank->begun || rank->finalized) be_main();
    if (level > rank->level) rank->level = level;
    rank->begun = true;
    rank->finalized = false;
}

void end_model(struct rank *rank) {
    if (rank->sessions > 0 || rank->world != rank->world_over) return;
    warn_of_left(rank);
    rank->finalized = true;
}

static int initialise(int level, const char *call) {
    struct rank *me = this_rank(call);
    if (me->world) return refuse(NULL, MPI_ERR_OTHER, call, "MPI_Init was called before");
    me->world = true;
    begin_model(me, level);
    return MPI_SUCCESS;
}

int MPI_Init(int *argc, char ***argv) {
    (void)argc, (void)argv;
    return initialise(MPI_THREAD_SINGLE, "MPI_Init");
}

int MPI_Init_thread(int *argc, char ***argv, int wanted, int *given) {
    (void)argc, (void)argv;
    *given = wanted < MPI_THREAD_MULTIPLE ? wanted : MPI_THREAD_MULTIPLE;
    return initialise(*given, "MPI_Init_thread");
}

int MPI_Query_thread(int *given) {
    *given = this_rank("MPI_Query_thread")->level;
    return MPI_SUCCESS;
}

int MPI_Is_thread_main(int *flag) {
    *flag = is_main();
    return MPI_SUCCESS;
}

int MPI_Initialized(int *flag) {
    const struct rank *me = current_rank != NULL ? current_rank : rank_of_address(__builtin_return_address(0)); /* any thread may ask */
    *flag = me != NULL && me->world;
    return MPI_SUCCESS;
}

int MPI_Finalized(int *flag) {
    const struct rank *me = current_rank != NULL ? current_rank : rank_of_address(__builtin_return_address(0));
    *flag = me != NULL && me->world_over;
    return MPI_SUCCESS;
}

int MPI_Finalize(void) {
    struct rank *me = this_rank("MPI_Finalize");
    if (!me->world || me->world_over) return refuse(NULL, MPI_ERR_OTHER, "MPI_Finalize", me->world ? "MPI_Finalize was called before" : "MPI_Init wasn't called before");
    delete_attributes(find_comm(MPI_COMM_SELF), MPI_COMM_SELF);
    delete_attributes(world_comm(), MPI_COMM_WORLD);
    me->world_over = true;
    end_model(me);
    return MPI_SUCCESS;
}

int MPI_Abort(MPI_Comm comm, int status) {
    struct rank *me = this_rank("MPI_Abort");
    (void)comm;
    tell_alone();
    flush_streams();
    fprintf(stderr, "%s: rank %d ends all by MPI_Abort(%d) at %s\n", fault_head(), me->number, status, me->site);
    end_run((status & 255) != 0 ? status & 255 : 1, (struct question){ NULL, NULL });
}

/* ---- calls that need nothing */

double MPI_Wtime(void) {
    struct timespec now;
    if (current_rank != NULL) atomic_store_explicit(&current_rank->asked_time, true, memory_order_relaxed);
    clock_gettime(CLOCK_MONOTONIC, &now);
    return (double)now.tv_sec + (double)now.tv_nsec / 1e9;
}

double MPI_Wtick(void) { return 1e-9; }

int MPI_Get_version(int *version, int *subversion) {
    *version = MPI_VERSION;
    *subversion = MPI_SUBVERSION;
    return MPI_SUCCESS;
}

int MPI_Get_library_version(char *text, int *length) {
    *length = snprintf(text, MPI_MAX_LIBRARY_VERSION_STRING, "Worzsunab 0.1.0, ranks as threads of one process");
    return MPI_SUCCESS;
}

int MPI_Get_processor_name(char *name, int *length) {
    char host[MPI_MAX_PROCESSOR_NAME] = "";
    gethostname(host, sizeof host - 1);
    *length = snprintf(name, MPI_MAX_PROCESSOR_NAME, "%s", host);
    return MPI_SUCCESS;
}

int MPI_Alloc_mem(MPI_Aint size, MPI_Info info, void *base) {
    (void)info;
    *(void **)base = malloc(size > 0 ? (size_t)size : 1);
    return *(void **)base != NULL ? MPI_SUCCESS : refuse(NULL, MPI_ERR_NO_MEM, "MPI_Alloc_mem", "there is no memory left");
}

int MPI_Free_mem(void *base) {
    free(base);
    return MPI_SUCCESS;
}

int MPI_Get_address(const void *location, MPI_Aint *address) {
    *address = (MPI_Aint)location;
    return MPI_SUCCESS;
}

MPI_Aint MPI_Aint_add(MPI_Aint base, MPI_Aint distance) { return base + distance; }

MPI_Aint MPI_Aint_diff(MPI_Aint one, MPI_Aint two) { return one - two; }

int MPI_Pcontrol(const int level, ...) {
    (void)level;
    return MPI_SUCCESS;
}
