/* A profiling library that records the collectives of an MPI program, and where each rank stands: each rank writes what it calls to files
   of its own, which where.py and join.py read. It stands before the MPI library, preloaded or linked in front of it. docs/RECORDER.md says what
   is recorded how. This file has the begin and the end of a record, and what all entries share. */
#define _GNU_SOURCE
#include "entries.h"
#include "log.h"
#include "types.h"

#include <dlfcn.h>
#include <stdio.h>
#include <stdlib.h>
#include <string.h>
#include <time.h>
#include <unistd.h>

_Thread_local const char *inside;
_Thread_local int here;
_Thread_local void *caller;
long unwritten;
unsigned long row;

static long requests; /* how many collective requests this rank has made */
static int last_thread;

/* A pointer to a function can't be converted in C, so its bytes are written. */
bool find_next(void *function, const char *name) {
    void *found = dlsym(RTLD_NEXT, name);
    if (!found) {
        fprintf(stderr, "record: the MPI library has no %s\n", name);
        abort();
    }
    memcpy(function, &found, sizeof found);
    return true;
}

/* Shared by all entries */

/* Set while MPI_Finalize is under way: what its callbacks call isn't recorded. */
static _Thread_local bool is_ending;

/* The stack grows downwards, so a frame that doesn't lie below that of the call under way says that this one was left. One that lies below it
   may be of a later call too: then no other entry is on the stack. */
bool is_within(const void *frame, void *address) {
    if ((const char *)frame < inside && (place_is_library(address) || place_is_below_entry()))
        return true;
    inside = NULL;
    now_cancelled(); /* whether a message was sent or received isn't known */
    return false;
}

void note_within(void *address) {
    if (is_ending && !place_is_library(address))
        now_unseen();
}

bool is_through_fortran(void *address) {
    if (place_is_fortran(address))
        return true;
    if (!place_is_library(address))
        now_unseen();
    return false;
}

void begin_command(void) {
    if (unwritten > 0) {
        log_text("# ");
        log_signed(unwritten);
        log_text(" further tests gave false\n");
    }
    unwritten = 0;
    row++;
    log_thread();
    log_place(here);
}

void log_thread(void) {
    if (now_thread() == last_thread)
        return;
    last_thread = now_thread();
    log_text("%");
    log_signed(last_thread);
    log_text("\n");
}

void write_numbered(const char *word, long number) {
    log_text(word);
    log_text(" ");
    log_signed(number);
    log_text("\n");
}

long next_request(void) { return requests++; }

const MPI_Request *variable_of(const MPI_Request *handle) { return place_is_fortran(caller) ? NULL : handle; }

struct awaited collective_awaited(const struct context *context) {
    return (struct awaited){.kind = AWAITED_COLLECTIVE, .context = context->number, .index = context->calls - 1, .place = here};
}

void await_collective(const struct context *context) { now_awaits(collective_awaited(context)); }

void write_unknown(const char *name) {
    begin_command();
    log_text("unknown MPI_");
    log_text(name);
    log_text("\n");
}

void write_named(struct context *context, char form, const char *name) {
    if (!context) {
        write_unknown(name);
        return;
    }
    struct call call = {.name = name, .form = form, .context = context, .root = NO_ROOT, .op = MPI_OP_NULL, .type = MPI_DATATYPE_NULL};
    begin_command();
    write_call(&call);
    log_text("\n");
    if (form == 'b')
        await_collective(context);
}

/* Begin and end */

/* Handles are pointers in one library and numbers in another, so a recorder built for the other one can't even pass calls on. */
static const char *check_library(void) {
    char version[8192] = "";
    int length;
#ifdef OPEN_MPI
    const bool built_for_open_mpi = true;
#else
    const bool built_for_open_mpi = false;
#endif
    PMPI_Get_library_version(version, &length);
    if (built_for_open_mpi == (strstr(version, "Open MPI") != NULL))
        return built_for_open_mpi ? "openmpi" : "mpich";
    fprintf(stderr, "record: the recorder was built for another MPI library than this program's: build it with the program's MPICC\n");
    exit(1);
}

/* The folder that the variable RECORD_DIR names; of a program that another one has started, a folder of its own in that one's. */
static void choose_folder(char *folder, size_t room, long run) {
    const char *named = getenv("RECORD_DIR");
    MPI_Comm parent;
    named = named && *named ? named : "record.out";
    PMPI_Comm_get_parent(&parent);
    if (parent == MPI_COMM_NULL)
        snprintf(folder, room, "%s", named);
    else
        snprintf(folder, room, "%s/started.%ld", named, run);
}

/* Where a call stands that came before the file is written anew. */
static void begin_record(const char *name, void *caller, int thread_level) {
    char folder[4000];
    int rank, size;
    long run = (long)time(NULL) * 100000 + getpid() % 100000;
    PMPI_Comm_rank(MPI_COMM_WORLD, &rank);
    PMPI_Comm_size(MPI_COMM_WORLD, &size);
    PMPI_Bcast(&run, 1, MPI_LONG, 0, MPI_COMM_WORLD);
    choose_folder(folder, sizeof folder, run);
    log_lock();
    if (log_open(folder, rank, size, run, check_library())) {
        write_numbered("threads", thread_level);
        now_thread();
        contexts_begin(rank);
        now_open(folder, rank, size, run);
    }
    log_unlock();
    here = place_of(caller);
    now_enter(name, here);
}

INTERPOSED(MPI_Init, (int *words, char ***word), (words, word)) {
    check_library();
    int result = next_MPI_Init(words, word);
    begin_record("MPI_Init", caller, MPI_THREAD_SINGLE);
    return result;
}

INTERPOSED(MPI_Init_thread, (int *words, char ***word, int required, int *provided), (words, word, required, provided)) {
    check_library();
    int result = next_MPI_Init_thread(words, word, required, provided);
    begin_record("MPI_Init_thread", caller, *provided);
    return result;
}

#if MPI_VERSION >= 4
INTERPOSED(MPI_Session_init, (MPI_Info info, MPI_Errhandler handler, MPI_Session *session), (info, handler, session)) {
    fprintf(stderr, "record: what a program calls through MPI_Session_init isn't recorded, only what it calls from MPI_Init on\n");
    return next_MPI_Session_init(info, handler, session);
}
#endif

static void write_open(const struct request *request) {
    if (request->number != NO_REQUEST && request->active)
        write_numbered("open", request->number);
    else if (request->active)
        message_left(request);
}

INTERPOSED(MPI_Finalize, (void), ()) {
    log_lock();
    begin_command();
    each_request(write_open);
    log_close();
    log_unlock();
    is_ending = true;
    int result = next_MPI_Finalize();
    is_ending = false;
    now_finalized();
    return result;
}

INTERPOSED(MPI_Abort, (MPI_Comm comm, int code), (comm, code)) {
    log_lock();
    begin_command();
    write_numbered("abort", code);
    log_unlock();
    return next_MPI_Abort(comm, code);
}

/* What types and operations are */

FREEING(MPI_Type_free, (MPI_Datatype * type), (type), type_gone(*type)) {
    log_lock();
    type_gone(*type);
    log_unlock();
    return next_MPI_Type_free(type);
}

static int made_operation(int result, const MPI_Op *op, const void *function, int commutes) {
    const void *address;
    memcpy(&address, function, sizeof address);
    log_lock();
    if (result == MPI_SUCCESS)
        operation_made(*op, address, commutes, here);
    log_unlock();
    return result;
}

INTERPOSED(MPI_Op_create, (MPI_User_function * function, int commutes, MPI_Op *op), (function, commutes, op)) {
    return made_operation(next_MPI_Op_create(function, commutes, op), op, &function, commutes);
}

#if MPI_VERSION >= 4
INTERPOSED(MPI_Op_create_c, (MPI_User_function_c * function, int commutes, MPI_Op *op), (function, commutes, op)) {
    return made_operation(next_MPI_Op_create_c(function, commutes, op), op, &function, commutes);
}
#endif

FREEING(MPI_Op_free, (MPI_Op * op), (op), operation_gone(*op)) {
    log_lock();
    operation_gone(*op);
    log_unlock();
    return next_MPI_Op_free(op);
}
