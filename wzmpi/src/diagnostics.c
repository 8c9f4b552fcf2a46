/* Refusals, warnings and what sentences are made of. */
#include "diagnostics.h"
#include "per_rank_libc.h"

#include "attributes.h"
#include "collectives.h"
#include "explain.h"
#include "trace.h"
#include "record.h"
#include "schedule.h"

#include <stdarg.h>
#include <unistd.h>

/* ---- error classes */

static const char *const classes[] = {
    "MPI_SUCCESS", "MPI_ERR_BUFFER", "MPI_ERR_COUNT", "MPI_ERR_TYPE", "MPI_ERR_TAG", "MPI_ERR_COMM", "MPI_ERR_RANK", "MPI_ERR_ROOT", "MPI_ERR_GROUP",
    "MPI_ERR_OP", "MPI_ERR_TOPOLOGY", "MPI_ERR_DIMS", "MPI_ERR_ARG", "MPI_ERR_UNKNOWN", "MPI_ERR_TRUNCATE", "MPI_ERR_OTHER", "MPI_ERR_INTERN",
    "MPI_ERR_IN_STATUS", "MPI_ERR_PENDING", "MPI_ERR_REQUEST", "MPI_ERR_NO_MEM", "MPI_ERR_KEYVAL", "MPI_ERR_INFO", "MPI_ERR_INFO_KEY",
    "MPI_ERR_INFO_VALUE", "MPI_ERR_INFO_NOKEY", "MPI_ERR_UNSUPPORTED_OPERATION",
    "MPI_ERR_WIN", "MPI_ERR_BASE", "MPI_ERR_SIZE", "MPI_ERR_DISP", "MPI_ERR_LOCKTYPE", "MPI_ERR_ASSERT", "MPI_ERR_RMA_CONFLICT", "MPI_ERR_RMA_SYNC",
    "MPI_ERR_RMA_RANGE", "MPI_ERR_RMA_ATTACH", "MPI_ERR_RMA_SHARED", "MPI_ERR_RMA_FLAVOR",
    "MPI_ERR_FILE", "MPI_ERR_NOT_SAME", "MPI_ERR_AMODE", "MPI_ERR_UNSUPPORTED_DATAREP", "MPI_ERR_NO_SUCH_FILE", "MPI_ERR_FILE_EXISTS", "MPI_ERR_BAD_FILE",
    "MPI_ERR_ACCESS", "MPI_ERR_NO_SPACE", "MPI_ERR_QUOTA", "MPI_ERR_READ_ONLY", "MPI_ERR_FILE_IN_USE", "MPI_ERR_DUP_DATAREP", "MPI_ERR_CONVERSION",
    "MPI_ERR_IO", "MPI_ERR_SPAWN", "MPI_ERR_PORT", "MPI_ERR_SERVICE", "MPI_ERR_NAME", "MPI_ERR_SESSION", "MPI_ERR_PROC_ABORTED",
    "MPI_ERR_VALUE_TOO_LARGE", "MPI_ERR_ERRHANDLER",
};
enum { CLASSES = sizeof classes / sizeof classes[0], OWN_CODES = 64 };

const char *class_name(int class) { return class >= 0 && class < CLASSES ? classes[class] : "an error of the program's own"; }

int MPI_Error_class(int code, int *class) {
    bool own = current_rank != NULL && code > MPI_ERR_LASTCODE && code <= MPI_ERR_LASTCODE + current_rank->many_codes;
    *class = own ? current_rank->error_classes[code - MPI_ERR_LASTCODE - 1] : code;
    return MPI_SUCCESS;
}

int MPI_Error_string(int code, char *text, int *length) {
    bool own = current_rank != NULL && code > MPI_ERR_LASTCODE && code <= MPI_ERR_LASTCODE + current_rank->many_codes;
    const char *last = current_rank != NULL && code == current_rank->last_class ? current_rank->last_refusal : "";
    if (own) *length = snprintf(text, MPI_MAX_ERROR_STRING, "%s", current_rank->error_strings[code - MPI_ERR_LASTCODE - 1]);
    else *length = snprintf(text, MPI_MAX_ERROR_STRING, "%s%s%s", class_name(code), last[0] != '\0' ? ": " : "", last);
    return MPI_SUCCESS;
}

/* A class or code of the program's own. */
static int add_code(int class, int *code, const char *call) {
    struct rank *me = this_rank(call);
    if (me->many_codes == OWN_CODES) return refuse(NULL, MPI_ERR_OTHER, call, "there are %d codes already", OWN_CODES);
    *code = MPI_ERR_LASTCODE + 1 + me->many_codes;
    me->error_classes[me->many_codes] = class > 0 ? class : *code;
    me->error_strings[me->many_codes++] = must(strdup(""));
    return MPI_SUCCESS;
}

int MPI_Add_error_class(int *class) { return add_code(0, class, "MPI_Add_error_class"); }

int MPI_Add_error_code(int class, int *code) { return add_code(class, code, "MPI_Add_error_code"); }

int MPI_Add_error_string(int code, const char *text) {
    struct rank *me = this_rank("MPI_Add_error_string");
    int at = code - MPI_ERR_LASTCODE - 1;
    if (at < 0 || at >= me->many_codes) return refuse(NULL, MPI_ERR_ARG, "MPI_Add_error_string", "%d is no code of the program's own", code);
    free(me->error_strings[at]);
    me->error_strings[at] = must(strdup(text));
    return MPI_SUCCESS;
}

/* ---- the end of a run */

static pthread_mutex_t telling = PTHREAD_MUTEX_INITIALIZER;

void tell_alone(void) { pthread_mutex_lock(&telling); }

bool tells_first(void) { return pthread_mutex_trylock(&telling) == 0; }

void go_back(void) {
    if (the_run.folder >= 0 && fchdir(the_run.folder) != 0) fprintf(stderr, "%s: the folder in which it was begun can't be entered any more\n", fault_head());
}

int fault_status(int status) { return the_run.status_of_faults > 0 ? the_run.status_of_faults : status; }

void end_run(int status, struct question question) {
    flush_streams();
    go_back();
    if (!record_write()) fprintf(stderr, "%s: %s can't be written\n", fault_head(), the_run.text != NULL ? the_run.text : the_run.values);
    if (!write_schedule()) fprintf(stderr, "%s: %s can't be written\n", fault_head(), the_run.schedule_out);
    const char *unwritten = the_run.notes ? write_notes() : NULL;
    if (unwritten != NULL) fprintf(stderr, "%s: %s can't be written\n", fault_head(), unwritten);
    if (question.words != NULL) explain_end(&question);
    fflush(stderr);
    _exit(status);
}

void print_warning(const char *format, ...) {
    char text[1000];
    va_list rest;
    va_start(rest, format);
    vsnprintf(text, sizeof text, format, rest);
    va_end(rest);
    fprintf(stderr, "%s: %s\n", warning_head(), text);
}

int refuse_by(const struct refusal *refusal, const char *format, va_list rest) {
    struct rank *me = this_rank(refusal->call);
    struct errhandler *handler = refusal->handler;
    int class = refusal->class;
    vsnprintf(me->last_refusal, sizeof me->last_refusal, format, rest);
    me->last_class = class;
    if (handler != NULL && handler->function != NULL) {
        call_handler(handler, refusal->handle, &class);
        return class;
    }
    bool returns = handler != NULL && handler->returns;
    if (returns && refusal->told) print_warning("rank %d: %s at %s: %s (%s)", me->number, refusal->call, me->site, me->last_refusal, class_name(class));
    if (returns) return class;
    tell_alone();
    flush_streams();
    fprintf(stderr, "%s: rank %d: %s at %s: %s (%s)\n", fault_head(), me->number, refusal->call, me->site, me->last_refusal, class_name(class));
    end_run(fault_status(STATUS_WRONG), (struct question){ NULL, NULL });
}

int refuse(struct comm *comm, int class, const char *call, const char *format, ...) {
    this_rank(call);
    struct comm *judge = comm != NULL && my_member(comm) >= 0 ? comm : world_comm();
    va_list rest;
    va_start(rest, format);
    int code = refuse_by(&(struct refusal){ this_member(judge)->handler, comm_handle(judge), class, false, call }, format, rest);
    va_end(rest);
    return code;
}

/* ---- words */

int count_ranks(uint64_t ranks) { return __builtin_popcountll(ranks); }

const char *ranks_text(uint64_t ranks, char text[RANKS_TEXT]) {
    const char *before = " ";
    size_t at = (size_t)snprintf(text, RANKS_TEXT, count_ranks(ranks) == 1 ? "rank" : "ranks");
    while (ranks != 0) {
        int first = __builtin_ctzll(ranks), last = first;
        while (last + 1 < MOST_RANKS && (ranks >> (last + 1) & 1)) last++;
        bool row = last - first >= 2; /* three or more stand as FIRST-LAST */
        for (int rank = first; rank <= (row ? last : first); rank++) ranks &= ~(1ull << rank);
        if (row) at += (size_t)snprintf(text + at, RANKS_TEXT - at, "%s%d-%d", before, first, last);
        else at += (size_t)snprintf(text + at, RANKS_TEXT - at, "%s%d", before, first);
        uint64_t rest = ranks != 0 ? ranks >> __builtin_ctzll(ranks) : 0;
        before = count_ranks(ranks) == 1 || (count_ranks(ranks) >= 3 && (rest & (rest + 1)) == 0) ? " and " : ", ";
    }
    return text;
}

const char *called_text(const struct called *called, char text[NAME_TEXT]) {
    size_t at = (size_t)snprintf(text, NAME_TEXT, "%s", called->name);
    if (called->root >= 0) at += (size_t)snprintf(text + at, NAME_TEXT - at, ", root %d", called->root);
    if (called->operation != 0) at += (size_t)snprintf(text + at, NAME_TEXT - at, ", %s", called->operation_name);
    if ((called->form & IN_PLACE_FORM) != 0) at += (size_t)snprintf(text + at, NAME_TEXT - at, ", MPI_IN_PLACE");
    if (called->function == BARRIER || called->function >= COMM_DUP || called->function == ALLGATHERV) return text;
    bool moves = called->elements > 0 || called->basic >= 0;
    if (called->basic > 0) snprintf(text + at, NAME_TEXT - at, ", %llu %s", (unsigned long long)called->elements, basic_type(called->basic)->name);
    else if (moves && called->structure != NULL && called->structure->elements > 0)
        snprintf(text + at, NAME_TEXT - at, ", %llu of {%s}", (unsigned long long)(called->elements / called->structure->elements), called->structure->text);
    else if (moves) snprintf(text + at, NAME_TEXT - at, ", %llu elements of several types", (unsigned long long)called->elements);
    else if (called->function != ALLTOALLV && called->function != ALLTOALLW && called->function != GATHERV && called->function != SCATTERV &&
             !is_neighbor(called->function)) snprintf(text + at, NAME_TEXT - at, ", no elements");
    return text;
}
