/* What is told to the user: refused calls, calls that don't agree, who waits for whom. */
#ifndef WZ_DIAGNOSTICS_H
#define WZ_DIAGNOSTICS_H

#include <stdarg.h>

#include "comms.h"
#include "pending_calls.h"

enum { STATUS_WRONG = 2, STATUS_STALLED = 3 };

/* A call that MPI doesn't allow. Under MPI_ERRORS_RETURN of the communicator (NULL: of MPI_COMM_WORLD) gives the class back; else it is told and the run
   ends. */
int refuse(struct comm *comm, int class, const char *call, const char *format, ...) __attribute__((format(printf, 4, 5)));
/* The same where HANDLER, which gets HANDLE, judges it; TOLD: where it returns the class, that is told as a warning. */
struct refusal {
    struct errhandler *handler;
    MPI_Comm handle;
    int class;
    bool told;
    const char *call;
};
int refuse_by(const struct refusal *refusal, const char *format, va_list rest);
void print_warning(const char *format, ...) __attribute__((format(printf, 1, 2)));
const char *class_name(int class);

int judge_info(MPI_Info info, const char *call); /* info.c: MPI_INFO_NULL is one too */
MPI_Info new_hints(void); /* info.c: those that a window or a file has, of which the program doesn't know */

/* `wzrun` and `wzrun: warning`, as they begin a sentence (colour.c). */
const char *fault_head(void);
const char *warning_head(void);

/* Ends the run; with --explain colljob is asked why. Whoever reports something has taken the right to it first, so that one thing is reported. */
void tell_alone(void);
bool tells_first(void); /* false, and at once, where another has taken it */
void go_back(void); /* to the folder in which wzrun was begun: a rank may have left it */
int fault_status(int status); /* as --status-of-faults says, or STATUS */
void end_run(int status, struct question question) __attribute__((noreturn));

/* Lists of ranks: "rank 2", "ranks 0, 1 and 3". */
enum { RANKS_TEXT = 320 };
const char *ranks_text(uint64_t ranks, char text[RANKS_TEXT]);
int count_ranks(uint64_t ranks);

enum { NAME_TEXT = 400 };
const char *comm_name(struct comm *comm, char text[NAME_TEXT]);
const char *called_text(const struct called *called, char text[NAME_TEXT]);

/* The calls at a place don't agree. */
void tell_mismatch(struct comm *comm, uint64_t place) __attribute__((noreturn));

/* Tells a stall where ranks can't go on any more; else returns. For the thread that watches. */
void watch_for_deadlock(void);

#endif
