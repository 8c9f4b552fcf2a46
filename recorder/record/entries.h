/* The entries of the MPI library that the recorder stands before. */
#ifndef ENTRIES_H
#define ENTRIES_H

#include "calls.h"
#include "now.h"
#include "places.h"

#include <mpi.h>
#include <stdbool.h>

/* The frame of the call that this thread is in, or null: what a library calls on the way isn't the program's. */
extern _Thread_local const char *inside;

/* Whether a call with this frame and return address is made within the one that this thread is in. An error handler may have left that one by
   a jump: then it is over. */
bool is_within(const void *frame, void *address);

/* Notes a call within another one, which isn't recorded: callbacks of MPI_Finalize may make calls that other ranks make before it. */
void note_within(void *address);

/* Where the call under way returns to, and the number of that place. */
extern _Thread_local void *caller;
extern _Thread_local int here;

/* Finds the library's own function; false where it has none. */
bool find_next(void *function, const char *name);

#define UNWRAP(...) __VA_ARGS__

/* An entry for the program, which records by `recorded_NAME`, and within another call passes on after doing WITHIN. */
#define ENTRY(ENTERED, NAME, parameters, arguments, is_program, within)                                                                     \
    int ENTERED parameters {                                                                                                                \
        if (!next_##NAME)                                                                                                                   \
            find_next(&next_##NAME, "P" #NAME);                                                                                             \
        if (inside && is_within(__builtin_frame_address(0), __builtin_return_address(0))) {                                                 \
            within;                                                                                                                         \
            return next_##NAME arguments;                                                                                                   \
        }                                                                                                                                   \
        if (!(is_program))                                                                                                                  \
            return next_##NAME arguments;                                                                                                   \
        inside = __builtin_frame_address(0);                                                                                                \
        caller = __builtin_return_address(0);                                                                                               \
        here = place_of(caller);                                                                                                            \
        now_enter(#NAME, here);                                                                                                             \
        int result = recorded_##NAME arguments;                                                                                             \
        now_leave();                                                                                                                        \
        inside = NULL;                                                                                                                      \
        return result;                                                                                                                      \
    }

/* A Fortran interface calls names that begin with P, for the program. Others who call these want no recording. */
bool is_through_fortran(void *address);

#define INTERPOSED_AND_WITHIN(NAME, parameters, arguments, within)                                                                          \
    static int(*next_##NAME) parameters;                                                                                                    \
    static int recorded_##NAME parameters;                                                                                                  \
    ENTRY(NAME, NAME, parameters, arguments, true, within)                                                                                  \
    ENTRY(P##NAME, NAME, parameters, arguments, is_through_fortran(__builtin_return_address(0)), (void)0)                                   \
    static int recorded_##NAME parameters

#define INTERPOSED(NAME, parameters, arguments)                                                                                             \
    INTERPOSED_AND_WITHIN(NAME, parameters, arguments, note_within(__builtin_return_address(0)))

/* A call that frees what a handle names: its handle is unknown from then on, also where a program's callback frees it within another call. */
#define FREEING(NAME, parameters, arguments, forget) INTERPOSED_AND_WITHIN(NAME, parameters, arguments, (log_lock(), forget, log_unlock()))

/* A call that is shown as the one under way, and not recorded otherwise: what it waits for isn't judged. */
#define SHOWN(NAME, parameters, arguments)                                                                                                  \
    INTERPOSED(NAME, parameters, arguments) {                                                                                               \
        now_elsewhere();                                                                                                                    \
        return next_##NAME arguments;                                                                                                       \
    }

/* Begins a line of a call of this rank: the tests before it are counted out, and the place is written. The lock is held. */
void begin_command(void);

/* Writes a collective call of which only the name is recorded, and whom it waits for; of a null context, that there was one. The lock is held. */
void write_named(struct context *context, char form, const char *name);
void write_unknown(const char *name);

/* Says that the call waits for the other members of a context at the call last written there. */
void await_collective(const struct context *context);
struct awaited collective_awaited(const struct context *context);

/* The number of the next collective request. */
long next_request(void);

/* Says that what is written next is another thread's than what was written last. The lock is held. */
void log_thread(void);

/* Counts tests that are left out of the record. */
extern long unwritten;
extern unsigned long row;

/* Messages, as their lines say: messages.c. The lock is held. A start of a persistent one is a message of its own. */
void message_started(struct request *request);
void messages_awaited(int count, struct request *const *requests);
void message_completed(const struct request *request);
void message_left(const struct request *request);

/* Writes `WORD NUMBER`. */
void write_numbered(const char *word, long number);

#endif
