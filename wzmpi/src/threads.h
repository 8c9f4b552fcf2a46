/* A rank's threads, as the level of MPI_Init_thread allows them (MPI 4.1, 11.6). */
#ifndef WZ_THREADS_H
#define WZ_THREADS_H

#include "base.h"

/* Around each call of the program's but the quick ones (make_calls.py): FROM is where it is called from. */
void enter_call(const char *call, const void *from);
void leave_call(void);

/* Between the two, in a call that waits, other threads of the rank may call under MPI_THREAD_MULTIPLE. */
void let_others_in(void);
void come_back(void);

void be_main(void); /* this thread is its rank's main one */
bool is_main(void);
bool is_inside_call(void);
bool has_threads(const struct rank *rank); /* several have called, under MPI_THREAD_MULTIPLE */

#endif
