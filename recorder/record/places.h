/* Where calls stand in the program. */
#ifndef PLACES_H
#define PLACES_H

#include <stdbool.h>

/* The number of the place to which a call returns, whose line the file has from then on; 0 where it has no more room for places. Of a
   call through Fortran's or Python's MPI library it is the place in the program above. The lock isn't held. */
int place_of(void *caller);

/* Whether a return address lies in one of the libraries between a Fortran program and the C interface. */
bool place_is_fortran(void *caller);

/* Whether it lies in the MPI library itself. */
bool place_is_library(void *caller);

/* Whether the entry that asks for it was called within another one, by the frames of this thread's stack. */
bool place_is_below_entry(void);

/* The line that says where the lines after it stand. The lock is held. */
void log_place(int place);

#endif
