/* What makes communicators, windows and files: each call takes a place in the order of the communicator that it is called on, the parent. */
#ifndef MAKERS_H
#define MAKERS_H

#include "entries.h"
#include "log.h"

#include <stdlib.h>

/* Writes a call that makes something, and returns the key of what it makes: null where its parent isn't followed. Freed by the caller. */
char *begin_making_of_comm(MPI_Comm parent, const char *name);

/* The function made_KIND takes up what was made. */
#define MAKER(KIND, NAME, parameters, arguments) MAKER_AS(KIND, NAME, , parameters, arguments)

/* The functions with a suffix do the same with counts of another type. */
#define MAKER_AS(KIND, NAME, suffix, parameters, arguments)                                                                                 \
    INTERPOSED(MPI_##NAME##suffix, parameters, arguments) {                                                                                 \
        char *key = begin_making_of_comm(parent, #NAME);                                                                                    \
        return made_##KIND(next_MPI_##NAME##suffix arguments, made, key, "MPI_" #NAME);                                                     \
    }

#endif
