/* Copies of the program and of the libraries that wzcc linked, one for each rank, so that each has its static variables for itself. */
#ifndef WZ_RANK_COPIES_H
#define WZ_RANK_COPIES_H

#include "base.h"

/* Reads the program and finds its libraries. NULL: it could; else why not. */
const char *open_program(const char *program);

/* Loads a rank's copy. The program's function wz_run_rank_; NULL: there is none, and *WHY says why. */
void *load_program(struct rank *rank, const char **why);

/* Whether the program, or a library of it that wzcc linked, imports a function; a name may end with `*`. */
bool is_imported(const char *name);

/* Tells once of what all ranks share, though processes wouldn't: what the functions act on that the program and its libraries import, and static variables of
   libraries that call MPI and that wzcc didn't link. */
void tell_shared(void);

#endif
