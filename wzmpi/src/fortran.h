/* What the calls of Fortran do with their arguments (MPI 4.1, 19.1 and 19.3). fortran.c, which make_fortran.py writes, has the calls. */
#ifndef WZ_FORTRAN_H
#define WZ_FORTRAN_H

#include "base.h"

/* ---- fortran_handles.c: a handle is a default integer: the number of its C handle, and as much of the generation as there is room for */
void *from_fortran(enum kind kind, int handle);
int to_fortran(const void *handle);
MPI_Request *in_requests(const int *handles, int many); /* which out_requests frees */
void out_requests(int *handles, MPI_Request *requests, int many);
MPI_Aint *in_addresses(const int *addresses, int many); /* which the caller frees */

/* ---- fortran_calls.c: the words that stand at addresses of each rank's own */
void *in_buffer(void *buffer);
int *in_weights(int *weights);
MPI_Status *in_status(int *status);
char *in_string(const char *text, size_t length); /* without the blanks at its end; the caller frees it */
#define UNWRITTEN "\1"
void out_string(char *text, size_t length, const char *from); /* nothing, where FROM is as it was */

/* ---- fortran_lines.c: where a call stands in the program, by its return address */
void note_fortran_line(const void *back);

/* ---- fortran_load.c: as a rank's copy of the program is loaded */
void give_own_library(int rank, char *name); /* of what a rank's copy needs, before it is loaded: where it is libgfortran, it becomes the rank's copy of that */
void note_fortran(struct rank *rank, void *loaded, const char *program);

/* The words' addresses in a rank's program, in this order. */
enum place { AT_BOTTOM, AT_IN_PLACE, AT_STATUS_IGNORE, AT_STATUSES_IGNORE, AT_ERRCODES_IGNORE, AT_UNWEIGHTED, AT_WEIGHTS_EMPTY, AT_ARGV_NULL, AT_ARGVS_NULL, PLACES_OF_FORTRAN };

#endif
