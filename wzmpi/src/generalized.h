/* Requests that the program itself completes. */
#ifndef WZ_GENERALIZED_H
#define WZ_GENERALIZED_H

#include "collectives.h"

int query_generalized(const struct request *request, MPI_Status *status);
int finish_generalized(struct request *request, MPI_Status *status);
int cancel_generalized(struct request *request);
int start_fortran_generalized(void (*query)(void), void (*release)(void), void (*cancel)(void), MPI_Aint extra, MPI_Request *made);

#endif
