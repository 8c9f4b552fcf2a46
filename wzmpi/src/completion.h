/* The calls that complete requests: some wait for what they name (completion.c), others choose among it (choosing.c). */
#ifndef WZ_COMPLETION_H
#define WZ_COMPLETION_H

#include "collectives.h"

/* A list of requests that a call names. It is read as a whole before any of it changes. */
struct list {
    int many;
    MPI_Request *handles;
    struct request **at, *few[32];
};

int read_list(struct list *list, int many, MPI_Request handles[], const char *call);
/* Of one request, which may be null. */
int read_single(struct list *list, MPI_Request *handle, const char *call);
void give_up_list(struct list *list);

/* Completes one, and all. */
int complete_one(struct list *list, int i, MPI_Status *status, const char *call);
int complete_all(struct list *list, MPI_Status statuses[], const char *call);

MPI_Status *status_at(MPI_Status *statuses, int i);
void note_error(int *code, int one, MPI_Status *status); /* what came of one of several requests */

#endif
