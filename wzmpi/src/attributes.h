/* Attributes and error handlers of whatever has a communicator: itself, or a window or a file that it serves. */
#ifndef WZ_ATTRIBUTES_H
#define WZ_ATTRIBUTES_H

#include "comms.h"

/* Whose copy and delete functions a key has: those of C, of Fortran with addresses as values, or of Fortran's MPI 1 with default integers (MPI 4.1, 19.3.7). */
enum language { IN_C, IN_FORTRAN, IN_OLD_FORTRAN };
void set_language(int number, enum language language);
void speak_fortran(bool begin); /* between the two, this thread's calls set and get values as Fortran has them */

int create_keyval(MPI_Comm_copy_attr_function *copy, MPI_Comm_delete_attr_function *delete, int *number, void *extra, const char *call);
int free_keyval(int *number, const char *call);

/* What has values of keys, as this rank sees it: whoever judges mistakes (NULL: MPI_COMM_WORLD), the values, and the handle that the program's functions get. */
struct attributed {
    struct comm *comm;
    struct attribute **list;
    MPI_Comm handle;
};
struct attributed attributes_of(struct comm *comm, const void *handle); /* of a communicator, or of what it serves */
int set_attribute(const struct attributed *of, int number, void *value, const char *call);
int get_attribute(const struct attributed *of, int number, void *value, int *flag, const char *call);
int delete_attribute(const struct attributed *of, int number, const char *call);
int copy_list(const struct attributed *from, struct attribute **to);
int delete_list(const struct attributed *of);

int create_errhandler(MPI_Comm_errhandler_function *function, MPI_Errhandler *made, const char *call);
void call_handler(const struct errhandler *handler, MPI_Comm handle, int *class); /* one that has a function */
int set_errhandler(struct comm *comm, MPI_Errhandler wanted, const char *call);
int get_errhandler(struct comm *comm, MPI_Errhandler *handler);
int call_errhandler(struct comm *comm, int code, const char *call);

/* Of no communicator: what a handle names, and one more of its users, or one less. */
struct errhandler *errhandler_of(MPI_Errhandler handle); /* NULL: there is none */
void hold_errhandler(struct errhandler *handler);
void unhold_errhandler(struct errhandler *handler);
MPI_Errhandler errhandler_handle(struct errhandler *handler); /* which the program frees */

#endif
