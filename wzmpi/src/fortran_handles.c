/* Handles of Fortran, and the calls of C that turn them into those of C and back (MPI 4.1, 19.3.4). */
#include "fortran.h"

enum { FORTRAN_NUMBER_BITS = 20, FORTRAN_GENERATIONS = 0x800 };

/* Of a generation the lowest bits are there; the number has seen it last. */
void *from_fortran(enum kind kind, int handle) {
    uint32_t number = (uint32_t)handle & ((1u << FORTRAN_NUMBER_BITS) - 1), said = (uint32_t)handle >> FORTRAN_NUMBER_BITS, generation = said;
    const struct table *table = &current_rank->tables[kind];
    uint32_t at = number - FIRST_MADE;
    if (number >= FIRST_MADE && at < table->many) {
        generation = (table->generations[at] & ~(uint32_t)(FORTRAN_GENERATIONS - 1)) | said;
        if (generation > table->generations[at]) generation -= FORTRAN_GENERATIONS;
    }
    return (void *)((uintptr_t)kind << 56 | (uintptr_t)generation << TABLE_NUMBER_BITS | number);
}

int to_fortran(const void *handle) {
    if ((uintptr_t)handle >> 56 == 0) return (int)(uintptr_t)handle; /* a type's is an int in C, too */
    uint32_t number = (uint32_t)((uintptr_t)handle & ((1u << TABLE_NUMBER_BITS) - 1)), generation = (uint32_t)((uintptr_t)handle >> TABLE_NUMBER_BITS);
    if (number >= 1u << FORTRAN_NUMBER_BITS) {
        fprintf(stderr, "wzrun: rank %d has a million objects of one kind, for which Fortran has no handles\n", current_rank->number);
        exit(1);
    }
    return (int)((generation & (FORTRAN_GENERATIONS - 1)) << FORTRAN_NUMBER_BITS | number);
}

MPI_Request *in_requests(const int *handles, int many) {
    MPI_Request *requests = must(malloc(sizeof *requests * (size_t)(many > 0 ? many : 1)));
    for (int i = 0; i < many; i++) requests[i] = from_fortran(REQUEST, handles[i]);
    return requests;
}

void out_requests(int *handles, MPI_Request *requests, int many) {
    for (int i = 0; i < many; i++) handles[i] = to_fortran(requests[i]);
    free(requests);
}

MPI_Aint *in_addresses(const int *addresses, int many) {
    MPI_Aint *wide = must(malloc(sizeof *wide * (size_t)(many > 0 ? many : 1)));
    for (int i = 0; i < many; i++) wide[i] = addresses[i];
    return wide;
}

/* ---- for programs in C */

#define CONVERTED(name, type, kind)                                  \
    type MPI_##name##_f2c(MPI_Fint handle) {                         \
        this_rank("MPI_" #name "_f2c");                              \
        return (type)from_fortran(kind, handle);                     \
    }                                                                \
    MPI_Fint MPI_##name##_c2f(type handle) {                         \
        this_rank("MPI_" #name "_c2f");                              \
        return to_fortran(handle);                                   \
    }
CONVERTED(Comm, MPI_Comm, COMM)
CONVERTED(Group, MPI_Group, GROUP)
CONVERTED(Op, MPI_Op, OP)
CONVERTED(Request, MPI_Request, REQUEST)
CONVERTED(Info, MPI_Info, INFO)
CONVERTED(Errhandler, MPI_Errhandler, ERRHANDLER)
CONVERTED(Message, MPI_Message, TAKEN)
CONVERTED(Win, MPI_Win, WINDOW)
CONVERTED(File, MPI_File, FILE_)
CONVERTED(Session, MPI_Session, SESSION)

MPI_Datatype MPI_Type_f2c(MPI_Fint type) { return type; }

MPI_Fint MPI_Type_c2f(MPI_Datatype type) { return type; }

int MPI_Status_f2c(const MPI_Fint *from, MPI_Status *status) {
    memcpy(status, from, sizeof *status);
    return MPI_SUCCESS;
}

int MPI_Status_c2f(const MPI_Status *status, MPI_Fint *to) {
    memcpy(to, status, sizeof *status);
    return MPI_SUCCESS;
}
