/* Datatypes and operations: each has a number in the record, and a line that says what it is. */
#ifndef TYPES_H
#define TYPES_H

#include <mpi.h>
#include <stdbool.h>

struct type {
    MPI_Datatype handle;
    int number;
    const char *word; /* its word in a job text */
    long each;        /* how many elements of that word stand for one of it */
    bool exact;       /* whether its values stand in a text as they are */
    struct type *next;
};

/* What is known of a type; its line is written at the first time. Null for MPI_DATATYPE_NULL. */
const struct type *type_of(MPI_Datatype type);
void type_gone(MPI_Datatype type);

/* The number of an operation; its line is written at the first time. */
int operation_of(MPI_Op op);

/* FUNCTION is where the program's function lies. */
void operation_made(MPI_Op op, const void *function, bool commutes, int place);
void operation_gone(MPI_Op op);

#endif
