/* The line of a Python program that calls MPI through mpi4py. */
#ifndef PYTHON_H
#define PYTHON_H

#include <stdbool.h>
#include <stddef.h>

/* Writes `FILE:LINE` of this thread's innermost Python frame. False where there is none. No lock is held: it takes the interpreter's. */
bool python_line(char *line, size_t room);

#endif
