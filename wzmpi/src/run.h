/* What wzrun needs of the library. */
#ifndef WZ_RUN_H
#define WZ_RUN_H

void begin_run(int size);
void note_copy(int rank, const void *base); /* where a rank's copy of the program, or of a library, lies */

/* wzrun itself. */
int wz_main_(int argc, char **argv);

/* A program in Fortran. */
void wz_keep_handlers_(void (*set_options)(int, int *), int many, int *options);

#endif
