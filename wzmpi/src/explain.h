/* Why a run ended badly, or may end so another time, as colljob sees it. */
#ifndef WZ_EXPLAIN_H
#define WZ_EXPLAIN_H

#include "pending_calls.h"

/* At a bad end. */
void explain_end(const struct question *question);
/* At a good one: whether another run deadlocks, in which calls that choose complete others. */
void explain_choices(void);

/* ---- explain_lines.c: colljob's lines, with those of the program */

/* The lines of a text, from 1 on. */
struct lines {
    char **at;
    size_t many;
};
struct lines text_lines(FILE *from);
void free_lines(struct lines *lines);

/* Writes what a line of colljob's names in the program, as `    # MPI_Barrier, ring.c:12`; nothing where it names nothing. */
void write_places(FILE *to, const struct lines *text, const char *line);

#endif
