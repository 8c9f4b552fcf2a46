/* Warnings, which are told when the run ends: equal ones once, with the ranks that have them. */
#ifndef WZ_WARNINGS_H
#define WZ_WARNINGS_H

#include "base.h"

/* Of one KEY the first text counts, and how often each rank has it. */
void warn_at_end(int rank, const char *key, const char *format, ...) __attribute__((format(printf, 3, 4)));
void tell_warnings(void);

/* What a rank leaves behind at MPI_Finalize: requests that were never completed, and under --strict what it made and never freed, with the lines. */
void warn_of_left(struct rank *rank);

#endif
