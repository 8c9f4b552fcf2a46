/* Looking at ranks that wait. */
#ifndef WZ_DEADLOCK_WATCH_H
#define WZ_DEADLOCK_WATCH_H

#include "collectives.h"

/* Between the two calls no rank that waits gives up its list of requests. */
void hold_watch(bool begin);

/* Between the two: whether a rank that waits has nothing done of what it waits for, or computed just now, so that only another's call lets it go on. */
bool is_stuck(const struct rank *rank);

uint64_t all_ranks(void);
double seconds_since_call(int rank); /* as the watching thread has seen it */
void write_awaited(FILE *to, struct request *request, const char *call); /* a line for what a rank that waits in that call waits for, begun by its end */

#endif
