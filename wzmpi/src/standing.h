/* Where ranks stand, told once for all that stand alike. */
#ifndef WZ_STANDING_H
#define WZ_STANDING_H

#include "diagnostics.h"

/* `rank 3 ONE TEXT`, or `ranks 3-5 MANY TEXT` where several say the same. */
struct standing {
    char one[100], many[100];
    char *text; /* it may have further lines; none ends it */
    size_t length;
};

FILE *begin_standing(struct standing *standing, const char *one, const char *many); /* for the text */
void end_standing(FILE *text);
void tell_standings(struct standing standings[MOST_RANKS], uint64_t ranks); /* those of the ranks, whose texts it frees */

/* Tells where each rank stands, whatever it does. For the thread that watches. */
void tell_where_all_stand(void);

#endif
