/* What colljob can be asked of a run that ended badly. */
#ifndef WZ_PENDING_CALLS_H
#define WZ_PENDING_CALLS_H

#include "base.h"

struct question {
    const char *words;  /* of colljob, before the text's name; NULL: none */
    const char *untold; /* why colljob can't tell; NULL: it can */
};

/* Both complete the job text, where one is wanted, by the calls that ranks haven't come to, but for those of ranks that call nothing any more. No rank writes to it
   afterwards. Of a stall, under hold_watch: LOST ranks can't go on, those in GONE have ended. */
struct question complete_stalled(uint64_t lost, uint64_t gone);
struct question complete_mismatch(void);

#endif
