/* Memory that a call writes to, and that another call, or the same one, uses too. */
#ifndef WZ_OVERLAP_H
#define WZ_OVERLAP_H

#include "collectives.h"

bool pieces_overlap(struct piece one, struct piece other); /* byte by byte, as the types have them */
bool type_overlaps(const struct type *type, MPI_Count many); /* some byte of MANY elements belongs to two of their parts */

/* Under --check: whether it writes to memory that a request of this rank uses which is under way, or the other way round. A code where that was refused. */
int judge_pending(const struct request *request, const char *call);

/* Under --strict: what it receives into overlaps itself. */
int judge_received(const struct request *request, const char *call);

#endif
