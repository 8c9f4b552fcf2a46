/* The calls of a run as a job text (docs/JOB_TEXT.md), and what requests got as the lines of `colljob plain`. */
#ifndef WZ_RECORD_H
#define WZ_RECORD_H

#include "collectives.h"

bool record_is_wanted(void);
void record_post(struct request *request, const char *call, const void *bytes, size_t length);
void record_init(struct request *request);
void record_start(struct request *request, const char *call, const void *bytes, size_t length);
void record_refused(struct request *request); /* a call that doesn't agree, and so isn't posted */
void record_free(struct request *request);
void record_outcome(struct request *request);
/* Writes the files that the run was asked for. Whether it could. */
bool record_write(void);
/* ALONE: each call waits for what it completed in this run, so that no other run of the text completes anything else. */
bool record_write_text(const char *path, bool alone);

/* ---- record_waits.c: the calls that complete requests */

/* HANDLES: where the program has the list; NULL: nowhere. */
void record_wait(const char *word, struct request **list, const MPI_Request *handles, int many, const char *call);
/* A call that chooses, as a wait of WORD does. NULL: the text doesn't have it. WAITS: it stands in the text even if it never returns. */
struct choosing *record_choosing(const char *word, struct request **list, const MPI_Request *handles, int many, const char *call, bool waits);
/* Before the call completes these, as indices of its list. */
void record_chosen(struct choosing *choosing, const int *completed, int many, long step);
/* A handle of the program becomes MPI_REQUEST_NULL. */
void record_place(const MPI_Request *handle, const struct request *request);
/* How long this rank's part is so far, and where a line of the file that was written last begins in a rank's part. */
size_t record_length(void);
size_t record_offset(int rank, size_t line);
/* Whether some call might complete something else. */
bool record_has_choices(void);
/* Why the text isn't whole; NULL: it is. */
const char *record_lacks(void);

/* A collective as the text has it after its communicator, and values after a colon. */
void write_signature(FILE *to, const struct request *request);
void write_values(FILE *to, int type, const void *bytes, size_t length);

#endif
