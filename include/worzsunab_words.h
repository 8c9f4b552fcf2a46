/* Answers, refusals and collectives of worzsunab.h in words. Included by it. */
#ifndef WORZSUNAB_WORDS_H
#define WORZSUNAB_WORDS_H

#include "worzsunab.h"

#ifdef __cplusplus
extern "C" {
#endif

/* A sentence for an answer. */
const char *wz_message(int32_t code);

/* The name of an answer: of a refusal that of crates/coll_kinds/src/refusal.rt. */
const char *wz_name(int32_t code);

/* The MPI error class that an answer stands for (MPI 4.1, 9.4), by its name; and that of a refusal with what is known
   of it, because the rules of signatures have classes of their own. */
const char *wz_mpi_class(int32_t code);
const char *wz_reason_mpi_class(const wz_reason *reason);

/* The word of a kind, an operation or a type, as job texts have it; "?" for a number that names none. */
const char *wz_kind_word(uint8_t kind);
const char *wz_operation_word(uint8_t op);
const char *wz_type_word(uint8_t type);

/* Whether a kind has an operation, a root. */
bool wz_has_operation(uint8_t kind);
bool wz_has_root(uint8_t kind);

/* What a call posts, or makes persistent; and an allgatherv with these counts, of which the first 64 are kept. */
wz_posted wz_posted_of_call(const wz_call *call, bool persistent);
wz_posted wz_posted_of_counts(uint8_t type, const uint32_t *counts, size_t many, bool persistent);

/* ---- sentences. Each of these functions writes as snprintf does: at most size bytes, the last of them 0, and returns
   the bytes of the whole sentence. */

/* A collective, with its counts. */
int wz_describe(const wz_posted *posted, char *at, size_t size);

/* What is known of a refusal by its reason alone. wz_explain_post also says which of three things is wrong with an
   operation, and what a refused collective is itself. */
int wz_explain(const wz_reason *reason, char *at, size_t size);

/* What is known of a refused post or initialisation: of an operation, which rule it breaks; of a mismatch, both
   collectives. theirs is what wz_posted_at gives for the reason's place, or NULL. */
int wz_explain_call(const wz_reason *reason, const wz_posted *mine, const wz_posted *theirs, char *at, size_t size);

/* The same after a post or an initialisation of an engine that one call at a time goes to; mine is what
   wz_posted_of_call or wz_posted_of_counts makes of the refused call. */
int wz_explain_post(wz_engine *engine, uint32_t comm, const wz_posted *mine, char *at, size_t size);

#ifdef __cplusplus
}
#endif

#endif
