/* Gives each engine of a client as many progress threads as WITH_PROGRESS says. Linked with the client and
   -Wl,--wrap=wz_shared_open -Wl,--wrap=wz_shared_open_world. */
#include <stdlib.h>

#include "check.h"
#include "worzsunab_threads.h"

int32_t __real_wz_shared_open(wz_shared *shared, const wz_limits *limits, const uint8_t *sizes, size_t communicators,
                              const uint8_t *members, size_t member_count);
int32_t __wrap_wz_shared_open(wz_shared *shared, const wz_limits *limits, const uint8_t *sizes, size_t communicators,
                              const uint8_t *members, size_t member_count);
int32_t __real_wz_shared_open_world(wz_shared *shared, uint8_t ranks);
int32_t __wrap_wz_shared_open_world(wz_shared *shared, uint8_t ranks);

static int32_t helped(wz_shared *shared, int32_t code) {
    const char *word = getenv("WITH_PROGRESS");
    HOLDS(word != NULL);
    if (code == WZ_DONE) DONE(wz_shared_progress(shared, (uint32_t)atoi(word)));
    return code;
}

int32_t __wrap_wz_shared_open(wz_shared *shared, const wz_limits *limits, const uint8_t *sizes, size_t communicators,
                              const uint8_t *members, size_t member_count) {
    return helped(shared, __real_wz_shared_open(shared, limits, sizes, communicators, members, member_count));
}

int32_t __wrap_wz_shared_open_world(wz_shared *shared, uint8_t ranks) {
    return helped(shared, __real_wz_shared_open_world(shared, ranks));
}
