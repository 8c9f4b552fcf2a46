/* What the tests of this folder share: a test ends with the place and the words of the first claim that isn't so. */
#ifndef CHECK_H
#define CHECK_H

#include <stdio.h>
#include <stdlib.h>

#include "worzsunab.h"

#define HOLDS(fact)                                                                  \
    do {                                                                             \
        if (!(fact)) {                                                               \
            fprintf(stderr, "%s:%d: not so: %s\n", __FILE__, __LINE__, #fact);       \
            abort();                                                                 \
        }                                                                            \
    } while (0)

/* The call answers just this. */
#define WANT(answer, call)                                                                                 \
    do {                                                                                                   \
        int32_t want_ = (answer), got_ = (call);                                                           \
        if (want_ != got_) {                                                                               \
            fprintf(stderr, "%s:%d: %s, not %s\n", __FILE__, __LINE__, wz_name(got_), wz_name(want_));     \
            abort();                                                                                       \
        }                                                                                                  \
    } while (0)

#define DONE(call) WANT(WZ_DONE, call)

#endif
