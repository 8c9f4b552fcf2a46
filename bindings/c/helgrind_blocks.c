/* The memory that the library allocates, for Helgrind: linked with a client and
   -Wl,--wrap=wz_open,--wrap=rattle_alloc,--wrap=rattle_realloc. Ranks count the owners of a block, publish results, and
   take vectors that are used again, by atomics of the library, whose order Helgrind doesn't see. So of the library's
   memory it checks only what an opening allocates: the engine and its tables, but for the shelf on which vectors lie
   that nobody uses (crates/coll_bytes/src/shelf.rt). A call of an engine outside the lock is seen by these. */
#include <valgrind/helgrind.h>

#include "worzsunab.h"

/* The shelf's two blocks. If their sizes change, Helgrind reports races in coll_bytes::shelf. */
enum { SHELF = 216, SHELF_ROWS = 1536 };

/* What the kit's functions over malloc answer. */
struct tried {
    unsigned char is_there;
    void *block;
};

int32_t __real_wz_open(wz_engine *engine, const wz_limits *limits, const uint8_t *sizes, size_t communicators,
                       const uint8_t *members, size_t member_count);
int32_t __wrap_wz_open(wz_engine *engine, const wz_limits *limits, const uint8_t *sizes, size_t communicators,
                       const uint8_t *members, size_t member_count);
struct tried __real_rattle_alloc(size_t bytes, size_t alignment);
struct tried __wrap_rattle_alloc(size_t bytes, size_t alignment);
struct tried __real_rattle_realloc(void *block, size_t kept, size_t bytes, size_t alignment);
struct tried __wrap_rattle_realloc(void *block, size_t kept, size_t bytes, size_t alignment);

static _Thread_local int is_opening;

int32_t __wrap_wz_open(wz_engine *engine, const wz_limits *limits, const uint8_t *sizes, size_t communicators,
                       const uint8_t *members, size_t member_count) {
    is_opening = 1;
    int32_t code = __real_wz_open(engine, limits, sizes, communicators, members, member_count);
    is_opening = 0;
    return code;
}

static struct tried allocated(struct tried tried, size_t bytes) {
    int is_checked = is_opening && bytes != SHELF && bytes != SHELF_ROWS;
    if (tried.is_there && !is_checked) VALGRIND_HG_DISABLE_CHECKING(tried.block, bytes);
    return tried;
}

struct tried __wrap_rattle_alloc(size_t bytes, size_t alignment) {
    return allocated(__real_rattle_alloc(bytes, alignment), bytes);
}

struct tried __wrap_rattle_realloc(void *block, size_t kept, size_t bytes, size_t alignment) {
    return allocated(__real_rattle_realloc(block, kept, bytes, alignment), bytes);
}
