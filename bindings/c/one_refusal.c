/* Beside sum.c, linked with -Wl,--wrap=wz_post: rank 2's post is refused, as if its communicator weren't there. The others must be told. */
#include "worzsunab.h"

int32_t __real_wz_post(wz_engine *engine, uint8_t rank, uint32_t comm, const wz_call *call, const void *bytes, size_t length,
                       wz_request *request);
int32_t __wrap_wz_post(wz_engine *engine, uint8_t rank, uint32_t comm, const wz_call *call, const void *bytes, size_t length,
                       wz_request *request);

int32_t __wrap_wz_post(wz_engine *engine, uint8_t rank, uint32_t comm, const wz_call *call, const void *bytes, size_t length,
                       wz_request *request) {
    return __real_wz_post(engine, rank, rank == 2 ? 9 : comm, call, bytes, length, request);
}
