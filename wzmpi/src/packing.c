/* MPI_Pack and its like, and what a status says of whether its receive was cancelled. */
#include "diagnostics.h"
#include "types.h"

int MPI_Test_cancelled(const MPI_Status *status, int *flag) {
    *flag = status->cancelled_;
    return MPI_SUCCESS;
}

int MPI_Status_set_cancelled(MPI_Status *status, int flag) {
    status->cancelled_ = flag;
    return MPI_SUCCESS;
}

/* Moves *POSITION past the bytes of some elements, if they lie within ROOM. */
static int pass(int *position, int room, int many, MPI_Datatype handle, const char *call) {
    struct type *type = find_type(handle);
    if (type == NULL) return type_error(handle, call);
    if (many < 0) return refuse(NULL, MPI_ERR_COUNT, call, "the count %d is negative", many);
    long long end = *position + (long long)many * (long long)type->size;
    if (end > room) return refuse(NULL, MPI_ERR_TRUNCATE, call, "the elements end at byte %lld of a buffer of %d", end, room);
    *position = (int)end;
    return MPI_SUCCESS;
}

int MPI_Pack(const void *from, int many, MPI_Datatype handle, void *bytes, int room, int *position, MPI_Comm comm) {
    (void)comm;
    this_rank("MPI_Pack");
    int begin = *position, code = pass(position, room, many, handle, "MPI_Pack");
    if (code == MPI_SUCCESS) pack(find_type(handle), (size_t)many, from, (char *)bytes + begin);
    return code;
}

int MPI_Unpack(const void *bytes, int length, int *position, void *into, int many, MPI_Datatype handle, MPI_Comm comm) {
    (void)comm;
    this_rank("MPI_Unpack");
    int begin = *position, code = pass(position, length, many, handle, "MPI_Unpack");
    if (code == MPI_SUCCESS) unpack(find_type(handle), (size_t)many, into, (const char *)bytes + begin);
    return code;
}

int MPI_Pack_size(int many, MPI_Datatype handle, MPI_Comm comm, int *size) {
    (void)comm;
    this_rank("MPI_Pack_size");
    *size = 0;
    return pass(size, INT32_MAX, many, handle, "MPI_Pack_size");
}
