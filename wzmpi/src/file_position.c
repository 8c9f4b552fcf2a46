/* Positions in files, their sizes, and what else is asked of them. */
#include "diagnostics.h"
#include "file.h"

#include <errno.h>
#include <fcntl.h>
#include <sys/stat.h>
#include <unistd.h>

/* ---- the shared position */

void place_shared(struct file *file, uint64_t place, MPI_Offset to) {
    pthread_mutex_lock(&file->guard);
    if (file->shared_at < place + 1) {
        file->shared_before = file->shared;
        file->shared = to;
        file->shared_at = place + 1;
    }
    pthread_mutex_unlock(&file->guard);
}

/* All have come before anybody goes on, and none comes to the next collective before all have asked here. */
MPI_Offset move_shared(struct file *file, uint64_t place, MPI_Offset by) {
    pthread_mutex_lock(&file->guard);
    if (file->shared_at < place + 1) {
        file->shared_before = file->shared;
        file->shared += by;
        file->shared_at = place + 1;
    }
    MPI_Offset before = file->shared_before;
    pthread_mutex_unlock(&file->guard);
    return before;
}

MPI_Offset take_shared(struct file *file, MPI_Offset by) {
    pthread_mutex_lock(&file->guard);
    MPI_Offset before = file->shared;
    file->shared += by;
    pthread_mutex_unlock(&file->guard);
    return before;
}

/* ---- seeking */

static int size_of_file(struct file *file, MPI_Offset *size, const char *call) {
    struct stat about;
    if (fstat(file->descriptor, &about) != 0) return system_error(file, errno, call, file->name);
    *size = about.st_size;
    return MPI_SUCCESS;
}

/* The position that OFFSET and WHENCE mean, in etypes. */
static int find_position(struct file *file, MPI_Offset offset, int whence, MPI_Offset current, const char *call, MPI_Offset *position) {
    MPI_Offset size = 0;
    const struct view *view = &my_file(file)->view;
    if (whence != MPI_SEEK_SET && whence != MPI_SEEK_CUR && whence != MPI_SEEK_END)
        return refuse_file(file, MPI_ERR_ARG, call, "%d is none of MPI_SEEK_SET, MPI_SEEK_CUR and MPI_SEEK_END", whence);
    if (file->mode & MPI_MODE_SEQUENTIAL) return refuse_file(file, MPI_ERR_UNSUPPORTED_OPERATION, call, "a file of MPI_MODE_SEQUENTIAL has no such position");
    int code = whence == MPI_SEEK_END ? size_of_file(file, &size, call) : MPI_SUCCESS;
    if (code != MPI_SUCCESS) return code;
    MPI_Offset element = (MPI_Offset)view->etype->size, end = (bytes_up_to(view, size) + element - 1) / element;
    *position = offset + (whence == MPI_SEEK_SET ? 0 : whence == MPI_SEEK_CUR ? current : end);
    return *position >= 0 ? MPI_SUCCESS : refuse_file(file, MPI_ERR_ARG, call, "the position %lld is negative", *position);
}

int MPI_File_seek(MPI_File handle, MPI_Offset offset, int whence) {
    int code;
    MPI_Offset position;
    struct file *file = find_file(handle, "MPI_File_seek", &code);
    if (file == NULL) return code;
    code = find_position(file, offset, whence, my_file(file)->position, "MPI_File_seek", &position);
    if (code == MPI_SUCCESS) my_file(file)->position = position;
    return code;
}

int MPI_File_get_position(MPI_File handle, MPI_Offset *offset) {
    int code;
    struct file *file = find_file(handle, "MPI_File_get_position", &code);
    if (file != NULL) *offset = my_file(file)->position;
    return code;
}

/* All members say the same. */
static int judge_same(struct file *file, long long mine, const char *call, const char *what, uint64_t *place) {
    struct request *done;
    int code = tell_on_file(file, call, mine, &done), other = 0;
    if (code != MPI_SUCCESS) return code;
    *place = done->place;
    while (other < file->comm->size && told_on_file(done, other) == mine) other++;
    long long theirs = other < file->comm->size ? told_on_file(done, other) : mine;
    drop_request(done);
    if (theirs == mine) return code;
    return refuse_file(file, MPI_ERR_NOT_SAME, call, "rank %d of the file says the %s %lld, and this one %lld", other, what, theirs, mine);
}

int MPI_File_seek_shared(MPI_File handle, MPI_Offset offset, int whence) {
    const char *call = "MPI_File_seek_shared";
    int code;
    uint64_t place;
    MPI_Offset position;
    struct file *file = find_file(handle, call, &code);
    if (file == NULL) return code;
    code = judge_same(file, offset, call, "offset", &place);
    if (code != MPI_SUCCESS) return code;
    pthread_mutex_lock(&file->guard);
    MPI_Offset current = file->shared_at < place + 1 ? file->shared : file->shared_before;
    pthread_mutex_unlock(&file->guard);
    code = find_position(file, offset, whence, current, call, &position);
    if (code == MPI_SUCCESS) place_shared(file, place, position);
    return code;
}

int MPI_File_get_position_shared(MPI_File handle, MPI_Offset *offset) {
    int code;
    struct file *file = find_file(handle, "MPI_File_get_position_shared", &code);
    if (file != NULL) *offset = take_shared(file, 0);
    return code;
}

/* ---- sizes, syncs: whoever goes on first does it */

static int grow(struct file *file, MPI_Offset size) {
    struct stat about;
    if (fstat(file->descriptor, &about) != 0) return errno;
    return about.st_size >= size ? 0 : posix_fallocate(file->descriptor, 0, size);
}

static int resize(struct file *file, MPI_Offset size) { return ftruncate(file->descriptor, size) == 0 ? 0 : errno; }

static int synced(struct file *file, MPI_Offset unused) {
    (void)unused;
    bool writes = (file->mode & MPI_MODE_RDONLY) == 0;
    return !writes || fsync(file->descriptor) == 0 || errno == EINVAL ? 0 : errno; /* EINVAL: what has no storage, as a pipe */
}

static int change_once(struct file *file, uint64_t place, MPI_Offset size, int (*change)(struct file *file, MPI_Offset size), const char *call) {
    int error = 0;
    pthread_mutex_lock(&file->guard);
    if (file->changed_at < place + 1) {
        file->error = change(file, size);
        file->changed_at = place + 1;
    }
    error = file->error;
    pthread_mutex_unlock(&file->guard);
    return error == 0 ? MPI_SUCCESS : system_error(file, error, call, file->name);
}

static int size_together(MPI_File handle, MPI_Offset size, int (*change)(struct file *file, MPI_Offset size), const char *call) {
    int code;
    uint64_t place;
    struct file *file = find_file(handle, call, &code);
    if (file == NULL) return code;
    if (size < 0) return refuse_file(file, MPI_ERR_ARG, call, "the size %lld is negative", size);
    if (file->mode & MPI_MODE_RDONLY) return refuse_file(file, MPI_ERR_READ_ONLY, call, "the file was opened by MPI_MODE_RDONLY");
    code = judge_same(file, size, call, "size", &place);
    if (code == MPI_SUCCESS) code = change_once(file, place, size, change, call);
    return code;
}

int MPI_File_set_size(MPI_File handle, MPI_Offset size) { return size_together(handle, size, resize, "MPI_File_set_size"); }

int MPI_File_preallocate(MPI_File handle, MPI_Offset size) { return size_together(handle, size, grow, "MPI_File_preallocate"); }

int MPI_File_get_size(MPI_File handle, MPI_Offset *size) {
    int code;
    struct file *file = find_file(handle, "MPI_File_get_size", &code);
    return file != NULL ? size_of_file(file, size, "MPI_File_get_size") : code;
}

int MPI_File_sync(MPI_File handle) {
    int code;
    uint64_t place;
    struct file *file = find_file(handle, "MPI_File_sync", &code);
    if (file == NULL) return code;
    code = meet_on_file(file, "MPI_File_sync", &place);
    return code == MPI_SUCCESS ? change_once(file, place, 0, synced, "MPI_File_sync") : code;
}

int MPI_File_set_atomicity(MPI_File handle, int flag) {
    const char *call = "MPI_File_set_atomicity";
    int code;
    uint64_t place;
    struct file *file = find_file(handle, call, &code);
    if (file == NULL) return code;
    code = judge_same(file, flag != 0, call, "flag", &place);
    pthread_mutex_lock(&file->guard);
    if (code == MPI_SUCCESS) file->is_atomic = flag != 0;
    pthread_mutex_unlock(&file->guard);
    return code;
}

int MPI_File_get_atomicity(MPI_File handle, int *flag) {
    int code;
    struct file *file = find_file(handle, "MPI_File_get_atomicity", &code);
    if (file == NULL) return code;
    pthread_mutex_lock(&file->guard);
    *flag = file->is_atomic;
    pthread_mutex_unlock(&file->guard);
    return code;
}

/* ---- what it is */

int MPI_File_get_amode(MPI_File handle, int *mode) {
    int code;
    struct file *file = find_file(handle, "MPI_File_get_amode", &code);
    if (file != NULL) *mode = file->mode;
    return code;
}

int MPI_File_get_group(MPI_File handle, MPI_Group *group) {
    int code, ranks[MOST_RANKS];
    struct file *file = find_file(handle, "MPI_File_get_group", &code);
    if (file == NULL) return code;
    for (int i = 0; i < file->comm->size; i++) ranks[i] = file->comm->members[i].rank;
    *group = new_group(ranks, file->comm->size);
    return code;
}

/* Hints are kept, and none is needed. */
int MPI_File_set_info(MPI_File handle, MPI_Info info) {
    int code, many = 0;
    struct file *file = find_file(handle, "MPI_File_set_info", &code);
    if (file == NULL) return code;
    code = judge_info(info, "MPI_File_set_info");
    if (code == MPI_SUCCESS && info != MPI_INFO_NULL) code = MPI_Info_get_nkeys(info, &many);
    for (int i = 0; i < many && code == MPI_SUCCESS; i++) {
        char key[MPI_MAX_INFO_KEY + 1], value[MPI_MAX_INFO_VAL + 1] = "";
        int flag;
        MPI_Info_get_nthkey(info, i, key);
        MPI_Info_get(info, key, MPI_MAX_INFO_VAL, value, &flag);
        code = MPI_Info_set(my_file(file)->info, key, value);
    }
    return code;
}

int MPI_File_get_info(MPI_File handle, MPI_Info *info) {
    int code;
    struct file *file = find_file(handle, "MPI_File_get_info", &code);
    return file != NULL ? MPI_Info_dup(my_file(file)->info, info) : code;
}
