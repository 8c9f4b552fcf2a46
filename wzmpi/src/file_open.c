/* Opening, closing and deleting files; what errors of the system are for MPI. */
#include "attributes.h"
#include "diagnostics.h"
#include "file.h"

#include <errno.h>
#include <fcntl.h>
#include <sys/stat.h>
#include <unistd.h>

/* ---- errors: files have a handler of their own, which returns where the program doesn't set another (MPI 4.1, 14.7) */

static struct errhandler returning = { .handle = MPI_ERRORS_RETURN, .returns = true, .uses = 1 };
static struct errhandler *default_handlers[MOST_RANKS]; /* NULL: the program hasn't set any */

static struct errhandler *default_handler(void) {
    struct errhandler *handler = default_handlers[current_rank->number];
    return handler != NULL ? handler : &returning;
}

static struct errhandler *handler_of_file(const struct file *file) { return file != NULL ? this_member(file->comm)->handler : default_handler(); }

/* What a program may try on purpose, to see whether a file is there, is no mistake. */
static bool is_mistake(const struct file *file, int class) {
    bool set = handler_of_file(file) != &returning;
    return !set && class != MPI_ERR_NO_SUCH_FILE && class != MPI_ERR_FILE_EXISTS;
}

int refuse_file(struct file *file, int class, const char *call, const char *format, ...) {
    this_rank(call);
    MPI_Comm handle = file != NULL ? comm_handle(file->comm) : (MPI_Comm)MPI_FILE_NULL;
    va_list rest;
    va_start(rest, format);
    int code = refuse_by(&(struct refusal){ handler_of_file(file), handle, class, is_mistake(file, class), call }, format, rest);
    va_end(rest);
    return code;
}

static int class_of_errno(int number) {
    switch (number) {
    case ENOENT: return MPI_ERR_NO_SUCH_FILE;
    case EEXIST: return MPI_ERR_FILE_EXISTS;
    case EACCES:
    case EPERM: return MPI_ERR_ACCESS;
    case ENOSPC: return MPI_ERR_NO_SPACE;
    case EDQUOT: return MPI_ERR_QUOTA;
    case EROFS: return MPI_ERR_READ_ONLY;
    case ETXTBSY: return MPI_ERR_FILE_IN_USE;
    case EISDIR:
    case ENOTDIR:
    case ENAMETOOLONG:
    case ELOOP: return MPI_ERR_BAD_FILE;
    default: return MPI_ERR_IO;
    }
}

int system_error(struct file *file, int number, const char *call, const char *what) {
    return refuse_file(file, class_of_errno(number), call, "%s: %s", what, strerror(number));
}

struct file *find_file(MPI_File handle, const char *call, int *code) {
    this_rank(call);
    struct file *file = find_handle(FILE_, handle);
    *code = MPI_SUCCESS;
    if (file != NULL) return file;
    if (handle == MPI_FILE_NULL) *code = refuse_file(NULL, MPI_ERR_FILE, call, "the file is MPI_FILE_NULL");
    else *code = refuse_file(NULL, MPI_ERR_FILE, call, was_freed(FILE_, handle) ? "the file was closed" : "there is no such file");
    return NULL;
}

struct file_member *my_file(struct file *file) { return &file->members[my_member(file->comm)]; }

/* ---- collectives of a file */

int meet_on_file(struct file *file, const char *call, uint64_t *place) {
    struct request *done;
    int code = post_and_wait(file->comm, &(struct arguments){ .function = COMM_DUP, .form = BLOCKING, .name = call }, &done);
    if (code != MPI_SUCCESS) return code;
    *place = done->place;
    drop_request(done);
    return code;
}

int tell_on_file(struct file *file, const char *call, long long mine, struct request **done) {
    return post_and_wait(file->comm, &(struct arguments){ .function = EXCHANGE, .form = BLOCKING, .give = &mine, .give_count = sizeof mine, .give_type = MPI_BYTE, .name = call }, done);
}

long long told_on_file(struct request *done, int member) {
    size_t length;
    long long number;
    memcpy(&number, parcel_bytes(done, member, &length), sizeof number);
    return number;
}

/* ---- opening */

static const int access_modes = MPI_MODE_RDONLY | MPI_MODE_WRONLY | MPI_MODE_RDWR;
static const int all_modes = 2 * MPI_MODE_SEQUENTIAL - 1;

static int judge_mode(int mode, const char *call) {
    int access = mode & access_modes;
    if ((mode & ~all_modes) != 0) return refuse_file(NULL, MPI_ERR_AMODE, call, "the mode %d has bits that mean nothing", mode);
    if (access != MPI_MODE_RDONLY && access != MPI_MODE_WRONLY && access != MPI_MODE_RDWR)
        return refuse_file(NULL, MPI_ERR_AMODE, call, "the mode has to have one of MPI_MODE_RDONLY, MPI_MODE_WRONLY and MPI_MODE_RDWR");
    if (access == MPI_MODE_RDONLY && (mode & (MPI_MODE_CREATE | MPI_MODE_EXCL)) != 0)
        return refuse_file(NULL, MPI_ERR_AMODE, call, "MPI_MODE_RDONLY isn't for MPI_MODE_CREATE or MPI_MODE_EXCL");
    if (access == MPI_MODE_RDWR && (mode & MPI_MODE_SEQUENTIAL) != 0) return refuse_file(NULL, MPI_ERR_AMODE, call, "MPI_MODE_SEQUENTIAL isn't for MPI_MODE_RDWR");
    return MPI_SUCCESS;
}

static void end_file(void *served) {
    struct file *file = served;
    if (file->descriptor >= 0) close(file->descriptor);
    pthread_mutex_destroy(&file->guard);
    free(file->name);
    free(file);
}

/* ROMIO's names may say a kind of file system first. */
static const char *path_of(const char *name) {
    const char *rest = strncmp(name, "ufs:", 4) == 0 || strncmp(name, "nfs:", 4) == 0 ? name + 4 : name;
    return rest;
}

static struct file *new_file(struct comm *own, const char *name, int mode) {
    struct file *file = must(calloc(1, sizeof *file + sizeof file->members[0] * (size_t)own->size));
    int access = mode & MPI_MODE_RDWR ? O_RDWR : mode & MPI_MODE_WRONLY ? O_WRONLY : O_RDONLY;
    int flags = access | O_CLOEXEC | (mode & MPI_MODE_CREATE ? O_CREAT : 0) | (mode & MPI_MODE_EXCL ? O_EXCL : 0);
    struct stat about;
    file->comm = own;
    file->mode = mode;
    file->name = must(strdup(path_of(name)));
    pthread_mutex_init(&file->guard, NULL);
    file->descriptor = open(file->name, flags, 0666);
    file->error = file->descriptor < 0 ? errno : 0;
    if (file->error == 0 && fstat(file->descriptor, &about) == 0) {
        if (S_ISDIR(about.st_mode)) file->error = EISDIR;
        if (mode & MPI_MODE_APPEND) file->shared = about.st_size;
    }
    return file;
}

/* Whoever comes first opens it. */
static struct file *join_file(struct comm *own, const char *name, int mode) {
    pthread_mutex_lock(&own->guard);
    if (own->served == NULL) {
        own->end_service = end_file;
        own->serves = FILE_;
        own->served = new_file(own, name, mode);
    }
    pthread_mutex_unlock(&own->guard);
    return own->served;
}

/* All members say a name and a mode; they have to be the same. */
static int judge_same(struct request *done, int size, const char *name, int mode, const char *call) {
    size_t length;
    for (int i = 0; i < size; i++) {
        const char *bytes = parcel_bytes(done, i, &length);
        int theirs;
        memcpy(&theirs, bytes, sizeof theirs);
        if (theirs != mode) return refuse_file(NULL, MPI_ERR_NOT_SAME, call, "rank %d of the communicator says the mode %d, and this one %d", i, theirs, mode);
        if (strcmp(bytes + sizeof theirs, name) != 0)
            return refuse_file(NULL, MPI_ERR_NOT_SAME, call, "rank %d of the communicator opens \"%s\", and this one \"%s\"", i, bytes + sizeof theirs, name);
    }
    return MPI_SUCCESS;
}

static int open_together(struct comm *comm, uint64_t place, const char *name, int mode, MPI_File *made) {
    int ranks[MOST_RANKS];
    for (int i = 0; i < comm->size; i++) ranks[i] = comm->members[i].rank;
    MPI_Comm handle = join_comm(comm, place << 32, "MPI_File_open", ranks, comm->size, 0);
    struct comm *own = find_comm(handle);
    remove_handle(COMM, handle);
    use_handler(own, default_handler());
    struct file *file = join_file(own, name, mode);
    if (file->error != 0) {
        int code = system_error(NULL, file->error, "MPI_File_open", file->name);
        use_handler(own, NULL);
        unuse_comm(own);
        return code;
    }
    struct file_member *mine = my_file(file);
    mine->view = (struct view){ 0, find_type(MPI_BYTE), find_type(MPI_BYTE), { MPI_BYTE, MPI_BYTE }, { MPI_BYTE, MPI_BYTE }, false };
    mine->position = file->shared; /* 0, or where the file ends */
    mine->info = new_hints();
    *made = (MPI_File)add_handle(FILE_, file);
    return MPI_SUCCESS;
}

int MPI_File_open(MPI_Comm handle, const char *name, int mode, MPI_Info info, MPI_File *made) {
    const char *call = "MPI_File_open";
    this_rank(call);
    struct comm *comm = find_comm(handle);
    struct request *done;
    *made = MPI_FILE_NULL;
    if (comm == NULL) return comm_error(handle, call);
    if (comm->first > 0) return refuse(comm, MPI_ERR_COMM, call, "a file isn't for an intercommunicator");
    int code = judge_mode(mode, call);
    if (code == MPI_SUCCESS) code = judge_info(info, call);
    if (code != MPI_SUCCESS) return code;
    size_t length = sizeof mode + strlen(name) + 1;
    char *said = must(malloc(length));
    memcpy(said, &mode, sizeof mode);
    strcpy(said + sizeof mode, name);
    code = post_and_wait(comm, &(struct arguments){ .function = EXCHANGE, .form = BLOCKING, .give = said, .give_count = (long long)length, .give_type = MPI_BYTE, .name = call }, &done);
    free(said);
    if (code != MPI_SUCCESS) return code;
    uint64_t place = done->place;
    code = judge_same(done, comm->size, name, mode, call);
    drop_request(done);
    if (code == MPI_SUCCESS) code = open_together(comm, place, name, mode, made);
    if (code == MPI_SUCCESS) code = meet_on_file(find_handle(FILE_, *made), call, &place);
    return code == MPI_SUCCESS && info != MPI_INFO_NULL ? MPI_File_set_info(*made, info) : code;
}

/* ---- closing */

static int judge_close(struct file *file, const char *call) {
    const struct split_call *split = &my_file(file)->split;
    if (split->call == NULL) return MPI_SUCCESS;
    return refuse_file(file, MPI_ERR_OTHER, call, "%s at %s was begun, and %s wasn't called", split->call, split->site, split->ends_with);
}

/* Whoever comes first after all have come deletes what is to be deleted. */
static int delete_closed(struct file *file) {
    int error = 0;
    if ((file->mode & MPI_MODE_DELETE_ON_CLOSE) == 0) return 0;
    pthread_mutex_lock(&file->guard);
    if (!file->was_deleted && unlink(file->name) != 0) error = errno;
    file->was_deleted = true;
    pthread_mutex_unlock(&file->guard);
    return error;
}

int MPI_File_close(MPI_File *handle) {
    const char *call = "MPI_File_close";
    int code;
    uint64_t place;
    struct file *file = find_file(*handle, call, &code);
    if (file == NULL) return code;
    code = judge_close(file, call);
    if (code == MPI_SUCCESS) code = meet_on_file(file, call, &place);
    if (code != MPI_SUCCESS) return code;
    int error = delete_closed(file);
    if (error != 0) code = system_error(file, error, call, file->name);
    struct file_member *mine = my_file(file);
    release_view(&mine->view);
    MPI_Info_free(&mine->info);
    use_handler(file->comm, NULL);
    remove_handle(FILE_, *handle);
    *handle = MPI_FILE_NULL;
    unuse_comm(file->comm);
    return code;
}

int MPI_File_delete(const char *name, MPI_Info info) {
    (void)info;
    this_rank("MPI_File_delete");
    return unlink(path_of(name)) == 0 ? MPI_SUCCESS : system_error(NULL, errno, "MPI_File_delete", path_of(name));
}

/* ---- error handlers */

int MPI_File_create_errhandler(MPI_File_errhandler_function *function, MPI_Errhandler *made) {
    return create_errhandler((MPI_Comm_errhandler_function *)(void (*)(void))function, made, "MPI_File_create_errhandler");
}

int MPI_File_set_errhandler(MPI_File handle, MPI_Errhandler wanted) {
    const char *call = "MPI_File_set_errhandler";
    int code = MPI_SUCCESS, number = this_rank(call)->number;
    struct file *file = handle != MPI_FILE_NULL ? find_file(handle, call, &code) : NULL;
    if (file != NULL) return set_errhandler(file->comm, wanted, call);
    if (code != MPI_SUCCESS) return code;
    struct errhandler *handler = errhandler_of(wanted);
    if (handler == NULL) return refuse_file(NULL, MPI_ERR_ARG, call, "there is no such error handler");
    hold_errhandler(handler);
    unhold_errhandler(default_handlers[number]);
    default_handlers[number] = handler;
    return code;
}

int MPI_File_get_errhandler(MPI_File handle, MPI_Errhandler *handler) {
    const char *call = "MPI_File_get_errhandler";
    this_rank(call);
    int code = MPI_SUCCESS;
    struct file *file = handle != MPI_FILE_NULL ? find_file(handle, call, &code) : NULL;
    if (code == MPI_SUCCESS) *handler = errhandler_handle(handler_of_file(file));
    return code;
}

int MPI_File_call_errhandler(MPI_File handle, int error) {
    const char *call = "MPI_File_call_errhandler";
    this_rank(call);
    int code = MPI_SUCCESS;
    struct file *file = handle != MPI_FILE_NULL ? find_file(handle, call, &code) : NULL;
    if (code != MPI_SUCCESS) return code;
    if (file != NULL) return call_errhandler(file->comm, error, call);
    refuse_file(NULL, error, call, "the program called it with %s", class_name(error));
    return MPI_SUCCESS;
}
