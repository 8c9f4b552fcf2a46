/* Reading and writing files (MPI 4.1, 14.4). */
#include "counted.h"
#include "diagnostics.h"
#include "file.h"

#include <errno.h>
#include <unistd.h>

/* ---- what is wrong with a call */

static int judge_mode(struct file *file, const struct transfer *transfer) {
    bool sequential = (file->mode & MPI_MODE_SEQUENTIAL) != 0;
    if (transfer->writes && (file->mode & MPI_MODE_RDONLY)) return refuse_file(file, MPI_ERR_READ_ONLY, transfer->call, "the file was opened by MPI_MODE_RDONLY");
    if (!transfer->writes && (file->mode & MPI_MODE_WRONLY)) return refuse_file(file, MPI_ERR_ACCESS, transfer->call, "the file was opened by MPI_MODE_WRONLY");
    if (sequential && transfer->where <= AT_OWN) return refuse_file(file, MPI_ERR_UNSUPPORTED_OPERATION, transfer->call, "a file of MPI_MODE_SEQUENTIAL has a shared position alone");
    return MPI_SUCCESS;
}

static int judge_split(struct file *file, const struct transfer *transfer) {
    const struct split_call *split = &my_file(file)->split;
    if (split->call == NULL || !transfer->all) return MPI_SUCCESS;
    return refuse_file(file, MPI_ERR_OTHER, transfer->call, "%s at %s was begun, and %s wasn't called: one collective is under way on a file at a time", split->call, split->site,
                       split->ends_with);
}

static int judge_elements(struct file *file, const struct transfer *transfer, const struct type *type) {
    size_t element = my_file(file)->view.etype->size, bytes = bytes_in_file(&my_file(file)->view, type, (size_t)transfer->many);
    bool no_buffer = transfer->buffer == NULL && bytes > 0 && type->predefined;
    if (!type->committed) return refuse_file(file, MPI_ERR_TYPE, transfer->call, "the type isn't committed");
    if (no_buffer) return refuse_file(file, MPI_ERR_BUFFER, transfer->call, "the buffer is null");
    if (bytes % element != 0)
        return refuse_file(file, MPI_ERR_IO, transfer->call, "%zu bytes are no whole number of the view's etypes, which have %zu", bytes, element);
    if (bytes > 0 && my_file(file)->view.filetype->size == 0) return refuse_file(file, MPI_ERR_IO, transfer->call, "the view's filetype has no bytes");
    return MPI_SUCCESS;
}

static int judge(struct file *file, const struct transfer *transfer) {
    const struct type *type = find_type(transfer->type);
    int code = judge_mode(file, transfer);
    if (code == MPI_SUCCESS) code = judge_split(file, transfer);
    if (code != MPI_SUCCESS) return code;
    if (transfer->many < 0) return refuse_file(file, MPI_ERR_COUNT, transfer->call, "the count %lld is negative", (long long)transfer->many);
    if (type == NULL) return refuse_file(file, MPI_ERR_TYPE, transfer->call, was_type(transfer->type) ? "the type was freed" : "there is no such type");
    if (transfer->where == AT_OFFSET && transfer->offset < 0) return refuse_file(file, MPI_ERR_ARG, transfer->call, "the offset %lld is negative", transfer->offset);
    return judge_elements(file, transfer, type);
}

/* ---- bytes */

/* As many of a piece as there are; the system may give fewer at one time. *ERROR: why there are fewer; 0: the file ends. */
static size_t move_piece(struct file *file, bool writes, char *bytes, struct piece_of_file piece, int *error) {
    size_t done = 0;
    while (done < piece.length) {
        off_t at = piece.at + (MPI_Offset)done;
        ssize_t one = writes ? pwrite(file->descriptor, bytes + done, piece.length - done, at) : pread(file->descriptor, bytes + done, piece.length - done, at);
        if (one < 0 && errno == EINTR) continue;
        if (one < 0) *error = errno;
        if (one <= 0) break;
        done += (size_t)one;
    }
    return done;
}

/* Bytes of a view from its byte FROM on. */
static size_t move_view(struct file *file, bool writes, char *bytes, size_t length, MPI_Offset from, int *error) {
    struct walk walk;
    size_t done = 0;
    begin_walk(&walk, &my_file(file)->view, from);
    while (done < length) {
        struct piece_of_file piece = next_piece(&walk, length - done);
        size_t here = move_piece(file, writes, bytes + done, piece, error);
        done += here;
        if (here < piece.length) break;
    }
    return done;
}

/* What was moved, in bytes of the file and of the program's memory. */
struct moved {
    size_t there, here;
};

static struct moved move_external(struct file *file, const struct transfer *transfer, MPI_Offset from, int *error) {
    const struct type *type = find_type(transfer->type);
    size_t length = external_length(type, (size_t)transfer->many);
    char *bytes = must(malloc(length));
    if (transfer->writes) external_pack(type, (size_t)transfer->many, transfer->buffer, bytes);
    struct moved moved = { move_view(file, transfer->writes, bytes, length, from, error), 0 };
    if (transfer->writes) moved.here = moved.there == length ? (size_t)transfer->many * type->size : moved.there;
    else moved.here = external_unpack(type, transfer->buffer, bytes, moved.there);
    free(bytes);
    return moved;
}

/* Of types with gaps by bytes without. What a file lacks leaves the rest of the buffer as it is. */
static size_t move_native(struct file *file, const struct transfer *transfer, MPI_Offset from, int *error) {
    const struct type *type = find_type(transfer->type);
    size_t length = (size_t)transfer->many * type->size;
    if (type->dense) return move_view(file, transfer->writes, transfer->buffer, length, from, error);
    char *bytes = must(malloc(length));
    if (transfer->writes) pack(type, (size_t)transfer->many, transfer->buffer, bytes);
    size_t moved = move_view(file, transfer->writes, bytes, length, from, error), whole = moved / type->size;
    if (!transfer->writes) {
        unpack(type, whole, transfer->buffer, bytes);
        unpack_part(type, (char *)transfer->buffer + (MPI_Aint)whole * type->extent, bytes + whole * type->size, moved - whole * type->size);
    }
    free(bytes);
    return moved;
}

static struct moved move_elements(struct file *file, const struct transfer *transfer, MPI_Offset from, int *error) {
    if ((size_t)transfer->many * find_type(transfer->type)->size == 0) return (struct moved){ 0, 0 };
    if (my_file(file)->view.external) return move_external(file, transfer, from, error);
    size_t moved = move_native(file, transfer, from, error);
    return (struct moved){ moved, moved };
}

/* ---- where it is */

/* In order: behind what the members before this one say that they move. */
static int find_in_order(struct file *file, const char *call, MPI_Offset elements, MPI_Offset *at) {
    struct request *done;
    int code = tell_on_file(file, call, elements, &done), me = my_member(file->comm);
    if (code != MPI_SUCCESS) return code;
    MPI_Offset all = 0, before = 0;
    for (int i = 0; i < file->comm->size; i++) {
        if (i == me) before = all;
        all += told_on_file(done, i);
    }
    *at = before + move_shared(file, done->place, all);
    drop_request(done);
    return code;
}

/* The position of the first etype. A collective is begun by all before any of them moves something. */
static int find_place(struct file *file, const struct transfer *transfer, MPI_Offset elements, MPI_Offset *at) {
    struct file_member *mine = my_file(file);
    uint64_t place;
    if (transfer->where == IN_ORDER) return find_in_order(file, transfer->call, elements, at);
    int code = transfer->all ? meet_on_file(file, transfer->call, &place) : MPI_SUCCESS;
    *at = transfer->offset;
    if (transfer->where == AT_OWN) *at = mine->position;
    if (transfer->where == AT_SHARED) *at = take_shared(file, elements);
    return code;
}

int move_bytes(const struct transfer *transfer, struct file **found, MPI_Count *moved) {
    int code, error = 0;
    MPI_Offset at;
    struct file *file = *found = find_file(transfer->file, transfer->call, &code);
    *moved = 0;
    if (file == NULL) return code;
    hold_up();
    code = judge(file, transfer);
    if (code != MPI_SUCCESS) return code;
    const struct view *view = &my_file(file)->view;
    MPI_Offset element = (MPI_Offset)view->etype->size, elements = (MPI_Offset)bytes_in_file(view, find_type(transfer->type), (size_t)transfer->many) / element;
    code = find_place(file, transfer, elements, &at);
    if (code != MPI_SUCCESS) return code;
    bool atomic = file->is_atomic;
    if (atomic) pthread_mutex_lock(&file->guard);
    struct moved both = move_elements(file, transfer, at * element, &error);
    if (atomic) pthread_mutex_unlock(&file->guard);
    *moved = (MPI_Count)both.here;
    if (transfer->where == AT_OWN) my_file(file)->position = at + (MPI_Offset)both.there / element;
    return error == 0 ? MPI_SUCCESS : system_error(file, error, transfer->call, file->name);
}

/* ---- the calls' ends */

static void tell_moved(MPI_Status *status, MPI_Count moved) {
    clear_status(status);
    if (status != MPI_STATUS_IGNORE) status->bytes_ = moved;
}

static int now(const struct transfer *transfer, MPI_Status *status) {
    struct file *file;
    MPI_Count moved;
    int code = move_bytes(transfer, &file, &moved);
    tell_moved(status, moved);
    return code;
}

/* The bytes are moved at once, and the request is done. */
static int later(const struct transfer *transfer, MPI_Request *made) {
    struct file *file;
    MPI_Count moved;
    int code = move_bytes(transfer, &file, &moved);
    if (code != MPI_SUCCESS) return code;
    struct request *request = new_request(ACCESSING, file->comm, transfer->call);
    request->given = (size_t)moved;
    request->active = true;
    atomic_store(&request->arrived, true);
    *made = publish(request);
    return code;
}

static int begin(const struct transfer *transfer, const char *ends_with) {
    struct file *file;
    MPI_Count moved;
    int code = move_bytes(transfer, &file, &moved);
    if (file == NULL || my_file(file)->split.call != NULL) return code;
    my_file(file)->split = (struct split_call){ transfer->call, ends_with, current_rank->site, moved, code };
    return code;
}

static int end(MPI_File handle, const char *call, MPI_Status *status) {
    int code;
    struct file *file = find_file(handle, call, &code);
    if (file == NULL) return code;
    struct split_call *split = &my_file(file)->split;
    if (split->call == NULL) return refuse_file(file, MPI_ERR_OTHER, call, "nothing was begun that it ends");
    if (strcmp(split->ends_with, call) != 0) return refuse_file(file, MPI_ERR_OTHER, call, "%s at %s was begun, which %s ends", split->call, split->site, split->ends_with);
    tell_moved(status, split->bytes);
    code = split->code;
    split->call = NULL;
    return code;
}

/* ---- the calls */

#define BUFFER void *buffer, MPI_Count many, MPI_Datatype type
#define GIVEN const void *given, MPI_Count many, MPI_Datatype type
#define READ(name, where, all, offset) &(struct transfer){ "MPI_File_" name, false, where, all, offset, buffer, many, type, file }
#define WRITE(name, where, all, offset) &(struct transfer){ "MPI_File_" name, true, where, all, offset, (void *)(uintptr_t)given, many, type, file }

int counted_File_read_at(MPI_File file, MPI_Offset offset, BUFFER, MPI_Status *status) { return now(READ("read_at", AT_OFFSET, false, offset), status); }
int counted_File_read_at_all(MPI_File file, MPI_Offset offset, BUFFER, MPI_Status *status) { return now(READ("read_at_all", AT_OFFSET, true, offset), status); }
int counted_File_write_at(MPI_File file, MPI_Offset offset, GIVEN, MPI_Status *status) { return now(WRITE("write_at", AT_OFFSET, false, offset), status); }
int counted_File_write_at_all(MPI_File file, MPI_Offset offset, GIVEN, MPI_Status *status) { return now(WRITE("write_at_all", AT_OFFSET, true, offset), status); }
int counted_File_iread_at(MPI_File file, MPI_Offset offset, BUFFER, MPI_Request *request) { return later(READ("iread_at", AT_OFFSET, false, offset), request); }
int counted_File_iwrite_at(MPI_File file, MPI_Offset offset, GIVEN, MPI_Request *request) { return later(WRITE("iwrite_at", AT_OFFSET, false, offset), request); }
int counted_File_iread_at_all(MPI_File file, MPI_Offset offset, BUFFER, MPI_Request *request) { return later(READ("iread_at_all", AT_OFFSET, false, offset), request); }
int counted_File_iwrite_at_all(MPI_File file, MPI_Offset offset, GIVEN, MPI_Request *request) { return later(WRITE("iwrite_at_all", AT_OFFSET, false, offset), request); }
int counted_File_read(MPI_File file, BUFFER, MPI_Status *status) { return now(READ("read", AT_OWN, false, 0), status); }
int counted_File_read_all(MPI_File file, BUFFER, MPI_Status *status) { return now(READ("read_all", AT_OWN, true, 0), status); }
int counted_File_write(MPI_File file, GIVEN, MPI_Status *status) { return now(WRITE("write", AT_OWN, false, 0), status); }
int counted_File_write_all(MPI_File file, GIVEN, MPI_Status *status) { return now(WRITE("write_all", AT_OWN, true, 0), status); }
int counted_File_iread(MPI_File file, BUFFER, MPI_Request *request) { return later(READ("iread", AT_OWN, false, 0), request); }
int counted_File_iwrite(MPI_File file, GIVEN, MPI_Request *request) { return later(WRITE("iwrite", AT_OWN, false, 0), request); }
int counted_File_iread_all(MPI_File file, BUFFER, MPI_Request *request) { return later(READ("iread_all", AT_OWN, false, 0), request); }
int counted_File_iwrite_all(MPI_File file, GIVEN, MPI_Request *request) { return later(WRITE("iwrite_all", AT_OWN, false, 0), request); }
int counted_File_read_shared(MPI_File file, BUFFER, MPI_Status *status) { return now(READ("read_shared", AT_SHARED, false, 0), status); }
int counted_File_write_shared(MPI_File file, GIVEN, MPI_Status *status) { return now(WRITE("write_shared", AT_SHARED, false, 0), status); }
int counted_File_iread_shared(MPI_File file, BUFFER, MPI_Request *request) { return later(READ("iread_shared", AT_SHARED, false, 0), request); }
int counted_File_iwrite_shared(MPI_File file, GIVEN, MPI_Request *request) { return later(WRITE("iwrite_shared", AT_SHARED, false, 0), request); }
int counted_File_read_ordered(MPI_File file, BUFFER, MPI_Status *status) { return now(READ("read_ordered", IN_ORDER, true, 0), status); }
int counted_File_write_ordered(MPI_File file, GIVEN, MPI_Status *status) { return now(WRITE("write_ordered", IN_ORDER, true, 0), status); }

#define READ_BEGIN(name, where, offset) begin(READ(name "_begin", where, true, offset), "MPI_File_" name "_end")
#define WRITE_BEGIN(name, where, offset) begin(WRITE(name "_begin", where, true, offset), "MPI_File_" name "_end")

int counted_File_read_at_all_begin(MPI_File file, MPI_Offset offset, BUFFER) { return READ_BEGIN("read_at_all", AT_OFFSET, offset); }
int counted_File_write_at_all_begin(MPI_File file, MPI_Offset offset, GIVEN) { return WRITE_BEGIN("write_at_all", AT_OFFSET, offset); }
int counted_File_read_all_begin(MPI_File file, BUFFER) { return READ_BEGIN("read_all", AT_OWN, 0); }
int counted_File_write_all_begin(MPI_File file, GIVEN) { return WRITE_BEGIN("write_all", AT_OWN, 0); }
int counted_File_read_ordered_begin(MPI_File file, BUFFER) { return READ_BEGIN("read_ordered", IN_ORDER, 0); }
int counted_File_write_ordered_begin(MPI_File file, GIVEN) { return WRITE_BEGIN("write_ordered", IN_ORDER, 0); }

#define END(name)                                                                \
    int MPI_File_##name##_end(MPI_File file, void *buffer, MPI_Status *status) { \
        (void)buffer;                                                            \
        return end(file, "MPI_File_" #name "_end", status);                      \
    }
#define END_WRITE(name)                                                                \
    int MPI_File_##name##_end(MPI_File file, const void *buffer, MPI_Status *status) { \
        (void)buffer;                                                                  \
        return end(file, "MPI_File_" #name "_end", status);                            \
    }
END(read_at_all)
END(read_all)
END(read_ordered)
END_WRITE(write_at_all)
END_WRITE(write_all)
END_WRITE(write_ordered)
