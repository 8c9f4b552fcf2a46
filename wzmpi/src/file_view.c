/* Views (MPI 4.1, 14.3): which bytes of a file a member sees. */
#include "diagnostics.h"
#include "file.h"

static size_t bytes_of_run(const struct run_of *run) { return basic_type(run->basic)->size * run->many; }

/* ---- walking along a view */

void begin_walk(struct walk *walk, const struct view *view, MPI_Offset from) {
    const struct type *type = view->filetype;
    size_t rest = (size_t)from;
    *walk = (struct walk){ view, 0, 0, 0 };
    if (type->size == 0) return;
    walk->tile = from / (MPI_Offset)type->size;
    rest = (size_t)(from % (MPI_Offset)type->size);
    while (rest >= bytes_of_run(&type->runs[walk->run])) rest -= bytes_of_run(&type->runs[walk->run++]);
    walk->within = rest;
}

static struct piece_of_file piece_of_run(const struct walk *walk) {
    const struct type *type = walk->view->filetype;
    MPI_Offset tile = walk->view->displacement + walk->tile * (MPI_Offset)type->extent;
    return (struct piece_of_file){ tile + (MPI_Offset)type->runs[walk->run].at + (MPI_Offset)walk->within, bytes_of_run(&type->runs[walk->run]) - walk->within };
}

static void go_to_next_run(struct walk *walk) {
    walk->within = 0;
    if (++walk->run < walk->view->filetype->many) return;
    walk->run = 0;
    walk->tile++;
}

/* As much as lies together, up to MOST bytes. */
struct piece_of_file next_piece(struct walk *walk, size_t most) {
    struct piece_of_file piece = { 0, 0 };
    if (walk->view->filetype->dense) {
        piece = (struct piece_of_file){ piece_of_run(walk).at, most };
        return piece; /* the whole rest: nobody asks further */
    }
    while (piece.length < most) {
        struct piece_of_file next = piece_of_run(walk);
        if (piece.length > 0 && next.at != piece.at + (MPI_Offset)piece.length) break;
        if (piece.length == 0) piece.at = next.at;
        size_t taken = next.length < most - piece.length ? next.length : most - piece.length;
        piece.length += taken;
        walk->within += taken;
        if (taken == next.length) go_to_next_run(walk);
    }
    return piece;
}

MPI_Offset bytes_up_to(const struct view *view, MPI_Offset end) {
    const struct type *type = view->filetype;
    if (type->size == 0 || end <= view->displacement) return 0;
    MPI_Offset tiles = type->extent > 0 ? (end - view->displacement) / (MPI_Offset)type->extent : 0, bytes = tiles * (MPI_Offset)type->size;
    MPI_Offset rest = end - view->displacement - tiles * (MPI_Offset)type->extent;
    for (size_t i = 0; i < type->many; i++) {
        MPI_Offset from = (MPI_Offset)type->runs[i].at, length = (MPI_Offset)bytes_of_run(&type->runs[i]), here = rest - from;
        if (here > 0) bytes += here < length ? here : length;
    }
    return bytes;
}

/* ---- the calls */

size_t bytes_in_file(const struct view *view, const struct type *type, size_t many) { return view->external ? external_length(type, many) : many * type->size; }

/* Types of a view's own, since the program may free those that it gave. Where elements are shorter in external32, they have no gaps there either (judge_lengths). */
static struct seen_type own_type(const struct view *view, MPI_Datatype handle, const struct type **type) {
    struct seen_type own = { handle, handle };
    const struct type *given = find_type(handle);
    size_t bytes = bytes_in_file(view, given, 1);
    if (!given->predefined) MPI_Type_dup(handle, &own.given);
    own.lies = own.given;
    if (bytes != given->size) MPI_Type_contiguous((int)bytes, MPI_BYTE, &own.lies);
    *type = find_type(own.lies);
    return own;
}

static void set_view(struct view *view, MPI_Offset displacement, MPI_Datatype etype, MPI_Datatype filetype, bool external) {
    release_view(view);
    view->displacement = displacement;
    view->external = external;
    view->of_etype = own_type(view, etype, &view->etype);
    view->of_filetype = own_type(view, filetype, &view->filetype);
}

static void release(struct seen_type *seen) {
    if (seen->lies != seen->given) MPI_Type_free(&seen->lies);
    if (!find_type(seen->given)->predefined) MPI_Type_free(&seen->given);
}

void release_view(struct view *view) {
    if (view->etype != NULL) release(&view->of_etype);
    if (view->filetype != NULL) release(&view->of_filetype);
}

/* The displacements within a type ascend from 0 on; of a file that is written the elements don't overlap either (MPI 4.1, 14.1.1). */
static int judge_order(struct file *file, const struct type *type, const char *what, const char *call) {
    MPI_Aint last = 0, end = 0;
    for (size_t i = 0; i < type->many; i++) {
        MPI_Aint at = type->runs[i].at;
        if (at < last) return refuse_file(file, MPI_ERR_IO, call, "the displacements within the %s are negative, or don't ascend", what);
        if (at < end && (file->mode & MPI_MODE_RDONLY) == 0) return refuse_file(file, MPI_ERR_IO, call, "elements of the %s overlap, and the file may be written", what);
        last = at;
        end = at + (MPI_Aint)bytes_of_run(&type->runs[i]);
    }
    return MPI_SUCCESS;
}

static int judge_filetype(struct file *file, const struct type *etype, const struct type *filetype, const char *call) {
    if (etype->size == 0) return refuse_file(file, MPI_ERR_ARG, call, "the etype has no bytes");
    int code = judge_order(file, etype, "etype", call);
    if (code == MPI_SUCCESS) code = judge_order(file, filetype, "filetype", call);
    if (code != MPI_SUCCESS || filetype->size % etype->size == 0) return code;
    return refuse_file(file, MPI_ERR_ARG, call, "the filetype has %zu bytes, which are no whole number of etypes of %zu", filetype->size, etype->size);
}

/* Where external32 has shorter elements, displacements of the type are for the machine's elements and say nothing of the file. */
static int judge_lengths(struct file *file, const struct type *type, const char *call) {
    if (type->dense || external_length(type, 1) == type->size) return MPI_SUCCESS;
    return refuse_file(file, MPI_ERR_UNSUPPORTED_DATAREP, call, "a view in external32 isn't there for types with gaps that have MPI_LONG, whose elements are shorter in it");
}

static int judge_representation(struct file *file, const char *representation, const struct type *etype, const struct type *filetype, const char *call) {
    bool external = strcmp(representation, "external32") == 0;
    if (!external && strcmp(representation, "native") != 0 && strcmp(representation, "internal") != 0)
        return refuse_file(file, MPI_ERR_UNSUPPORTED_DATAREP, call, "the data representation \"%s\" isn't there: native, internal and external32 are", representation);
    int code = external ? judge_lengths(file, etype, call) : MPI_SUCCESS;
    return external && code == MPI_SUCCESS ? judge_lengths(file, filetype, call) : code;
}

static int judge_type(struct file *file, MPI_Datatype handle, const char *call, const struct type **type) {
    *type = find_type(handle);
    if (*type == NULL && handle == MPI_DATATYPE_NULL) return refuse_file(file, MPI_ERR_TYPE, call, "the type is MPI_DATATYPE_NULL");
    if (*type == NULL) return refuse_file(file, MPI_ERR_TYPE, call, was_type(handle) ? "the type was freed" : "there is no such type");
    return (*type)->committed ? MPI_SUCCESS : refuse_file(file, MPI_ERR_TYPE, call, "the type isn't committed");
}

int MPI_File_set_view(MPI_File handle, MPI_Offset displacement, MPI_Datatype etype_handle, MPI_Datatype filetype_handle, const char *representation, MPI_Info info) {
    const char *call = "MPI_File_set_view";
    int code;
    const struct type *etype, *filetype;
    uint64_t place;
    struct file *file = find_file(handle, call, &code);
    if (file == NULL) return code;
    code = judge_type(file, etype_handle, call, &etype);
    if (code == MPI_SUCCESS) code = judge_type(file, filetype_handle, call, &filetype);
    if (code == MPI_SUCCESS) code = judge_filetype(file, etype, filetype, call);
    if (code == MPI_SUCCESS) code = judge_representation(file, representation, etype, filetype, call);
    if (code != MPI_SUCCESS) return code;
    struct file_member *mine = my_file(file);
    if (displacement == MPI_DISPLACEMENT_CURRENT && (file->mode & MPI_MODE_SEQUENTIAL) == 0)
        return refuse_file(file, MPI_ERR_ARG, call, "MPI_DISPLACEMENT_CURRENT is for files of MPI_MODE_SEQUENTIAL alone");
    if (displacement < 0 && displacement != MPI_DISPLACEMENT_CURRENT) return refuse_file(file, MPI_ERR_ARG, call, "the displacement %lld is negative", displacement);
    if (displacement == MPI_DISPLACEMENT_CURRENT) displacement = mine->view.displacement + file->shared * (MPI_Offset)mine->view.etype->size;
    code = meet_on_file(file, call, &place);
    if (code != MPI_SUCCESS) return code;
    set_view(&mine->view, displacement, etype_handle, filetype_handle, strcmp(representation, "external32") == 0);
    mine->position = 0;
    place_shared(file, place, 0);
    return code == MPI_SUCCESS && info != MPI_INFO_NULL ? MPI_File_set_info(handle, info) : code;
}

/* One that the program frees, unless it is predefined. */
static int give_type(MPI_Datatype given, MPI_Datatype *type) {
    *type = given;
    return find_type(given)->predefined ? MPI_SUCCESS : MPI_Type_dup(given, type);
}

int MPI_File_get_view(MPI_File handle, MPI_Offset *displacement, MPI_Datatype *etype, MPI_Datatype *filetype, char *representation) {
    int code;
    struct file *file = find_file(handle, "MPI_File_get_view", &code);
    if (file == NULL) return code;
    const struct view *view = &my_file(file)->view;
    *displacement = view->displacement;
    strcpy(representation, view->external ? "external32" : "native");
    code = give_type(view->of_etype.given, etype);
    return code == MPI_SUCCESS ? give_type(view->of_filetype.given, filetype) : code;
}

int MPI_File_get_byte_offset(MPI_File handle, MPI_Offset offset, MPI_Offset *byte) {
    int code;
    struct walk walk;
    struct file *file = find_file(handle, "MPI_File_get_byte_offset", &code);
    if (file == NULL) return code;
    const struct view *view = &my_file(file)->view;
    if (offset < 0) return refuse_file(file, MPI_ERR_ARG, "MPI_File_get_byte_offset", "the offset %lld is negative", offset);
    begin_walk(&walk, view, offset * (MPI_Offset)view->etype->size);
    *byte = view->filetype->size > 0 ? piece_of_run(&walk).at : view->displacement;
    return code;
}

int MPI_File_get_type_extent(MPI_File handle, MPI_Datatype type_handle, MPI_Aint *extent) {
    int code;
    MPI_Aint low;
    struct file *file = find_file(handle, "MPI_File_get_type_extent", &code);
    const struct type *type = find_type(type_handle);
    if (file == NULL) return code;
    code = MPI_Type_get_extent(type_handle, &low, extent);
    if (code == MPI_SUCCESS && type->dense) *extent = (MPI_Aint)bytes_in_file(&my_file(file)->view, type, 1);
    return code;
}

int MPI_Register_datarep(const char *name, MPI_Datarep_conversion_function *read, MPI_Datarep_conversion_function *write, MPI_Datarep_extent_function *extent, void *extra) {
    (void)read, (void)write, (void)extent, (void)extra;
    return refuse_file(NULL, MPI_ERR_UNSUPPORTED_OPERATION, "MPI_Register_datarep", "a representation \"%s\" of the program's own can't be registered", name);
}
