/* The calls that make types and ask about them. */
#include "counted.h"
#include "diagnostics.h"
#include "types.h"

/* ---- runs are added one after the other */

static void add_run(struct building *b, MPI_Aint at, int basic, size_t many) {
    if (many == 0) return;
    if (b->many > 0) {
        struct run_of *last = &b->runs[b->many - 1];
        if (last->basic == basic && last->at + (MPI_Aint)(basic_type(basic)->size * last->many) == at) {
            last->many += many;
            return;
        }
    }
    if (b->many == b->room) {
        b->room = 2 * b->room + 4;
        b->runs = must(realloc(b->runs, sizeof *b->runs * b->room));
    }
    b->runs[b->many++] = (struct run_of){ at, basic, many };
}

static void widen(struct building *b, MPI_Aint low, MPI_Aint high) {
    b->low = b->any && b->low < low ? b->low : low;
    b->high = b->any && b->high > high ? b->high : high;
    b->any = true;
}

void build(struct building *b, const struct type *type, MPI_Aint at, MPI_Count many) {
    if (type->alignment > b->alignment) b->alignment = type->alignment;
    for (MPI_Count i = 0; i < many; i++) {
        MPI_Aint from = at + (MPI_Aint)i * type->extent;
        for (size_t j = 0; j < type->many; j++) add_run(b, from + type->runs[j].at, type->runs[j].basic, type->runs[j].many);
        widen(b, from + type->low, from + type->low + type->extent);
    }
}

MPI_Datatype built(struct building *b) { return new_type(b->runs, b->many, b->low, b->high - b->low, b->alignment > 0 ? b->alignment : 1); }

/* ---- what is judged before */

static struct type *known(MPI_Datatype handle, const char *call, int *code) {
    struct type *type = find_type(handle);
    *code = type != NULL ? MPI_SUCCESS : type_error(handle, call);
    return type;
}

static int count_error(long long count, const char *call) { return refuse(NULL, MPI_ERR_COUNT, call, "the count %lld is negative", count); }

/* Gives the program a type, which says by what call it was made, and of which types. */
static int give(MPI_Datatype *made, MPI_Datatype handle, int combiner, int parts, const MPI_Datatype *of) {
    find_type(handle)->combiner = combiner;
    keep_parts(handle, parts, of);
    *made = handle;
    return MPI_SUCCESS;
}

/* ---- the calls */

int counted_Type_contiguous(MPI_Count many, MPI_Datatype of, MPI_Datatype *made) {
    int code;
    struct type *type = known(of, "MPI_Type_contiguous", &code);
    if (type == NULL) return code;
    if (many < 0) return count_error(many, "MPI_Type_contiguous");
    struct building b = { 0 };
    build(&b, type, 0, many);
    MPI_Datatype handle = built(&b);
    keep_integers(handle, 1, &(int){ (int)many });
    return give(made, handle, MPI_COMBINER_CONTIGUOUS, 1, &of);
}

static int vector(MPI_Count many, MPI_Count length, MPI_Aint stride, bool in_bytes, MPI_Datatype of, MPI_Datatype *made, const char *call) {
    int code;
    struct type *type = known(of, call, &code);
    if (type == NULL) return code;
    if (many < 0) return count_error(many, call);
    if (length < 0) return refuse(NULL, MPI_ERR_ARG, call, "the block length %lld is negative", (long long)length);
    struct building b = { 0 };
    MPI_Aint step = in_bytes ? stride : stride * type->extent;
    for (MPI_Count i = 0; i < many; i++) build(&b, type, (MPI_Aint)i * step, length);
    MPI_Datatype handle = built(&b);
    keep_integers(handle, in_bytes ? 2 : 3, (int[]){ (int)many, (int)length, (int)stride });
    if (in_bytes) keep_addresses(handle, 1, &stride);
    return give(made, handle, in_bytes ? MPI_COMBINER_HVECTOR : MPI_COMBINER_VECTOR, 1, &of);
}

int counted_Type_vector(MPI_Count many, MPI_Count length, MPI_Count stride, MPI_Datatype of, MPI_Datatype *made) {
    return vector(many, length, stride, false, of, made, "MPI_Type_vector");
}

int MPI_Type_create_hvector(int many, int length, MPI_Aint stride, MPI_Datatype of, MPI_Datatype *made) {
    return vector(many, length, stride, true, of, made, "MPI_Type_create_hvector");
}

/* Blocks with places of their own: LENGTHS and PLACES for each, or one length for all; places in bytes or in extents. */
struct blocks {
    int combiner, many, length;
    const int *lengths, *places;
    const MPI_Aint *bytes;
};

static int indexed(const struct blocks *blocks, MPI_Datatype of, MPI_Datatype *made, const char *call) {
    int code;
    struct type *type = known(of, call, &code);
    if (type == NULL) return code;
    if (blocks->many < 0) return count_error(blocks->many, call);
    for (int i = 0; i < blocks->many; i++) {
        int length = blocks->lengths != NULL ? blocks->lengths[i] : blocks->length;
        if (length < 0) return refuse(NULL, MPI_ERR_ARG, call, "the block length %d is negative", length);
    }
    struct building b = { 0 };
    for (int i = 0; i < blocks->many; i++) {
        MPI_Aint at = blocks->bytes != NULL ? blocks->bytes[i] : blocks->places[i] * type->extent;
        build(&b, type, at, blocks->lengths != NULL ? blocks->lengths[i] : blocks->length);
    }
    MPI_Datatype handle = built(&b);
    keep_integers(handle, 1, &blocks->many);
    keep_integers(handle, blocks->lengths != NULL ? blocks->many : 1, blocks->lengths != NULL ? blocks->lengths : &blocks->length);
    if (blocks->bytes != NULL) keep_addresses(handle, blocks->many, blocks->bytes);
    else keep_integers(handle, blocks->many, blocks->places);
    return give(made, handle, blocks->combiner, 1, &of);
}

int MPI_Type_indexed(int many, const int lengths[], const int places[], MPI_Datatype of, MPI_Datatype *made) {
    return indexed(&(struct blocks){ MPI_COMBINER_INDEXED, many, 0, lengths, places, NULL }, of, made, "MPI_Type_indexed");
}

int MPI_Type_create_hindexed(int many, const int lengths[], const MPI_Aint places[], MPI_Datatype of, MPI_Datatype *made) {
    return indexed(&(struct blocks){ MPI_COMBINER_HINDEXED, many, 0, lengths, NULL, places }, of, made, "MPI_Type_create_hindexed");
}

int MPI_Type_create_indexed_block(int many, int length, const int places[], MPI_Datatype of, MPI_Datatype *made) {
    return indexed(&(struct blocks){ MPI_COMBINER_INDEXED_BLOCK, many, length, NULL, places, NULL }, of, made, "MPI_Type_create_indexed_block");
}

int MPI_Type_create_hindexed_block(int many, int length, const MPI_Aint places[], MPI_Datatype of, MPI_Datatype *made) {
    return indexed(&(struct blocks){ MPI_COMBINER_HINDEXED_BLOCK, many, length, NULL, NULL, places }, of, made, "MPI_Type_create_hindexed_block");
}

int MPI_Type_create_struct(int many, const int lengths[], const MPI_Aint places[], const MPI_Datatype of[], MPI_Datatype *made) {
    int code;
    if (many < 0) return count_error(many, "MPI_Type_create_struct");
    if (has_marks(many, of)) return struct_with_marks(many, lengths, places, of, made);
    for (int i = 0; i < many; i++) {
        if (known(of[i], "MPI_Type_create_struct", &code) == NULL) return code;
        if (lengths[i] < 0) return refuse(NULL, MPI_ERR_ARG, "MPI_Type_create_struct", "the block length %d is negative", lengths[i]);
    }
    struct building b = { 0 };
    for (int i = 0; i < many; i++) build(&b, find_type(of[i]), places[i], lengths[i]);
    if (b.alignment > 1) { /* as the C compiler ends a struct (MPI 4.1, 5.1.6) */
        MPI_Aint over = (b.high - b.low) % (MPI_Aint)b.alignment;
        if (over > 0) b.high += (MPI_Aint)b.alignment - over;
    }
    MPI_Datatype handle = built(&b);
    keep_integers(handle, 1, &many);
    keep_integers(handle, many, lengths);
    keep_addresses(handle, many, places);
    return give(made, handle, MPI_COMBINER_STRUCT, many, of);
}

/* A dimension of a subarray: how many it takes of the type that the inner dimensions make, and of how many. */
static void narrow(struct building *b, const struct type *inner, int size, int part, int start) {
    build(b, inner, start * inner->extent, part);
    b->low = 0;
    b->high = size * inner->extent;
}

int MPI_Type_create_subarray(int dimensions, const int sizes[], const int parts[], const int starts[], int order, MPI_Datatype of, MPI_Datatype *made) {
    const char *call = "MPI_Type_create_subarray";
    int code;
    if (known(of, call, &code) == NULL) return code;
    if (order != MPI_ORDER_C && order != MPI_ORDER_FORTRAN) return refuse(NULL, MPI_ERR_ARG, call, "the order is neither MPI_ORDER_C nor MPI_ORDER_FORTRAN");
    for (int i = 0; i < dimensions; i++)
        if (sizes[i] < 1 || parts[i] < 1 || starts[i] < 0 || starts[i] > sizes[i] - parts[i])
            return refuse(NULL, MPI_ERR_ARG, call, "dimension %d: %d elements from %d on don't lie within %d", i, parts[i], starts[i], sizes[i]);
    MPI_Datatype inner = of;
    for (int i = 0; i < dimensions; i++) {
        int at = order == MPI_ORDER_C ? dimensions - 1 - i : i;
        struct building b = { 0 };
        narrow(&b, find_type(inner), sizes[at], parts[at], starts[at]);
        MPI_Datatype outer = built(&b);
        if (inner != of) MPI_Type_free(&inner);
        inner = outer;
    }
    if (inner == of) return MPI_Type_dup(of, made);
    keep_integers(inner, 1, &dimensions);
    keep_integers(inner, dimensions, sizes);
    keep_integers(inner, dimensions, parts);
    keep_integers(inner, dimensions, starts);
    keep_integers(inner, 1, &order);
    return give(made, inner, MPI_COMBINER_SUBARRAY, 1, &of);
}

static MPI_Datatype copied(const struct type *type, MPI_Aint low, MPI_Aint extent) {
    struct run_of *runs = must(malloc(sizeof *runs * (type->many + 1)));
    memcpy(runs, type->runs, sizeof *runs * type->many);
    return new_type(runs, type->many, low, extent, type->alignment);
}

int MPI_Type_create_resized(MPI_Datatype of, MPI_Aint low, MPI_Aint extent, MPI_Datatype *made) {
    int code;
    struct type *type = known(of, "MPI_Type_create_resized", &code);
    if (type == NULL) return code;
    MPI_Datatype handle = copied(type, low, extent);
    keep_addresses(handle, 2, (MPI_Aint[]){ low, extent });
    return give(made, handle, MPI_COMBINER_RESIZED, 1, &of);
}

int MPI_Type_dup(MPI_Datatype of, MPI_Datatype *made) {
    int code;
    struct type *type = known(of, "MPI_Type_dup", &code);
    if (type == NULL) return code;
    give(made, copied(type, type->low, type->extent), MPI_COMBINER_DUP, 1, &of);
    struct type *copy = find_type(*made);
    copy->committed = type->committed;
    return copy_type_attributes(type, of, copy);
}

int MPI_Type_commit(MPI_Datatype *of) {
    int code;
    struct type *type = known(*of, "MPI_Type_commit", &code);
    if (type != NULL && !type->predefined) type->committed = true;
    return code;
}

int MPI_Type_free(MPI_Datatype *of) {
    int code;
    struct type *type = known(*of, "MPI_Type_free", &code);
    if (type == NULL) return code;
    if (type->predefined) return refuse(NULL, MPI_ERR_TYPE, "MPI_Type_free", "%s can't be freed", type->name);
    if (type->uses == 1) code = delete_type_attributes(type, *of); /* else another handle of it is there */
    if (code != MPI_SUCCESS) return code;
    forget_type(*of);
    type_unuse(type);
    *of = MPI_DATATYPE_NULL;
    return code;
}

/* ---- questions */

/* The bytes of a type's elements: the gap within a MPI_SHORT_INT is none of them. */
static size_t bytes_of(const struct type *type) {
    size_t gaps = 0;
    for (size_t i = 0; i < type->many; i++)
        if (type->runs[i].basic == (MPI_SHORT_INT & 0xff)) gaps += 2 * type->runs[i].many;
    return type->size - gaps;
}

int MPI_Type_size_x(MPI_Datatype of, MPI_Count *size) {
    int code;
    struct type *type = known(of, "MPI_Type_size", &code);
    if (type != NULL) *size = (MPI_Count)bytes_of(type);
    return code;
}

int MPI_Type_size(MPI_Datatype of, int *size) {
    MPI_Count wide = 0;
    int code = MPI_Type_size_x(of, &wide);
    if (code == MPI_SUCCESS) *size = wide > INT32_MAX ? MPI_UNDEFINED : (int)wide;
    return code;
}

int MPI_Type_get_extent(MPI_Datatype of, MPI_Aint *low, MPI_Aint *extent) {
    int code;
    struct type *type = known(of, "MPI_Type_get_extent", &code);
    if (type == NULL) return code;
    *low = type->low;
    *extent = type->extent;
    return code;
}

int MPI_Type_get_true_extent(MPI_Datatype of, MPI_Aint *low, MPI_Aint *extent) {
    int code;
    struct type *type = known(of, "MPI_Type_get_true_extent", &code);
    if (type == NULL) return code;
    *low = type->true_low;
    *extent = type->true_extent;
    return code;
}

int MPI_Type_set_name(MPI_Datatype of, const char *name) {
    int code;
    struct type *type = known(of, "MPI_Type_set_name", &code);
    if (type == NULL || type->predefined) return code;
    free((char *)(uintptr_t)type->name);
    type->name = must(strndup(name, MPI_MAX_OBJECT_NAME - 1));
    return code;
}

int MPI_Type_get_name(MPI_Datatype of, char *name, int *length) {
    int code;
    if (of == MPI_LB || of == MPI_UB) { /* no types, but with names of their own */
        *length = snprintf(name, MPI_MAX_OBJECT_NAME, of == MPI_LB ? "MPI_LB" : "MPI_UB");
        return MPI_SUCCESS;
    }
    struct type *type = known(of, "MPI_Type_get_name", &code);
    if (type != NULL) *length = snprintf(name, MPI_MAX_OBJECT_NAME, "%s", type->name != NULL ? type->name : "");
    return code;
}

/* ---- what a status says */

int MPI_Get_count_c(const MPI_Status *status, MPI_Datatype of, MPI_Count *count) {
    int code;
    struct type *type = known(of, "MPI_Get_count", &code);
    if (type == NULL) return code;
    MPI_Count size = (MPI_Count)type->size;
    *count = size == 0 ? 0 : status->bytes_ % size != 0 ? MPI_UNDEFINED : status->bytes_ / size;
    return code;
}

int MPI_Get_count(const MPI_Status *status, MPI_Datatype of, int *count) {
    MPI_Count wide = 0;
    int code = MPI_Get_count_c(status, of, &wide);
    if (code == MPI_SUCCESS) *count = wide > INT32_MAX ? MPI_UNDEFINED : (int)wide;
    return code;
}

int MPI_Get_elements_x(const MPI_Status *status, MPI_Datatype of, MPI_Count *count) {
    int code;
    struct type *type = known(of, "MPI_Get_elements", &code);
    if (type == NULL) return code;
    size_t left = (size_t)status->bytes_;
    *count = 0;
    if (type->size == 0) return code;
    *count = (MPI_Count)(left / type->size * type->spread.elements);
    left %= type->size;
    for (size_t i = 0; i < type->many && left > 0; i++) {
        size_t size = basic_type(type->runs[i].basic)->size, here = left / size < type->runs[i].many ? left / size : type->runs[i].many;
        size_t value = value_size(type->runs[i].basic);
        *count += (MPI_Count)here * (value > 0 ? 2 : 1);
        left -= here * size;
        if (here == type->runs[i].many) continue;
        if (value > 0 && left >= value) { /* a pair's value without its index */
            *count += 1;
            left -= value;
        }
        break;
    }
    if (left > 0) *count = MPI_UNDEFINED;
    return code;
}

int MPI_Get_elements(const MPI_Status *status, MPI_Datatype of, int *count) {
    MPI_Count wide = 0;
    int code = MPI_Get_elements_x(status, of, &wide);
    if (code == MPI_SUCCESS) *count = wide > INT32_MAX ? MPI_UNDEFINED : (int)wide;
    return code;
}
