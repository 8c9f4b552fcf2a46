/* The representation external32 (MPI 4.1, 14.5.2): big-endian, without gaps, whatever the machine has. */
#include "diagnostics.h"
#include "types.h"

/* Of a basic type: what each part of an element has here and there. A pair is its value and its index, a complex number two parts. */
struct external {
    size_t parts, own[2], size[2];
    bool is_signed;
};

static size_t external_size(int basic) {
    return basic == (MPI_LONG & 0xff) || basic == (MPI_UNSIGNED_LONG & 0xff) ? 4 : basic_type(basic)->size; /* the only ones that are shorter */
}

static struct external external_of(int basic) {
    const struct basic *known = basic_type(basic);
    size_t size = external_size(basic), value = value_size(basic);
    if (known->class == COMPLEX) return (struct external){ 2, { known->size / 2, known->size / 2 }, { size / 2, size / 2 }, false };
    if (known->class != PAIR) return (struct external){ 1, { known->size, 0 }, { size, 0 }, known->class == SIGNED };
    if (value == 0) value = known->size / 2;
    return (struct external){ 2, { value, known->size - value }, { value, known->size - value }, true };
}

static size_t external_bytes(int basic) {
    struct external external = external_of(basic);
    return external.size[0] + external.size[1];
}

/* From the lowest byte here to the highest there; a longer number loses its highest bytes. */
static void turn(char *there, size_t far, const char *here, size_t near) {
    for (size_t i = 0; i < far; i++) there[far - 1 - i] = i < near ? here[i] : 0;
}

static void turn_back(char *here, size_t near, const char *there, size_t far, bool is_signed) {
    char fill = is_signed && (there[0] & 0x80) != 0 ? (char)0xff : 0;
    for (size_t i = 0; i < near; i++) here[i] = i < far ? there[far - 1 - i] : fill;
}

size_t external_length(const struct type *type, size_t many) {
    size_t bytes = 0;
    for (size_t i = 0; i < type->many; i++) bytes += external_bytes(type->runs[i].basic) * type->runs[i].many;
    return bytes * many;
}

/* One run of elements without gaps; where the representation goes on. */
static char *convert_run(const struct run_of *run, char *here, char *there, bool packs) {
    struct external external = external_of(run->basic);
    for (size_t i = 0; i < run->many; i++)
        for (size_t part = 0; part < external.parts; part++) {
            if (packs) turn(there, external.size[part], here, external.own[part]);
            else turn_back(here, external.own[part], there, external.size[part], external.is_signed);
            here += external.own[part];
            there += external.size[part];
        }
    return there;
}

static void convert(const struct type *type, size_t many, char *elements, char *there, bool packs) {
    for (size_t i = 0; i < many; i++)
        for (size_t j = 0; j < type->many; j++) there = convert_run(&type->runs[j], elements + (MPI_Aint)i * type->extent + type->runs[j].at, there, packs);
}

void external_pack(const struct type *type, size_t many, const void *from, void *there) { convert(type, many, (char *)(uintptr_t)from, there, true); }

/* A run of which only LENGTH bytes are there: its whole basic elements. How many bytes they have here. */
static size_t unpack_run(const struct run_of *run, char *here, const char *there, size_t length) {
    struct run_of whole = *run;
    size_t one = external_bytes(run->basic);
    if (length / one < run->many) whole.many = length / one;
    convert_run(&whole, here, (char *)(uintptr_t)there, false);
    return whole.many * basic_type(run->basic)->size;
}

size_t external_unpack(const struct type *type, void *to, const void *there, size_t length) {
    size_t got = 0, element = external_length(type, 1), whole = element > 0 ? length / element : 0;
    const char *rest = (const char *)there + whole * element;
    char *last = (char *)to + (MPI_Aint)whole * type->extent;
    convert(type, whole, to, (char *)(uintptr_t)there, false);
    length -= whole * element;
    for (size_t i = 0; i < type->many && length > 0; i++) {
        size_t run = external_bytes(type->runs[i].basic) * type->runs[i].many;
        got += unpack_run(&type->runs[i], last + type->runs[i].at, rest, length);
        rest += run;
        length -= run < length ? run : length;
    }
    return whole * type->size + got;
}

/* ---- the calls */

static int judge(const char *representation, MPI_Count many, MPI_Datatype handle, MPI_Aint position, MPI_Aint room, const char *call) {
    this_rank(call);
    const struct type *type = find_type(handle);
    if (strcmp(representation, "external32") != 0) return refuse(NULL, MPI_ERR_ARG, call, "\"%s\" isn't external32", representation);
    if (type == NULL) return type_error(handle, call);
    if (many < 0) return refuse(NULL, MPI_ERR_COUNT, call, "the count %lld is negative", (long long)many);
    long long end = (long long)position + (long long)external_length(type, (size_t)many);
    return end <= (long long)room ? MPI_SUCCESS : refuse(NULL, MPI_ERR_TRUNCATE, call, "the elements end at byte %lld of a buffer of %lld", end, (long long)room);
}

int MPI_Pack_external(const char *representation, const void *from, int many, MPI_Datatype handle, void *bytes, MPI_Aint room, MPI_Aint *position) {
    int code = judge(representation, many, handle, *position, room, "MPI_Pack_external");
    if (code != MPI_SUCCESS) return code;
    convert(find_type(handle), (size_t)many, (char *)(uintptr_t)from, (char *)bytes + *position, true);
    *position += (MPI_Aint)external_length(find_type(handle), (size_t)many);
    return code;
}

int MPI_Unpack_external(const char *representation, const void *bytes, MPI_Aint room, MPI_Aint *position, void *into, int many, MPI_Datatype handle) {
    int code = judge(representation, many, handle, *position, room, "MPI_Unpack_external");
    if (code != MPI_SUCCESS) return code;
    convert(find_type(handle), (size_t)many, into, (char *)(uintptr_t)bytes + *position, false);
    *position += (MPI_Aint)external_length(find_type(handle), (size_t)many);
    return code;
}

int MPI_Pack_external_size(const char *representation, int many, MPI_Datatype handle, MPI_Aint *size) {
    int code = judge(representation, many, handle, 0, PTRDIFF_MAX, "MPI_Pack_external_size");
    if (code == MPI_SUCCESS) *size = (MPI_Aint)external_length(find_type(handle), (size_t)many);
    return code;
}
