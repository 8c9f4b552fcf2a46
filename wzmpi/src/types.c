/* Basic types, what a type is, and bytes with and without gaps. */
#include "types.h"

#include "diagnostics.h"

#include <complex.h>
#include <wchar.h>

/* In the order of mpi.h. */
static const struct basic basics[] = {
    { NULL, 0, 1, 0, -1, 0 },
    { "MPI_CHAR", 1, 1, CHARACTER, WZ_INT8, 1 },
    { "MPI_SIGNED_CHAR", 1, 1, SIGNED, WZ_INT8, 2 },
    { "MPI_UNSIGNED_CHAR", 1, 1, UNSIGNED, WZ_UINT8, 3 },
    { "MPI_SHORT", 2, 2, SIGNED, WZ_INT16, 4 },
    { "MPI_UNSIGNED_SHORT", 2, 2, UNSIGNED, WZ_UINT16, 5 },
    { "MPI_INT", 4, 4, SIGNED, WZ_INT32, 6 },
    { "MPI_UNSIGNED", 4, 4, UNSIGNED, WZ_UINT32, 7 },
    { "MPI_LONG", 8, 8, SIGNED, WZ_INT64, 8 },
    { "MPI_UNSIGNED_LONG", 8, 8, UNSIGNED, WZ_UINT64, 9 },
    { "MPI_LONG_LONG", 8, 8, SIGNED, WZ_INT64, 8 },
    { "MPI_UNSIGNED_LONG_LONG", 8, 8, UNSIGNED, WZ_UINT64, 9 },
    { "MPI_INT8_T", 1, 1, SIGNED, WZ_INT8, 2 },
    { "MPI_INT16_T", 2, 2, SIGNED, WZ_INT16, 4 },
    { "MPI_INT32_T", 4, 4, SIGNED, WZ_INT32, 6 },
    { "MPI_INT64_T", 8, 8, SIGNED, WZ_INT64, 8 },
    { "MPI_UINT8_T", 1, 1, UNSIGNED, WZ_UINT8, 3 },
    { "MPI_UINT16_T", 2, 2, UNSIGNED, WZ_UINT16, 5 },
    { "MPI_UINT32_T", 4, 4, UNSIGNED, WZ_UINT32, 7 },
    { "MPI_UINT64_T", 8, 8, UNSIGNED, WZ_UINT64, 9 },
    { "MPI_AINT", 8, 8, SIGNED, WZ_INT64, 8 },
    { "MPI_OFFSET", 8, 8, SIGNED, WZ_INT64, 8 },
    { "MPI_COUNT", 8, 8, SIGNED, WZ_INT64, 8 },
    { "MPI_BYTE", 1, 1, BITS, WZ_BYTE, 10 },
    { "MPI_PACKED", 1, 1, BITS, WZ_BYTE, 11 },
    { "MPI_WCHAR", sizeof(wchar_t), sizeof(wchar_t), CHARACTER, WZ_INT32, 12 },
    { "MPI_C_BOOL", 1, 1, TRUTH, WZ_UINT8, 13 },
    { "MPI_FLOAT", 4, 4, REAL, WZ_UINT32, 14 },
    { "MPI_DOUBLE", 8, 8, REAL, WZ_UINT64, 15 },
    { "MPI_LONG_DOUBLE", sizeof(long double), _Alignof(long double), REAL, -1, 16 },
    { "MPI_C_COMPLEX", 8, 4, COMPLEX, WZ_UINT64, 17 },
    { "MPI_C_DOUBLE_COMPLEX", 16, 8, COMPLEX, -1, 18 },
    { "MPI_C_LONG_DOUBLE_COMPLEX", sizeof(long double complex), _Alignof(long double), COMPLEX, -1, 19 },
    { "MPI_2INT", 8, 4, PAIR, WZ_2INT, 20 },
    { "MPI_FLOAT_INT", 8, 4, PAIR, WZ_UINT64, 21 },
    { "MPI_DOUBLE_INT", 12, 8, PAIR, -1, 22 },
    { "MPI_LONG_INT", 12, 8, PAIR, -1, 23 },
    { "MPI_SHORT_INT", 8, 4, PAIR, WZ_UINT64, 24 }, /* with the gap between its value and its index */
    { "MPI_LONG_DOUBLE_INT", sizeof(long double) + 4, _Alignof(long double), PAIR, -1, 25 },
    { "MPI_CHARACTER", 1, 1, CHARACTER, WZ_INT8, 1 },
    { "MPI_LOGICAL", 4, 4, TRUTH, WZ_INT32, 26 },
    { "MPI_INTEGER", 4, 4, SIGNED, WZ_INT32, 6 },
    { "MPI_REAL", 4, 4, REAL, WZ_UINT32, 14 },
    { "MPI_DOUBLE_PRECISION", 8, 8, REAL, WZ_UINT64, 15 },
    { "MPI_COMPLEX", 8, 4, COMPLEX, WZ_UINT64, 17 },
    { "MPI_DOUBLE_COMPLEX", 16, 8, COMPLEX, -1, 18 },
    { "MPI_INTEGER1", 1, 1, SIGNED, WZ_INT8, 2 },
    { "MPI_INTEGER2", 2, 2, SIGNED, WZ_INT16, 4 },
    { "MPI_INTEGER4", 4, 4, SIGNED, WZ_INT32, 6 },
    { "MPI_INTEGER8", 8, 8, SIGNED, WZ_INT64, 8 },
    { "MPI_REAL4", 4, 4, REAL, WZ_UINT32, 14 },
    { "MPI_REAL8", 8, 8, REAL, WZ_UINT64, 15 },
    { "MPI_COMPLEX8", 8, 4, COMPLEX, WZ_UINT64, 17 },
    { "MPI_COMPLEX16", 16, 8, COMPLEX, -1, 18 },
    { "MPI_2INTEGER", 8, 4, PAIR, WZ_2INT, 20 },
    { "MPI_2REAL", 8, 4, PAIR, WZ_UINT64, 27 },
    { "MPI_2DOUBLE_PRECISION", 16, 8, PAIR, -1, 28 },
};
enum { BASICS = sizeof basics / sizeof basics[0] };
static struct type basic_types[BASICS];
static struct run_of basic_runs[BASICS];

const struct basic *basic_type(int basic) { return &basics[basic]; }

size_t engine_width(int type) {
    static const uint8_t widths[ENGINE_TYPES] = { 1, 2, 4, 8, 1, 2, 4, 8, 1, 8 };
    return widths[type];
}

/* ---- signatures: a polynomial over the codes, so that what follows can be added, and what is repeated is as well */

static const uint64_t POINT = 0x9e3779b97f4a7c15u;

static struct signature followed(struct signature one, struct signature next) {
    return (struct signature){ one.elements + next.elements, one.hash * next.power + next.hash, one.power * next.power };
}

static struct signature repeated(struct signature one, uint64_t times) {
    struct signature all = { 0, 0, 1 };
    for (; times > 0; times /= 2) {
        if (times % 2 == 1) all = followed(all, one);
        one = followed(one, one);
    }
    return all;
}

struct signature type_signature(const struct type *type, uint64_t many) { return repeated(type->signature, many); }

struct signature spread_of(const struct type *type, uint64_t many) { return repeated(type->spread, many); }

/* The types of the pairs' values (MPI 4.1, 6.9.4), from MPI_2INT on. The gap within a MPI_SHORT_INT is moved with it, so it is as no structure. */
static const int values[] = { MPI_INT, MPI_FLOAT, MPI_DOUBLE, MPI_LONG, 0, MPI_LONG_DOUBLE };

static const struct basic *value_of(int basic) {
    bool of_c = basics[basic].class == PAIR && basic <= (MPI_LONG_DOUBLE_INT & 0xff); /* those of Fortran meet only themselves */
    int value = of_c ? values[basic - (MPI_2INT & 0xff)] : 0;
    return value != 0 ? &basics[value & 0xff] : NULL;
}

size_t value_size(int basic) { return value_of(basic) != NULL ? value_of(basic)->size : 0; }

static struct signature of_basic(uint32_t code) { return (struct signature){ 1, code, POINT }; }

static struct signature spread_of_basic(int basic) {
    const struct basic *value = value_of(basic);
    return value != NULL ? followed(of_basic(value->code), of_basic(basics[MPI_INT & 0xff].code)) : of_basic(basics[basic].code);
}

/* ---- predefined types */

/* A pair whose index is followed by a gap takes more memory than it has bytes. */
static size_t extent_of(int basic) {
    size_t alignment = basics[basic].alignment;
    return (basics[basic].size + alignment - 1) / alignment * alignment;
}

__attribute__((constructor)) static void fill_basic_types(void) {
    for (int i = 1; i < BASICS; i++) {
        size_t extent = extent_of(i);
        basic_runs[i] = (struct run_of){ 0, i, 1 };
        basic_types[i] = (struct type){ .name = basics[i].name, .size = basics[i].size, .extent = (MPI_Aint)extent, .true_extent = (MPI_Aint)basics[i].size,
                                        .alignment = basics[i].alignment, .basic = i, .dense = extent == basics[i].size, .predefined = true,
                                        .committed = true, .signature = of_basic(basics[i].code), .spread = spread_of_basic(i), .many = 1, .runs = &basic_runs[i], .uses = 1 };
    }
}

/* A made type's handle is an int with 19 bits of its number and 11 of its generation. The word that stands for it in the table; a handle whose generation isn't
   the number's present one stands for the one before. */
enum { NUMBER_BITS = 19, GENERATION_MASK = 0x7ff, MADE_TYPE = 0x40000000 };

static const void *table_word(MPI_Datatype handle) {
    const struct table *table = &current_rank->tables[TYPE];
    uint32_t number = (uint32_t)handle & ((1u << NUMBER_BITS) - 1), at = number - FIRST_MADE;
    if (handle < MADE_TYPE || number < FIRST_MADE || at >= table->many) return NULL;
    uint32_t generation = table->generations[at], said = (uint32_t)handle >> NUMBER_BITS & GENERATION_MASK;
    if ((generation & GENERATION_MASK) != said) generation--;
    return (const void *)((uintptr_t)TYPE << 56 | (uintptr_t)generation << TABLE_NUMBER_BITS | number);
}

static MPI_Datatype short_handle(uintptr_t word) {
    uint32_t number = word & ((1u << TABLE_NUMBER_BITS) - 1), generation = (uint32_t)(word >> TABLE_NUMBER_BITS);
    if (number >= 1u << NUMBER_BITS) {
        fprintf(stderr, "wzrun: rank %d has 524,288 types\n", current_rank->number);
        exit(1);
    }
    return (MPI_Datatype)(MADE_TYPE | (generation & GENERATION_MASK) << NUMBER_BITS | number);
}

bool was_type(MPI_Datatype handle) { return was_freed(TYPE, table_word(handle)); }

void forget_type(MPI_Datatype handle) { remove_handle(TYPE, table_word(handle)); }

static bool is_predefined(MPI_Datatype handle) { return handle > MPI_DATATYPE_NULL && handle < MPI_DATATYPE_NULL + BASICS; }

struct type *find_type(MPI_Datatype handle) { return is_predefined(handle) ? &basic_types[handle & 0xff] : find_handle(TYPE, table_word(handle)); }

int type_error(MPI_Datatype handle, const char *call) {
    if (handle == MPI_DATATYPE_NULL) return refuse(NULL, MPI_ERR_TYPE, call, "the type is MPI_DATATYPE_NULL");
    if (was_type(handle)) return refuse(NULL, MPI_ERR_TYPE, call, "the type was freed");
    return refuse(NULL, MPI_ERR_TYPE, call, "%d is no type", handle);
}

void type_use(const struct type *type) {
    if (!type->predefined) ((struct type *)(uintptr_t)type)->uses++;
}

void type_unuse(const struct type *type) {
    struct type *own = (struct type *)(uintptr_t)type;
    if (own->predefined || --own->uses > 0) return;
    free((char *)(uintptr_t)own->name);
    free(own->runs);
    free_contents(&own->contents);
    free(own);
}

/* ---- types that programs make */

static size_t run_bytes(const struct run_of *run) { return basics[run->basic].size * run->many; }

static void measure(struct type *type) {
    MPI_Aint at = 0, high = 0;
    bool dense = true;
    type->basic = type->many > 0 ? type->runs[0].basic : (MPI_BYTE & 0xff);
    type->signature.power = type->spread.power = 1;
    for (size_t i = 0; i < type->many; i++) {
        const struct run_of *run = &type->runs[i];
        MPI_Aint end = run->at + (MPI_Aint)run_bytes(run);
        type->size += run_bytes(run);
        type->signature = followed(type->signature, repeated(basic_types[run->basic].signature, run->many));
        type->spread = followed(type->spread, repeated(basic_types[run->basic].spread, run->many));
        if (run->basic != type->basic) type->basic = 0;
        dense = dense && run->at == at;
        at = end;
        if (i == 0 || run->at < type->true_low) type->true_low = run->at;
        if (i == 0 || end > high) high = end;
    }
    type->true_extent = high - type->true_low;
    type->dense = dense && type->low == 0 && (size_t)type->extent == type->size;
}

MPI_Datatype new_type(struct run_of *runs, size_t many, MPI_Aint low, MPI_Aint extent, size_t alignment) {
    struct type *type = must(calloc(1, sizeof *type));
    type->runs = runs;
    type->many = many;
    type->low = low;
    type->extent = extent;
    type->alignment = alignment;
    type->uses = 1;
    measure(type);
    return short_handle(add_handle(TYPE, type));
}

MPI_Datatype handle_of_type(struct type *type) {
    if (type->predefined) return MPI_DATATYPE_NULL + (MPI_Datatype)(type - basic_types);
    type_use(type);
    return short_handle(add_handle(TYPE, type));
}

/* ---- what a type is made of */

static struct structure *structures;
static pthread_mutex_t structures_guard = PTHREAD_MUTEX_INITIALIZER;

static void write_structure(struct structure *structure, const struct type *type) {
    size_t at = 0, room = sizeof structure->text;
    structure->elements = type->signature.elements;
    structure->text[0] = '\0';
    for (size_t i = 0; i < type->many && at + 40 < room; i++) {
        const struct run_of *run = &type->runs[i];
        at += (size_t)snprintf(structure->text + at, room - at, i > 0 ? ", " : "");
        if (at + 36 > room && i + 1 < type->many) snprintf(structure->text + at, room - at, "..");
        else if (run->many == 1) at += (size_t)snprintf(structure->text + at, room - at, "%s", basics[run->basic].name);
        else at += (size_t)snprintf(structure->text + at, room - at, "%zu %s", run->many, basics[run->basic].name);
    }
}

const struct structure *structure_of(const struct type *type) {
    struct structure own;
    if (type->structure != NULL) return type->structure;
    write_structure(&own, type);
    pthread_mutex_lock(&structures_guard);
    struct structure *found = structures;
    while (found != NULL && (found->elements != own.elements || strcmp(found->text, own.text) != 0)) found = found->next;
    if (found == NULL) {
        found = must(malloc(sizeof *found));
        *found = own;
        found->next = structures;
        structures = found;
    }
    pthread_mutex_unlock(&structures_guard);
    if (!type->predefined) ((struct type *)(uintptr_t)type)->structure = found;
    return found;
}

/* ---- bytes */

void pack(const struct type *type, size_t many, const void *from, void *bytes) {
    char *to = bytes;
    if (type->dense) {
        if (many * type->size > 0) memcpy(to, from, many * type->size);
        return;
    }
    for (size_t i = 0; i < many; i++)
        for (size_t j = 0; j < type->many; j++) {
            const struct run_of *run = &type->runs[j];
            memcpy(to, (const char *)from + (MPI_Aint)i * type->extent + run->at, run_bytes(run));
            to += run_bytes(run);
        }
}

void unpack_part(const struct type *type, void *to, const void *bytes, size_t length) {
    const char *from = bytes;
    for (size_t i = 0; i < type->many && length > 0; i++) {
        size_t here = run_bytes(&type->runs[i]) < length ? run_bytes(&type->runs[i]) : length;
        memcpy((char *)to + type->runs[i].at, from, here);
        from += here;
        length -= here;
    }
}

void unpack(const struct type *type, size_t many, void *to, const void *bytes) {
    const char *from = bytes;
    if (type->dense) {
        if (many * type->size > 0) memcpy(to, from, many * type->size);
        return;
    }
    for (size_t i = 0; i < many; i++)
        for (size_t j = 0; j < type->many; j++) {
            const struct run_of *run = &type->runs[j];
            memcpy((char *)to + (MPI_Aint)i * type->extent + run->at, from, run_bytes(run));
            from += run_bytes(run);
        }
}
