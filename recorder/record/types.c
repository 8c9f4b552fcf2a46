#define _GNU_SOURCE
#include "types.h"

#include "job_words.h"
#include "log.h"

#include <dlfcn.h>
#include <stdint.h>
#include <stdio.h>
#include <stdlib.h>
#include <string.h>

enum { RUNS = 64, BUCKETS = 256 };

static struct type *types[BUCKETS];
static int type_numbers;

#define OF_WIDTH(word, constant, mpi, ctype, ...)                                                                                           \
    if (bytes == sizeof(ctype))                                                                                                             \
        return #word;

/* The words for integers by width. */
static const char *signed_of(long long bytes) {
    EACH_SIGNED(OF_WIDTH, )
    return NULL;
}

static const char *unsigned_of(long long bytes) {
    EACH_UNSIGNED(OF_WIDTH, )
    return NULL;
}

static long long bytes_of(MPI_Datatype type) {
    MPI_Count bytes = 0;
    if (type != MPI_DATATYPE_NULL)
        PMPI_Type_size_x(type, &bytes);
    return (long long)bytes;
}

#define WORD_OF(word, mpi, bytes, has_sign)                                                                                                 \
    if (type == (mpi))                                                                                                                      \
        return word;

/* The word of a basic type that a job text has, or of one that is like it, or null. */
static const char *text_word(MPI_Datatype type) {
    static const MPI_Datatype with_sign[] = {MPI_INT,  MPI_LONG,   MPI_LONG_LONG, MPI_SHORT, MPI_SIGNED_CHAR, MPI_CHAR,     MPI_AINT,     MPI_OFFSET,  MPI_COUNT,
                                             MPI_WCHAR, MPI_INTEGER, MPI_INTEGER1, MPI_INTEGER2, MPI_INTEGER4, MPI_INTEGER8, MPI_LOGICAL, MPI_CHARACTER};
    static const MPI_Datatype without[] = {MPI_UNSIGNED, MPI_UNSIGNED_LONG, MPI_UNSIGNED_LONG_LONG, MPI_UNSIGNED_SHORT, MPI_UNSIGNED_CHAR, MPI_C_BOOL};
    EACH_TYPE(WORD_OF)
    if (type == MPI_PACKED)
        return "byte";
    if (type == MPI_2INTEGER)
        return "2int";
    for (size_t place = 0; place < sizeof with_sign / sizeof *with_sign; place++)
        if (type == with_sign[place])
            return signed_of(bytes_of(type));
    for (size_t place = 0; place < sizeof without / sizeof *without; place++)
        if (type == without[place])
            return unsigned_of(bytes_of(type));
    return NULL;
}

/* A type's signature: basic types in a row, equal neighbours together. */
struct signature {
    int count;
    bool whole; /* false where it has more runs than there is room for, or a part that can't be asked for */
    struct run {
        MPI_Datatype basic;
        long times;
    } runs[RUNS];
};

/* A basic type of no bytes only marks a bound. */
static void add_run(struct signature *to, MPI_Datatype basic, long times) {
    if (times <= 0 || bytes_of(basic) == 0)
        return;
    if (to->count && to->runs[to->count - 1].basic == basic)
        to->runs[to->count - 1].times += times;
    else if (to->count < RUNS)
        to->runs[to->count++] = (struct run){basic, times};
    else
        to->whole = false;
}

/* Adds a signature as many times as it occurs. */
static void add_times(struct signature *to, const struct signature *part, long times) {
    to->whole = to->whole && part->whole;
    if (part->count == 1)
        add_run(to, part->runs[0].basic, part->runs[0].times * times);
    for (long time = 0; part->count > 1 && time < times && to->whole; time++)
        for (int run = 0; run < part->count; run++)
            add_run(to, part->runs[run].basic, part->runs[run].times);
}

static struct signature signature_of(MPI_Datatype type);

/* A derived type's parts, as its maker was called. */
struct contents {
    int integers, addresses, parts, combiner;
    int *numbers;
    MPI_Aint *distances;
    MPI_Datatype *inner;
};

/* How a type was made. False where it can't be asked for: a type with MPI_Count numbers must not be asked by ints. */
static bool ask_envelope(MPI_Datatype type, struct contents *contents) {
#if MPI_VERSION >= 4
    MPI_Count integers, addresses, large, parts;
    bool asked = PMPI_Type_get_envelope_c(type, &integers, &addresses, &large, &parts, &contents->combiner) == MPI_SUCCESS && large == 0;
    contents->integers = (int)integers;
    contents->addresses = (int)addresses;
    contents->parts = (int)parts;
    return asked;
#else
    return PMPI_Type_get_envelope(type, &contents->integers, &contents->addresses, &contents->parts, &contents->combiner) == MPI_SUCCESS;
#endif
}

static bool ask_contents(MPI_Datatype type, struct contents *contents) {
    contents->numbers = malloc((size_t)(contents->integers + 1) * sizeof *contents->numbers);
    contents->distances = malloc((size_t)(contents->addresses + 1) * sizeof *contents->distances);
    contents->inner = malloc((size_t)(contents->parts + 1) * sizeof *contents->inner);
    return contents->numbers && contents->distances && contents->inner &&
           PMPI_Type_get_contents(type, contents->integers, contents->addresses, contents->parts, contents->numbers, contents->distances,
                                  contents->inner) == MPI_SUCCESS;
}

/* Whether a type is MPI's own, by its name or by a precision and range: nobody may free such a one (MPI 4.1, 5.1.13, 19.1.5). */
static bool is_predefined(int combiner) {
    return combiner == MPI_COMBINER_NAMED || combiner == MPI_COMBINER_F90_REAL || combiner == MPI_COMBINER_F90_COMPLEX || combiner == MPI_COMBINER_F90_INTEGER;
}

static void drop_contents(struct contents *contents, bool asked) {
    for (int part = 0; asked && part < contents->parts; part++) {
        struct contents inner;
        if (!ask_envelope(contents->inner[part], &inner) || !is_predefined(inner.combiner))
            PMPI_Type_free(&contents->inner[part]);
    }
    free(contents->numbers);
    free(contents->distances);
    free(contents->inner);
}

/* Of a type of several parts each has its number; of any other the sizes say how often its one part occurs. */
static struct signature signature_of_contents(MPI_Datatype type, const struct contents *contents) {
    struct signature whole = {.whole = true};
    for (int part = 0; part < contents->parts; part++) {
        struct signature inner = signature_of(contents->inner[part]);
        long times = contents->combiner == MPI_COMBINER_STRUCT ? contents->numbers[1 + part] : bytes_of(contents->inner[part]) ? bytes_of(type) / bytes_of(contents->inner[part]) : 0;
        add_times(&whole, &inner, times);
    }
    return whole;
}

static struct signature signature_of(MPI_Datatype type) {
    struct signature signature = {.whole = true};
    struct contents contents;
    if (!ask_envelope(type, &contents))
        return (struct signature){.whole = false};
    if (contents.combiner == MPI_COMBINER_NAMED || contents.parts == 0) {
        add_run(&signature, type, 1);
        return signature;
    }
    bool asked = ask_contents(type, &contents);
    signature = asked ? signature_of_contents(type, &contents) : (struct signature){.whole = false};
    drop_contents(&contents, asked);
    return signature;
}

/* Unsigned integers of the widest width that divides the size stand in a text for what it doesn't have. */
static void choose_word(struct type *type, const struct signature *signature) {
    long long bytes = bytes_of(type->handle);
    int width = bytes % 8 == 0 ? 8 : bytes % 4 == 0 ? 4 : bytes % 2 == 0 ? 2 : 1;
    MPI_Datatype basic = signature->count == 1 ? signature->runs[0].basic : MPI_DATATYPE_NULL;
    type->word = basic != MPI_DATATYPE_NULL ? text_word(basic) : NULL;
    type->each = type->word ? signature->runs[0].times : (long)(bytes / width);
    type->exact = basic == type->handle && type->word;
    if (!type->word)
        type->word = unsigned_of(width);
}

/* `type NUMBER WORD EACH EXACT BYTES NAME/BYTES*TIMES ..`, with `?` where the signature isn't known to its end. */
static void tell_type(const struct type *type, const struct signature *signature) {
    char line[256], name[MPI_MAX_OBJECT_NAME];
    int length;
    snprintf(line, sizeof line, "type %d %s %ld %d %lld", type->number, type->word, type->each, type->exact, bytes_of(type->handle));
    log_text(line);
    for (int run = 0; run < signature->count; run++) {
        strcpy(name, "");
        PMPI_Type_get_name(signature->runs[run].basic, name, &length);
        for (char *byte = name; *byte; byte++)
            *byte = *byte == ' ' || *byte == '\n' ? '_' : *byte;
        snprintf(line, sizeof line, " %.180s/%lld*%ld", *name ? name : "unnamed", bytes_of(signature->runs[run].basic), signature->runs[run].times);
        log_text(line);
    }
    log_text(signature->whole ? "\n" : " ?\n");
}

static struct type **bucket_of(MPI_Datatype handle) {
    uint64_t bits = 0;
    memcpy(&bits, &handle, sizeof handle);
    return &types[(bits * UINT64_C(0x9e3779b97f4a7c15) >> 32) % BUCKETS];
}

const struct type *type_of(MPI_Datatype handle) {
    if (handle == MPI_DATATYPE_NULL)
        return NULL;
    struct type **bucket = bucket_of(handle);
    for (struct type *it = *bucket; it; it = it->next)
        if (it->handle == handle)
            return it;
    struct type *fresh = malloc(sizeof *fresh);
    if (!fresh) {
        fprintf(stderr, "record: no memory\n");
        abort();
    }
    struct signature signature = signature_of(handle);
    *fresh = (struct type){.handle = handle, .number = type_numbers++, .next = *bucket};
    choose_word(fresh, &signature);
    *bucket = fresh;
    tell_type(fresh, &signature);
    return fresh;
}

/* A library gives the handle of a freed type to another one. */
void type_gone(MPI_Datatype handle) {
    for (struct type **it = bucket_of(handle); *it; it = &(*it)->next)
        if ((*it)->handle == handle) {
            struct type *gone = *it;
            *it = gone->next;
            free(gone);
            return;
        }
}

/* Operations */

static struct operation {
    MPI_Op handle;
    int number;
    struct operation *next;
} *operations;
static int operation_numbers, made_operations;

#define NAMED(word, op) {op, #op},
static const char *operation_name(MPI_Op op) {
    const struct {
        MPI_Op op;
        const char *name;
    } names[] = {EACH_MPI_OPERATION(NAMED){MPI_REPLACE, "MPI_REPLACE"}, {MPI_NO_OP, "MPI_NO_OP"}};
    for (size_t place = 0; place < sizeof names / sizeof *names; place++)
        if (op == names[place].op)
            return names[place].name;
    return NULL;
}

static struct operation *take_up(MPI_Op op) {
    struct operation *fresh = malloc(sizeof *fresh);
    if (!fresh) {
        fprintf(stderr, "record: no memory\n");
        abort();
    }
    *fresh = (struct operation){op, operation_numbers++, operations};
    operations = fresh;
    return fresh;
}

/* `op NUMBER NAME`, and `op NUMBER ?` of one whose maker wasn't recorded. */
int operation_of(MPI_Op op) {
    for (struct operation *it = operations; it; it = it->next)
        if (it->handle == op)
            return it->number;
    const char *name = operation_name(op);
    int number = take_up(op)->number;
    log_text("op ");
    log_signed(number);
    log_text(" ");
    log_text(name ? name : "?");
    log_text("\n");
    return number;
}

/* `op NUMBER user ORDER COMMUTES PLACE OFFSET MODULE`: the same function lies at one offset of its module at all ranks. */
void operation_made(MPI_Op op, const void *function, bool commutes, int place) {
    char line[4500];
    Dl_info module;
    operation_gone(op);
    bool found = dladdr(function, &module) && module.dli_fname;
    snprintf(line, sizeof line, "op %d user %d %d %d %#lx %s\n", take_up(op)->number, made_operations++, commutes, place,
             found ? (unsigned long)((uintptr_t)function - (uintptr_t)module.dli_fbase) : 0, found ? module.dli_fname : "?");
    log_text(line);
}

void operation_gone(MPI_Op op) {
    for (struct operation **it = &operations; *it; it = &(*it)->next)
        if ((*it)->handle == op) {
            struct operation *gone = *it;
            *it = gone->next;
            free(gone);
            return;
        }
}
