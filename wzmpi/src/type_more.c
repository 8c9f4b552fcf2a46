/* Types by size or by precision, and distributed arrays. */
#include "diagnostics.h"
#include "types.h"

#include <float.h>

/* ---- by size (MPI 4.1, 19.1.9) */

int MPI_Type_match_size(int class, int size, MPI_Datatype *made) {
    this_rank("MPI_Type_match_size");
    static const struct {
        int class, size;
        MPI_Datatype type;
    } known[] = {
        { MPI_TYPECLASS_INTEGER, 1, MPI_INTEGER1 }, { MPI_TYPECLASS_INTEGER, 2, MPI_INTEGER2 }, { MPI_TYPECLASS_INTEGER, 4, MPI_INTEGER4 },
        { MPI_TYPECLASS_INTEGER, 8, MPI_INTEGER8 }, { MPI_TYPECLASS_REAL, 4, MPI_REAL4 }, { MPI_TYPECLASS_REAL, 8, MPI_REAL8 },
        { MPI_TYPECLASS_COMPLEX, 8, MPI_COMPLEX8 }, { MPI_TYPECLASS_COMPLEX, 16, MPI_COMPLEX16 },
    };
    for (size_t i = 0; i < sizeof known / sizeof known[0]; i++)
        if (known[i].class == class && known[i].size == size) {
            *made = known[i].type;
            return MPI_SUCCESS;
        }
    return refuse(NULL, MPI_ERR_ARG, "MPI_Type_match_size", "there is no type of %d bytes of that class", size);
}

/* ---- by precision: those that gfortran's selected_real_kind and selected_int_kind take. Equal arguments give equal types, so each is made once. */

struct chosen {
    int combiner, precision, range;
    MPI_Datatype type;
    struct chosen *next;
};

static int choose(int combiner, int precision, int range, MPI_Datatype of, MPI_Datatype *made) {
    static __thread struct chosen *all;
    struct chosen *chosen = all;
    while (chosen != NULL && (chosen->combiner != combiner || chosen->precision != precision || chosen->range != range)) chosen = chosen->next;
    if (chosen == NULL) {
        chosen = must(malloc(sizeof *chosen));
        *chosen = (struct chosen){ combiner, precision, range, MPI_DATATYPE_NULL, all };
        MPI_Type_dup(of, &chosen->type);
        struct type *type = find_type(chosen->type);
        free_contents(&type->contents);
        type->contents = (struct contents){ 0, 0, 0, NULL, NULL, NULL };
        type->combiner = combiner;
        keep_integers(chosen->type, combiner == MPI_COMBINER_F90_INTEGER ? 1 : 2, combiner == MPI_COMBINER_F90_INTEGER ? &range : (int[]){ precision, range });
        type->predefined = true; /* it isn't freed (MPI 4.1, 19.1.9) */
        all = chosen;
    }
    *made = chosen->type;
    return MPI_SUCCESS;
}

static bool fits(int precision, int range, int digits, int exponent) {
    return (precision == MPI_UNDEFINED || precision <= digits) && (range == MPI_UNDEFINED || range <= exponent);
}

static int by_precision(int precision, int range, bool is_complex, MPI_Datatype *made, const char *call) {
    this_rank(call);
    int combiner = is_complex ? MPI_COMBINER_F90_COMPLEX : MPI_COMBINER_F90_REAL;
    if (fits(precision, range, FLT_DIG, FLT_MAX_10_EXP - 1)) return choose(combiner, precision, range, is_complex ? MPI_COMPLEX8 : MPI_REAL4, made);
    if (fits(precision, range, DBL_DIG, DBL_MAX_10_EXP - 1)) return choose(combiner, precision, range, is_complex ? MPI_COMPLEX16 : MPI_REAL8, made);
    return refuse(NULL, MPI_ERR_ARG, call, "there is no type of precision %d and range %d", precision, range);
}

int MPI_Type_create_f90_real(int precision, int range, MPI_Datatype *made) { return by_precision(precision, range, false, made, "MPI_Type_create_f90_real"); }

int MPI_Type_create_f90_complex(int precision, int range, MPI_Datatype *made) { return by_precision(precision, range, true, made, "MPI_Type_create_f90_complex"); }

int MPI_Type_create_f90_integer(int range, MPI_Datatype *made) {
    this_rank("MPI_Type_create_f90_integer");
    MPI_Datatype of = range <= 2 ? MPI_INTEGER1 : range <= 4 ? MPI_INTEGER2 : range <= 9 ? MPI_INTEGER4 : MPI_INTEGER8;
    if (range > 18) return refuse(NULL, MPI_ERR_ARG, "MPI_Type_create_f90_integer", "there is no type of range %d", range);
    return choose(MPI_COMBINER_F90_INTEGER, 0, range, of, made);
}

/* ---- extents as counts */

int MPI_Type_get_extent_x(MPI_Datatype of, MPI_Count *low, MPI_Count *extent) {
    MPI_Aint own_low = 0, own_extent = 0;
    int code = MPI_Type_get_extent(of, &own_low, &own_extent);
    *low = own_low;
    *extent = own_extent;
    return code;
}

int MPI_Type_get_true_extent_x(MPI_Datatype of, MPI_Count *low, MPI_Count *extent) {
    MPI_Aint own_low = 0, own_extent = 0;
    int code = MPI_Type_get_true_extent(of, &own_low, &own_extent);
    *low = own_low;
    *extent = own_extent;
    return code;
}

/* ---- distributed arrays (MPI 4.1, 5.1.4) */

/* A dimension as one process has it: blocks of BLOCK elements from its own place on, each TURN after the one before. */
struct dimension {
    int size, block, turn, first;
};

static int judge_dimension(int size, int kind, int argument, int processes, int coordinate, struct dimension *dimension, const char *call) {
    int block = 1;
    if (size < 1 || processes < 1) return refuse(NULL, MPI_ERR_ARG, call, "a dimension of %d elements over %d processes", size, processes);
    if (kind == MPI_DISTRIBUTE_NONE && processes != 1) return refuse(NULL, MPI_ERR_ARG, call, "MPI_DISTRIBUTE_NONE is for one process, and the dimension has %d", processes);
    if (kind == MPI_DISTRIBUTE_NONE) block = size;
    else if (argument != MPI_DISTRIBUTE_DFLT_DARG) block = argument;
    else if (kind == MPI_DISTRIBUTE_BLOCK) block = (size + processes - 1) / processes;
    if (block < 1 || (kind == MPI_DISTRIBUTE_BLOCK && (long long)block * processes < size))
        return refuse(NULL, MPI_ERR_ARG, call, "blocks of %d elements don't hold %d over %d processes", block, size, processes);
    *dimension = (struct dimension){ size, block, block * processes, block * coordinate };
    return MPI_SUCCESS;
}

/* The type of a dimension, over that of the inner ones. */
static int spread(const struct dimension *dimension, MPI_Datatype inner, MPI_Aint extent, MPI_Datatype *made) {
    int many = 0, room = dimension->size / dimension->turn + 1;
    int *lengths = must(malloc(sizeof *lengths * (size_t)room));
    MPI_Aint *places = must(malloc(sizeof *places * (size_t)room));
    MPI_Datatype blocks;
    for (int at = dimension->first; at < dimension->size; at += dimension->turn) {
        lengths[many] = dimension->size - at < dimension->block ? dimension->size - at : dimension->block;
        places[many++] = at * extent;
    }
    int code = MPI_Type_create_hindexed(many, lengths, places, inner, &blocks);
    if (code == MPI_SUCCESS) code = MPI_Type_create_resized(blocks, 0, dimension->size * extent, made);
    if (code == MPI_SUCCESS) code = MPI_Type_free(&blocks);
    free(lengths);
    free(places);
    return code;
}

static void keep_call(MPI_Datatype made, const int *heads, int dimensions, const int *lists[4], int order, MPI_Datatype of) {
    struct type *type = find_type(made);
    free_contents(&type->contents);
    type->contents = (struct contents){ 0, 0, 0, NULL, NULL, NULL };
    type->combiner = MPI_COMBINER_DARRAY;
    keep_integers(made, 3, heads);
    for (int i = 0; i < 4; i++) keep_integers(made, dimensions, lists[i]);
    keep_integers(made, 1, &order);
    keep_parts(made, 1, &of);
}

int MPI_Type_create_darray(int processes, int rank, int dimensions, const int sizes[], const int kinds[], const int arguments[], const int counts[], int order, MPI_Datatype of,
                           MPI_Datatype *made) {
    const char *call = "MPI_Type_create_darray";
    this_rank(call);
    struct dimension dimension = { 0, 0, 0, 0 };
    MPI_Aint low, extent;
    int code = MPI_Type_get_extent(of, &low, &extent), left = processes, rest = rank;
    MPI_Datatype inner = of, outer;
    if (code != MPI_SUCCESS) return code;
    if (rank < 0 || rank >= processes) return refuse(NULL, MPI_ERR_ARG, call, "there is no rank %d of %d", rank, processes);
    int *coordinates = must(malloc(sizeof *coordinates * (size_t)(dimensions + 1)));
    for (int i = 0; i < dimensions; i++) { /* ranks are in the order of C, whatever that of the array is */
        left /= counts[i] > 0 ? counts[i] : 1;
        coordinates[i] = left > 0 ? rest / left : 0;
        rest = left > 0 ? rest % left : 0;
    }
    for (int i = 0; i < dimensions && code == MPI_SUCCESS; i++) {
        int at = order == MPI_ORDER_C ? dimensions - 1 - i : i;
        code = judge_dimension(sizes[at], kinds[at], arguments[at], counts[at], coordinates[at], &dimension, call);
        if (code == MPI_SUCCESS) code = spread(&dimension, inner, extent, &outer);
        if (inner != of) MPI_Type_free(&inner);
        inner = outer;
        extent *= sizes[at];
    }
    free(coordinates);
    if (code != MPI_SUCCESS) return code;
    if (inner == of) MPI_Type_dup(of, &inner);
    keep_call(inner, (int[]){ processes, rank, dimensions }, dimensions, (const int *[]){ sizes, kinds, arguments, counts }, order, of);
    *made = inner;
    return code;
}
