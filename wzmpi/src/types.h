/* Types and operations. */
#ifndef WZ_TYPES_H
#define WZ_TYPES_H

#include "base.h"

enum class { SIGNED = 1, UNSIGNED, CHARACTER, BITS, TRUTH, REAL, COMPLEX, PAIR };

/* A basic type. CODE is the same for types that match one another, as MPI_INT and MPI_INT32_T do; ENGINE is the type of the engine that has its
   width, or -1. */
struct basic {
    const char *name;
    size_t size, alignment;
    enum class class;
    int engine;
    uint32_t code;
};

/* Elements of one basic type that lie one after the other. */
struct run_of {
    MPI_Aint at;
    int basic;
    size_t many;
};

/* What basic types follow one another: equal sequences have equal signatures. */
struct signature {
    uint64_t elements, hash, power;
};

/* The arguments of the call that made a type. */
struct contents {
    int integers, addresses, parts; /* how many */
    int *integer;
    MPI_Aint *address;
    const struct type **part;
};

/* What a type of several basic types is made of, as text. It stays as long as the run, for others read it. */
struct structure {
    uint64_t elements;
    char text[100];
    struct structure *next;
};

struct type {
    const char *name;
    size_t size;            /* bytes of its elements alone */
    MPI_Aint low, extent;
    MPI_Aint true_low, true_extent;
    size_t alignment;
    int basic;              /* the number of the basic type of all elements; 0 where there are several */
    bool dense;             /* the elements lie without gaps, from 0 on, and the extent is the size */
    bool predefined, committed;
    struct signature signature;
    struct signature spread; /* the same with a pair as its value and its index */
    size_t many;
    struct run_of *runs;
    int combiner; /* how it was made (MPI 4.1, 5.1.13): the call, and its arguments */
    struct contents contents;
    struct attribute *attributes;
    const struct structure *structure; /* NULL: nobody has asked for it */
    int uses;
};

struct op {
    const char *name;
    int number;             /* of a predefined one, as in mpi.h; else 0 */
    MPI_User_function *user;
    MPI_User_function_c *user_wide;
    uintptr_t identity;     /* the same for all ranks */
    bool commutes;
    int uses;
};

const struct basic *basic_type(int basic);
enum { ENGINE_TYPES = 10 };
size_t engine_width(int type);

struct type *find_type(MPI_Datatype type); /* NULL: there is none */
bool was_type(MPI_Datatype type);    /* a handle of a type that was freed */
void forget_type(MPI_Datatype type);
void type_use(const struct type *type);
void type_unuse(const struct type *type);
struct signature type_signature(const struct type *type, uint64_t many);
struct signature spread_of(const struct type *type, uint64_t many);
size_t value_size(int basic); /* of a pair that is as a structure has it; 0: it is none */
const struct structure *structure_of(const struct type *type);
int type_error(MPI_Datatype type, const char *call); /* tells what is wrong with it */

/* Copies MANY elements of a type from or to bytes without gaps. */
void pack(const struct type *type, size_t many, const void *from, void *bytes);
void unpack(const struct type *type, size_t many, void *to, const void *bytes);
void unpack_part(const struct type *type, void *to, const void *bytes, size_t length); /* the first bytes of one element */

/* ---- external32.c: the bytes of elements in that representation; to and from it. The second gives the bytes of the whole basic elements that LENGTH bytes have. */
size_t external_length(const struct type *type, size_t many);
void external_pack(const struct type *type, size_t many, const void *from, void *bytes);
size_t external_unpack(const struct type *type, void *to, const void *bytes, size_t length);

MPI_Datatype handle_of_type(struct type *type); /* one more, which the program frees */

/* ---- type_contents.c: what a made type's call had */
void keep_integers(MPI_Datatype made, int many, const int *from);
void keep_addresses(MPI_Datatype made, int many, const MPI_Aint *from);
void keep_parts(MPI_Datatype made, int many, const MPI_Datatype *from);
void free_contents(struct contents *contents);

/* ---- type_attributes.c */
int copy_type_attributes(struct type *from, MPI_Datatype handle, struct type *to);
int delete_type_attributes(struct type *type, MPI_Datatype handle);

/* ---- removed_calls.c: structures with MPI_LB or MPI_UB, which programs also give to MPI_Type_create_struct */
bool has_marks(int many, const MPI_Datatype types[]);
int struct_with_marks(int many, const int lengths[], const MPI_Aint places[], const MPI_Datatype types[], MPI_Datatype *made);

/* ---- making types (type_make.c) */
struct building {
    struct run_of *runs;
    size_t many, room;
    MPI_Aint low, high;
    size_t alignment;
    bool any;
};
void build(struct building *building, const struct type *type, MPI_Aint at, MPI_Count many);
MPI_Datatype built(struct building *building);
MPI_Datatype new_type(struct run_of *runs, size_t many, MPI_Aint low, MPI_Aint extent, size_t alignment); /* it is given the runs */

/* ---- operations (operations.c, compute.c) */
struct op *find_op(MPI_Op op);
void op_unuse(struct op *op);
int engine_op(const struct op *op); /* -1: the engine has no such operation */
bool op_takes(const struct op *op, const struct type *type);
/* more[i] = row[i] op more[i] */
void compute(const struct op *op, MPI_Datatype handle, const struct type *type, MPI_Count many, void *row, void *more);

#endif
