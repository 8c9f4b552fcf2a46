/* Operations: which there are, and what they take. */
#include "counted.h"
#include "diagnostics.h"
#include "types.h"

#include <dlfcn.h>
#include <limits.h>

/* In the order of mpi.h. */
static struct op predefined[] = {
    { .name = NULL },
    { .name = "MPI_MAX", .number = 1, .commutes = true }, { .name = "MPI_MIN", .number = 2, .commutes = true },
    { .name = "MPI_SUM", .number = 3, .commutes = true }, { .name = "MPI_PROD", .number = 4, .commutes = true },
    { .name = "MPI_LAND", .number = 5, .commutes = true }, { .name = "MPI_BAND", .number = 6, .commutes = true },
    { .name = "MPI_LOR", .number = 7, .commutes = true }, { .name = "MPI_BOR", .number = 8, .commutes = true },
    { .name = "MPI_LXOR", .number = 9, .commutes = true }, { .name = "MPI_BXOR", .number = 10, .commutes = true },
    { .name = "MPI_MINLOC", .number = 11, .commutes = true }, { .name = "MPI_MAXLOC", .number = 12, .commutes = true },
    { .name = "MPI_REPLACE", .number = 13 }, { .name = "MPI_NO_OP", .number = 14 },
};
enum { PREDEFINED = sizeof predefined / sizeof predefined[0] };

__attribute__((constructor)) static void number_operations(void) {
    for (int i = 0; i < PREDEFINED; i++) predefined[i].identity = (uintptr_t)i;
}

struct op *find_op(MPI_Op handle) {
    uintptr_t number = (uintptr_t)handle - (uintptr_t)MPI_OP_NULL;
    return number > 0 && number < PREDEFINED ? &predefined[number] : find_handle(OP, handle);
}

void op_unuse(struct op *op) {
    if (op->number == 0 && --op->uses == 0) free(op);
}

int engine_op(const struct op *op) {
    static const int numbers[PREDEFINED] = { -1, WZ_MAX, WZ_MIN, WZ_SUM, WZ_PROD, WZ_LAND, WZ_BAND, WZ_LOR, WZ_BOR, WZ_LXOR, WZ_BXOR, WZ_MINLOC, WZ_MAXLOC, -1, -1 };
    return numbers[op->number];
}

/* Which classes of basic types an operation takes (MPI 4.1, 6.9.2). The libraries take MPI_CHAR as a number, and truth of floating point numbers, so a run that
   isn't strict does so too. */
static bool takes_class(int op, enum class class) {
    bool whole = class == SIGNED || class == UNSIGNED;
    switch (op) {
    case 1:
    case 2: return whole || class == REAL;
    case 3:
    case 4: return whole || class == REAL || class == COMPLEX;
    case 5:
    case 7:
    case 9: return whole || class == TRUTH || (class == REAL && !the_run.strict);
    case 6:
    case 8:
    case 10: return whole || class == BITS;
    case 11:
    case 12: return class == PAIR;
    default: return false;
    }
}

bool op_takes(const struct op *op, const struct type *type) {
    if (op->number == 0) return true;
    if (type->basic == 0 || type->signature.elements != 1 || type->basic == (MPI_PACKED & 0xff)) return false;
    enum class class = basic_type(type->basic)->class;
    if (type->basic == (MPI_CHAR & 0xff) && !the_run.strict) class = SIGNED;
    return takes_class(op->number, class);
}

/* A function of the program has another address in each rank's copy of it, and the same distance from the copy's front. */
static uintptr_t identity_of(void *function, const char **name) {
    Dl_info about;
    *name = NULL;
    if (dladdr(function, &about) == 0) return (uintptr_t)function;
    *name = about.dli_sname;
    return PREDEFINED + (uintptr_t)function - (uintptr_t)about.dli_fbase;
}

/* A static function has no name that can be found, so its operation is called by the line that makes it: one text for each such line. */
static const char *name_by_line(const char *call) {
    static struct named {
        const char *text;
        struct named *next;
    } *first;
    static pthread_mutex_t guard = PTHREAD_MUTEX_INITIALIZER;
    char text[600];
    snprintf(text, sizeof text, "the operation of %s at %s", call, atomic_load(&current_rank->site));
    pthread_mutex_lock(&guard);
    struct named *named = first;
    while (named != NULL && strcmp(named->text, text) != 0) named = named->next;
    if (named == NULL) {
        named = must(malloc(sizeof *named));
        *named = (struct named){ must(strdup(text)), first };
        first = named;
    }
    pthread_mutex_unlock(&guard);
    return named->text;
}

static int create(MPI_User_function *user, MPI_User_function_c *wide, int commutes, MPI_Op *made, const char *call) {
    if (user == NULL && wide == NULL) return refuse(NULL, MPI_ERR_ARG, call, "there is no function");
    const char *name;
    struct op *op = must(calloc(1, sizeof *op));
    *op = (struct op){ .user = user, .user_wide = wide, .commutes = commutes != 0, .uses = 1 };
    op->identity = identity_of(user != NULL ? (void *)(uintptr_t)user : (void *)(uintptr_t)wide, &name);
    op->name = name != NULL ? name : name_by_line(call); /* both stay as long as the run */
    *made = (MPI_Op)add_handle(OP, op);
    return MPI_SUCCESS;
}

int MPI_Op_create(MPI_User_function *user, int commutes, MPI_Op *made) { return create(user, NULL, commutes, made, "MPI_Op_create"); }

int MPI_Op_create_c(MPI_User_function_c *user, int commutes, MPI_Op *made) { return create(NULL, user, commutes, made, "MPI_Op_create_c"); }

static int unknown(MPI_Op handle, const char *call) {
    if (handle == MPI_OP_NULL) return refuse(NULL, MPI_ERR_OP, call, "the operation is MPI_OP_NULL");
    return refuse(NULL, MPI_ERR_OP, call, was_freed(OP, handle) ? "the operation was freed" : "there is no such operation");
}

int MPI_Op_free(MPI_Op *handle) {
    struct op *op = find_op(*handle);
    if (op == NULL) return unknown(*handle, "MPI_Op_free");
    if (op->number > 0) return refuse(NULL, MPI_ERR_OP, "MPI_Op_free", "%s can't be freed", op->name);
    remove_handle(OP, *handle);
    op_unuse(op);
    *handle = MPI_OP_NULL;
    return MPI_SUCCESS;
}

int MPI_Op_commutative(MPI_Op handle, int *commutes) {
    struct op *op = find_op(handle);
    if (op == NULL) return unknown(handle, "MPI_Op_commutative");
    *commutes = op->commutes;
    return MPI_SUCCESS;
}

int counted_Reduce_local(const void *row, void *more, MPI_Count many, MPI_Datatype handle, MPI_Op operation) {
    const char *call = "MPI_Reduce_local";
    struct type *type = find_type(handle);
    struct op *op = find_op(operation);
    if (type == NULL) return type_error(handle, call);
    if (op == NULL) return unknown(operation, call);
    if (many < 0) return refuse(NULL, MPI_ERR_COUNT, call, "the count %lld is negative", (long long)many);
    if (!op_takes(op, type)) return refuse(NULL, MPI_ERR_OP, call, "%s isn't for %s", op->name, type->name != NULL ? type->name : "this type");
    if (row == MPI_IN_PLACE || more == MPI_IN_PLACE) return refuse(NULL, MPI_ERR_BUFFER, call, "MPI_IN_PLACE isn't for this call");
    if (row == more && many > 0) return refuse(NULL, MPI_ERR_BUFFER, call, "both buffers are the same memory");
    compute(op, handle, type, many, (void *)(uintptr_t)row, more);
    return MPI_SUCCESS;
}
