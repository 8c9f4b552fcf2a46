/* How a type was made (MPI 4.1, 5.1.13). */
#include "diagnostics.h"
#include "types.h"

static void *grown(void *list, size_t bytes) { return must(realloc(list, bytes > 0 ? bytes : 1)); }

void keep_integers(MPI_Datatype made, int many, const int *from) {
    struct contents *contents = &find_type(made)->contents;
    contents->integer = grown(contents->integer, sizeof *contents->integer * (size_t)(contents->integers + many));
    for (int i = 0; i < many; i++) contents->integer[contents->integers++] = from[i];
}

void keep_addresses(MPI_Datatype made, int many, const MPI_Aint *from) {
    struct contents *contents = &find_type(made)->contents;
    contents->address = grown(contents->address, sizeof *contents->address * (size_t)(contents->addresses + many));
    for (int i = 0; i < many; i++) contents->address[contents->addresses++] = from[i];
}

void keep_parts(MPI_Datatype made, int many, const MPI_Datatype *from) {
    struct contents *contents = &find_type(made)->contents;
    contents->part = grown(contents->part, sizeof *contents->part * (size_t)(contents->parts + many));
    for (int i = 0; i < many; i++) {
        contents->part[contents->parts] = find_type(from[i]);
        type_use(contents->part[contents->parts++]);
    }
}

void free_contents(struct contents *contents) {
    for (int i = 0; i < contents->parts; i++) type_unuse(contents->part[i]);
    free(contents->integer);
    free(contents->address);
    free(contents->part);
}

int MPI_Type_get_envelope(MPI_Datatype of, int *integers, int *addresses, int *parts, int *combiner) {
    this_rank("MPI_Type_get_envelope");
    const struct type *type = find_type(of);
    if (type == NULL) return type_error(of, "MPI_Type_get_envelope");
    *integers = type->contents.integers;
    *addresses = type->contents.addresses;
    *parts = type->contents.parts;
    *combiner = type->combiner;
    return MPI_SUCCESS;
}

int MPI_Type_get_contents(MPI_Datatype of, int integers, int addresses, int parts, int integer[], MPI_Aint address[], MPI_Datatype part[]) {
    const char *call = "MPI_Type_get_contents";
    this_rank(call);
    const struct type *type = find_type(of);
    if (type == NULL) return type_error(of, call);
    const struct contents *contents = &type->contents;
    if (type->combiner == MPI_COMBINER_NAMED) return refuse(NULL, MPI_ERR_TYPE, call, "%s is predefined, so that no call has made it", type->name);
    if (integers < contents->integers || addresses < contents->addresses || parts < contents->parts)
        return refuse(NULL, MPI_ERR_ARG, call, "the type has %d integers, %d addresses and %d types, and there is room for %d, %d and %d", contents->integers, contents->addresses,
                      contents->parts, integers, addresses, parts);
    for (int i = 0; i < contents->integers; i++) integer[i] = contents->integer[i];
    for (int i = 0; i < contents->addresses; i++) address[i] = contents->address[i];
    for (int i = 0; i < contents->parts; i++) part[i] = handle_of_type((struct type *)(uintptr_t)contents->part[i]);
    return MPI_SUCCESS;
}
