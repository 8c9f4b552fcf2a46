/* Attributes of types (MPI 4.1, 7.7). The functions of a key get the type's handle, an int, as they would a pointer whose lower half it is. */
#include "attributes.h"
#include "diagnostics.h"
#include "types.h"

static struct attributed of_type(struct type *type, MPI_Datatype handle) { return (struct attributed){ NULL, &type->attributes, (MPI_Comm)(uintptr_t)(unsigned)handle }; }

int copy_type_attributes(struct type *from, MPI_Datatype handle, struct type *to) {
    struct attributed of = of_type(from, handle);
    return copy_list(&of, &to->attributes);
}

int delete_type_attributes(struct type *type, MPI_Datatype handle) {
    struct attributed of = of_type(type, handle);
    return delete_list(&of);
}

int wz_type_dup_fn_(MPI_Datatype type, int keyval, void *extra, void *value, void *copied, int *flag) {
    return wz_comm_dup_fn_((MPI_Comm)(uintptr_t)(unsigned)type, keyval, extra, value, copied, flag);
}

int MPI_Type_create_keyval(MPI_Type_copy_attr_function *copy, MPI_Type_delete_attr_function *delete, int *number, void *extra) {
    return create_keyval((MPI_Comm_copy_attr_function *)(void (*)(void))copy, (MPI_Comm_delete_attr_function *)(void (*)(void))delete, number, extra, "MPI_Type_create_keyval");
}

int MPI_Type_free_keyval(int *number) { return free_keyval(number, "MPI_Type_free_keyval"); }

static struct attributed known(MPI_Datatype handle, const char *call, int *code) {
    this_rank(call);
    struct type *type = find_type(handle);
    *code = type != NULL ? MPI_SUCCESS : type_error(handle, call);
    return type != NULL ? of_type(type, handle) : (struct attributed){ NULL, NULL, MPI_COMM_NULL };
}

int MPI_Type_set_attr(MPI_Datatype handle, int number, void *value) {
    int code;
    struct attributed of = known(handle, "MPI_Type_set_attr", &code);
    return of.list != NULL ? set_attribute(&of, number, value, "MPI_Type_set_attr") : code;
}

int MPI_Type_get_attr(MPI_Datatype handle, int number, void *value, int *flag) {
    int code;
    struct attributed of = known(handle, "MPI_Type_get_attr", &code);
    return of.list != NULL ? get_attribute(&of, number, value, flag, "MPI_Type_get_attr") : code;
}

int MPI_Type_delete_attr(MPI_Datatype handle, int number) {
    int code;
    struct attributed of = known(handle, "MPI_Type_delete_attr", &code);
    return of.list != NULL ? delete_attribute(&of, number, "MPI_Type_delete_attr") : code;
}
