/* Calls that MPI 3.0 removed and programs still have (MPI 4.1, 17), by those that took their place. */
#include "diagnostics.h"
#include "types.h"

int MPI_Address(void *location, MPI_Aint *address) { return MPI_Get_address(location, address); }

int MPI_Type_extent(MPI_Datatype of, MPI_Aint *extent) {
    MPI_Aint low;
    return MPI_Type_get_extent(of, &low, extent);
}

int MPI_Type_lb(MPI_Datatype of, MPI_Aint *low) {
    MPI_Aint extent;
    return MPI_Type_get_extent(of, low, &extent);
}

int MPI_Type_ub(MPI_Datatype of, MPI_Aint *high) {
    MPI_Aint low = 0, extent = 0;
    int code = MPI_Type_get_extent(of, &low, &extent);
    *high = low + extent;
    return code;
}

int MPI_Type_hvector(int many, int length, MPI_Aint stride, MPI_Datatype of, MPI_Datatype *made) { return MPI_Type_create_hvector(many, length, stride, of, made); }

int MPI_Type_hindexed(int many, int lengths[], MPI_Aint places[], MPI_Datatype of, MPI_Datatype *made) { return MPI_Type_create_hindexed(many, lengths, places, of, made); }

/* MPI_LB and MPI_UB are no elements: they say where the type begins and ends. */
struct marks {
    bool has_low, has_high;
    MPI_Aint low, high;
};

static int without_marks(int many, const int lengths[], const MPI_Aint places[], const MPI_Datatype types[], struct marks *marks, MPI_Datatype *made) {
    size_t room = (size_t)(many > 0 ? many : 1);
    int kept = 0, *own_lengths = must(malloc(sizeof *own_lengths * room));
    MPI_Aint *own_places = must(malloc(sizeof *own_places * room));
    MPI_Datatype *own_types = must(malloc(sizeof *own_types * room));
    for (int i = 0; i < many; i++) {
        if (types[i] == MPI_LB) *marks = (struct marks){ true, marks->has_high, places[i], marks->high };
        else if (types[i] == MPI_UB) *marks = (struct marks){ marks->has_low, true, marks->low, places[i] };
        else own_lengths[kept] = lengths[i], own_places[kept] = places[i], own_types[kept++] = types[i];
    }
    int code = MPI_Type_create_struct(kept, own_lengths, own_places, own_types, made);
    free(own_lengths);
    free(own_places);
    free(own_types);
    return code;
}

bool has_marks(int many, const MPI_Datatype types[]) {
    bool any = false;
    for (int i = 0; i < many; i++) any = any || types[i] == MPI_LB || types[i] == MPI_UB;
    return any;
}

int struct_with_marks(int many, const int lengths[], const MPI_Aint places[], const MPI_Datatype types[], MPI_Datatype *made) {
    struct marks marks = { false, false, 0, 0 };
    MPI_Datatype plain;
    MPI_Aint low, extent;
    int code = without_marks(many, lengths, places, types, &marks, made);
    if (code != MPI_SUCCESS || (!marks.has_low && !marks.has_high)) return code;
    plain = *made;
    code = MPI_Type_get_extent(plain, &low, &extent);
    MPI_Aint begin = marks.has_low ? marks.low : low, end = marks.has_high ? marks.high : low + extent;
    if (code == MPI_SUCCESS) code = MPI_Type_create_resized(plain, begin, end - begin, made);
    MPI_Type_free(&plain);
    return code;
}

int MPI_Type_struct(int many, int lengths[], MPI_Aint places[], MPI_Datatype types[], MPI_Datatype *made) { return struct_with_marks(many, lengths, places, types, made); }

int MPI_Errhandler_create(MPI_Handler_function *function, MPI_Errhandler *made) { return MPI_Comm_create_errhandler(function, made); }

int MPI_Errhandler_set(MPI_Comm comm, MPI_Errhandler handler) { return MPI_Comm_set_errhandler(comm, handler); }

int MPI_Errhandler_get(MPI_Comm comm, MPI_Errhandler *handler) { return MPI_Comm_get_errhandler(comm, handler); }
