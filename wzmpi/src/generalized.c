/* Generalized requests (MPI 4.1, 13.2): a request that the program itself completes. Its functions may be Fortran's. */
#include "diagnostics.h"
#include "generalized.h"

struct generalized {
    MPI_Grequest_query_function *query;
    MPI_Grequest_free_function *release;
    MPI_Grequest_cancel_function *cancel;
    void *extra;
    bool in_fortran;
};

static int start_generalized(const struct generalized *given, MPI_Request *made) {
    struct request *request = new_request(GENERALIZED, world_comm(), "MPI_Grequest_start");
    struct generalized *generalized = must(malloc(sizeof *generalized));
    *generalized = *given;
    request->from = generalized;
    request->active = true;
    atomic_store(&request->arrived, false);
    *made = publish(request);
    return MPI_SUCCESS;
}

int MPI_Grequest_start(MPI_Grequest_query_function *query, MPI_Grequest_free_function *release, MPI_Grequest_cancel_function *cancel, void *extra, MPI_Request *made) {
    this_rank("MPI_Grequest_start");
    return start_generalized(&(struct generalized){ query, release, cancel, extra, false }, made);
}

int start_fortran_generalized(void (*query)(void), void (*release)(void), void (*cancel)(void), MPI_Aint extra, MPI_Request *made) {
    this_rank("MPI_Grequest_start");
    struct generalized given = { (MPI_Grequest_query_function *)query, (MPI_Grequest_free_function *)release, (MPI_Grequest_cancel_function *)cancel, (void *)extra, true };
    return start_generalized(&given, made);
}

int MPI_Grequest_complete(MPI_Request handle) {
    const char *call = "MPI_Grequest_complete";
    struct request *request;
    this_rank(call);
    int code = find_request(handle, call, &request);
    if (code != MPI_SUCCESS) return code;
    if (request == NULL || request->sort != GENERALIZED) return refuse(NULL, MPI_ERR_REQUEST, call, "the request isn't one of MPI_Grequest_start");
    atomic_store(&request->arrived, true);
    wake_rank(current_rank);
    return code;
}

/* ---- its functions */

typedef void fortran_query(MPI_Aint *extra, MPI_Status *status, int *code);
typedef void fortran_release(MPI_Aint *extra, int *code);
typedef void fortran_cancel(MPI_Aint *extra, int *complete, int *code);

int query_generalized(const struct request *request, MPI_Status *status) {
    const struct generalized *own = request->from;
    MPI_Aint extra = (MPI_Aint)own->extra;
    MPI_Status unwanted, *to = status != MPI_STATUS_IGNORE ? status : &unwanted;
    int code = MPI_SUCCESS;
    empty_status(&unwanted);
    if (own->in_fortran) ((fortran_query *)(void (*)(void))own->query)(&extra, to, &code);
    else code = own->query(own->extra, to);
    return code;
}

int finish_generalized(struct request *request, MPI_Status *status) {
    const struct generalized *own = request->from;
    MPI_Aint extra = (MPI_Aint)own->extra;
    int released = MPI_SUCCESS, code = query_generalized(request, status);
    if (own->in_fortran) ((fortran_release *)(void (*)(void))own->release)(&extra, &released);
    else released = own->release(own->extra);
    free((void *)(uintptr_t)own);
    request->active = false;
    drop_request(request);
    return code != MPI_SUCCESS ? code : released;
}

int cancel_generalized(struct request *request) {
    const struct generalized *own = request->from;
    MPI_Aint extra = (MPI_Aint)own->extra;
    int complete = atomic_load(&request->arrived), code = MPI_SUCCESS;
    if (own->in_fortran) ((fortran_cancel *)(void (*)(void))own->cancel)(&extra, &complete, &code);
    else code = own->cancel(own->extra, complete);
    return code;
}

/* ---- what a program writes into a status */

int MPI_Status_set_elements_x(MPI_Status *status, MPI_Datatype of, MPI_Count many) {
    const struct type *type = find_type(of);
    if (type == NULL) return type_error(of, "MPI_Status_set_elements");
    uint64_t each = type->spread.elements;
    status->bytes_ = each > 0 ? (MPI_Count)((uint64_t)many / each * type->size + (uint64_t)many % each * (type->size / each)) : 0;
    return MPI_SUCCESS;
}

int MPI_Status_set_elements(MPI_Status *status, MPI_Datatype of, int many) { return MPI_Status_set_elements_x(status, of, many); }
