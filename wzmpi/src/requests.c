/* A rank's requests. They are used again, with their scratch memory. */
#include "collectives.h"

#include "trace.h"
#include "diagnostics.h"

struct request *new_request(enum sort sort, struct comm *comm, const char *name) {
    struct rank *me = current_rank;
    struct request *request = me->free_requests;
    void *scratch = NULL;
    size_t room = 0;
    if (request != NULL) {
        me->free_requests = request->next;
        scratch = request->scratch;
        room = request->scratch_room;
    } else request = must(malloc(sizeof *request));
    memset(request, 0, sizeof *request);
    request->sort = sort;
    request->handle = MPI_REQUEST_NULL;
    request->comm = comm;
    request->member = my_member(comm);
    request->name = name;
    request->site = request->started_at = me->site;
    request->recorded = -1;
    request->begun = run_clock();
    request->scratch = scratch;
    request->scratch_room = room;
    use_comm(comm);
    return request;
}

MPI_Request publish(struct request *request) { return request->handle = (MPI_Request)add_handle(REQUEST, request); }

void drop_request(struct request *request) {
    if (request->handle != MPI_REQUEST_NULL) remove_handle(REQUEST, request->handle);
    if (request->has_parcels) take_parcels(request);
    if (request->starts != NULL) leave_starts(request->comm, request->starts);
    if (request->engine != NULL) leave_engine(request->comm, request->engine);
    if (request->give_type != NULL) type_unuse(request->give_type);
    if (request->get_type != NULL) type_unuse(request->get_type);
    if (request->type != NULL) type_unuse(request->type);
    if (request->op != NULL) op_unuse(request->op);
    for (int i = 0; request->types != NULL && request->types[i] != NULL; i++) type_unuse(request->types[i]);
    free(request->types);
    free(request->own_numbers);
    free(request->counts);
    free(request->loan);
    unuse_comm(request->comm);
    request->next = current_rank->free_requests;
    current_rank->free_requests = request;
}

int find_request(MPI_Request handle, const char *call, struct request **request) {
    *request = NULL;
    if (handle == MPI_REQUEST_NULL) return MPI_SUCCESS;
    *request = find_handle(REQUEST, handle);
    if (*request != NULL) return MPI_SUCCESS;
    return refuse(NULL, MPI_ERR_REQUEST, call, was_freed(REQUEST, handle) ? "the request was completed or freed before" : "there is no such request");
}

/* Memory of the request's own. A piece that one large outcome took isn't kept for ever. */
void *scratch_of(struct request *request, size_t bytes) {
    bool too_large = request->scratch_room > 65536 && bytes < request->scratch_room / 4;
    if (request->scratch == NULL || request->scratch_room < bytes || too_large) {
        free(request->scratch);
        request->scratch_room = bytes + 16;
        request->scratch = must(malloc(request->scratch_room));
    }
    return request->scratch;
}
