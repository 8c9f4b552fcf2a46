/* Overlap of an MPI library, whose ranks are processes, or threads under wzrun; see overlap.c. */
#include <mpi.h>

#include "overlap.h"

void post_collective(struct rank *rank, struct collective collective) {
    MPI_Request *request = rank->request;
    int count = (int)(collective.bytes / 8);
    switch (collective.kind) {
    case ALLREDUCE: MPI_Iallreduce(rank->given, rank->taken, count, MPI_INT64_T, MPI_SUM, MPI_COMM_WORLD, request); break;
    case BCAST: MPI_Ibcast(rank->number == 0 ? rank->given : rank->taken, count, MPI_INT64_T, 0, MPI_COMM_WORLD, request); break;
    case ALLTOALL: MPI_Ialltoall(rank->given, count, MPI_INT64_T, rank->taken, count, MPI_INT64_T, MPI_COMM_WORLD, request); break;
    default: MPI_Ibarrier(MPI_COMM_WORLD, request);
    }
}

bool test_request(struct rank *rank) {
    int is_complete = 0;
    MPI_Test(rank->request, &is_complete, MPI_STATUS_IGNORE);
    return is_complete != 0;
}

void wait_for_request(struct rank *rank) { MPI_Wait(rank->request, MPI_STATUS_IGNORE); }

int64_t greatest(struct rank *rank, int64_t number) {
    int64_t all = 0;
    (void)rank;
    MPI_Allreduce(&number, &all, 1, MPI_INT64_T, MPI_MAX, MPI_COMM_WORLD);
    return all;
}

int main(int words, char **word) {
    MPI_Request request = MPI_REQUEST_NULL;
    struct rank me = { .request = &request };
    MPI_Init(&words, &word);
    MPI_Comm_size(MPI_COMM_WORLD, &me.ranks);
    MPI_Comm_rank(MPI_COMM_WORLD, &me.number);
    struct plan *plan = plan_of(words, word);
    if (plan == NULL) MPI_Abort(MPI_COMM_WORLD, 2);
    measure(&me, plan);
    MPI_Finalize();
    return 0;
}
