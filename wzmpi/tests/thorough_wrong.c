/* Programs with one planted mistake each, which --strict or --check sees: thorough_wrong NAME runs one of them. thorough_wrong.want has what wzrun says of each. */
#include <mpi.h>
#include <stdio.h>
#include <stdlib.h>
#include <string.h>
#include <sys/mman.h>

static int rank, size, numbers[64], others[64];

/* ---- messages that nearly meet */
static void near_tag(void) {
    if (rank == 1) MPI_Send(numbers, 1, MPI_INT, 0, 3, MPI_COMM_WORLD);
    if (rank == 0) MPI_Recv(others, 1, MPI_INT, 1, 2, MPI_COMM_WORLD, MPI_STATUS_IGNORE);
}
static void near_source(void) {
    if (rank == 2) MPI_Send(numbers, 1, MPI_INT, 0, 2, MPI_COMM_WORLD);
    if (rank == 0) MPI_Recv(others, 1, MPI_INT, 1, 2, MPI_COMM_WORLD, MPI_STATUS_IGNORE);
}
static void near_communicator(void) {
    MPI_Comm copy;
    MPI_Comm_dup(MPI_COMM_WORLD, &copy);
    if (rank == 1) MPI_Send(numbers, 1, MPI_INT, 0, 2, copy);
    if (rank == 0) MPI_Probe(1, 2, MPI_COMM_WORLD, MPI_STATUS_IGNORE);
}
static void near_receive(void) {
    MPI_Request request;
    if (rank == 0) {
        MPI_Irecv(others, 1, MPI_INT, 1, 2, MPI_COMM_WORLD, &request);
        MPI_Wait(&request, MPI_STATUS_IGNORE);
    }
    if (rank == 1) MPI_Ssend(numbers, 1, MPI_INT, 0, 3, MPI_COMM_WORLD);
}
static void same_line(void) {
    for (int i = 0; i < 20; i++) MPI_Send(numbers, 1, MPI_INT, (rank + 1) % size, i, MPI_COMM_WORLD);
}
static void many_pending(void) {
    MPI_Request request;
    for (int i = 0; i < 49; i++) MPI_Irecv(numbers + i, 1, MPI_INT, (rank + 1) % size, i, MPI_COMM_WORLD, &request);
}
static void taken(void) {
    MPI_Message message;
    MPI_Send(numbers, 1, MPI_INT, rank, 4, MPI_COMM_WORLD);
    MPI_Mprobe(rank, 4, MPI_COMM_WORLD, &message, MPI_STATUS_IGNORE);
}

/* ---- what is never freed */
static void leaked_communicator(void) {
    MPI_Comm copy;
    MPI_Comm_dup(MPI_COMM_WORLD, &copy);
}
static void leaked_type(void) {
    MPI_Datatype column;
    for (int i = 0; i < 3; i++) {
        MPI_Type_vector(4, 1, 4, MPI_INT, &column);
        MPI_Type_commit(&column);
    }
}
static void leaked_group(void) {
    MPI_Group all;
    MPI_Comm_group(MPI_COMM_WORLD, &all);
}
static void first_of_two(void *in, void *inout, int *many, MPI_Datatype *of) { (void)of, memcpy(inout, in, sizeof(int) * (size_t)*many); }
static void second_of_two(void *in, void *inout, int *many, MPI_Datatype *of) { (void)in, (void)inout, (void)many, (void)of; }
static void leaked_operation(void) {
    MPI_Op op;
    MPI_Op_create(first_of_two, 0, &op);
}
static void leaked_request(void) {
    MPI_Request request;
    MPI_Send_init(numbers, 1, MPI_INT, 0, 0, MPI_COMM_WORLD, &request);
}
static void leaked_collective(void) {
    MPI_Request request;
    MPI_Barrier_init(MPI_COMM_WORLD, MPI_INFO_NULL, &request);
    MPI_Start(&request);
    MPI_Wait(&request, MPI_STATUS_IGNORE);
}
static void leaked_info(void) {
    MPI_Info info;
    if (rank == 1) MPI_Info_create(&info);
}
static void leaked_split(void) {
    MPI_Comm half, pair;
    MPI_Comm_split(MPI_COMM_WORLD, rank % 2, 0, &half);
    MPI_Comm_dup(half, &pair);
    MPI_Comm_free(&half);
}

/* ---- buffers that overlap */
static void sendrecv(void) { MPI_Sendrecv(numbers, 4, MPI_INT, (rank + 1) % size, 0, numbers + 2, 4, MPI_INT, (rank + size - 1) % size, 0, MPI_COMM_WORLD, MPI_STATUS_IGNORE); }
static void sendrecv_columns(void) { /* columns 0 and 2, and columns 1 and 2 */
    MPI_Datatype columns;
    MPI_Type_vector(4, 2, 8, MPI_INT, &columns);
    MPI_Type_commit(&columns);
    MPI_Sendrecv(numbers, 1, columns, (rank + 1) % size, 0, numbers + 1, 1, columns, (rank + size - 1) % size, 0, MPI_COMM_WORLD, MPI_STATUS_IGNORE);
}
static void two_receives(void) {
    MPI_Request requests[2];
    MPI_Irecv(others, 4, MPI_INT, MPI_ANY_SOURCE, 0, MPI_COMM_WORLD, &requests[0]);
    MPI_Irecv(others + 3, 4, MPI_INT, MPI_ANY_SOURCE, 1, MPI_COMM_WORLD, &requests[1]);
}
static void receive_into_sent(void) {
    MPI_Request request;
    MPI_Isend(numbers, 4, MPI_INT, (rank + 1) % size, 0, MPI_COMM_WORLD, &request);
    MPI_Recv(numbers + 1, 1, MPI_INT, (rank + size - 1) % size, 0, MPI_COMM_WORLD, MPI_STATUS_IGNORE);
}
static void send_what_comes(void) {
    MPI_Request request;
    MPI_Irecv(others, 4, MPI_INT, (rank + 1) % size, 0, MPI_COMM_WORLD, &request);
    MPI_Send(others, 1, MPI_INT, (rank + 1) % size, 0, MPI_COMM_WORLD);
}
static void collective_into_pending(void) {
    MPI_Request request;
    MPI_Ibcast(others, 4, MPI_INT, 0, MPI_COMM_WORLD, &request);
    MPI_Allreduce(numbers, others + 2, 1, MPI_INT, MPI_SUM, MPI_COMM_WORLD);
}
static void two_collectives(void) {
    MPI_Request requests[2];
    MPI_Iallreduce(numbers, others, 2, MPI_INT, MPI_SUM, MPI_COMM_WORLD, &requests[0]);
    MPI_Iallgather(numbers, 1, MPI_INT, others + 1, 1, MPI_INT, MPI_COMM_WORLD, &requests[1]);
}
static void started_into_pending(void) {
    MPI_Request requests[2];
    MPI_Recv_init(others, 4, MPI_INT, (rank + 1) % size, 0, MPI_COMM_WORLD, &requests[0]);
    MPI_Recv_init(others, 4, MPI_INT, (rank + 1) % size, 1, MPI_COMM_WORLD, &requests[1]);
    MPI_Startall(2, requests);
}
static void gathered_places(void) {
    int counts[] = { 2, 2, 2 }, places[] = { 0, 1, 4 };
    MPI_Gatherv(numbers, 2, MPI_INT, others, counts, places, MPI_INT, 0, MPI_COMM_WORLD);
}
static void alltoall_places(void) {
    int counts[] = { 2, 2, 2 }, given[] = { 0, 2, 4 }, places[] = { 0, 2, rank == 1 ? 3 : 4 };
    MPI_Alltoallv(numbers, counts, given, MPI_INT, others, counts, places, MPI_INT, MPI_COMM_WORLD);
}
static void type_on_itself(void) {
    MPI_Datatype rows;
    MPI_Type_vector(3, 4, 2, MPI_INT, &rows);
    MPI_Type_commit(&rows);
    if (rank == 0) MPI_Recv(others, 1, rows, 1, 0, MPI_COMM_WORLD, MPI_STATUS_IGNORE);
    if (rank == 1) MPI_Send(numbers, 12, MPI_INT, 0, 0, MPI_COMM_WORLD);
}
static void elements_on_themselves(void) {
    MPI_Datatype narrow;
    MPI_Type_create_resized(MPI_INT, 0, 2, &narrow);
    MPI_Type_commit(&narrow);
    MPI_Bcast(numbers, rank == 0 ? 3 : 3, narrow, 0, MPI_COMM_WORLD);
    MPI_Allgather(numbers, 1, MPI_INT, others, 1, narrow, MPI_COMM_WORLD);
}

/* ---- arguments that differ */
static void in_place_alone(void) { MPI_Allreduce(rank == 1 ? MPI_IN_PLACE : numbers, others, 1, MPI_INT, MPI_SUM, MPI_COMM_WORLD); }
static void in_place_gathered(void) { MPI_Allgather(rank == 0 ? numbers : MPI_IN_PLACE, 1, MPI_INT, others, 1, MPI_INT, MPI_COMM_WORLD); }
static void other_periods(void) {
    MPI_Comm ring;
    int periods[] = { rank == 0 };
    MPI_Cart_create(MPI_COMM_WORLD, 1, &size, periods, 0, &ring);
}
static void other_sizes(void) {
    MPI_Comm grid;
    int sizes[] = { rank == 1 ? 1 : 2, rank == 1 ? 2 : 1 };
    MPI_Cart_create(MPI_COMM_WORLD, 2, sizes, (int[]){ 0, 0 }, 0, &grid);
    MPI_Barrier(MPI_COMM_WORLD);
}
static void other_graph(void) {
    MPI_Comm graph;
    int index[] = { 1, 2, 3 }, edges[] = { 1, rank == 1 ? 2 : 0, 0 };
    MPI_Graph_create(MPI_COMM_WORLD, 3, index, edges, 0, &graph);
}
static void structures(void) {
    MPI_Datatype one;
    MPI_Type_create_struct(2, (int[]){ 2, 1 }, (MPI_Aint[]){ 0, 8 }, (MPI_Datatype[]){ MPI_INT, rank == 1 ? MPI_FLOAT : MPI_UNSIGNED }, &one);
    MPI_Type_commit(&one);
    MPI_Bcast(numbers, 2, one, 0, MPI_COMM_WORLD);
}
static void static_operations(void) {
    MPI_Op op;
    if (rank == 1) MPI_Op_create(first_of_two, 0, &op);
    else MPI_Op_create(second_of_two, 0, &op);
    MPI_Allreduce(numbers, others, 1, MPI_INT, op, MPI_COMM_WORLD);
}

/* ---- memory that is given up while it is lent */
static void unmapped(void) {
    MPI_Request request;
    size_t length = 1 << 20;
    void *buffer = mmap(NULL, length, PROT_READ | PROT_WRITE, MAP_PRIVATE | MAP_ANONYMOUS, -1, 0);
    MPI_Irecv(buffer, (int)length, MPI_BYTE, 0, 0, MPI_COMM_SELF, &request);
    munmap(buffer, length);
    MPI_Send(numbers, 4, MPI_BYTE, 0, 0, MPI_COMM_SELF);
    MPI_Wait(&request, MPI_STATUS_IGNORE);
}
static void freed(void) {
    MPI_Request request;
    int *buffer = calloc(4, sizeof *buffer);
    MPI_Iallreduce(numbers, buffer, 1, MPI_INT, MPI_SUM, MPI_COMM_WORLD, &request);
    free(buffer);
    MPI_Wait(&request, MPI_STATUS_IGNORE);
}
static void no_memory(void) { MPI_Send((void *)64, 4, MPI_INT, rank, 0, MPI_COMM_WORLD); }

/* ---- what is never freed, and has objects of its own that aren't the program's to free */
static void leaked_window(void) {
    static int exposed[4];
    MPI_Win window;
    MPI_Win_create(exposed, sizeof exposed, sizeof(int), MPI_INFO_NULL, MPI_COMM_WORLD, &window);
}
static void leaked_file(void) {
    MPI_File file;
    MPI_File_open(MPI_COMM_SELF, "/dev/null", MPI_MODE_RDONLY, MPI_INFO_NULL, &file);
}

#define CASE(name) { #name, name }
static const struct {
    const char *name;
    void (*run)(void);
} cases[] = {
    CASE(near_tag), CASE(near_source), CASE(near_communicator), CASE(near_receive), CASE(same_line), CASE(many_pending), CASE(taken), CASE(leaked_communicator), CASE(leaked_type),
    CASE(leaked_group), CASE(leaked_operation), CASE(leaked_request), CASE(leaked_collective), CASE(leaked_info), CASE(leaked_split), CASE(sendrecv), CASE(sendrecv_columns),
    CASE(two_receives), CASE(receive_into_sent), CASE(send_what_comes), CASE(collective_into_pending), CASE(two_collectives), CASE(started_into_pending),
    CASE(gathered_places), CASE(alltoall_places), CASE(type_on_itself), CASE(elements_on_themselves), CASE(in_place_alone), CASE(in_place_gathered), CASE(other_periods),
    CASE(other_sizes), CASE(other_graph), CASE(structures), CASE(static_operations), CASE(unmapped), CASE(freed), CASE(no_memory), CASE(leaked_window), CASE(leaked_file),
};

int main(int argc, char **argv) {
    MPI_Init(&argc, &argv);
    MPI_Comm_rank(MPI_COMM_WORLD, &rank);
    MPI_Comm_size(MPI_COMM_WORLD, &size);
    for (size_t i = 0; i < sizeof cases / sizeof cases[0]; i++)
        if (argc > 1 && strcmp(argv[1], cases[i].name) == 0) cases[i].run();
    MPI_Finalize();
    return 0;
}
