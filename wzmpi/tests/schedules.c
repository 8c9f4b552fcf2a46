/* Programs some of whose runs end and others deadlock, as it comes which requests a call completes: schedules NAME [MICROSECONDS], of which check_schedules.py knows what is said. */
#include <mpi.h>
#include <stdio.h>
#include <string.h>
#include <unistd.h>

static int rank, mine, got[4], which, later = 30000; /* the microseconds that rank 2 comes later */
static MPI_Comm pairs[3]; /* pairs[I]: of ranks 0 and I */

static void make_pairs(void) {
    for (int i = 1; i < 3; i++) MPI_Comm_split(MPI_COMM_WORLD, rank == 0 || rank == i ? 0 : MPI_UNDEFINED, 0, &pairs[i]);
}
static void free_pairs(void) {
    for (int i = 1; i < 3; i++)
        if (rank == 0 || rank == i) MPI_Comm_free(&pairs[i]);
}

static void begin_job(int client, MPI_Request *job) { MPI_Igather(&mine, 1, MPI_INT, got, 1, MPI_INT, 0, pairs[client], job); }
static void send_job(void) {
    MPI_Request job;
    begin_job(rank, &job);
    MPI_Wait(&job, MPI_STATUS_IGNORE);
}
/* The server asks client 1 for its next job after the first one, whoever sent that. Client 1 has it only behind the barrier. */
static void server(void) {
    MPI_Request jobs[2];
    make_pairs();
    if (rank == 2) usleep((useconds_t)later);
    if (rank == 0) {
        begin_job(1, &jobs[0]);
        begin_job(2, &jobs[1]);
        MPI_Waitany(2, jobs, &which, MPI_STATUS_IGNORE);
        begin_job(1, &jobs[0]); /* the mistake: it may be there still */
        MPI_Waitany(2, jobs, &which, MPI_STATUS_IGNORE);
    } else send_job();
    MPI_Barrier(MPI_COMM_WORLD);
    if (rank == 0) MPI_Waitall(2, jobs, MPI_STATUSES_IGNORE);
    if (rank == 1) send_job();
    free_pairs();
}

static void begin_event(int source, MPI_Request *event) { MPI_Ibcast(&got[source], 1, MPI_INT, 1, pairs[source], event); }
static void raise_event(void) {
    MPI_Request event;
    begin_event(rank, &event);
    MPI_Wait(&event, MPI_STATUS_IGNORE);
}
static void handle_some(int many, MPI_Request events[]) {
    int indices[3], handled = 0;
    while (handled == 0) MPI_Testsome(many, events, &handled, indices, MPI_STATUSES_IGNORE);
}
/* The loop handles what is there, twice. If both events are there at first, the second turn waits for one that comes only behind the barrier. */
static void event_loop(void) {
    MPI_Request events[3];
    make_pairs();
    if (rank == 2) usleep((useconds_t)later);
    if (rank == 0) {
        begin_event(1, &events[0]);
        begin_event(2, &events[1]);
        handle_some(2, events);
        begin_event(1, &events[2]);
        handle_some(3, events);
    } else raise_event();
    MPI_Barrier(MPI_COMM_WORLD);
    if (rank == 0) MPI_Waitall(3, events, MPI_STATUSES_IGNORE);
    if (rank == 1) raise_event();
    free_pairs();
}

/* Ranks 0 and 1 begin the barriers of two communicators, take the first that is done, and then wait for another one of their own communicator, which is the next if
   it was that one. If both take their own, each waits for the barrier that the other begins last. */
static void race(void) {
    MPI_Comm comms[2];
    MPI_Request turns[3];
    for (int i = 0; i < 2; i++) MPI_Comm_dup(MPI_COMM_WORLD, &comms[i]);
    for (int i = 0; i < 2; i++) MPI_Ibarrier(comms[i], &turns[i == rank]);
    MPI_Waitany(2, turns, &which, MPI_STATUS_IGNORE);
    MPI_Ibarrier(comms[rank], &turns[2]);
    MPI_Waitany(2, turns + 1, &which, MPI_STATUS_IGNORE);
    MPI_Ibarrier(comms[1 - rank], &turns[0]); /* turns[0] may be active still */
    MPI_Waitall(3, turns, MPI_STATUSES_IGNORE);
    for (int i = 0; i < 2; i++) MPI_Comm_free(&comms[i]);
}

/* Rank 0 looks whose message is there first, and then receives from any rank. If the former is rank 2's and the latter rank 1's, it waits for what nobody sends. */
static void first_come(void) {
    MPI_Status first, second;
    int there = 0;
    if (rank == 2) usleep((useconds_t)later);
    for (int tag = 0; rank > 0 && tag < 2; tag++) MPI_Send(&mine, 1, MPI_INT, 0, tag, MPI_COMM_WORLD);
    if (rank == 0) {
        while (!there) MPI_Iprobe(MPI_ANY_SOURCE, 0, MPI_COMM_WORLD, &there, &first);
        MPI_Recv(got, 1, MPI_INT, first.MPI_SOURCE, 0, MPI_COMM_WORLD, MPI_STATUS_IGNORE);
        MPI_Recv(got, 1, MPI_INT, MPI_ANY_SOURCE, 1, MPI_COMM_WORLD, &second);
        if (first.MPI_SOURCE == 2 && second.MPI_SOURCE == 1) MPI_Recv(got, 1, MPI_INT, 1, 2, MPI_COMM_WORLD, MPI_STATUS_IGNORE);
        for (int tag = 0; tag < 2; tag++) MPI_Recv(got, 1, MPI_INT, MPI_ANY_SOURCE, tag, MPI_COMM_WORLD, MPI_STATUS_IGNORE);
    }
    MPI_Barrier(MPI_COMM_WORLD);
}

/* Right, whatever is completed first: each rank takes what is done of four barriers until all are. */
static void harmless(void) {
    MPI_Comm comms[4];
    MPI_Request requests[4];
    int indices[4], handled = 0, left = 4, done = 0;
    for (int i = 0; i < 4; i++) MPI_Comm_dup(MPI_COMM_WORLD, &comms[i]);
    for (int i = 0; i < 4; i++) MPI_Ibarrier(comms[i], &requests[i]);
    while (!done) MPI_Test(&requests[1], &done, MPI_STATUS_IGNORE);
    for (left--; left > 1; left -= handled) MPI_Waitsome(4, requests, &handled, indices, MPI_STATUSES_IGNORE);
    for (done = 0; !done;) MPI_Testall(4, requests, &done, MPI_STATUSES_IGNORE);
    MPI_Waitany(4, requests, &which, MPI_STATUS_IGNORE);
    for (int i = 0; i < 4; i++) MPI_Comm_free(&comms[i]);
}

#define CASE(name) { #name, name }
static const struct {
    const char *name;
    void (*run)(void);
} cases[] = { CASE(server), CASE(event_loop), CASE(race), CASE(first_come), CASE(harmless) };

int main(int argc, char **argv) {
    MPI_Init(&argc, &argv);
    MPI_Comm_rank(MPI_COMM_WORLD, &rank);
    if (argc > 2) sscanf(argv[2], "%d", &later);
    for (size_t i = 0; i < sizeof cases / sizeof cases[0]; i++)
        if (argc > 1 && strcmp(cases[i].name, argv[1]) == 0) cases[i].run();
    MPI_Finalize();
    return 0;
}
