/* Threads of a rank: threads NAME, of which check_threads.py knows what is said. */
#include <mpi.h>
#include <pthread.h>
#include <stdio.h>
#include <stdlib.h>
#include <string.h>
#include <unistd.h>

enum { THREADS = 4, ROUNDS = 50 };
static int rank, size, level, one, two;

static void in_thread(void *(*run)(void *)) {
    pthread_t thread;
    pthread_create(&thread, NULL, run, NULL);
    pthread_join(thread, NULL);
}

/* ---- wrong */
static void *send_one(void *unused) {
    MPI_Send(&one, 1, MPI_INT, rank, 3, MPI_COMM_SELF);
    return unused;
}
static void single(void) { in_thread(send_one); }
static void funneled(void) {
    MPI_Barrier(MPI_COMM_WORLD);
    if (rank == 1) in_thread(send_one);
    MPI_Barrier(MPI_COMM_WORLD);
}
static void *receive_one(void *unused) {
    MPI_Recv(&one, 1, MPI_INT, 0, 3, MPI_COMM_SELF, MPI_STATUS_IGNORE);
    return unused;
}
static void *receive_other(void *unused) {
    MPI_Recv(&one, 1, MPI_INT, size - 1, 3, MPI_COMM_WORLD, MPI_STATUS_IGNORE);
    return unused;
}
/* One thread waits in a call for what another rank may send still, and the other calls until the first is there: for a minute at most. */
static void serialized(void) {
    pthread_t thread;
    if (rank > 0) sleep(100);
    else pthread_create(&thread, NULL, receive_other, NULL);
    for (int turn = 0; rank == 0 && turn < 60000; turn++) {
        usleep(1000);
        MPI_Send(&two, 1, MPI_INT, 0, 5, MPI_COMM_SELF);
    }
}

/* ---- right, under MPI_THREAD_MULTIPLE */
static MPI_Comm comms[THREADS];
static int faults[THREADS];

/* Each thread has a communicator, on which it calls collectives of all kinds and messages, while the others do so too. */
static void *work(void *given) {
    int thread = *(int *)given, got, all = size * (size - 1) / 2;
    MPI_Comm comm = comms[thread];
    for (int round = 0; round < ROUNDS; round++) {
        int mine = rank, root = round % size, number = round;
        MPI_Request requests[2];
        MPI_Allreduce(&mine, &got, 1, MPI_INT, MPI_SUM, comm);
        faults[thread] += got != all;
        MPI_Bcast(&number, 1, MPI_INT, root, comm);
        faults[thread] += number != round;
        MPI_Irecv(&got, 1, MPI_INT, (rank + size - 1) % size, thread, comm, &requests[0]);
        MPI_Isend(&mine, 1, MPI_INT, (rank + 1) % size, thread, comm, &requests[1]);
        MPI_Waitall(2, requests, MPI_STATUSES_IGNORE);
        faults[thread] += got != (rank + size - 1) % size;
        MPI_Iallreduce(&mine, &got, 1, MPI_INT, MPI_MAX, comm, &requests[0]);
        for (int done = 0; !done;) MPI_Test(&requests[0], &done, MPI_STATUS_IGNORE);
        faults[thread] += got != size - 1;
    }
    return NULL;
}
static void multiple(void) {
    pthread_t threads[THREADS];
    int numbers[THREADS], all = 0;
    for (int i = 0; i < THREADS; i++) MPI_Comm_dup(MPI_COMM_WORLD, &comms[i]);
    for (int i = 0; i < THREADS; i++) {
        numbers[i] = i;
        pthread_create(&threads[i], NULL, work, &numbers[i]);
    }
    for (int i = 0; i < THREADS; i++) {
        pthread_join(threads[i], NULL);
        all += faults[i];
        MPI_Comm_free(&comms[i]);
    }
    if (all > 0 || level != MPI_THREAD_MULTIPLE) printf("rank %d: %d faults, level %d\n", rank, all, level);
}
/* A thread waits for what another thread of its rank sends. */
static void *send_later(void *unused) {
    usleep(100000);
    MPI_Send(&two, 1, MPI_INT, rank, 7, MPI_COMM_WORLD);
    return unused;
}
static void to_itself(void) {
    pthread_t thread;
    two = 5;
    pthread_create(&thread, NULL, send_later, NULL);
    MPI_Recv(&one, 1, MPI_INT, rank, 7, MPI_COMM_WORLD, MPI_STATUS_IGNORE);
    pthread_join(thread, NULL);
    if (one != 5) printf("rank %d gets %d\n", rank, one);
}
/* A thread completes a collective's request while another waits in a collective of the same communicator. */
static void *complete_later(void *request) {
    usleep(50000);
    MPI_Wait(request, MPI_STATUS_IGNORE);
    MPI_Send(&one, 1, MPI_INT, (rank + 1) % size, 8, MPI_COMM_WORLD);
    return NULL;
}
static void beside_wait(void) {
    pthread_t thread;
    MPI_Request request;
    MPI_Ibarrier(MPI_COMM_WORLD, &request);
    pthread_create(&thread, NULL, complete_later, &request);
    if (rank == 0) MPI_Recv(&two, 1, MPI_INT, size - 1, 8, MPI_COMM_WORLD, MPI_STATUS_IGNORE);
    MPI_Barrier(MPI_COMM_WORLD);
    if (rank > 0) MPI_Recv(&two, 1, MPI_INT, rank - 1, 8, MPI_COMM_WORLD, MPI_STATUS_IGNORE);
    pthread_join(thread, NULL);
}
/* Right under any level: threads that ask for it. */
static void *ask(void *unused) {
    int given, flag, first;
    MPI_Query_thread(&given);
    MPI_Is_thread_main(&flag);
    MPI_Initialized(&first);
    if (given != level || flag || !first) printf("rank %d: level %d, main %d, begun %d\n", rank, given, flag, first);
    return unused;
}
static void asking(void) { in_thread(ask); }
/* All threads of all ranks wait. */
static void waiting(void) {
    pthread_t thread;
    pthread_create(&thread, NULL, receive_one, NULL);
    MPI_Recv(&two, 1, MPI_INT, (rank + 1) % size, 4, MPI_COMM_WORLD, MPI_STATUS_IGNORE);
    pthread_join(thread, NULL);
}

#define CASE(name, level) { #name, name, level }
static const struct {
    const char *name;
    void (*run)(void);
    int level;
} cases[] = {
    CASE(single, MPI_THREAD_SINGLE), CASE(funneled, MPI_THREAD_FUNNELED), CASE(serialized, MPI_THREAD_SERIALIZED), CASE(multiple, MPI_THREAD_MULTIPLE),
    CASE(to_itself, MPI_THREAD_MULTIPLE), CASE(beside_wait, MPI_THREAD_MULTIPLE), CASE(asking, MPI_THREAD_FUNNELED), CASE(waiting, MPI_THREAD_MULTIPLE),
};

int main(int argc, char **argv) {
    for (size_t i = 0; i < sizeof cases / sizeof cases[0]; i++) {
        if (argc < 2 || strcmp(argv[1], cases[i].name) != 0) continue;
        MPI_Init_thread(&argc, &argv, cases[i].level, &level);
        MPI_Comm_rank(MPI_COMM_WORLD, &rank);
        MPI_Comm_size(MPI_COMM_WORLD, &size);
        if (level != cases[i].level) printf("the level is %d\n", level);
        cases[i].run();
        MPI_Finalize();
    }
    return 0;
}
