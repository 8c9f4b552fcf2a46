/* What the programs for ../tried.py share: each file of them has a row of programs, of which main runs the one that is named. */
#define _GNU_SOURCE
#include <mpi.h>
#include <pthread.h>
#include <stdio.h>
#include <stdlib.h>
#include <string.h>
#include <sys/mman.h>
#include <unistd.h>
#ifdef OPEN_MPI
#include <mpi-ext.h>
#define INIT(call) MPIX_##call
#else
#define INIT(call) MPI_##call
#endif

enum { MANY = 5000, LARGE = 1 << 20, ROOM = 4096 };

static int rank, size, one = 1, sum, row[ROOM], other[ROOM];
static MPI_Comm world, twin;
static MPI_Request request, requests[8];

static inline void never(void) {
    for (;;)
        sleep(1);
}

/* Many bytes in little memory: the same page again and again. */
static inline char *many_bytes(size_t bytes) {
    enum { PAGE = 1 << 20 };
    int file = memfd_create("many", 0);
    char *all = mmap(NULL, bytes, PROT_NONE, MAP_PRIVATE | MAP_ANONYMOUS | MAP_NORESERVE, -1, 0);
    if (file < 0 || all == MAP_FAILED || ftruncate(file, PAGE))
        MPI_Abort(world, 1);
    for (size_t at = 0; at < bytes; at += PAGE)
        if (mmap(all + at, PAGE, PROT_READ | PROT_WRITE, MAP_SHARED | MAP_FIXED, file, 0) == MAP_FAILED)
            MPI_Abort(world, 1);
    close(file);
    return all;
}

#define PROGRAM(name) {#name, name}
struct program {
    const char *name;
    void (*run)(void);
};
extern const struct program programs[]; /* the last has no name */

int main(int words, char **word) {
    int level;
    MPI_Init_thread(&words, &word, strstr(word[1], "threads") ? MPI_THREAD_MULTIPLE : MPI_THREAD_SINGLE, &level);
    world = MPI_COMM_WORLD;
    MPI_Comm_rank(world, &rank);
    MPI_Comm_size(world, &size);
    for (const struct program *it = programs; it->name; it++)
        if (!strcmp(word[1], it->name))
            it->run();
    MPI_Finalize();
    return 0;
}
