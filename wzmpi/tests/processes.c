/* What a rank has for itself, as a process has it: processes NAME, whose output check_processes.py knows. */
#include <dlfcn.h>
#include <mpi.h>
#include <pthread.h>
#include <stdio.h>
#include <stdlib.h>
#include <string.h>
#include <sys/stat.h>
#include <unistd.h>

void kept_begin(MPI_Comm comm);
int kept_sum(int number);
int kept_calls(void);
void kept_end(void);

static int rank, size;

/* Ranks take turns, so that a state that they shared would show. */
static void draws(void) {
    for (int turn = 0; turn < size; turn++) {
        MPI_Barrier(MPI_COMM_WORLD);
        if (turn != rank) continue;
        int first = rand();
        srand(7);
        int second = rand();
        long third = random();
        srand48(5);
        double fourth = drand48();
        long fifth = lrand48();
        printf("rank %d: %d %d %ld %.6f %ld\n", rank, first, second, third, fourth, fifth);
    }
}
static void tables(void) {
    char table[64], *before = initstate(3, table, sizeof table);
    long first = random();
    MPI_Barrier(MPI_COMM_WORLD);
    setstate(before);
    printf("rank %d: %ld %ld\n", rank, first, random());
}
static void lines(void) {
    for (int i = 0; i < 2000; i++) {
        printf("rank %d", rank);
        printf(" line %d", i);
        putchar(' ');
        puts("of two thousand");
    }
}
/* A process that leaves its stream in the middle of a line writes it at its end. */
static void unended(void) {
    if (rank == 1) printf("the end of rank 1");
    MPI_Barrier(MPI_COMM_WORLD);
    if (rank == 0) puts("the line of rank 0");
    MPI_Barrier(MPI_COMM_WORLD);
    if (rank > 0) return;
    MPI_Finalize();
    exit(0);
}
static void reopened(void) {
    char name[40];
    snprintf(name, sizeof name, "rank.%d", rank);
    if (freopen(name, "w", stdout) == NULL) abort();
    MPI_Barrier(MPI_COMM_WORLD);
    printf("this is rank %d\n", rank);
}
static void input(void) {
    int number = -1, many = scanf("%d", &number);
    for (int turn = 0; turn < size; turn++) {
        MPI_Barrier(MPI_COMM_WORLD);
        if (turn == rank) printf("rank %d reads %d, %d\n", rank, many == EOF ? -1 : many, number);
    }
}
static void folders(void) {
    char name[40], path[500] = "";
    mode_t mask = rank == 0 ? 077 : 022;
    snprintf(name, sizeof name, "folder.%d", rank);
    if (mkdir(name, 0777) != 0 || chdir(name) != 0) abort();
    umask(mask);
    MPI_Barrier(MPI_COMM_WORLD);
    if (getcwd(path, sizeof path) == NULL || strcmp(strrchr(path, '/') + 1, name) != 0) printf("rank %d is in %s\n", rank, path);
    if (umask(mask) != mask) printf("rank %d has another umask\n", rank);
}
static void library(void) {
    int sum = 0, calls, all[64];
    kept_begin(MPI_COMM_WORLD);
    for (int i = 0; i < 5; i++) sum += kept_sum(rank + i);
    calls = kept_calls();
    MPI_Gather(&calls, 1, MPI_INT, all, 1, MPI_INT, 0, MPI_COMM_WORLD);
    for (int i = 0; rank == 0 && i < size; i++)
        if (all[i] != 5) printf("rank %d's library counts %d calls\n", i, all[i]);
    if (rank == 0) printf("sum %d\n", sum);
    kept_end();
}
int of_program(int number) { return number + 100 * rank; }
static void plugin(void) {
    void *loaded = dlopen("./plugin.so", RTLD_NOW | RTLD_LOCAL), *again = dlopen("./plugin.so", RTLD_NOW | RTLD_LOCAL);
    if (loaded == NULL || loaded != again) {
        fprintf(stderr, "%s\n", loaded == NULL ? dlerror() : "the plugin was loaded twice");
        MPI_Abort(MPI_COMM_WORLD, 9);
    }
    int (*step)(MPI_Comm, int);
    void *found = dlsym(loaded, "plugin_step"), *own = dlsym(RTLD_DEFAULT, "of_program");
    memcpy(&step, &found, sizeof step);
    int first = step(MPI_COMM_WORLD, rank), second = step(MPI_COMM_WORLD, rank + 5);
    if (first != 10 * (size - 1) + 1 || second != 10 * (size + 4) + 2) printf("rank %d's plugin: %d %d\n", rank, first, second);
    if (own == NULL) printf("rank %d doesn't find its own function\n", rank);
    dlclose(again);
    dlclose(loaded);
}
/* Another thread of the program has the rank whose code it runs. */
static void *draw_in_thread(void *to) {
    *(int *)to = rand();
    return NULL;
}
static void thread(void) {
    pthread_t one;
    int first = 0;
    pthread_create(&one, NULL, draw_in_thread, &first);
    pthread_join(one, NULL);
    if (first != 1804289383 || rand() != 846930886) printf("rank %d has other draws\n", rank);
}
static void common(void) {
    setenv("RANK", "0", 1);
    if (getpid() < 1) abort();
}

#define CASE(name) { #name, name }
static const struct {
    const char *name;
    void (*run)(void);
} cases[] = { CASE(draws), CASE(tables), CASE(lines), CASE(unended), CASE(reopened), CASE(input), CASE(folders), CASE(library), CASE(plugin), CASE(thread), CASE(common) };

int main(int argc, char **argv) {
    MPI_Init(&argc, &argv);
    MPI_Comm_rank(MPI_COMM_WORLD, &rank);
    MPI_Comm_size(MPI_COMM_WORLD, &size);
    for (size_t i = 0; i < sizeof cases / sizeof cases[0]; i++)
        if (argc > 1 && strcmp(argv[1], cases[i].name) == 0) cases[i].run();
    MPI_Finalize();
    return 0;
}
