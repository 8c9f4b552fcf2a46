/* Programs with one planted mistake each, by calls that few programs have: more_wrong NAME runs one of them. tests/more_wrong.want has what wzrun says of each. */
#include <mpi.h>
#include <stdio.h>
#include <string.h>

static int rank, size, number;
static MPI_Session session;
static MPI_Group group;
static MPI_Comm comm;

static void begin(void) { MPI_Session_init(MPI_INFO_NULL, MPI_ERRORS_ARE_FATAL, &session); }
static void take_world(void) { MPI_Group_from_session_pset(session, "mpi://WORLD", &group); }

static void spawn(void) {
    if (rank == 0) MPI_Comm_spawn("worker", MPI_ARGV_NULL, 2, MPI_INFO_NULL, 0, MPI_COMM_SELF, &comm, MPI_ERRCODES_IGNORE);
}
static void other_set(void) {
    begin();
    if (rank == 1) MPI_Group_from_session_pset(session, "app://ocean", &group);
}
static void ended_session(void) {
    begin();
    MPI_Session copy = session;
    MPI_Session_finalize(&session);
    if (rank == 2) MPI_Session_get_num_psets(copy, MPI_INFO_NULL, &number);
}
static void open_session(void) { begin(); }
static void not_in_group(void) {
    begin();
    MPI_Group few;
    take_world();
    MPI_Group_incl(group, 1, (int[]){ 0 }, &few);
    if (rank == 1) MPI_Comm_create_from_group(few, "first", MPI_INFO_NULL, MPI_ERRORS_ARE_FATAL, &comm);
}
static void lacking_member(void) {
    begin();
    take_world();
    if (rank == 2) return;
    MPI_Comm_create_from_group(group, "all", MPI_INFO_NULL, MPI_ERRORS_ARE_FATAL, &comm);
    MPI_Barrier(comm);
}
static void other_tag(void) {
    begin();
    take_world();
    MPI_Comm_create_from_group(group, rank == 1 ? "one" : "all", MPI_INFO_NULL, MPI_ERRORS_ARE_FATAL, &comm);
    MPI_Barrier(comm);
}

#define CASE(name) { #name, name }
static const struct {
    const char *name;
    void (*run)(void);
} cases[] = { CASE(spawn), CASE(other_set), CASE(ended_session), CASE(open_session), CASE(not_in_group), CASE(lacking_member), CASE(other_tag) };

int main(int argc, char **argv) {
    MPI_Init(&argc, &argv);
    MPI_Comm_rank(MPI_COMM_WORLD, &rank);
    MPI_Comm_size(MPI_COMM_WORLD, &size);
    for (size_t i = 0; i < sizeof cases / sizeof cases[0]; i++)
        if (argc > 1 && strcmp(argv[1], cases[i].name) == 0) cases[i].run();
    MPI_Finalize();
    return 0;
}
