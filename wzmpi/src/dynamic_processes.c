/* What would start or find further processes (MPI 4.1, 11.6 to 11.8). wzrun runs a fixed number of ranks, so each of these calls is refused. */
#include "diagnostics.h"

static int refuse_further(MPI_Comm handle, int class, const char *call) {
    this_rank(call);
    struct comm *comm = find_comm(handle);
    return refuse(comm, class, call, "wzrun runs the %d ranks that -n says, and no further process can be started or connected", the_run.size);
}

int MPI_Comm_spawn(const char *command, char *words[], int most, MPI_Info info, int root, MPI_Comm comm, MPI_Comm *made, int codes[]) {
    (void)command, (void)words, (void)most, (void)info, (void)root, (void)codes;
    *made = MPI_COMM_NULL;
    return refuse_further(comm, MPI_ERR_SPAWN, "MPI_Comm_spawn");
}

int MPI_Comm_spawn_multiple(int many, char *commands[], char **words[], const int most[], const MPI_Info infos[], int root, MPI_Comm comm, MPI_Comm *made, int codes[]) {
    (void)many, (void)commands, (void)words, (void)most, (void)infos, (void)root, (void)codes;
    *made = MPI_COMM_NULL;
    return refuse_further(comm, MPI_ERR_SPAWN, "MPI_Comm_spawn_multiple");
}

int MPI_Open_port(MPI_Info info, char *port) {
    (void)info, (void)port;
    return refuse_further(MPI_COMM_SELF, MPI_ERR_PORT, "MPI_Open_port");
}

int MPI_Close_port(const char *port) {
    (void)port;
    return refuse_further(MPI_COMM_SELF, MPI_ERR_PORT, "MPI_Close_port");
}

int MPI_Comm_accept(const char *port, MPI_Info info, int root, MPI_Comm comm, MPI_Comm *made) {
    (void)port, (void)info, (void)root;
    *made = MPI_COMM_NULL;
    return refuse_further(comm, MPI_ERR_PORT, "MPI_Comm_accept");
}

int MPI_Comm_connect(const char *port, MPI_Info info, int root, MPI_Comm comm, MPI_Comm *made) {
    (void)port, (void)info, (void)root;
    *made = MPI_COMM_NULL;
    return refuse_further(comm, MPI_ERR_PORT, "MPI_Comm_connect");
}

int MPI_Comm_join(int descriptor, MPI_Comm *made) {
    (void)descriptor;
    *made = MPI_COMM_NULL;
    return refuse_further(MPI_COMM_SELF, MPI_ERR_PORT, "MPI_Comm_join");
}

int MPI_Publish_name(const char *service, MPI_Info info, const char *port) {
    (void)service, (void)info, (void)port;
    return refuse_further(MPI_COMM_SELF, MPI_ERR_SERVICE, "MPI_Publish_name");
}

int MPI_Unpublish_name(const char *service, MPI_Info info, const char *port) {
    (void)service, (void)info, (void)port;
    return refuse_further(MPI_COMM_SELF, MPI_ERR_SERVICE, "MPI_Unpublish_name");
}

int MPI_Lookup_name(const char *service, MPI_Info info, char *port) {
    (void)service, (void)info, (void)port;
    return refuse_further(MPI_COMM_SELF, MPI_ERR_NAME, "MPI_Lookup_name");
}
