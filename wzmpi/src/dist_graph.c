/* MPI_Dist_graph_create: each member names some edges of the graph, and gets those that begin or end at it (MPI 4.1, 8.5.4). */
#include "collectives.h"
#include "diagnostics.h"

struct edge {
    int from, to, weight;
};

struct edges {
    struct edge *at;
    int many;
};

/* The edges that this member names. */
static int read_edges(struct comm *comm, int nodes, const int sources[], const int degrees[], const int destinations[], const int weights[], struct edges *edges,
                      const char *call) {
    long long all = 0;
    if (nodes < 0) return refuse(comm, MPI_ERR_ARG, call, "the number %d of nodes is negative", nodes);
    for (int i = 0; i < nodes; i++) {
        if (sources[i] < 0 || sources[i] >= comm->size) return refuse(comm, MPI_ERR_ARG, call, "node %d is rank %d, which isn't in the communicator", i, sources[i]);
        if (degrees[i] < 0) return refuse(comm, MPI_ERR_ARG, call, "the degree %d of node %d is negative", degrees[i], i);
        all += degrees[i];
    }
    bool weighted = weights != MPI_UNWEIGHTED && weights != MPI_WEIGHTS_EMPTY;
    edges->at = must(malloc(sizeof *edges->at * (size_t)(all + 1)));
    for (int i = 0; i < nodes; i++)
        for (int j = 0; j < degrees[i]; j++) {
            int to = destinations[edges->many];
            if (to < 0 || to >= comm->size) return refuse(comm, MPI_ERR_ARG, call, "an edge of node %d goes to rank %d, which isn't in the communicator", i, to);
            edges->at[edges->many] = (struct edge){ sources[i], to, weighted ? weights[edges->many] : 0 };
            edges->many++;
        }
    return MPI_SUCCESS;
}

static void add(int **neighbors, int **weights, int *many, int neighbor, int weight) {
    *neighbors = must(realloc(*neighbors, sizeof **neighbors * (size_t)(*many + 1)));
    *weights = must(realloc(*weights, sizeof **weights * (size_t)(*many + 1)));
    (*neighbors)[*many] = neighbor;
    (*weights)[(*many)++] = weight;
}

/* Of all members' edges those that begin or end at this one. */
static struct topology own_part(struct comm *comm, struct request *done, bool weighted) {
    struct topology topology = { .kind = MPI_DIST_GRAPH, .weighted = weighted };
    int me = my_member(comm);
    for (int i = 0; i < comm->size; i++) {
        size_t length;
        const struct edge *edges = parcel_bytes(done, i, &length);
        for (size_t j = 0; j < length / sizeof *edges; j++) {
            if (edges[j].from == me) add(&topology.destinations, &topology.destination_weights, &topology.out, edges[j].to, edges[j].weight);
            if (edges[j].to == me) add(&topology.sources, &topology.source_weights, &topology.in, edges[j].from, edges[j].weight);
        }
    }
    return topology;
}

static int create(struct comm *comm, const struct edges *edges, bool weighted, MPI_Comm *made, const char *call) {
    struct request *done;
    int ranks[MOST_RANKS];
    struct arguments arguments = { .function = EXCHANGE, .form = BLOCKING, .give = edges->at, .give_count = (long long)(sizeof *edges->at * (size_t)edges->many),
                                   .give_type = MPI_BYTE, .name = call };
    int code = post_and_wait(comm, &arguments, &done);
    if (code != MPI_SUCCESS) return code;
    for (int i = 0; i < comm->size; i++) ranks[i] = comm->members[i].rank;
    *made = join_comm(comm, done->place << 32, call, ranks, comm->size, 0);
    give_topology(*made, own_part(comm, done, weighted));
    drop_request(done);
    return code;
}

int MPI_Dist_graph_create(MPI_Comm handle, int nodes, const int sources[], const int degrees[], const int destinations[], const int weights[], MPI_Info info, int reorder,
                          MPI_Comm *made) {
    const char *call = "MPI_Dist_graph_create";
    struct edges edges = { NULL, 0 };
    (void)info, (void)reorder;
    this_rank(call);
    struct comm *comm = find_comm(handle);
    if (comm == NULL) return comm_error(handle, call);
    if (comm->first > 0) return refuse(comm, MPI_ERR_COMM, call, "a topology isn't for an intercommunicator");
    int code = read_edges(comm, nodes, sources, degrees, destinations, weights, &edges, call);
    if (code == MPI_SUCCESS) code = create(comm, &edges, weights != MPI_UNWEIGHTED, made, call);
    free(edges.at);
    return code;
}
