/* Topologies: which members of a communicator are neighbours (MPI 4.1, 8). Ranks are never put in another order. */
#include "collectives.h"
#include "diagnostics.h"

static struct comm *judged(MPI_Comm handle, const char *call, int *code) {
    this_rank(call);
    struct comm *comm = find_comm(handle);
    *code = MPI_SUCCESS;
    if (comm == NULL) *code = comm_error(handle, call);
    else if (comm->first > 0) *code = refuse(comm, MPI_ERR_COMM, call, "a topology isn't for an intercommunicator");
    return *code == MPI_SUCCESS ? comm : NULL;
}

static struct topology *topology_of(struct comm *comm) { return comm->topologies != NULL ? comm->topologies[my_member(comm)] : NULL; }

static struct topology *known(MPI_Comm handle, int kind, const char *call, int *code) {
    struct comm *comm = judged(handle, call, code);
    if (comm == NULL) return NULL;
    struct topology *topology = topology_of(comm);
    if (topology != NULL && topology->kind == kind) return topology;
    *code = refuse(comm, MPI_ERR_TOPOLOGY, call, "the communicator has no such topology");
    return NULL;
}

static int *copy_of(const int *numbers, int many) {
    int *copy = must(malloc(sizeof *copy * (size_t)(many + 1)));
    if (many > 0) memcpy(copy, numbers, sizeof *copy * (size_t)many);
    return copy;
}

/* All members of the parent take part; the first SIZE of them get the communicator. */
static int make(struct comm *comm, int size, const char *call, MPI_Comm *made) {
    struct request *done;
    int ranks[MOST_RANKS];
    int code = post_and_wait(comm, &(struct arguments){ .function = COMM_CREATE, .form = BLOCKING, .give_type = MPI_BYTE, .name = call }, &done);
    if (code != MPI_SUCCESS) return code;
    for (int i = 0; i < size; i++) ranks[i] = comm->members[i].rank;
    *made = MPI_COMM_NULL;
    if (my_member(comm) < size) *made = join_comm(comm, done->place << 32, call, ranks, size, 0);
    drop_request(done);
    return code;
}

void give_topology(MPI_Comm handle, struct topology topology) {
    struct comm *comm = find_comm(handle);
    pthread_mutex_lock(&comm->guard);
    if (comm->topologies == NULL) comm->topologies = must(calloc((size_t)comm->size, sizeof *comm->topologies));
    pthread_mutex_unlock(&comm->guard);
    struct topology *own = must(malloc(sizeof *own));
    *own = topology;
    pthread_mutex_lock(&comm->guard);
    comm->topologies[my_member(comm)] = own;
    pthread_mutex_unlock(&comm->guard);
}

static bool same_numbers(const int *one, const int *other, int many, bool as_truth) {
    for (int i = 0; i < many; i++)
        if (as_truth ? (one[i] != 0) != (other[i] != 0) : one[i] != other[i]) return false;
    return true;
}

/* What differs between two members' grids or graphs, which have to be alike (MPI 4.1, 8.5.1 and 8.5.3). NULL: nothing. */
static const char *difference(const struct topology *one, const struct topology *other) {
    if (one->kind == MPI_GRAPH) {
        bool same = one->nodes == other->nodes && same_numbers(one->index, other->index, one->nodes, false);
        int edges = one->nodes > 0 ? one->index[one->nodes - 1] : 0;
        return same && same_numbers(one->edges, other->edges, edges, false) ? NULL : "another graph";
    }
    if (one->dimensions != other->dimensions) return "another number of dimensions";
    if (!same_numbers(one->sizes, other->sizes, one->dimensions, false)) return "other sizes of dimensions";
    return same_numbers(one->periods, other->periods, one->dimensions, true) ? NULL : "other periods";
}

/* Compares this member's with those of the members that have come so far. */
static int judge_alike(MPI_Comm handle, const char *call) {
    struct comm *comm = find_comm(handle);
    const struct topology *own = topology_of(comm);
    const char *what = NULL;
    int rank = -1;
    pthread_mutex_lock(&comm->guard);
    for (int i = 0; i < comm->size && what == NULL; i++) {
        if (comm->topologies[i] == NULL || comm->topologies[i]->kind != own->kind) continue;
        what = difference(own, comm->topologies[i]);
        rank = comm->members[i].rank;
    }
    pthread_mutex_unlock(&comm->guard);
    return what == NULL ? MPI_SUCCESS : refuse(comm, MPI_ERR_ARG, call, "rank %d says %s", rank, what);
}

static int *copy_of_some(const int *numbers, int many) { return numbers != NULL ? copy_of(numbers, many) : NULL; }

/* A copy of a communicator has its topology too (MPI 4.1, 7.4.2). */
void copy_topology(struct comm *comm, MPI_Comm copy) {
    const struct topology *topology = topology_of(comm);
    if (topology == NULL) return;
    int edges = topology->kind == MPI_GRAPH && topology->nodes > 0 ? topology->index[topology->nodes - 1] : 0;
    struct topology own = *topology;
    own.sizes = copy_of_some(topology->sizes, topology->dimensions);
    own.periods = copy_of_some(topology->periods, topology->dimensions);
    own.index = copy_of_some(topology->index, topology->nodes);
    own.edges = copy_of_some(topology->edges, edges);
    own.sources = copy_of_some(topology->sources, topology->in);
    own.destinations = copy_of_some(topology->destinations, topology->out);
    own.source_weights = copy_of_some(topology->source_weights, topology->in);
    own.destination_weights = copy_of_some(topology->destination_weights, topology->out);
    give_topology(copy, own);
}

/* ---- Cartesian topologies */

static int rank_at(const struct topology *topology, const int *at) {
    int rank = 0;
    for (int i = 0; i < topology->dimensions; i++) {
        int place = at[i];
        if (topology->periods[i]) place = (place % topology->sizes[i] + topology->sizes[i]) % topology->sizes[i];
        if (place < 0 || place >= topology->sizes[i]) return MPI_PROC_NULL;
        rank = rank * topology->sizes[i] + place;
    }
    return rank;
}

static void place_of(const struct topology *topology, int rank, int *at) {
    for (int i = topology->dimensions - 1; i >= 0; i--) {
        at[i] = rank % topology->sizes[i];
        rank /= topology->sizes[i];
    }
}

static int shifted(const struct topology *topology, int rank, int dimension, int by) {
    int at[64];
    place_of(topology, rank, at);
    at[dimension] += by;
    return rank_at(topology, at);
}

/* For each dimension the one below and the one above. */
static void find_neighbors(struct topology *topology, int rank) {
    topology->in = topology->out = 2 * topology->dimensions;
    topology->sources = must(malloc(sizeof(int) * (size_t)(topology->in + 1)));
    topology->destinations = must(malloc(sizeof(int) * (size_t)(topology->out + 1)));
    for (int i = 0; i < topology->in; i++) topology->sources[i] = topology->destinations[i] = shifted(topology, rank, i / 2, i % 2 == 0 ? -1 : 1);
}

static struct topology grid(int dimensions, const int *sizes, const int *periods, int rank) {
    struct topology topology = { .kind = MPI_CART, .dimensions = dimensions, .sizes = copy_of(sizes, dimensions), .periods = copy_of(periods, dimensions) };
    find_neighbors(&topology, rank);
    return topology;
}

int MPI_Cart_create(MPI_Comm handle, int dimensions, const int sizes[], const int periods[], int reorder, MPI_Comm *made) {
    const char *call = "MPI_Cart_create";
    int code;
    struct comm *comm = judged(handle, call, &code);
    (void)reorder;
    if (comm == NULL) return code;
    if (dimensions < 0 || dimensions > 64) return refuse(comm, MPI_ERR_DIMS, call, "there are %d dimensions", dimensions);
    long long all = 1;
    for (int i = 0; i < dimensions; i++) {
        if (sizes[i] < 1) return refuse(comm, MPI_ERR_DIMS, call, "dimension %d has the size %d", i, sizes[i]);
        all = all * sizes[i] > MOST_RANKS ? MOST_RANKS + 1 : all * sizes[i];
    }
    if (all > comm->size) return refuse(comm, MPI_ERR_ARG, call, "the grid has more ranks than the communicator, which has %d", comm->size);
    code = make(comm, (int)all, call, made);
    if (code != MPI_SUCCESS || *made == MPI_COMM_NULL) return code;
    give_topology(*made, grid(dimensions, sizes, periods, my_member(comm)));
    return judge_alike(*made, call);
}

int MPI_Cartdim_get(MPI_Comm comm, int *dimensions) {
    int code;
    struct topology *topology = known(comm, MPI_CART, "MPI_Cartdim_get", &code);
    if (topology != NULL) *dimensions = topology->dimensions;
    return code;
}

int MPI_Cart_get(MPI_Comm handle, int most, int sizes[], int periods[], int at[]) {
    int code, place[64];
    struct topology *topology = known(handle, MPI_CART, "MPI_Cart_get", &code);
    if (topology == NULL) return code;
    place_of(topology, my_member(find_comm(handle)), place);
    for (int i = 0; i < most && i < topology->dimensions; i++) {
        sizes[i] = topology->sizes[i];
        periods[i] = topology->periods[i];
        at[i] = place[i];
    }
    return code;
}

int MPI_Cart_rank(MPI_Comm handle, const int at[], int *rank) {
    int code;
    struct topology *topology = known(handle, MPI_CART, "MPI_Cart_rank", &code);
    if (topology == NULL) return code;
    *rank = rank_at(topology, at);
    return *rank != MPI_PROC_NULL ? code : refuse(find_comm(handle), MPI_ERR_ARG, "MPI_Cart_rank", "the coordinates lie outside of the grid");
}

int MPI_Cart_coords(MPI_Comm handle, int rank, int most, int at[]) {
    int code, place[64];
    struct topology *topology = known(handle, MPI_CART, "MPI_Cart_coords", &code);
    if (topology == NULL) return code;
    if (rank < 0 || rank >= find_comm(handle)->size) return refuse(find_comm(handle), MPI_ERR_RANK, "MPI_Cart_coords", "there is no rank %d in the communicator", rank);
    place_of(topology, rank, place);
    for (int i = 0; i < most && i < topology->dimensions; i++) at[i] = place[i];
    return code;
}

int MPI_Cart_shift(MPI_Comm handle, int dimension, int by, int *source, int *destination) {
    int code;
    struct topology *topology = known(handle, MPI_CART, "MPI_Cart_shift", &code);
    if (topology == NULL) return code;
    if (dimension < 0 || dimension >= topology->dimensions) return refuse(find_comm(handle), MPI_ERR_DIMS, "MPI_Cart_shift", "there is no dimension %d, there are %d", dimension, topology->dimensions);
    int rank = my_member(find_comm(handle));
    *source = shifted(topology, rank, dimension, -by);
    *destination = shifted(topology, rank, dimension, by);
    return code;
}

int MPI_Cart_sub(MPI_Comm handle, const int stays[], MPI_Comm *made) {
    int code, place[64], sizes[64], periods[64], dimensions = 0, color = 0, key = 0;
    struct topology *topology = known(handle, MPI_CART, "MPI_Cart_sub", &code);
    if (topology == NULL) return code;
    place_of(topology, my_member(find_comm(handle)), place);
    for (int i = 0; i < topology->dimensions; i++) {
        if (!stays[i]) {
            color = color * topology->sizes[i] + place[i];
            continue;
        }
        key = key * topology->sizes[i] + place[i];
        sizes[dimensions] = topology->sizes[i];
        periods[dimensions++] = topology->periods[i];
    }
    code = split_comm(handle, color, key, made, "MPI_Cart_sub");
    if (code == MPI_SUCCESS) give_topology(*made, grid(dimensions, sizes, periods, my_member(find_comm(*made))));
    return code;
}

/* Whether LEFT is a product of that many sizes of at most MOST. */
static bool fits(int left, int order, int most) {
    if (order <= 1) return left <= (order == 1 ? most : 1);
    for (int size = most < left ? most : left; size >= 1; size--) {
        double power = 1;
        for (int i = 0; i < order; i++) power *= size;
        if (power + 0.5 < left) return false;
        if (left % size == 0 && fits(left / size, order - 1, size)) return true;
    }
    return false;
}

/* The least size for which the others needn't be greater. */
static int next_size(int left, int order) {
    int size = 1;
    while (left % size != 0 || !fits(left / size, order - 1, size)) size++;
    return size;
}

/* The dimensions that are 0 get sizes as near to one another as can be, in falling order (MPI 4.1, 8.5.2): the greatest is as small as can be, then the next. */
int MPI_Dims_create(int nodes, int dimensions, int sizes[]) {
    int left = nodes, open = 0, free_at[64];
    for (int i = 0; i < dimensions && i < 64; i++) {
        if (sizes[i] < 0 || (sizes[i] > 0 && left % sizes[i] != 0))
            return refuse(NULL, MPI_ERR_DIMS, "MPI_Dims_create", "dimension %d has the size %d, which doesn't divide the %d nodes", i, sizes[i], nodes);
        if (sizes[i] > 0) left /= sizes[i];
        else free_at[open++] = i;
    }
    if (open == 0 && left != 1) return refuse(NULL, MPI_ERR_DIMS, "MPI_Dims_create", "the sizes don't make %d nodes", nodes);
    for (int i = 0; i < open; i++) {
        sizes[free_at[i]] = next_size(left, open - i);
        left /= sizes[free_at[i]];
    }
    return MPI_SUCCESS;
}

/* ---- graphs */

int MPI_Graph_create(MPI_Comm handle, int nodes, const int index[], const int edges[], int reorder, MPI_Comm *made) {
    const char *call = "MPI_Graph_create";
    int code;
    struct comm *comm = judged(handle, call, &code);
    (void)reorder;
    if (comm == NULL) return code;
    if (nodes < 0 || nodes > comm->size) return refuse(comm, MPI_ERR_ARG, call, "the graph has %d nodes, and the communicator %d ranks", nodes, comm->size);
    int many = nodes > 0 ? index[nodes - 1] : 0, me = my_member(comm);
    for (int i = 0; i < many; i++)
        if (edges[i] < 0 || edges[i] >= nodes) return refuse(comm, MPI_ERR_ARG, call, "edge %d goes to node %d, which isn't there", i, edges[i]);
    code = make(comm, nodes, call, made);
    if (code != MPI_SUCCESS || *made == MPI_COMM_NULL) return code;
    int from = me > 0 ? index[me - 1] : 0, own = index[me] - from;
    give_topology(*made, (struct topology){ .kind = MPI_GRAPH, .nodes = nodes, .index = copy_of(index, nodes), .edges = copy_of(edges, many), .in = own, .out = own,
                                            .sources = copy_of(edges + from, own), .destinations = copy_of(edges + from, own) });
    return judge_alike(*made, call);
}

int MPI_Graph_neighbors_count(MPI_Comm handle, int rank, int *many) {
    int code;
    struct topology *topology = known(handle, MPI_GRAPH, "MPI_Graph_neighbors_count", &code);
    if (topology == NULL) return code;
    if (rank < 0 || rank >= topology->nodes) return refuse(find_comm(handle), MPI_ERR_RANK, "MPI_Graph_neighbors_count", "there is no rank %d in the graph", rank);
    *many = topology->index[rank] - (rank > 0 ? topology->index[rank - 1] : 0);
    return code;
}

int MPI_Graph_neighbors(MPI_Comm handle, int rank, int most, int neighbors[]) {
    int code, many;
    code = MPI_Graph_neighbors_count(handle, rank, &many);
    if (code != MPI_SUCCESS) return code;
    struct topology *topology = topology_of(find_comm(handle));
    int from = rank > 0 ? topology->index[rank - 1] : 0;
    for (int i = 0; i < many && i < most; i++) neighbors[i] = topology->edges[from + i];
    return code;
}

int MPI_Graphdims_get(MPI_Comm handle, int *nodes, int *edges) {
    int code;
    const struct topology *topology = known(handle, MPI_GRAPH, "MPI_Graphdims_get", &code);
    if (topology == NULL) return code;
    *nodes = topology->nodes;
    *edges = topology->nodes > 0 ? topology->index[topology->nodes - 1] : 0;
    return code;
}

int MPI_Graph_get(MPI_Comm handle, int most_nodes, int most_edges, int index[], int edges[]) {
    int code;
    const struct topology *topology = known(handle, MPI_GRAPH, "MPI_Graph_get", &code);
    if (topology == NULL) return code;
    int many = topology->nodes > 0 ? topology->index[topology->nodes - 1] : 0;
    for (int i = 0; i < topology->nodes && i < most_nodes; i++) index[i] = topology->index[i];
    for (int i = 0; i < many && i < most_edges; i++) edges[i] = topology->edges[i];
    return code;
}

/* Ranks are never put in another order. */
static int map(MPI_Comm handle, int nodes, int *rank, const char *call) {
    int code;
    struct comm *comm = judged(handle, call, &code);
    if (comm == NULL) return code;
    if (nodes < 0 || nodes > comm->size) return refuse(comm, MPI_ERR_ARG, call, "the topology has %d places, and the communicator %d ranks", nodes, comm->size);
    *rank = my_member(comm) < nodes ? my_member(comm) : MPI_UNDEFINED;
    return code;
}

int MPI_Cart_map(MPI_Comm handle, int dimensions, const int sizes[], const int periods[], int *rank) {
    int nodes = 1;
    (void)periods;
    for (int i = 0; i < dimensions; i++) nodes *= sizes[i];
    return map(handle, nodes, rank, "MPI_Cart_map");
}

int MPI_Graph_map(MPI_Comm handle, int nodes, const int index[], const int edges[], int *rank) {
    (void)index, (void)edges;
    return map(handle, nodes, rank, "MPI_Graph_map");
}

static int judge_neighbors(struct comm *comm, int many, const int *neighbors, const char *call) {
    if (many < 0) return refuse(comm, MPI_ERR_ARG, call, "the number %d of neighbours is negative", many);
    for (int i = 0; i < many; i++)
        if (neighbors[i] < 0 || neighbors[i] >= comm->size) return refuse(comm, MPI_ERR_ARG, call, "neighbour %d is rank %d, which isn't in the communicator", i, neighbors[i]);
    return MPI_SUCCESS;
}

int MPI_Dist_graph_create_adjacent(MPI_Comm handle, int in, const int sources[], const int source_weights[], int out, const int destinations[],
                                   const int destination_weights[], MPI_Info info, int reorder, MPI_Comm *made) {
    const char *call = "MPI_Dist_graph_create_adjacent";
    int code;
    struct comm *comm = judged(handle, call, &code);
    (void)info, (void)reorder;
    if (comm == NULL) return code;
    code = judge_neighbors(comm, in, sources, call);
    if (code == MPI_SUCCESS) code = judge_neighbors(comm, out, destinations, call);
    if (code == MPI_SUCCESS) code = make(comm, comm->size, call, made);
    if (code != MPI_SUCCESS) return code;
    bool weighted = source_weights != MPI_UNWEIGHTED;
    struct topology topology = { .kind = MPI_DIST_GRAPH, .in = in, .out = out, .sources = copy_of(sources, in), .destinations = copy_of(destinations, out), .weighted = weighted };
    if (weighted) topology.source_weights = copy_of(source_weights, source_weights != MPI_WEIGHTS_EMPTY ? in : 0);
    if (weighted) topology.destination_weights = copy_of(destination_weights, destination_weights != MPI_WEIGHTS_EMPTY ? out : 0);
    give_topology(*made, topology);
    return code;
}

int MPI_Dist_graph_neighbors_count(MPI_Comm handle, int *in, int *out, int *weighted) {
    int code;
    struct topology *topology = known(handle, MPI_DIST_GRAPH, "MPI_Dist_graph_neighbors_count", &code);
    if (topology == NULL) return code;
    *in = topology->in;
    *out = topology->out;
    *weighted = topology->weighted;
    return code;
}

int MPI_Dist_graph_neighbors(MPI_Comm handle, int most_in, int sources[], int source_weights[], int most_out, int destinations[], int destination_weights[]) {
    int code;
    struct topology *topology = known(handle, MPI_DIST_GRAPH, "MPI_Dist_graph_neighbors", &code);
    if (topology == NULL) return code;
    for (int i = 0; i < most_in && i < topology->in; i++) {
        sources[i] = topology->sources[i];
        if (topology->weighted && source_weights != MPI_UNWEIGHTED) source_weights[i] = topology->source_weights[i];
    }
    for (int i = 0; i < most_out && i < topology->out; i++) {
        destinations[i] = topology->destinations[i];
        if (topology->weighted && destination_weights != MPI_UNWEIGHTED) destination_weights[i] = topology->destination_weights[i];
    }
    return code;
}

int MPI_Topo_test(MPI_Comm handle, int *kind) {
    int code;
    struct comm *comm = judged(handle, "MPI_Topo_test", &code);
    if (comm == NULL) return code;
    struct topology *topology = topology_of(comm);
    *kind = topology != NULL ? topology->kind : MPI_UNDEFINED;
    return code;
}
