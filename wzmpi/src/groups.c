/* Groups: each rank has its own. */
#include "comms.h"
#include "diagnostics.h"

static struct group empty_group;

struct group *find_group(MPI_Group handle) { return handle == MPI_GROUP_EMPTY ? &empty_group : find_handle(GROUP, handle); }

MPI_Group new_group(const int *ranks, int size) {
    if (size == 0) return MPI_GROUP_EMPTY;
    struct group *group = must(malloc(sizeof *group));
    group->size = size;
    memcpy(group->ranks, ranks, sizeof *ranks * (size_t)size);
    return (MPI_Group)add_handle(GROUP, group);
}

static struct group *known(MPI_Group handle, const char *call, int *code) {
    this_rank(call);
    struct group *group = find_group(handle);
    *code = MPI_SUCCESS;
    if (group != NULL) return group;
    if (handle == MPI_GROUP_NULL) *code = refuse(NULL, MPI_ERR_GROUP, call, "the group is MPI_GROUP_NULL");
    else *code = refuse(NULL, MPI_ERR_GROUP, call, was_freed(GROUP, handle) ? "the group was freed" : "there is no such group");
    return NULL;
}

static int place_in(const struct group *group, int rank) {
    for (int i = 0; i < group->size; i++)
        if (group->ranks[i] == rank) return i;
    return MPI_UNDEFINED;
}

static int of_members(MPI_Comm handle, bool far, MPI_Group *group, const char *call) {
    this_rank(call);
    struct comm *comm = find_comm(handle);
    if (comm == NULL) return comm_error(handle, call);
    if (far && comm->first == 0) return refuse(comm, MPI_ERR_COMM, call, "this is no intercommunicator");
    int from, ranks[MOST_RANKS], size = far ? far_group(comm, &from) : near_group(comm, &from);
    for (int i = 0; i < size; i++) ranks[i] = comm->members[from + i].rank;
    *group = new_group(ranks, size);
    return MPI_SUCCESS;
}

int MPI_Comm_group(MPI_Comm comm, MPI_Group *group) { return of_members(comm, false, group, "MPI_Comm_group"); }

int MPI_Comm_remote_group(MPI_Comm comm, MPI_Group *group) { return of_members(comm, true, group, "MPI_Comm_remote_group"); }

int MPI_Group_size(MPI_Group handle, int *size) {
    int code;
    struct group *group = known(handle, "MPI_Group_size", &code);
    if (group != NULL) *size = group->size;
    return code;
}

int MPI_Group_rank(MPI_Group handle, int *rank) {
    int code;
    struct group *group = known(handle, "MPI_Group_rank", &code);
    if (group != NULL) *rank = place_in(group, current_rank->number);
    return code;
}

int MPI_Group_translate_ranks(MPI_Group first, int many, const int of[], MPI_Group second, int to[]) {
    const char *call = "MPI_Group_translate_ranks";
    int code;
    struct group *from = known(first, call, &code), *into = from != NULL ? known(second, call, &code) : NULL;
    if (into == NULL) return code;
    for (int i = 0; i < many; i++) {
        if (of[i] != MPI_PROC_NULL && (of[i] < 0 || of[i] >= from->size)) return refuse(NULL, MPI_ERR_RANK, call, "there is no rank %d in the group, which has %d", of[i], from->size);
        to[i] = of[i] == MPI_PROC_NULL ? MPI_PROC_NULL : place_in(into, from->ranks[of[i]]);
    }
    return code;
}

int MPI_Group_compare(MPI_Group first, MPI_Group second, int *how) {
    int code;
    struct group *one = known(first, "MPI_Group_compare", &code), *two = one != NULL ? known(second, "MPI_Group_compare", &code) : NULL;
    if (two == NULL) return code;
    *how = one->size == two->size ? MPI_IDENT : MPI_UNEQUAL;
    for (int i = 0; i < one->size && *how != MPI_UNEQUAL; i++) {
        int there = place_in(two, one->ranks[i]);
        if (there == MPI_UNDEFINED) *how = MPI_UNEQUAL;
        else if (there != i) *how = MPI_SIMILAR;
    }
    return code;
}

/* ---- groups of two groups: those of the first that are, or aren't, in the second, and then maybe the rest of the second */
static int of_two(MPI_Group first, MPI_Group second, bool common, bool apart, bool rest, MPI_Group *made, const char *call) {
    int code, ranks[2 * MOST_RANKS], size = 0;
    struct group *one = known(first, call, &code), *two = one != NULL ? known(second, call, &code) : NULL;
    if (two == NULL) return code;
    for (int i = 0; i < one->size; i++)
        if (place_in(two, one->ranks[i]) != MPI_UNDEFINED ? common : apart) ranks[size++] = one->ranks[i];
    for (int i = 0; rest && i < two->size; i++)
        if (place_in(one, two->ranks[i]) == MPI_UNDEFINED) ranks[size++] = two->ranks[i];
    *made = new_group(ranks, size);
    return code;
}

int MPI_Group_union(MPI_Group one, MPI_Group two, MPI_Group *made) { return of_two(one, two, true, true, true, made, "MPI_Group_union"); }

int MPI_Group_intersection(MPI_Group one, MPI_Group two, MPI_Group *made) { return of_two(one, two, true, false, false, made, "MPI_Group_intersection"); }

int MPI_Group_difference(MPI_Group one, MPI_Group two, MPI_Group *made) { return of_two(one, two, false, true, false, made, "MPI_Group_difference"); }

/* ---- groups of some ranks of a group */

/* The ranks of OF, each within the group and none twice. */
static int judged(const struct group *group, int many, const int of[], const char *call) {
    uint64_t seen = 0;
    for (int i = 0; i < many; i++) {
        if (of[i] < 0 || of[i] >= group->size) return refuse(NULL, MPI_ERR_RANK, call, "there is no rank %d in the group, which has %d", of[i], group->size);
        if (seen >> of[i] & 1) return refuse(NULL, MPI_ERR_RANK, call, "rank %d stands twice in the list", of[i]);
        seen |= 1ull << of[i];
    }
    return MPI_SUCCESS;
}

static int some(MPI_Group handle, int many, const int of[], bool within, MPI_Group *made, const char *call) {
    int code, ranks[MOST_RANKS], size = 0;
    struct group *group = known(handle, call, &code);
    if (group == NULL) return code;
    if (many < 0) return refuse(NULL, MPI_ERR_ARG, call, "the number %d of ranks is negative", many);
    code = judged(group, many, of, call);
    if (code != MPI_SUCCESS) return code;
    uint64_t named = 0;
    for (int i = 0; i < many; i++) named |= 1ull << of[i];
    for (int i = 0; within && i < many; i++) ranks[size++] = group->ranks[of[i]];
    for (int i = 0; !within && i < group->size; i++)
        if (!(named >> i & 1)) ranks[size++] = group->ranks[i];
    *made = new_group(ranks, size);
    return code;
}

int MPI_Group_incl(MPI_Group group, int many, const int of[], MPI_Group *made) { return some(group, many, of, true, made, "MPI_Group_incl"); }

int MPI_Group_excl(MPI_Group group, int many, const int of[], MPI_Group *made) { return some(group, many, of, false, made, "MPI_Group_excl"); }

static int ranged(MPI_Group group, int many, int ranges[][3], bool within, MPI_Group *made, const char *call) {
    int of[MOST_RANKS], size = 0;
    for (int i = 0; i < many; i++) {
        int at = ranges[i][0], last = ranges[i][1], stride = ranges[i][2];
        if (stride == 0) return refuse(NULL, MPI_ERR_ARG, call, "the stride of range %d is 0", i);
        for (; stride > 0 ? at <= last : at >= last; at += stride) {
            if (size == MOST_RANKS) return refuse(NULL, MPI_ERR_RANK, call, "the ranges have more ranks than there are");
            of[size++] = at;
        }
    }
    return some(group, size, of, within, made, call);
}

int MPI_Group_range_incl(MPI_Group group, int many, int ranges[][3], MPI_Group *made) { return ranged(group, many, ranges, true, made, "MPI_Group_range_incl"); }

int MPI_Group_range_excl(MPI_Group group, int many, int ranges[][3], MPI_Group *made) { return ranged(group, many, ranges, false, made, "MPI_Group_range_excl"); }

int MPI_Group_free(MPI_Group *handle) {
    int code;
    struct group *group = known(*handle, "MPI_Group_free", &code);
    if (group == NULL) return code;
    if (group != &empty_group) {
        remove_handle(GROUP, *handle);
        free(group);
    }
    *handle = MPI_GROUP_NULL;
    return code;
}
