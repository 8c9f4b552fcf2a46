/* The calls that make communicators. All members of the parent take part in a collective of it, and then those of the new one come to it. */
#include "attributes.h"
#include "collectives.h"
#include "diagnostics.h"

/* Names what is made at a place of a communicator's calls. */
static uint64_t key_at(uint64_t place, int color) { return place << 32 | (uint32_t)color; }
static const uint64_t GROUP_KEY = 1ull << 63, INTER_KEY = 1ull << 62, TEXT_KEY = 3ull << 62;

/* All members of a communicator give some bytes, and each gets those of all. */
static int exchange(struct comm *comm, enum function function, const char *name, const void *bytes, size_t length, struct request **done) {
    struct arguments arguments = { .function = function, .form = BLOCKING, .give = bytes, .give_count = (long long)length, .give_type = MPI_BYTE, .name = name };
    return post_and_wait(comm, &arguments, done);
}

static struct comm *judged(MPI_Comm handle, const char *call, int *code) {
    this_rank(call);
    struct comm *comm = find_comm(handle);
    *code = comm != NULL ? MPI_SUCCESS : comm_error(handle, call);
    return comm;
}

static void members_of(const struct comm *comm, int *ranks) {
    for (int i = 0; i < comm->size; i++) ranks[i] = comm->members[i].rank;
}

/* ---- MPI_Comm_dup */

static MPI_Comm join_copy(struct comm *comm, uint64_t place, const char *call) {
    int ranks[MOST_RANKS];
    members_of(comm, ranks);
    return join_comm(comm, key_at(place, 0), call, ranks, comm->size, comm->first);
}

static int duplicate(MPI_Comm handle, bool attributes, MPI_Comm *made, const char *call) {
    int code;
    struct comm *comm = judged(handle, call, &code);
    if (comm == NULL) return code;
    struct request *done;
    code = post_and_wait(comm, &(struct arguments){ .function = COMM_DUP, .form = BLOCKING, .name = call }, &done);
    if (code != MPI_SUCCESS) return code;
    *made = join_copy(comm, done->place, call);
    drop_request(done);
    copy_topology(comm, *made);
    code = attributes ? copy_attributes(comm, handle, find_comm(*made)) : MPI_SUCCESS;
    if (code != MPI_SUCCESS) MPI_Comm_free(made);
    return code;
}

int MPI_Comm_dup(MPI_Comm comm, MPI_Comm *made) { return duplicate(comm, true, made, "MPI_Comm_dup"); }

int MPI_Comm_dup_with_info(MPI_Comm comm, MPI_Info info, MPI_Comm *made) {
    (void)info;
    return duplicate(comm, true, made, "MPI_Comm_dup_with_info");
}

/* The new one is there before the others have called it; it isn't used before the request is completed. */
int MPI_Comm_idup(MPI_Comm handle, MPI_Comm *made, MPI_Request *request) {
    int code;
    struct comm *comm = judged(handle, "MPI_Comm_idup", &code);
    if (comm == NULL) return code;
    struct request *posted;
    code = post_call(comm, &(struct arguments){ .function = COMM_DUP, .form = NONBLOCKING, .name = "MPI_Comm_idup" }, &posted);
    if (code != MPI_SUCCESS) return code;
    *made = join_copy(comm, posted->place, "MPI_Comm_idup");
    copy_topology(comm, *made);
    *request = publish(posted);
    return copy_attributes(comm, handle, find_comm(*made));
}

int MPI_Comm_idup_with_info(MPI_Comm handle, MPI_Info info, MPI_Comm *made, MPI_Request *request) {
    (void)info;
    return MPI_Comm_idup(handle, made, request);
}

/* ---- MPI_Comm_split */

struct split {
    int color, key;
};

/* A member of a new communicator, before they are put in order. */
struct candidate {
    int key, member, rank;
};

static int by_key(const void *one, const void *other) {
    const struct candidate *a = one, *b = other;
    if (a->key == b->key) return a->member - b->member;
    return a->key < b->key ? -1 : 1;
}

/* The ranks of the members from FROM on that say this colour, in the order of their keys. */
static int of_color(struct comm *comm, struct request *done, int from, int many, int color, int *ranks) {
    struct candidate found[MOST_RANKS];
    size_t length, size = 0;
    for (int i = from; i < from + many; i++) {
        const struct split *split = parcel_bytes(done, i, &length);
        if (split->color == color) found[size++] = (struct candidate){ split->key, i, comm->members[i].rank };
    }
    qsort(found, size, sizeof found[0], by_key);
    for (size_t i = 0; i < size; i++) ranks[i] = found[i].rank;
    return (int)size;
}

int split_comm(MPI_Comm handle, int color, int key, MPI_Comm *made, const char *call) {
    int code;
    struct comm *comm = judged(handle, call, &code);
    if (comm == NULL) return code;
    if (color < 0 && color != MPI_UNDEFINED) return refuse(comm, MPI_ERR_ARG, call, "the colour %d is negative", color);
    struct split mine = { color, key };
    struct request *done;
    code = exchange(comm, COMM_SPLIT, call, &mine, sizeof mine, &done);
    if (code != MPI_SUCCESS) return code;
    int ranks[MOST_RANKS], first = comm->first > 0 ? comm->first : comm->size;
    int one = of_color(comm, done, 0, first, color, ranks), all = one + of_color(comm, done, first, comm->size - first, color, ranks + one);
    bool lacks = comm->first > 0 && (one == 0 || one == all);
    *made = MPI_COMM_NULL;
    if (color != MPI_UNDEFINED && !lacks) *made = join_comm(comm, key_at(done->place, color), call, ranks, all, comm->first > 0 ? one : 0);
    drop_request(done);
    return code;
}

int MPI_Comm_split(MPI_Comm comm, int color, int key, MPI_Comm *made) { return split_comm(comm, color, key, made, "MPI_Comm_split"); }

/* All ranks share memory. */
int MPI_Comm_split_type(MPI_Comm comm, int type, int key, MPI_Info info, MPI_Comm *made) {
    (void)info;
    int color = type == MPI_COMM_TYPE_SHARED ? 0 : MPI_UNDEFINED;
    return split_comm(comm, color, key, made, "MPI_Comm_split_type");
}

/* ---- MPI_Comm_create */

static bool is_in(const int *ranks, int size) {
    for (int i = 0; i < size; i++)
        if (ranks[i] == current_rank->number) return true;
    return false;
}

/* All ranks of the group are members, and on this rank's side. */
static int judge_group(struct comm *comm, const struct group *group, const char *call) {
    int own, near = near_group(comm, &own);
    for (int i = 0; i < group->size; i++) {
        int member = comm->member_of[group->ranks[i]];
        if (member < own || member >= own + near) return refuse(comm, MPI_ERR_GROUP, call, "rank %d of the group isn't in the communicator", i);
    }
    return MPI_SUCCESS;
}

/* An intercommunicator's two sides each say their own group. */
static int two_groups(struct comm *comm, struct request *done, int *ranks, int *first) {
    size_t length, all = 0;
    for (int side = 0; side < 2; side++) {
        const void *bytes = parcel_bytes(done, side == 0 ? 0 : comm->first, &length);
        memcpy((char *)ranks + all, bytes, length);
        all += length;
        if (side == 0) *first = (int)(length / sizeof *ranks);
    }
    return (int)(all / sizeof *ranks);
}

int MPI_Comm_create(MPI_Comm handle, MPI_Group from, MPI_Comm *made) {
    const char *call = "MPI_Comm_create";
    int code;
    struct comm *comm = judged(handle, call, &code);
    if (comm == NULL) return code;
    struct group *group = find_group(from);
    if (group == NULL) return refuse(comm, MPI_ERR_GROUP, call, "there is no such group, or it was freed");
    code = judge_group(comm, group, call);
    if (code != MPI_SUCCESS) return code;
    struct request *done;
    code = exchange(comm, COMM_CREATE, call, group->ranks, sizeof *group->ranks * (size_t)group->size, &done);
    if (code != MPI_SUCCESS) return code;
    int ranks[2 * MOST_RANKS], size = group->size, first = 0;
    memcpy(ranks, group->ranks, sizeof *ranks * (size_t)size);
    if (comm->first > 0) size = two_groups(comm, done, ranks, &first);
    bool lacks = comm->first > 0 && (first == 0 || first == size);
    *made = MPI_COMM_NULL;
    if (is_in(ranks, size) && !lacks) *made = join_comm(comm, key_at(done->place, ranks[0]), call, ranks, size, first);
    drop_request(done);
    return code;
}

int MPI_Comm_create_group(MPI_Comm handle, MPI_Group from, int tag, MPI_Comm *made) {
    const char *call = "MPI_Comm_create_group";
    int code;
    struct comm *comm = judged(handle, call, &code);
    if (comm == NULL) return code;
    struct group *group = find_group(from);
    if (group == NULL) return refuse(comm, MPI_ERR_GROUP, call, "there is no such group, or it was freed");
    if (tag < 0) return refuse(comm, MPI_ERR_TAG, call, "the tag %d is negative", tag);
    code = judge_group(comm, group, call);
    *made = MPI_COMM_NULL;
    if (code == MPI_SUCCESS && is_in(group->ranks, group->size)) *made = join_comm(comm, GROUP_KEY | (uint32_t)tag, call, group->ranks, group->size, 0);
    return code;
}

/* ---- communicators of a group alone (MPI 4.1, 7.4.2 and 7.6.2) */

static uint64_t hash_of(const char *text) { /* FNV-1a */
    uint64_t hash = 0xcbf29ce484222325u;
    for (; *text != '\0'; text++) hash = (hash ^ (unsigned char)*text) * 0x100000001b3u;
    return hash;
}

static int create_from_group(MPI_Group from, const char *tag, MPI_Errhandler wanted, MPI_Comm *made, const char *call) {
    this_rank(call);
    const struct group *group = find_group(from);
    *made = MPI_COMM_NULL;
    if (group == NULL) return refuse(NULL, MPI_ERR_GROUP, call, "there is no such group, or it was freed");
    if (errhandler_of(wanted) == NULL) return refuse(NULL, MPI_ERR_ARG, call, "there is no such error handler");
    if (group->size == 0) return MPI_SUCCESS;
    if (!is_in(group->ranks, group->size)) return refuse(NULL, MPI_ERR_GROUP, call, "this rank isn't in the group");
    *made = join_comm(world_comm(), TEXT_KEY | hash_of(tag) >> 2, call, group->ranks, group->size, 0);
    return set_errhandler(find_comm(*made), wanted, call);
}

int MPI_Comm_create_from_group(MPI_Group group, const char *tag, MPI_Info info, MPI_Errhandler handler, MPI_Comm *made) {
    (void)info;
    return create_from_group(group, tag, handler, made, "MPI_Comm_create_from_group");
}

/* ---- intercommunicators */

/* The leaders tell each other their groups. */
static int swap_groups(struct comm *peers, int other, int tag, const int *mine, int many, int *theirs, int *their_many) {
    static const char call[] = "MPI_Intercomm_create";
    struct type *integers = find_type(MPI_INT);
    struct request *receive = new_request(RECEIVING, peers, call), *send = new_request(SENDING, peers, call);
    receive->other = send->other = other;
    receive->tag = send->tag = -2 - tag; /* no program's tag is negative */
    receive->to = theirs;
    receive->many = MOST_RANKS;
    send->from = mine;
    send->many = many;
    receive->type = send->type = integers;
    MPI_Status status;
    start_message(receive);
    start_message(send);
    int code = complete_request(receive, &status, call);
    if (code != MPI_SUCCESS) return code;
    *their_many = (int)((size_t)status.bytes_ / sizeof *theirs);
    return complete_request(send, MPI_STATUS_IGNORE, call);
}

int MPI_Intercomm_create(MPI_Comm local, int leader, MPI_Comm peer, int remote, int tag, MPI_Comm *made) {
    const char *call = "MPI_Intercomm_create";
    int code, ranks[2 * MOST_RANKS], theirs[MOST_RANKS], many = 0;
    struct comm *comm = judged(local, call, &code);
    if (comm == NULL) return code;
    if (comm->first > 0) return refuse(comm, MPI_ERR_COMM, call, "the local communicator is an intercommunicator");
    if (leader < 0 || leader >= comm->size) return refuse(comm, MPI_ERR_RANK, call, "the leader %d is no rank of the local communicator, which has %d", leader, comm->size);
    int mine[MOST_RANKS];
    members_of(comm, mine);
    if (my_member(comm) == leader) {
        struct comm *peers = judged(peer, call, &code);
        if (peers == NULL) return code;
        int other, far = far_group(peers, &other);
        if (remote < 0 || remote >= far) return refuse(peers, MPI_ERR_RANK, call, "the remote leader %d is no rank of the peer communicator, which has %d", remote, far);
        code = swap_groups(peers, remote, tag, mine, comm->size, theirs, &many);
        if (code != MPI_SUCCESS) return code;
    }
    struct request *done;
    code = exchange(comm, EXCHANGE, call, theirs, sizeof *theirs * (size_t)many, &done);
    if (code != MPI_SUCCESS) return code;
    size_t length;
    const void *told = parcel_bytes(done, leader, &length);
    many = (int)(length / sizeof *theirs);
    memcpy(theirs, told, length);
    drop_request(done);
    for (int i = 0; i < many; i++)
        if (comm->member_of[theirs[i]] >= 0) return refuse(comm, MPI_ERR_COMM, call, "rank %d is in both groups", theirs[i]);
    bool before = mine[0] < theirs[0];
    memcpy(ranks, before ? mine : theirs, sizeof *ranks * (size_t)(before ? comm->size : many));
    memcpy(ranks + (before ? comm->size : many), before ? theirs : mine, sizeof *ranks * (size_t)(before ? many : comm->size));
    *made = join_comm(world_comm(), INTER_KEY | (uint32_t)tag, call, ranks, comm->size + many, before ? comm->size : many);
    return code;
}

/* The remote group counts at the leader alone, as the peer communicator of MPI_Intercomm_create does. */
int MPI_Intercomm_create_from_groups(MPI_Group near, int leader, MPI_Group far, int remote, const char *tag, MPI_Info info, MPI_Errhandler handler, MPI_Comm *made) {
    const char *call = "MPI_Intercomm_create_from_groups";
    MPI_Comm local;
    (void)info;
    *made = MPI_COMM_NULL;
    int code = create_from_group(near, tag, handler, &local, call);
    if (code != MPI_SUCCESS || local == MPI_COMM_NULL) return code;
    const struct group *group = find_group(far);
    bool leads = my_member(find_comm(local)) == leader;
    if (leads && (group == NULL || remote < 0 || remote >= group->size)) return refuse(NULL, MPI_ERR_GROUP, call, "there is no rank %d in the remote group", remote);
    code = MPI_Intercomm_create(local, leader, MPI_COMM_WORLD, leads ? group->ranks[remote] : 0, (int)(hash_of(tag) & 0xfffffff), made);
    if (code == MPI_SUCCESS) code = set_errhandler(find_comm(*made), handler, call);
    MPI_Comm_free(&local);
    return code;
}

int MPI_Intercomm_merge(MPI_Comm inter, int high, MPI_Comm *made) {
    const char *call = "MPI_Intercomm_merge";
    int code, ranks[MOST_RANKS];
    struct comm *comm = judged(inter, call, &code);
    if (comm == NULL) return code;
    if (comm->first == 0) return refuse(comm, MPI_ERR_COMM, call, "this is no intercommunicator");
    struct request *done;
    char mine = high != 0;
    code = exchange(comm, EXCHANGE, call, &mine, 1, &done);
    if (code != MPI_SUCCESS) return code;
    size_t length;
    char one = *(const char *)parcel_bytes(done, 0, &length), two = *(const char *)parcel_bytes(done, comm->first, &length);
    int from = one > two ? comm->first : 0; /* the group that says `high` alone comes last */
    for (int i = 0; i < comm->size; i++) ranks[i] = comm->members[(from + i) % comm->size].rank;
    *made = join_comm(comm, key_at(done->place, 0), call, ranks, comm->size, 0);
    drop_request(done);
    return code;
}
