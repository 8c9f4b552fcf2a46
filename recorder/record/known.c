#define _POSIX_C_SOURCE 200809L
#include "known.h"

#include "log.h"

#include <stdio.h>
#include <stdlib.h>
#include <string.h>

enum { BUCKETS = 4096, KEY = 64 };

static struct context *contexts;
static int numbers; /* how many contexts this rank has met */
static struct request *requests[BUCKETS];

static void *must(void *memory) {
    if (!memory) {
        fprintf(stderr, "record: no memory\n");
        abort();
    }
    return memory;
}

static uint64_t bits_of(const void *handle, size_t bytes) {
    uint64_t bits = 0;
    memcpy(&bits, handle, bytes);
    return bits;
}

/* The context last asked for comes to the front: most calls ask for the same again. */
static struct context *find(char kind, uint64_t handle) {
    for (struct context **it = &contexts; *it; it = &(*it)->next)
        if ((*it)->handle == handle && (*it)->kind == kind) {
            struct context *found = *it;
            *it = found->next;
            found->next = contexts;
            contexts = found;
            return found;
        }
    return NULL;
}

static struct context *find_group(const char *key) {
    for (struct context *it = contexts; it; it = it->next)
        if (it->kind == 'g' && !strcmp(it->key, key))
            return it;
    return NULL;
}

/* The members' ranks in MPI_COMM_WORLD. Freed by the caller. */
static int *members_of(MPI_Group group, int size) {
    MPI_Group world;
    int *mine = must(malloc((size_t)(size + 1) * sizeof *mine)), *theirs = must(malloc((size_t)(size + 1) * sizeof *theirs));
    for (int member = 0; member < size; member++)
        mine[member] = member;
    PMPI_Comm_group(MPI_COMM_WORLD, &world);
    PMPI_Group_translate_ranks(group, size, mine, world, theirs);
    PMPI_Group_free(&world);
    free(mine);
    return theirs;
}

/* `context NUMBER KIND KEY MAKER MEMBERS`. */
static void tell_context(const struct context *context, const char *maker) {
    const char kind[] = {' ', context->kind, ' ', 0};
    log_text("context ");
    log_signed(context->number);
    log_text(kind);
    log_text(context->key);
    log_text(" ");
    log_text(maker);
    for (int member = 0; member < context->size; member++) {
        log_text(" ");
        log_signed(context->members[member]);
    }
    log_text("\n");
}

/* A handle whose owner was freed unseen may be another's now. */
static struct context *take_up(char kind, uint64_t handle, MPI_Group group, char *key, const char *maker) {
    if (kind != 'g')
        context_gone(find(kind, handle));
    struct context *fresh = must(malloc(sizeof *fresh));
    *fresh = (struct context){.handle = handle, .kind = kind, .number = numbers++, .key = key, .next = contexts};
    PMPI_Group_size(group, &fresh->size);
    PMPI_Group_rank(group, &fresh->rank);
    fresh->members = members_of(group, fresh->size);
    contexts = fresh;
    tell_context(fresh, maker);
    return fresh;
}

/* A key with the first member, so that parts that are made at once have different ones. */
static char *whole_key(const char *key, MPI_Group group) {
    int first = 0, there;
    MPI_Group world;
    PMPI_Comm_group(MPI_COMM_WORLD, &world);
    PMPI_Group_translate_ranks(group, 1, &first, world, &there);
    PMPI_Group_free(&world);
    char *whole = must(malloc(strlen(key) + KEY));
    sprintf(whole, "%s.%d", key, there);
    return whole;
}

static void take_up_group(char kind, uint64_t handle, MPI_Group group, const char *key, const char *maker) {
    take_up(kind, handle, group, whole_key(key, group), maker);
    PMPI_Group_free(&group);
}

void communicator_unfollowed(MPI_Comm comm) { context_gone(context_of_comm(comm)); }

void communicator_made(MPI_Comm comm, const char *key, const char *maker) {
    MPI_Group group;
    int inter;
    PMPI_Comm_test_inter(comm, &inter);
    if (inter || !key) {
        communicator_unfollowed(comm);
        return;
    }
    PMPI_Comm_group(comm, &group);
    take_up_group('c', bits_of(&comm, sizeof comm), group, key, maker);
}

void window_made(MPI_Win window, const char *key, const char *maker) {
    MPI_Group group;
    PMPI_Win_get_group(window, &group);
    take_up_group('w', bits_of(&window, sizeof window), group, key, maker);
}

void file_made(MPI_File file, const char *key, const char *maker) {
    MPI_Group group;
    PMPI_File_get_group(file, &group);
    take_up_group('f', bits_of(&file, sizeof file), group, key, maker);
}

void contexts_begin(int rank) {
    char self[KEY];
    MPI_Comm world = MPI_COMM_WORLD;
    MPI_Group group;
    PMPI_Comm_group(world, &group);
    take_up('c', bits_of(&world, sizeof world), group, must(strdup("world")), "MPI_COMM_WORLD");
    PMPI_Group_free(&group);
    snprintf(self, sizeof self, "self.%d", rank);
    communicator_made(MPI_COMM_SELF, self, "MPI_COMM_SELF");
}

struct context *context_of_comm(MPI_Comm comm) { return find('c', bits_of(&comm, sizeof comm)); }
struct context *context_of_window(MPI_Win window) { return find('w', bits_of(&window, sizeof window)); }
struct context *context_of_file(MPI_File file) { return find('f', bits_of(&file, sizeof file)); }

char *key_of_next(struct context *parent) {
    if (!parent)
        return NULL;
    char *key = must(malloc(strlen(parent->key) + KEY));
    sprintf(key, "%s/%ld", parent->key, parent->made++);
    return key;
}

struct context *context_of_group(struct context *parent, MPI_Group group, int tag) {
    int size;
    if (!parent || group == MPI_GROUP_NULL)
        return NULL;
    PMPI_Group_size(group, &size);
    if (!size)
        return NULL;
    int *members = members_of(group, size);
    /* A hash stands for the members: the same ones in the same order have the same. */
    uint64_t hash = 14695981039346656037u;
    for (int member = 0; member < size; member++)
        hash = (hash ^ (uint64_t)members[member]) * 1099511628211u;
    free(members);
    char *key = must(malloc(strlen(parent->key) + 2 * KEY));
    sprintf(key, "%s/t%d.%llx", parent->key, tag, (unsigned long long)hash);
    struct context *known = find_group(key);
    if (!known)
        return take_up('g', 0, group, key, "MPI_Comm_create_group");
    free(key);
    return known;
}

void context_gone(struct context *context) {
    for (struct context **it = &contexts; *it; it = &(*it)->next)
        if (*it == context) {
            *it = context->next;
            free(context->key);
            free(context->members);
            free(context);
            return;
        }
}

int world_rank(const struct context *context, int peer) {
    if (peer == MPI_ANY_SOURCE)
        return ANY_RANK;
    if (peer == MPI_PROC_NULL)
        return NO_RANK;
    bool known = context && peer >= 0 && peer < context->size && context->members[peer] != MPI_UNDEFINED;
    return known ? context->members[peer] : RANK_UNKNOWN;
}

/* Requests */

static unsigned bucket_of(MPI_Request handle) {
    return (unsigned)(bits_of(&handle, sizeof handle) * UINT64_C(0x9e3779b97f4a7c15) >> 32) % BUCKETS;
}

struct request *request_made(const MPI_Request *handle, long number, bool persistent, struct awaited awaited) {
    struct request *fresh = must(malloc(sizeof *fresh));
    unsigned bucket = bucket_of(*handle);
    awaited.form |= OF_REQUEST;
    *fresh = (struct request){.handle = *handle, .variable = variable_of(handle), .number = number, .persistent = persistent, .active = !persistent, .awaited = awaited, .next = requests[bucket]};
    requests[bucket] = fresh;
    return fresh;
}

struct request *request_of(const MPI_Request *handle, unsigned long naming) {
    struct request *found = NULL;
    int candidates = 0, collectives = 0;
    if (*handle == MPI_REQUEST_NULL)
        return NULL;
    const MPI_Request *variable = variable_of(handle);
    /* The later made stand before the earlier ones. Of two with one variable, it has the later one's handle. */
    for (struct request *it = requests[bucket_of(*handle)]; it; it = it->next)
        if (it->handle == *handle && it->named != naming) {
            found = it;
            if (variable && it->variable == variable) {
                candidates = 1;
                break;
            }
            candidates++;
            collectives += it->number != NO_REQUEST;
        }
    if (candidates > 1 && collectives)
        log_text("unsure\n");
    if (found)
        found->named = naming;
    return found;
}

void each_request(void (*act)(const struct request *)) {
    for (int bucket = 0; bucket < BUCKETS; bucket++)
        for (const struct request *it = requests[bucket]; it; it = it->next)
            act(it);
}

void request_gone(struct request *request) {
    struct request **it = &requests[bucket_of(request->handle)];
    while (*it != request)
        it = &(*it)->next;
    *it = request->next;
    free(request->key);
    free(request);
}
