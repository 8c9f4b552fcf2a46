/* A rank's objects and their handles; draws under --seed; memory that has to be there. */
#include "base.h"

#include <sched.h>
#include <time.h>
#include <unistd.h>

static uint32_t number_in(const void *handle) { return (uint32_t)((uintptr_t)handle & ((1u << TABLE_NUMBER_BITS) - 1)); }

static uint32_t generation_in(const void *handle) { return (uint32_t)((uintptr_t)handle >> TABLE_NUMBER_BITS); }

void *must(void *memory) {
    if (memory != NULL) return memory;
    fprintf(stderr, "wzrun: there is no memory left\n");
    _exit(1);
}

static uint32_t free_number(struct table *table) {
    uint32_t at = table->lowest_free;
    while (at < table->many && table->objects[at] != NULL) at++;
    if (at == table->room) {
        table->room = 2 * table->room + 16;
        table->objects = must(realloc(table->objects, sizeof *table->objects * table->room));
        table->generations = must(realloc(table->generations, sizeof *table->generations * table->room));
        table->makers = must(realloc(table->makers, sizeof *table->makers * table->room));
    }
    if (at == table->many) table->generations[table->many++] = 0;
    return at;
}

uintptr_t add_handle(enum kind kind, void *object) {
    struct table *table = &current_rank->tables[kind];
    uint32_t at = free_number(table);
    if (at >= (1u << TABLE_NUMBER_BITS) - FIRST_MADE) {
        fprintf(stderr, "wzrun: rank %d has 16 million objects of one kind\n", current_rank->number);
        _exit(1);
    }
    table->objects[at] = object;
    table->makers[at] = (struct maker){ atomic_load(&current_rank->call), atomic_load(&current_rank->site) };
    table->lowest_free = at + 1;
    return (uintptr_t)kind << 56 | (uintptr_t)table->generations[at] << TABLE_NUMBER_BITS | (at + FIRST_MADE);
}

uintptr_t add_own_handle(enum kind kind, void *object) {
    uintptr_t handle = add_handle(kind, object);
    current_rank->tables[kind].makers[number_in((void *)handle) - FIRST_MADE] = (struct maker){ NULL, NULL };
    return handle;
}

/* Whether a handle is of this kind and names something that a table has or had. */
static bool names(enum kind kind, const void *handle) {
    uint32_t number = number_in(handle);
    return (uintptr_t)handle >> 56 == (uintptr_t)kind && number >= FIRST_MADE && number - FIRST_MADE < current_rank->tables[kind].many;
}

void *find_handle(enum kind kind, const void *handle) {
    if (!names(kind, handle)) return NULL;
    struct table *table = &current_rank->tables[kind];
    uint32_t at = number_in(handle) - FIRST_MADE;
    return table->generations[at] == generation_in(handle) ? table->objects[at] : NULL;
}

uintptr_t handle_of(enum kind kind, const void *object) {
    struct table *table = &current_rank->tables[kind];
    for (uint32_t i = 0; i < table->many; i++)
        if (table->objects[i] == object) return (uintptr_t)kind << 56 | (uintptr_t)table->generations[i] << TABLE_NUMBER_BITS | (i + FIRST_MADE);
    return (uintptr_t)kind << 56;
}

bool was_freed(enum kind kind, const void *handle) { return names(kind, handle) && find_handle(kind, handle) == NULL; }

void remove_handle(enum kind kind, const void *handle) {
    struct table *table = &current_rank->tables[kind];
    uint32_t at = number_in(handle) - FIRST_MADE;
    table->objects[at] = NULL;
    table->generations[at]++;
    if (at < table->lowest_free) table->lowest_free = at;
}

/* ---- draws */

static uint64_t next_random(uint64_t *state) { /* splitmix64 */
    uint64_t z = *state += 0x9e3779b97f4a7c15u;
    z = (z ^ (z >> 30)) * 0xbf58476d1ce4e5b9u;
    z = (z ^ (z >> 27)) * 0x94d049bb133111ebu;
    return z ^ (z >> 31);
}

uint32_t draw_number(uint32_t below) {
    if (the_run.seed == 0 || below < 2) return 0;
    return (uint32_t)(next_random(&current_rank->random) % below);
}

void hold_up(void) {
    if (the_run.seed == 0) return;
    uint32_t drawn = draw_number(256);
    if (drawn < 32) sched_yield();
    else if (drawn == 32) nanosleep(&(struct timespec){ 0, (long)draw_number(2000000) }, NULL);
}
