/* What members have called at the places of a communicator: each writes its calls down before it posts them, and looks at the others'. So more mistakes are
   found, and with their lines, than the engine knows of: a blocking call that meets a nonblocking one, two functions of the program, two types of one width.
   Of two members that come at the same time at least one sees the other. */
#include "collectives.h"

static struct slot *slot_of(const struct comm *comm, int member, uint64_t place) { return &comm->members[member].board[place % KEPT_PLACES]; }

void write_call(struct comm *comm, int member, uint64_t place, const struct called *called) {
    struct slot *slot = slot_of(comm, member, place);
    uint64_t words[CALLED_WORDS];
    memcpy(words, called, sizeof words);
    atomic_store_explicit(&slot->place, 0, memory_order_relaxed);
    atomic_thread_fence(memory_order_release);
    for (int i = 0; i < CALLED_WORDS; i++) atomic_store_explicit(&slot->words[i], words[i], memory_order_relaxed);
    atomic_store(&slot->place, place + 1);
}

bool read_called(const struct comm *comm, int member, uint64_t place, struct called *called) {
    struct slot *slot = slot_of(comm, member, place);
    uint64_t words[CALLED_WORDS];
    if (atomic_load(&slot->place) != place + 1) return false;
    for (int i = 0; i < CALLED_WORDS; i++) words[i] = atomic_load_explicit(&slot->words[i], memory_order_relaxed);
    atomic_thread_fence(memory_order_acquire);
    if (atomic_load_explicit(&slot->place, memory_order_relaxed) != place + 1) return false;
    memcpy(called, words, sizeof words);
    return true;
}

/* Several calls that make communicators are one collective of the engine. */
static bool is_other_call(const struct called *one, const struct called *other) {
    return one->function != other->function || (one->function >= COMM_DUP && ((one->form ^ other->form) & ~IN_PLACE_FORM) == 0 && strcmp(one->name, other->name) != 0);
}

bool calls_agree(const struct called *one, const struct called *other) {
    return !is_other_call(one, other) && one->form == other->form && one->root == other->root && one->operation == other->operation &&
           one->elements == other->elements && one->signature == other->signature && one->counts == other->counts;
}

const char *what_differs(const struct called *one, const struct called *other) {
    if (is_other_call(one, other)) return "it is another collective";
    if ((one->form ^ other->form) == IN_PLACE_FORM) return "MPI_IN_PLACE stands at some ranks alone (MPI 4.1, 6)";
    if (one->form != other->form) {
        bool persistent = (one->form & PERSISTENT) != 0 || (other->form & PERSISTENT) != 0;
        return persistent ? "one is persistent (MPI 4.1, 6.13)" : "a blocking collective doesn't meet a nonblocking one (MPI 4.1, 6.12)";
    }
    if (one->root != other->root) return "the root differs";
    if (one->operation != other->operation) return "the operation differs";
    if (one->elements != other->elements) return "the count differs";
    if (one->counts != other->counts) return "the counts differ";
    return "the type differs";
}

int first_disagreeing(struct comm *comm, int member, uint64_t place, const struct called *called) {
    struct called other;
    for (int i = 0; i < comm->size; i++)
        if (i != member && read_called(comm, i, place, &other) && !calls_agree(called, &other)) return i;
    return -1;
}
