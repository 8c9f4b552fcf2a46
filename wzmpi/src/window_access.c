/* The calls that access other ranks' memory (MPI 4.1, 12.3). */
#include "counted.h"
#include "diagnostics.h"
#include "window.h"

enum { REPLACES = 13, DOES_NOTHING = 14 }; /* MPI_REPLACE and MPI_NO_OP in mpi.h */

/* A call's arguments. What comes back, of a get and of what reads before it updates, goes to RESULT. */
struct wanted {
    const char *call;
    enum access_kind kind;
    const void *origin;
    MPI_Count many;
    MPI_Datatype type;
    void *result;
    MPI_Count result_many;
    MPI_Datatype result_type;
    int target;
    MPI_Aint displacement;
    MPI_Count target_many;
    MPI_Datatype target_type;
    MPI_Op operation;
    const void *compared; /* of MPI_Compare_and_swap */
    MPI_Win window;
};

/* What they stand for. */
struct known {
    struct window *window;
    struct target target;
    const struct type *origin, *result; /* NULL: the call has none */
    const struct op *op;
};

/* ---- what is wrong with them */

static int judge_type(struct window *window, MPI_Datatype handle, MPI_Count many, const char *call, const struct type **type) {
    *type = find_type(handle);
    if (*type == NULL) return type_error(handle, call);
    if (!(*type)->committed) return refuse(window->comm, MPI_ERR_TYPE, call, "the type isn't committed");
    return many >= 0 ? MPI_SUCCESS : refuse(window->comm, MPI_ERR_COUNT, call, "the count %lld is negative", (long long)many);
}

static int judge_buffer(struct window *window, const void *buffer, MPI_Count many, const struct type *type, const char *what, const char *call) {
    if (buffer != NULL || many == 0 || type->size == 0 || !type->predefined) return MPI_SUCCESS;
    return refuse(window->comm, MPI_ERR_BUFFER, call, "the %s buffer is null", what);
}

/* What one side has is what the other takes, as of a message (MPI 4.1, 12.3.1). */
static int judge_match(const struct wanted *wanted, const struct known *known, const struct type *type, MPI_Count many) {
    const struct type *there = known->target.type;
    struct comm *comm = known->window->comm;
    size_t here = (size_t)many * type->size, far = (size_t)known->target.many * there->size;
    bool reads = wanted->kind == GETS || wanted->operation == MPI_NO_OP;
    if (here != far)
        return refuse(comm, MPI_ERR_TRUNCATE, wanted->call, "the origin buffer has %zu bytes, and the target's elements %zu", here, far);
    bool bytes = (type->basic > 0 && basic_type(type->basic)->class == BITS) || (there->basic > 0 && basic_type(there->basic)->class == BITS);
    if (bytes || here == 0 || spread_of(type, (uint64_t)many).hash == spread_of(there, (uint64_t)known->target.many).hash) return MPI_SUCCESS;
    return refuse(comm, MPI_ERR_TYPE, wanted->call, "the origin buffer has %s, and the target's memory is %s as %s", type->basic > 0 ? basic_type(type->basic)->name : "several types",
                  reads ? "read" : "written", there->basic > 0 ? basic_type(there->basic)->name : "several types");
}

static int judge_operation(const struct wanted *wanted, struct known *known) {
    struct comm *comm = known->window->comm;
    const struct type *there = known->target.type;
    known->op = find_op(wanted->operation);
    if (known->op == NULL) return refuse(comm, MPI_ERR_OP, wanted->call, "there is no such operation, or it was freed");
    if (known->op->number == 0) return refuse(comm, MPI_ERR_OP, wanted->call, "the operation is the program's own, and only predefined ones are for accumulates");
    if (there->basic == 0 && there->size > 0) return refuse(comm, MPI_ERR_TYPE, wanted->call, "the target's elements are of several types");
    if (known->op->number == REPLACES || known->op->number == DOES_NOTHING || there->size == 0) return MPI_SUCCESS;
    if (op_takes(known->op, find_type(MPI_DATATYPE_NULL + there->basic))) return MPI_SUCCESS;
    return refuse(comm, MPI_ERR_OP, wanted->call, "%s isn't for %s", known->op->name, basic_type(there->basic)->name);
}

static int judge_rank(const struct wanted *wanted, struct window *window) {
    if (wanted->target >= 0 && wanted->target < window->comm->size) return MPI_SUCCESS;
    return refuse(window->comm, MPI_ERR_RANK, wanted->call, "there is no rank %d in the window, which has %d", wanted->target, window->comm->size);
}

static int judge_buffers(const struct wanted *wanted, struct known *known) {
    struct window *window = known->window;
    int code = judge_type(window, wanted->target_type, wanted->target_many, wanted->call, &known->target.type);
    bool gives = wanted->kind != GETS && wanted->operation != MPI_NO_OP;
    if (code == MPI_SUCCESS && gives) code = judge_type(window, wanted->type, wanted->many, wanted->call, &known->origin);
    if (code == MPI_SUCCESS && wanted->result_type != MPI_DATATYPE_NULL) code = judge_type(window, wanted->result_type, wanted->result_many, wanted->call, &known->result);
    known->target.many = wanted->target_many;
    if (code == MPI_SUCCESS && known->origin != NULL) code = judge_buffer(window, wanted->origin, wanted->many, known->origin, "origin", wanted->call);
    if (code == MPI_SUCCESS && known->result != NULL) code = judge_buffer(window, wanted->result, wanted->result_many, known->result, "result", wanted->call);
    if (code == MPI_SUCCESS && known->origin != NULL) code = judge_match(wanted, known, known->origin, wanted->many);
    if (code == MPI_SUCCESS && known->result != NULL) code = judge_match(wanted, known, known->result, wanted->result_many);
    return code;
}

static int judge(const struct wanted *wanted, struct known *known, bool by_request) {
    int code = judge_rank(wanted, known->window);
    if (code == MPI_SUCCESS) code = judge_buffers(wanted, known);
    if (code == MPI_SUCCESS && wanted->kind == ACCUMULATES) code = judge_operation(wanted, known);
    known->target.member = wanted->target;
    if (code == MPI_SUCCESS) code = judge_epoch(known->window, wanted->target, by_request, wanted->call, &known->target.epoch);
    if (code == MPI_SUCCESS) code = judge_range(known->window, wanted->displacement, wanted->call, &known->target);
    return code;
}

/* ---- moving */

/* From memory of one type to memory of another: the bytes are the same. */
static void copy(void *to, MPI_Count to_many, const struct type *to_type, const void *from, MPI_Count from_many, const struct type *from_type) {
    size_t length = (size_t)from_many * from_type->size;
    if (length == 0) return;
    if (to_type->dense && from_type->dense) {
        memmove(to, from, length);
        return;
    }
    char *bytes = must(malloc(length));
    pack(from_type, (size_t)from_many, from, bytes);
    unpack(to_type, (size_t)to_many, to, bytes);
    free(bytes);
}

/* Elements of one basic type without gaps, as in a packed row, into memory that has them at AT. */
static void update_run(const struct op *op, const struct run_of *run, const char *row, char *at) {
    const struct basic *basic = basic_type(run->basic);
    MPI_Datatype handle = MPI_DATATYPE_NULL + run->basic;
    size_t length = basic->size * run->many;
    if (op->number == REPLACES) {
        memcpy(at, row, length);
        return;
    }
    char *aligned = must(aligned_alloc(32, (length + 64) / 32 * 32)); /* the row may lie anywhere, and of a pair there is a gap less */
    memcpy(aligned, row, length);
    compute(op, handle, find_type(handle), (MPI_Count)run->many, aligned, at);
    free(aligned);
}

static void update(const struct wanted *wanted, const struct known *known) {
    const struct type *type = known->target.type;
    size_t length = (size_t)wanted->many * known->origin->size;
    char *bytes = must(malloc(length + 1)), *row = bytes;
    pack(known->origin, (size_t)wanted->many, wanted->origin, bytes);
    for (MPI_Count i = 0; i < known->target.many; i++)
        for (size_t j = 0; j < type->many; j++) {
            update_run(known->op, &type->runs[j], row, known->target.at + (MPI_Aint)i * type->extent + type->runs[j].at);
            row += basic_type(type->runs[j].basic)->size * type->runs[j].many;
        }
    free(bytes);
}

/* One basic element, so that all its bytes are compared. */
static void swap_if_same(const struct wanted *wanted, const struct known *known) {
    if (memcmp(known->target.at, wanted->compared, known->target.type->size) == 0) memcpy(known->target.at, wanted->origin, known->target.type->size);
}

/* Accumulates of one target come one after the other, so that each of their elements is atomic (MPI 4.1, 12.7.1). */
static void carry_out_update(const struct wanted *wanted, const struct known *known) {
    struct window_member *there = &known->window->members[known->target.member];
    pthread_mutex_lock(&there->guard);
    if (known->result != NULL) copy(wanted->result, wanted->result_many, known->result, known->target.at, known->target.many, known->target.type);
    if (wanted->compared != NULL) swap_if_same(wanted, known);
    else if (known->origin != NULL) update(wanted, known);
    pthread_mutex_unlock(&there->guard);
}

static void move(const struct wanted *wanted, const struct known *known) {
    const struct target *target = &known->target;
    bool gets = wanted->kind == GETS;
    struct moved moved = { wanted->kind, gets ? wanted->result : (void *)(uintptr_t)wanted->origin, gets ? wanted->result_many : wanted->many, gets ? known->result : known->origin,
                           *target, wanted->call };
    bool later = moved.origin_type != NULL && hold_back(known->window, &moved);
    if (later) return;
    if (wanted->kind == PUTS) copy(target->at, target->many, target->type, wanted->origin, wanted->many, known->origin);
    else if (gets) copy(wanted->result, wanted->result_many, known->result, target->at, target->many, target->type);
    else carry_out_update(wanted, known);
}

/* ---- requests: an access is done when it is called, but its buffers are the program's only when the request is completed */

static void give_request(const struct wanted *wanted, const struct known *known, uint64_t number, MPI_Request *made) {
    struct request *request = new_request(ACCESSING, known->window->comm, wanted->call);
    request->other = wanted->target;
    request->synchronous = known->result != NULL; /* what has come back was done there */
    request->sent = number;
    request->active = true;
    atomic_store(&request->arrived, true);
    *made = publish(request);
}

int finish_access(struct request *request, MPI_Status *status) {
    clear_status(status);
    if (status != MPI_STATUS_IGNORE) status->bytes_ = (MPI_Count)request->given; /* of a file */
    if (request->comm->serves == WINDOW && request->synchronous && request->other >= 0) {
        release_held(request->comm->served, request->other, request->name);
        end_numbered(request->comm->served, request->other, request->sent);
    }
    request->active = false;
    drop_request(request);
    return MPI_SUCCESS;
}

/* Accesses with requests give their buffers back at their own time, and so aren't looked at. */
static int note_buffers(const struct wanted *wanted, const struct known *known, const struct access *access) {
    struct access read = *access, written = *access;
    int code = MPI_SUCCESS;
    read.kind = PUTS;
    written.kind = GETS;
    bool by_request = wanted->call[4] == 'R';
    if (by_request) return code;
    if (known->origin != NULL) code = note_origin(known->window, wanted->origin, wanted->many, known->origin, &read);
    if (code == MPI_SUCCESS && known->result != NULL) code = note_origin(known->window, wanted->result, wanted->result_many, known->result, &written);
    return code;
}

static int carry(const struct wanted *wanted, MPI_Request *made) {
    int code;
    uint64_t number = 0;
    struct known known = { .window = find_window(wanted->window, wanted->call, &code) };
    if (known.window == NULL) return code;
    bool writes = wanted->kind != GETS && wanted->operation != MPI_NO_OP && wanted->compared == NULL;
    if (writes) my_window(known.window)->polls = 0;
    hold_up();
    if (wanted->target != MPI_PROC_NULL) {
        code = judge(wanted, &known, made != NULL);
        if (code != MPI_SUCCESS) return code;
        const struct type *type = known.target.type;
        struct access access = { .origin = my_member(known.window->comm), .target = wanted->target, .kind = wanted->kind, .epoch = known.target.epoch, .code = type->basic > 0 ? basic_type(type->basic)->code : 0,
                                 .operation = known.op != NULL ? known.op->number : 0, .call = wanted->call, .site = current_rank->site };
        code = note_access(known.window, &known.target, &access, made != NULL ? &number : NULL);
        if (code == MPI_SUCCESS) code = note_buffers(wanted, &known, &access);
        if (code == MPI_SUCCESS && wanted->kind != ACCUMULATES) code = judge_snapshot(known.window, &known.target, wanted->call);
        if (code != MPI_SUCCESS) return code;
        move(wanted, &known);
    }
    if (made != NULL) give_request(wanted, &known, number, made);
    return code;
}

/* ---- the calls */

#define TARGET int target, MPI_Aint displacement, MPI_Count target_many, MPI_Datatype target_type
#define AT_TARGET .target = target, .displacement = displacement, .target_many = target_many, .target_type = target_type, .window = window
#define ORIGIN const void *origin, MPI_Count many, MPI_Datatype type
#define FROM .origin = origin, .many = many, .type = type, .result_type = MPI_DATATYPE_NULL
#define RESULT void *result, MPI_Count result_many, MPI_Datatype result_type
#define INTO .result = result, .result_many = result_many, .result_type = result_type

int counted_Put(ORIGIN, TARGET, MPI_Win window) { return carry(&(struct wanted){ .call = "MPI_Put", .kind = PUTS, FROM, AT_TARGET }, NULL); }

int counted_Rput(ORIGIN, TARGET, MPI_Win window, MPI_Request *request) { return carry(&(struct wanted){ .call = "MPI_Rput", .kind = PUTS, FROM, AT_TARGET }, request); }

int counted_Get(RESULT, TARGET, MPI_Win window) { return carry(&(struct wanted){ .call = "MPI_Get", .kind = GETS, INTO, AT_TARGET }, NULL); }

int counted_Rget(RESULT, TARGET, MPI_Win window, MPI_Request *request) { return carry(&(struct wanted){ .call = "MPI_Rget", .kind = GETS, INTO, AT_TARGET }, request); }

int counted_Accumulate(ORIGIN, TARGET, MPI_Op operation, MPI_Win window) {
    return carry(&(struct wanted){ .call = "MPI_Accumulate", .kind = ACCUMULATES, FROM, AT_TARGET, .operation = operation }, NULL);
}

int counted_Raccumulate(ORIGIN, TARGET, MPI_Op operation, MPI_Win window, MPI_Request *request) {
    return carry(&(struct wanted){ .call = "MPI_Raccumulate", .kind = ACCUMULATES, FROM, AT_TARGET, .operation = operation }, request);
}

int counted_Get_accumulate(ORIGIN, RESULT, TARGET, MPI_Op operation, MPI_Win window) {
    return carry(&(struct wanted){ .call = "MPI_Get_accumulate", .kind = ACCUMULATES, .origin = origin, .many = many, .type = type, INTO, AT_TARGET, .operation = operation }, NULL);
}

int counted_Rget_accumulate(ORIGIN, RESULT, TARGET, MPI_Op operation, MPI_Win window, MPI_Request *request) {
    return carry(&(struct wanted){ .call = "MPI_Rget_accumulate", .kind = ACCUMULATES, .origin = origin, .many = many, .type = type, INTO, AT_TARGET, .operation = operation }, request);
}

int MPI_Fetch_and_op(const void *origin, void *result, MPI_Datatype type, int target, MPI_Aint displacement, MPI_Op operation, MPI_Win window) {
    return carry(&(struct wanted){ "MPI_Fetch_and_op", ACCUMULATES, origin, 1, type, result, 1, type, target, displacement, 1, type, operation, NULL, window }, NULL);
}

int MPI_Compare_and_swap(const void *origin, const void *compared, void *result, MPI_Datatype type, int target, MPI_Aint displacement, MPI_Win handle) {
    const char *call = "MPI_Compare_and_swap";
    int code;
    struct window *window = find_window(handle, call, &code);
    if (window == NULL) return code;
    const struct type *known = find_type(type);
    enum class class = known != NULL && known->predefined ? basic_type(known->basic)->class : REAL;
    if (class == REAL || class == COMPLEX || class == PAIR) return refuse(window->comm, MPI_ERR_TYPE, call, "the type isn't one of whole numbers, truth or bytes");
    if (compared == NULL) return refuse(window->comm, MPI_ERR_BUFFER, call, "the buffer to compare with is null");
    return carry(&(struct wanted){ call, ACCUMULATES, origin, 1, type, result, 1, type, target, displacement, 1, type, MPI_REPLACE, compared, handle }, NULL);
}
