/* Attributes, error handlers and infos. */
#include "attributes.h"

#include "diagnostics.h"
#include "fortran.h"

/* ---- attributes: each member has its own */

struct keyval {
    MPI_Comm_copy_attr_function *copy;
    MPI_Comm_delete_attr_function *delete;
    void *extra;
    bool freed;
    enum language language;
};
enum { FIRST_KEYVAL = 100 };

int wz_comm_dup_fn_(MPI_Comm comm, int keyval, void *extra, void *value, void *copied, int *flag) {
    (void)comm, (void)keyval, (void)extra;
    *(void **)copied = value;
    *flag = 1;
    return MPI_SUCCESS;
}

static struct keyval *keyval_of(int number) {
    return number >= FIRST_KEYVAL && number < FIRST_KEYVAL + current_rank->many_keyvals ? &current_rank->keyvals[number - FIRST_KEYVAL] : NULL;
}

/* ---- a key's functions, which may be Fortran's */

typedef void fortran_copy(int *handle, int *keyval, MPI_Aint *extra, MPI_Aint *value, MPI_Aint *copied, int *flag, int *code);
typedef void fortran_delete(int *handle, int *keyval, MPI_Aint *value, MPI_Aint *extra, int *code);
typedef void old_fortran_copy(int *handle, int *keyval, int *extra, int *value, int *copied, int *flag, int *code);
typedef void old_fortran_delete(int *handle, int *keyval, int *value, int *extra, int *code);

/* Set around the calls that Fortran makes. */
static __thread bool called_by_fortran;

void speak_fortran(bool begin) { called_by_fortran = begin; }

static void *value_for(struct attribute *attribute, bool fortran) { return attribute->of_fortran && !fortran ? &attribute->value : attribute->value; }

static int call_copy(const struct keyval *keyval, MPI_Comm handle, struct attribute *attribute, void **copied, int *flag) {
    int number = attribute->keyval;
    void *value = value_for(attribute, keyval->language != IN_C);
    int short_handle = to_fortran(handle), code = MPI_SUCCESS, extra = (int)(intptr_t)keyval->extra, old = (int)(intptr_t)value, new = 0;
    MPI_Aint wide_extra = (MPI_Aint)keyval->extra, wide = (MPI_Aint)value, made = 0;
    if (keyval->copy == NULL) return code;
    if (keyval->language == IN_C) return keyval->copy(handle, number, keyval->extra, value, copied, flag);
    if (keyval->language == IN_FORTRAN) ((fortran_copy *)(void (*)(void))keyval->copy)(&short_handle, &number, &wide_extra, &wide, &made, flag, &code);
    else ((old_fortran_copy *)(void (*)(void))keyval->copy)(&short_handle, &number, &extra, &old, &new, flag, &code);
    *copied = (void *)(keyval->language == IN_FORTRAN ? (intptr_t)made : (intptr_t)new);
    return code;
}

static int call_delete(const struct keyval *keyval, MPI_Comm handle, struct attribute *attribute) {
    int number = attribute->keyval;
    void *value = value_for(attribute, keyval->language != IN_C);
    int short_handle = to_fortran(handle), code = MPI_SUCCESS, extra = (int)(intptr_t)keyval->extra, old = (int)(intptr_t)value;
    MPI_Aint wide_extra = (MPI_Aint)keyval->extra, wide = (MPI_Aint)value;
    if (keyval->delete == NULL) return code;
    if (keyval->language == IN_C) return keyval->delete(handle, number, value, keyval->extra);
    if (keyval->language == IN_FORTRAN) ((fortran_delete *)(void (*)(void))keyval->delete)(&short_handle, &number, &wide, &wide_extra, &code);
    else ((old_fortran_delete *)(void (*)(void))keyval->delete)(&short_handle, &number, &old, &extra, &code);
    return code;
}

void set_language(int number, enum language language) { keyval_of(number)->language = language; }

int create_keyval(MPI_Comm_copy_attr_function *copy, MPI_Comm_delete_attr_function *delete, int *number, void *extra, const char *call) {
    struct rank *me = this_rank(call);
    me->keyvals = must(realloc(me->keyvals, sizeof *me->keyvals * (size_t)(me->many_keyvals + 1)));
    me->keyvals[me->many_keyvals] = (struct keyval){ copy, delete, extra, false, IN_C };
    *number = FIRST_KEYVAL + me->many_keyvals++;
    return MPI_SUCCESS;
}

int free_keyval(int *number, const char *call) {
    this_rank(call);
    struct keyval *keyval = keyval_of(*number);
    if (keyval == NULL || keyval->freed) return refuse(NULL, MPI_ERR_KEYVAL, call, "there is no key value %d", *number);
    keyval->freed = true; /* communicators may have values of it still */
    *number = MPI_KEYVAL_INVALID;
    return MPI_SUCCESS;
}

static struct attribute **find(struct attribute **list, int keyval) {
    struct attribute **at = list;
    while (*at != NULL && (*at)->keyval != keyval) at = &(*at)->next;
    return at;
}

static int judge_keyval(struct comm *comm, int number, const char *call) {
    return keyval_of(number) != NULL ? MPI_SUCCESS : refuse(comm, MPI_ERR_KEYVAL, call, "there is no key value %d", number);
}

static int delete_one(MPI_Comm handle, struct attribute **at) {
    struct attribute *attribute = *at;
    int code = call_delete(keyval_of(attribute->keyval), handle, attribute);
    if (code != MPI_SUCCESS) return code;
    *at = attribute->next;
    free(attribute);
    return code;
}

int set_attribute(const struct attributed *of, int number, void *value, const char *call) {
    int code = judge_keyval(of->comm, number, call);
    if (code != MPI_SUCCESS) return code;
    struct attribute **at = find(of->list, number);
    if (*at != NULL) code = delete_one(of->handle, at);
    if (code != MPI_SUCCESS) return code;
    struct attribute *attribute = must(malloc(sizeof *attribute));
    *attribute = (struct attribute){ number, called_by_fortran, value, *of->list };
    *of->list = attribute;
    return code;
}

struct attributed attributes_of(struct comm *comm, const void *handle) { return (struct attributed){ comm, &this_member(comm)->attributes, (MPI_Comm)(uintptr_t)handle }; }

static int set_attr(MPI_Comm handle, int number, void *value, const char *call) {
    this_rank(call);
    struct comm *comm = find_comm(handle);
    if (comm == NULL) return comm_error(handle, call);
    struct attributed of = attributes_of(comm, handle);
    return set_attribute(&of, number, value, call);
}

static bool predefined(int number, void *value) {
    static int bound = INT32_MAX, none = MPI_PROC_NULL, yes = 1, zero = 0, last = MPI_ERR_LASTCODE;
    int *values[] = { [MPI_TAG_UB] = &bound, [MPI_HOST] = &none, [MPI_IO] = &none, [MPI_WTIME_IS_GLOBAL] = &yes, [MPI_UNIVERSE_SIZE] = &the_run.size,
                      [MPI_LASTUSEDCODE] = &last, [MPI_APPNUM] = &zero };
    if (number < MPI_TAG_UB || number > MPI_APPNUM) return false;
    *(int **)value = values[number];
    return true;
}

int get_attribute(const struct attributed *of, int number, void *value, int *flag, const char *call) {
    int code = judge_keyval(of->comm, number, call);
    if (code != MPI_SUCCESS) return code;
    struct attribute *attribute = *find(of->list, number);
    *flag = attribute != NULL;
    if (attribute != NULL) *(void **)value = value_for(attribute, called_by_fortran);
    return code;
}

static int get_attr(MPI_Comm handle, int number, void *value, int *flag, const char *call) {
    this_rank(call);
    struct comm *comm = find_comm(handle);
    if (comm == NULL) return comm_error(handle, call);
    *flag = predefined(number, value);
    if (*flag) return MPI_SUCCESS;
    struct attributed of = attributes_of(comm, handle);
    return get_attribute(&of, number, value, flag, call);
}

int delete_attribute(const struct attributed *of, int number, const char *call) {
    int code = judge_keyval(of->comm, number, call);
    if (code != MPI_SUCCESS) return code;
    struct attribute **at = find(of->list, number);
    if (*at == NULL) return refuse(of->comm, MPI_ERR_ARG, call, "there is no value of this key");
    return delete_one(of->handle, at);
}

static int delete_attr(MPI_Comm handle, int number, const char *call) {
    this_rank(call);
    struct comm *comm = find_comm(handle);
    if (comm == NULL) return comm_error(handle, call);
    struct attributed of = attributes_of(comm, handle);
    return delete_attribute(&of, number, call);
}

/* ---- the calls, and those of MPI 1 that MPI 4.1, 16.1 deprecates */

int MPI_Comm_create_keyval(MPI_Comm_copy_attr_function *copy, MPI_Comm_delete_attr_function *delete, int *number, void *extra) {
    return create_keyval(copy, delete, number, extra, "MPI_Comm_create_keyval");
}

int MPI_Keyval_create(MPI_Copy_function *copy, MPI_Delete_function *delete, int *number, void *extra) {
    return create_keyval(copy, delete, number, extra, "MPI_Keyval_create");
}

int MPI_Comm_free_keyval(int *number) { return free_keyval(number, "MPI_Comm_free_keyval"); }

int MPI_Keyval_free(int *number) { return free_keyval(number, "MPI_Keyval_free"); }

int MPI_Comm_set_attr(MPI_Comm handle, int number, void *value) { return set_attr(handle, number, value, "MPI_Comm_set_attr"); }

int MPI_Attr_put(MPI_Comm handle, int number, void *value) { return set_attr(handle, number, value, "MPI_Attr_put"); }

int MPI_Comm_get_attr(MPI_Comm handle, int number, void *value, int *flag) { return get_attr(handle, number, value, flag, "MPI_Comm_get_attr"); }

int MPI_Attr_get(MPI_Comm handle, int number, void *value, int *flag) { return get_attr(handle, number, value, flag, "MPI_Attr_get"); }

int MPI_Comm_delete_attr(MPI_Comm handle, int number) { return delete_attr(handle, number, "MPI_Comm_delete_attr"); }

int MPI_Attr_delete(MPI_Comm handle, int number) { return delete_attr(handle, number, "MPI_Attr_delete"); }

int copy_list(const struct attributed *from, struct attribute **to) {
    for (struct attribute *attribute = *from->list; attribute != NULL; attribute = attribute->next) {
        void *copied = NULL;
        const struct keyval *keyval = keyval_of(attribute->keyval);
        int flag = 0, code = call_copy(keyval, from->handle, attribute, &copied, &flag);
        if (code != MPI_SUCCESS) return code;
        if (!flag) continue;
        bool as_it_is = copied == &attribute->value; /* as MPI_COMM_DUP_FN of C copies it */
        struct attribute *copy = must(malloc(sizeof *copy));
        *copy = (struct attribute){ attribute->keyval, as_it_is || keyval->language != IN_C, as_it_is ? attribute->value : copied, *to };
        *to = copy;
    }
    return MPI_SUCCESS;
}

int copy_attributes(struct comm *from, MPI_Comm from_handle, struct comm *to) {
    struct attributed of = attributes_of(from, from_handle);
    return copy_list(&of, &this_member(to)->attributes);
}

int delete_list(const struct attributed *of) {
    int code = MPI_SUCCESS;
    while (code == MPI_SUCCESS && *of->list != NULL) code = delete_one(of->handle, of->list);
    return code;
}

int delete_attributes(struct comm *comm, MPI_Comm handle) {
    struct attributed of = attributes_of(comm, handle);
    return delete_list(&of);
}

/* ---- error handlers */

struct errhandler errors_are_fatal = { .handle = MPI_ERRORS_ARE_FATAL, .uses = 1 };
static struct errhandler aborting = { .handle = MPI_ERRORS_ABORT, .uses = 1 }, returning = { .handle = MPI_ERRORS_RETURN, .returns = true, .uses = 1 };

struct errhandler *errhandler_of(MPI_Errhandler handle) {
    if (handle == MPI_ERRORS_ARE_FATAL) return &errors_are_fatal;
    if (handle == MPI_ERRORS_ABORT) return &aborting;
    return handle == MPI_ERRORS_RETURN ? &returning : find_handle(ERRHANDLER, handle);
}

void hold_errhandler(struct errhandler *handler) {
    if (handler != NULL && handler->function != NULL) handler->uses++;
}

void unhold_errhandler(struct errhandler *handler) {
    if (handler != NULL && handler->function != NULL && --handler->uses == 0) free(handler);
}

/* This rank's error handler of a communicator; NULL: it has none any longer. */
void use_handler(struct comm *comm, struct errhandler *handler) {
    struct member *member = this_member(comm);
    hold_errhandler(handler);
    unhold_errhandler(member->handler);
    member->handler = handler;
}

void call_handler(const struct errhandler *handler, MPI_Comm handle, int *class) {
    int short_handle = to_fortran(handle);
    if (handler->in_fortran) ((void (*)(int *, int *))(void (*)(void))handler->function)(&short_handle, class);
    else handler->function(&handle, class);
}

int create_errhandler(MPI_Comm_errhandler_function *function, MPI_Errhandler *made, const char *call) {
    this_rank(call);
    struct errhandler *handler = must(malloc(sizeof *handler));
    *handler = (struct errhandler){ .function = function, .returns = true, .uses = 1, .handles = 1 };
    handler->handle = *made = (MPI_Errhandler)add_handle(ERRHANDLER, handler);
    return MPI_SUCCESS;
}

int set_errhandler(struct comm *comm, MPI_Errhandler wanted, const char *call) {
    struct errhandler *handler = errhandler_of(wanted);
    if (handler == NULL) return refuse(comm, MPI_ERR_ARG, call, "there is no such error handler");
    use_handler(comm, handler);
    return MPI_SUCCESS;
}

MPI_Errhandler errhandler_handle(struct errhandler *handler) {
    if (handler->function == NULL) return handler->handle;
    handler->uses++;
    if (handler->handles++ == 0) handler->handle = (MPI_Errhandler)add_handle(ERRHANDLER, handler);
    return handler->handle;
}

int get_errhandler(struct comm *comm, MPI_Errhandler *handler) {
    *handler = errhandler_handle(this_member(comm)->handler);
    return MPI_SUCCESS;
}

int call_errhandler(struct comm *comm, int code, const char *call) {
    struct errhandler *errhandler = this_member(comm)->handler;
    if (errhandler->function != NULL) call_handler(errhandler, comm_handle(comm), &code);
    else if (!errhandler->returns) return refuse(comm, code, call, "the program called it with %s", class_name(code));
    return MPI_SUCCESS;
}

int MPI_Comm_create_errhandler(MPI_Comm_errhandler_function *function, MPI_Errhandler *made) {
    return create_errhandler(function, made, "MPI_Comm_create_errhandler");
}

int MPI_Comm_set_errhandler(MPI_Comm handle, MPI_Errhandler wanted) {
    this_rank("MPI_Comm_set_errhandler");
    struct comm *comm = find_comm(handle);
    return comm != NULL ? set_errhandler(comm, wanted, "MPI_Comm_set_errhandler") : comm_error(handle, "MPI_Comm_set_errhandler");
}

int MPI_Comm_get_errhandler(MPI_Comm handle, MPI_Errhandler *handler) {
    this_rank("MPI_Comm_get_errhandler");
    struct comm *comm = find_comm(handle);
    return comm != NULL ? get_errhandler(comm, handler) : comm_error(handle, "MPI_Comm_get_errhandler");
}

int MPI_Comm_call_errhandler(MPI_Comm handle, int code) {
    this_rank("MPI_Comm_call_errhandler");
    struct comm *comm = find_comm(handle);
    return comm != NULL ? call_errhandler(comm, code, "MPI_Comm_call_errhandler") : comm_error(handle, "MPI_Comm_call_errhandler");
}

int MPI_Errhandler_free(MPI_Errhandler *handle) {
    this_rank("MPI_Errhandler_free");
    struct errhandler *errhandler = errhandler_of(*handle);
    if (errhandler == NULL) return refuse(NULL, MPI_ERR_ARG, "MPI_Errhandler_free", "there is no such error handler");
    if (errhandler->function != NULL) {
        if (--errhandler->handles == 0) remove_handle(ERRHANDLER, *handle);
        unhold_errhandler(errhandler);
    }
    *handle = MPI_ERRHANDLER_NULL;
    return MPI_SUCCESS;
}
