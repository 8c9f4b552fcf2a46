/* Arguments of Fortran, and the calls whose arguments aren't those of C. */
#include "fortran.h"

#include "attributes.h"
#include "generalized.h"

/* ---- words at addresses */

static bool is_place(const void *address, enum place place) {
    void *const *places = current_rank != NULL ? current_rank->fortran_places : NULL;
    return places != NULL && places[place] == address;
}

void *in_buffer(void *buffer) { return is_place(buffer, AT_BOTTOM) ? MPI_BOTTOM : is_place(buffer, AT_IN_PLACE) ? MPI_IN_PLACE : buffer; }

int *in_weights(int *weights) { return is_place(weights, AT_UNWEIGHTED) ? MPI_UNWEIGHTED : is_place(weights, AT_WEIGHTS_EMPTY) ? MPI_WEIGHTS_EMPTY : weights; }

/* A status is as many words as in C, in the same order. */
MPI_Status *in_status(int *status) {
    bool ignored = is_place(status, AT_STATUS_IGNORE) || is_place(status, AT_STATUSES_IGNORE);
    return ignored ? MPI_STATUS_IGNORE : (MPI_Status *)(void *)status;
}

/* ---- strings */

char *in_string(const char *text, size_t length) {
    while (length > 0 && text[length - 1] == ' ') length--;
    while (length > 0 && *text == ' ') text++, length--;
    char *made = must(malloc(length + 1));
    memcpy(made, text, length);
    made[length] = '\0';
    return made;
}

void out_string(char *text, size_t length, const char *from) {
    size_t many = strlen(from) < length ? strlen(from) : length;
    if (strcmp(from, UNWRITTEN) == 0) return;
    memcpy(text, from, many);
    memset(text + many, ' ', length - many);
}

#define BEGIN() note_fortran_line(__builtin_return_address(0))
#define END(code)                              \
    do {                                       \
        int ended = (code);                    \
        if (ierror != NULL) *ierror = ended;   \
    } while (0)

/* ---- beginning */

void mpi_init_(int *ierror) {
    BEGIN();
    END(MPI_Init(NULL, NULL));
}

void mpi_init_thread_(int *required, int *provided, int *ierror) {
    BEGIN();
    END(MPI_Init_thread(NULL, NULL, *required, provided));
}

void mpi_pcontrol_(int *level) { MPI_Pcontrol(*level); }

void mpi_buffer_detach_(void *buffer, int *size, int *ierror) {
    void *detached;
    (void)buffer; /* Fortran 77 has no place for an address */
    BEGIN();
    END(MPI_Buffer_detach(&detached, size));
}

void mpi_info_create_env_(int *info, int *ierror) {
    MPI_Info made = MPI_INFO_NULL;
    BEGIN();
    int code = MPI_Info_create_env(0, NULL, &made);
    *info = to_fortran(made);
    END(code);
}

/* The length is without an end (MPI 4.1, 10). */
void mpi_info_get_string_(int *info, const char *key, int *room, char *value, int *flag, int *ierror, size_t key_length, size_t value_length) {
    char *own_key = in_string(key, key_length), own[MPI_MAX_INFO_VAL + 1] = UNWRITTEN;
    int own_room = *room < MPI_MAX_INFO_VAL ? *room + 1 : MPI_MAX_INFO_VAL + 1;
    BEGIN();
    int code = MPI_Info_get_string(from_fortran(INFO, *info), own_key, &own_room, own, flag);
    if (code == MPI_SUCCESS && *flag && *room > 0) out_string(value, value_length, own);
    if (code == MPI_SUCCESS && *flag) *room = own_room - 1;
    free(own_key);
    END(code);
}

void mpi_grequest_start_(void (*query)(void), void (*release)(void), void (*cancel)(void), MPI_Aint *extra, int *request, int *ierror) {
    MPI_Request made = MPI_REQUEST_NULL;
    BEGIN();
    int code = start_fortran_generalized(query, release, cancel, *extra, &made);
    *request = to_fortran(made);
    END(code);
}

/* ---- attributes (MPI 4.1, 19.3.7): those of the library are values, which C has addresses of */

static void make_key(int code, int *keyval, enum language language, int *ierror) {
    if (code == MPI_SUCCESS) set_language(*keyval, language);
    END(code);
}

void mpi_comm_create_keyval_(void (*copy)(void), void (*delete)(void), int *keyval, MPI_Aint *extra, int *ierror) {
    BEGIN();
    make_key(MPI_Comm_create_keyval((MPI_Comm_copy_attr_function *)copy, (MPI_Comm_delete_attr_function *)delete, keyval, (void *)*extra), keyval, IN_FORTRAN, ierror);
}

void mpi_win_create_keyval_(void (*copy)(void), void (*delete)(void), int *keyval, MPI_Aint *extra, int *ierror) {
    BEGIN();
    make_key(MPI_Win_create_keyval((MPI_Win_copy_attr_function *)copy, (MPI_Win_delete_attr_function *)delete, keyval, (void *)*extra), keyval, IN_FORTRAN, ierror);
}

void mpi_type_create_keyval_(void (*copy)(void), void (*delete)(void), int *keyval, MPI_Aint *extra, int *ierror) {
    BEGIN();
    make_key(MPI_Type_create_keyval((MPI_Type_copy_attr_function *)copy, (MPI_Type_delete_attr_function *)delete, keyval, (void *)*extra), keyval, IN_FORTRAN, ierror);
}

void mpi_keyval_create_(void (*copy)(void), void (*delete)(void), int *keyval, int *extra, int *ierror) {
    BEGIN();
    make_key(MPI_Keyval_create((MPI_Copy_function *)copy, (MPI_Delete_function *)delete, keyval, (void *)(intptr_t)*extra), keyval, IN_OLD_FORTRAN, ierror);
}

void mpi_comm_set_attr_(int *comm, int *keyval, MPI_Aint *value, int *ierror) {
    BEGIN();
    speak_fortran(true);
    int code = MPI_Comm_set_attr(from_fortran(COMM, *comm), *keyval, (void *)*value);
    speak_fortran(false);
    END(code);
}

void mpi_win_set_attr_(int *win, int *keyval, MPI_Aint *value, int *ierror) {
    BEGIN();
    speak_fortran(true);
    int code = MPI_Win_set_attr(from_fortran(WINDOW, *win), *keyval, (void *)*value);
    speak_fortran(false);
    END(code);
}

void mpi_type_set_attr_(int *type, int *keyval, MPI_Aint *value, int *ierror) {
    BEGIN();
    speak_fortran(true);
    int code = MPI_Type_set_attr(*type, *keyval, (void *)*value);
    speak_fortran(false);
    END(code);
}

void mpi_type_get_attr_(int *type, int *keyval, MPI_Aint *value, int *flag, int *ierror) {
    void *got = NULL;
    BEGIN();
    speak_fortran(true);
    int code = MPI_Type_get_attr(*type, *keyval, &got, flag);
    speak_fortran(false);
    if (code == MPI_SUCCESS && *flag) *value = (MPI_Aint)got;
    END(code);
}

void mpi_attr_put_(int *comm, int *keyval, int *value, int *ierror) {
    BEGIN();
    speak_fortran(true);
    int code = MPI_Attr_put(from_fortran(COMM, *comm), *keyval, (void *)(intptr_t)*value);
    speak_fortran(false);
    END(code);
}

static MPI_Aint comm_value(int keyval, void *value) { return keyval >= MPI_TAG_UB && keyval <= MPI_APPNUM ? *(int *)value : (MPI_Aint)value; }

void mpi_comm_get_attr_(int *comm, int *keyval, MPI_Aint *value, int *flag, int *ierror) {
    void *got = NULL;
    BEGIN();
    speak_fortran(true);
    int code = MPI_Comm_get_attr(from_fortran(COMM, *comm), *keyval, &got, flag);
    speak_fortran(false);
    if (code == MPI_SUCCESS && *flag) *value = comm_value(*keyval, got);
    END(code);
}

void mpi_attr_get_(int *comm, int *keyval, int *value, int *flag, int *ierror) {
    void *got = NULL;
    BEGIN();
    speak_fortran(true);
    int code = MPI_Attr_get(from_fortran(COMM, *comm), *keyval, &got, flag);
    speak_fortran(false);
    if (code == MPI_SUCCESS && *flag) *value = (int)comm_value(*keyval, got);
    END(code);
}

void mpi_win_get_attr_(int *win, int *keyval, MPI_Aint *value, int *flag, int *ierror) {
    void *got = NULL;
    BEGIN();
    speak_fortran(true);
    int code = MPI_Win_get_attr(from_fortran(WINDOW, *win), *keyval, &got, flag);
    speak_fortran(false);
    bool own = *keyval < MPI_WIN_SIZE || *keyval > MPI_WIN_MODEL;
    if (code == MPI_SUCCESS && *flag) *value = own ? (MPI_Aint)got : *keyval == MPI_WIN_SIZE ? *(MPI_Aint *)got : *(int *)got;
    END(code);
}

/* ---- functions that keys may have */

void mpi_comm_null_copy_fn_(int *comm, int *keyval, void *extra, void *value, void *copied, int *flag, int *ierror) {
    (void)comm, (void)keyval, (void)extra, (void)value, (void)copied;
    *flag = 0;
    *ierror = MPI_SUCCESS;
}

void mpi_comm_null_delete_fn_(int *comm, int *keyval, void *value, void *extra, int *ierror) {
    (void)comm, (void)keyval, (void)value, (void)extra;
    *ierror = MPI_SUCCESS;
}

void mpi_comm_dup_fn_(int *comm, int *keyval, void *extra, MPI_Aint *value, MPI_Aint *copied, int *flag, int *ierror) {
    (void)comm, (void)keyval, (void)extra;
    *copied = *value;
    *flag = 1;
    *ierror = MPI_SUCCESS;
}

void mpi_dup_fn_(int *comm, int *keyval, int *extra, int *value, int *copied, int *flag, int *ierror) {
    (void)comm, (void)keyval, (void)extra;
    *copied = *value;
    *flag = 1;
    *ierror = MPI_SUCCESS;
}

#define SAME(name, as) __typeof__(as) name __attribute__((alias(#as)))
SAME(mpi_win_null_copy_fn_, mpi_comm_null_copy_fn_);
SAME(mpi_win_null_delete_fn_, mpi_comm_null_delete_fn_);
SAME(mpi_win_dup_fn_, mpi_comm_dup_fn_);
SAME(mpi_type_null_copy_fn_, mpi_comm_null_copy_fn_);
SAME(mpi_type_null_delete_fn_, mpi_comm_null_delete_fn_);
SAME(mpi_type_dup_fn_, mpi_comm_dup_fn_);
SAME(mpi_null_copy_fn_, mpi_comm_null_copy_fn_);
SAME(mpi_null_delete_fn_, mpi_comm_null_delete_fn_);

/* ---- error handlers */

static void make_handler(int code, MPI_Errhandler made, int *handle, int *ierror) {
    if (code == MPI_SUCCESS) errhandler_of(made)->in_fortran = true;
    *handle = to_fortran(made);
    END(code);
}

void mpi_comm_create_errhandler_(void (*function)(void), int *handle, int *ierror) {
    MPI_Errhandler made = MPI_ERRHANDLER_NULL;
    BEGIN();
    int code = MPI_Comm_create_errhandler((MPI_Comm_errhandler_function *)function, &made);
    make_handler(code, made, handle, ierror);
}

SAME(mpi_errhandler_create_, mpi_comm_create_errhandler_);

void mpi_win_create_errhandler_(void (*function)(void), int *handle, int *ierror) {
    MPI_Errhandler made = MPI_ERRHANDLER_NULL;
    BEGIN();
    int code = MPI_Win_create_errhandler((MPI_Win_errhandler_function *)function, &made);
    make_handler(code, made, handle, ierror);
}

void mpi_file_create_errhandler_(void (*function)(void), int *handle, int *ierror) {
    MPI_Errhandler made = MPI_ERRHANDLER_NULL;
    BEGIN();
    int code = MPI_File_create_errhandler((MPI_File_errhandler_function *)function, &made);
    make_handler(code, made, handle, ierror);
}

void mpi_session_create_errhandler_(void (*function)(void), int *handle, int *ierror) {
    MPI_Errhandler made = MPI_ERRHANDLER_NULL;
    BEGIN();
    int code = MPI_Session_create_errhandler((MPI_Session_errhandler_function *)function, &made);
    make_handler(code, made, handle, ierror);
}

/* ---- further processes: the calls are refused, whatever is to be started */

void mpi_comm_spawn_(const char *command, const char *words, int *most, int *info, int *root, int *comm, int *made, int *codes, int *ierror) {
    (void)command, (void)words, (void)info, (void)codes;
    BEGIN();
    MPI_Comm none;
    int code = MPI_Comm_spawn("", MPI_ARGV_NULL, *most, MPI_INFO_NULL, *root, from_fortran(COMM, *comm), &none, MPI_ERRCODES_IGNORE);
    *made = to_fortran(none);
    END(code);
}

void mpi_comm_spawn_multiple_(int *many, const char *commands, const char *words, int *most, int *infos, int *root, int *comm, int *made, int *codes, int *ierror) {
    (void)commands, (void)words, (void)infos, (void)codes;
    BEGIN();
    MPI_Comm none;
    int code = MPI_Comm_spawn_multiple(*many, NULL, MPI_ARGVS_NULL, most, NULL, *root, from_fortran(COMM, *comm), &none, MPI_ERRCODES_IGNORE);
    *made = to_fortran(none);
    END(code);
}
