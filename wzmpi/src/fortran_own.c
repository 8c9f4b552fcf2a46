/* Linked into each Fortran program: the common blocks of mpif.h, whose addresses are words, and what ends a rank in place of all. */
#include <stdbool.h>
#include <stddef.h>
#include <stdio.h>
#include <stdlib.h>

#define COMMON(name, words) __attribute__((common)) int mpi_wz_##name##_[words]
COMMON(bottom, 1);
COMMON(in_place, 1);
COMMON(status_ignore, 6);
COMMON(statuses_ignore, 6);
COMMON(errcodes_ignore, 1);
COMMON(unweighted, 1);
COMMON(weights_empty, 1);
__attribute__((common)) char mpi_wz_argv_null_[1], mpi_wz_argvs_null_[1];

/* In the order of fortran.h. */
__attribute__((visibility("default"))) void *const wz_fortran_places_[] = {
    mpi_wz_bottom_, mpi_wz_in_place_, mpi_wz_status_ignore_, mpi_wz_statuses_ignore_, mpi_wz_errcodes_ignore_, mpi_wz_unweighted_, mpi_wz_weights_empty_,
    mpi_wz_argv_null_, mpi_wz_argvs_null_,
};

/* libgfortran's own end the process: STOP, ERROR STOP and EXIT end a rank, as they end a process elsewhere. */
void __wrap__gfortran_stop_numeric(int code, bool quiet);
void __wrap__gfortran_stop_numeric(int code, bool quiet) {
    if (!quiet) fprintf(stderr, "STOP %d\n", code);
    exit(code);
}

void __wrap__gfortran_error_stop_numeric(int code, bool quiet);
void __wrap__gfortran_error_stop_numeric(int code, bool quiet) {
    if (!quiet) fprintf(stderr, "ERROR STOP %d\n", code);
    exit(code);
}

void __wrap__gfortran_stop_string(const char *text, size_t length, bool quiet);
void __wrap__gfortran_stop_string(const char *text, size_t length, bool quiet) {
    if (!quiet && text != NULL) fprintf(stderr, "STOP %.*s\n", (int)length, text);
    exit(0);
}

void __wrap__gfortran_error_stop_string(const char *text, size_t length, bool quiet);
void __wrap__gfortran_error_stop_string(const char *text, size_t length, bool quiet) {
    if (!quiet) fprintf(stderr, "ERROR STOP %.*s\n", (int)length, text != NULL ? text : "");
    exit(1);
}

/* libgfortran's handlers of signals come with its options. */
void wz_keep_handlers_(void (*set_options)(int, int *), int many, int *options);
void __real__gfortran_set_options(int many, int *options);
void __wrap__gfortran_set_options(int many, int *options);
void __wrap__gfortran_set_options(int many, int *options) { wz_keep_handlers_(__real__gfortran_set_options, many, options); }

void __wrap__gfortran_exit_i4(const int *code);
void __wrap__gfortran_exit_i4(const int *code) { exit(code != NULL ? *code : 0); }
