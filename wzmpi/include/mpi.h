/* MPI for programs whose ranks are threads of one process: the collectives of MPI 4.1 over Worzsunab's engine, and what programs use beside them.
   docs/WZRUN.md says which calls are there. Compile and link with wzcc, run with wzrun. C11 and C++11.

   Each call notes its line in the program by a macro of its own name. wzcc compiles a source that defines such calls itself, as profilers do, with
   -DWORZSUNAB_NO_LINES. */
#ifndef WORZSUNAB_MPI_H
#define WORZSUNAB_MPI_H

#include <stddef.h>
#include <stdint.h>

#ifdef __cplusplus
extern "C" {
#endif

#define MPI_VERSION 4
#define MPI_SUBVERSION 1
#define WORZSUNAB_MPI 1

/* Handles: a kind, a generation and a number in one word. A rank's handles mean nothing to another. But for types, the compiler tells one kind from another. */
typedef struct wz_comm_handle_ *MPI_Comm;
typedef struct wz_group_handle_ *MPI_Group;
typedef int MPI_Datatype; /* as in MPICH, since there are programs that keep types in ints */
typedef struct wz_op_handle_ *MPI_Op;
typedef struct wz_request_handle_ *MPI_Request;
typedef struct wz_info_handle_ *MPI_Info;
typedef struct wz_errhandler_handle_ *MPI_Errhandler;
typedef struct wz_win_handle_ *MPI_Win;
typedef struct wz_file_handle_ *MPI_File;
typedef struct wz_message_handle_ *MPI_Message;
typedef struct wz_session_handle_ *MPI_Session;
#define WZ_HANDLE_(type, kind, number) ((type)(((uintptr_t)(kind) << 56) | (uintptr_t)(number)))

typedef ptrdiff_t MPI_Aint;
#ifdef __GNUC__
__extension__ typedef long long MPI_Offset; /* C89 has no long long */
__extension__ typedef long long MPI_Count;
#else
typedef long long MPI_Offset;
typedef long long MPI_Count;
#endif
typedef int MPI_Fint;

typedef struct MPI_Status {
    int MPI_SOURCE;
    int MPI_TAG;
    int MPI_ERROR;
    int cancelled_;
    MPI_Count bytes_;
} MPI_Status;
#define MPI_STATUS_IGNORE ((MPI_Status *)0)
#define MPI_STATUSES_IGNORE ((MPI_Status *)0)
#define MPI_ERRCODES_IGNORE ((int *)0)
#define MPI_ARGV_NULL ((char **)0)
#define MPI_ARGVS_NULL ((char ***)0)

#define MPI_IN_PLACE ((void *)-1)
#define MPI_BOTTOM ((void *)0)
#define MPI_UNWEIGHTED ((int *)-2)
#define MPI_WEIGHTS_EMPTY ((int *)-3)

#define MPI_COMM_NULL WZ_HANDLE_(MPI_Comm, 1, 0)
#define MPI_COMM_WORLD WZ_HANDLE_(MPI_Comm, 1, 1)
#define MPI_COMM_SELF WZ_HANDLE_(MPI_Comm, 1, 2)
#define MPI_GROUP_NULL WZ_HANDLE_(MPI_Group, 2, 0)
#define MPI_GROUP_EMPTY WZ_HANDLE_(MPI_Group, 2, 1)
#define MPI_DATATYPE_NULL 0x3c000000
#define MPI_OP_NULL WZ_HANDLE_(MPI_Op, 4, 0)
#define MPI_REQUEST_NULL WZ_HANDLE_(MPI_Request, 5, 0)
#define MPI_INFO_NULL WZ_HANDLE_(MPI_Info, 6, 0)
#define MPI_INFO_ENV WZ_HANDLE_(MPI_Info, 6, 1)
#define MPI_ERRHANDLER_NULL WZ_HANDLE_(MPI_Errhandler, 7, 0)
#define MPI_ERRORS_ARE_FATAL WZ_HANDLE_(MPI_Errhandler, 7, 1)
#define MPI_ERRORS_RETURN WZ_HANDLE_(MPI_Errhandler, 7, 2)
#define MPI_ERRORS_ABORT WZ_HANDLE_(MPI_Errhandler, 7, 3)
#define MPI_MESSAGE_NULL WZ_HANDLE_(MPI_Message, 8, 0)
#define MPI_MESSAGE_NO_PROC WZ_HANDLE_(MPI_Message, 8, 1)
#define MPI_WIN_NULL WZ_HANDLE_(MPI_Win, 9, 0)
#define MPI_FILE_NULL WZ_HANDLE_(MPI_File, 10, 0)
#define MPI_SESSION_NULL WZ_HANDLE_(MPI_Session, 11, 0)

/* Types, in the order of types.c. */
#define MPI_CHAR 0x3c000001
#define MPI_SIGNED_CHAR 0x3c000002
#define MPI_UNSIGNED_CHAR 0x3c000003
#define MPI_SHORT 0x3c000004
#define MPI_UNSIGNED_SHORT 0x3c000005
#define MPI_INT 0x3c000006
#define MPI_UNSIGNED 0x3c000007
#define MPI_LONG 0x3c000008
#define MPI_UNSIGNED_LONG 0x3c000009
#define MPI_LONG_LONG_INT 0x3c00000a
#define MPI_LONG_LONG MPI_LONG_LONG_INT
#define MPI_UNSIGNED_LONG_LONG 0x3c00000b
#define MPI_INT8_T 0x3c00000c
#define MPI_INT16_T 0x3c00000d
#define MPI_INT32_T 0x3c00000e
#define MPI_INT64_T 0x3c00000f
#define MPI_UINT8_T 0x3c000010
#define MPI_UINT16_T 0x3c000011
#define MPI_UINT32_T 0x3c000012
#define MPI_UINT64_T 0x3c000013
#define MPI_AINT 0x3c000014
#define MPI_OFFSET 0x3c000015
#define MPI_COUNT 0x3c000016
#define MPI_BYTE 0x3c000017
#define MPI_PACKED 0x3c000018
#define MPI_WCHAR 0x3c000019
#define MPI_C_BOOL 0x3c00001a
#define MPI_FLOAT 0x3c00001b
#define MPI_DOUBLE 0x3c00001c
#define MPI_LONG_DOUBLE 0x3c00001d
#define MPI_C_FLOAT_COMPLEX 0x3c00001e
#define MPI_C_COMPLEX MPI_C_FLOAT_COMPLEX
#define MPI_C_DOUBLE_COMPLEX 0x3c00001f
#define MPI_C_LONG_DOUBLE_COMPLEX 0x3c000020
#define MPI_2INT 0x3c000021
#define MPI_FLOAT_INT 0x3c000022
#define MPI_DOUBLE_INT 0x3c000023
#define MPI_LONG_INT 0x3c000024
#define MPI_SHORT_INT 0x3c000025
#define MPI_LONG_DOUBLE_INT 0x3c000026
/* Fortran's types; those of C that are the same match them. */
#define MPI_CHARACTER 0x3c000027
#define MPI_LOGICAL 0x3c000028
#define MPI_INTEGER 0x3c000029
#define MPI_REAL 0x3c00002a
#define MPI_DOUBLE_PRECISION 0x3c00002b
#define MPI_COMPLEX 0x3c00002c
#define MPI_DOUBLE_COMPLEX 0x3c00002d
#define MPI_INTEGER1 0x3c00002e
#define MPI_INTEGER2 0x3c00002f
#define MPI_INTEGER4 0x3c000030
#define MPI_INTEGER8 0x3c000031
#define MPI_REAL4 0x3c000032
#define MPI_REAL8 0x3c000033
#define MPI_COMPLEX8 0x3c000034
#define MPI_COMPLEX16 0x3c000035
#define MPI_2INTEGER 0x3c000036
#define MPI_2REAL 0x3c000037
#define MPI_2DOUBLE_PRECISION 0x3c000038
/* Those that gfortran or this library lacks. */
#define MPI_INTEGER16 MPI_DATATYPE_NULL
#define MPI_REAL2 MPI_DATATYPE_NULL
#define MPI_REAL16 MPI_DATATYPE_NULL
#define MPI_COMPLEX4 MPI_DATATYPE_NULL
#define MPI_COMPLEX32 MPI_DATATYPE_NULL
/* Of MPI 1, for MPI_Type_struct alone. */
#define MPI_LB 0x3c0000f1
#define MPI_UB 0x3c0000f2
/* C++ names of types that are the same. */
#define MPI_CXX_BOOL MPI_C_BOOL
#define MPI_CXX_FLOAT_COMPLEX MPI_C_FLOAT_COMPLEX
#define MPI_CXX_DOUBLE_COMPLEX MPI_C_DOUBLE_COMPLEX
#define MPI_CXX_LONG_DOUBLE_COMPLEX MPI_C_LONG_DOUBLE_COMPLEX

#define MPI_MAX WZ_HANDLE_(MPI_Op, 4, 1)
#define MPI_MIN WZ_HANDLE_(MPI_Op, 4, 2)
#define MPI_SUM WZ_HANDLE_(MPI_Op, 4, 3)
#define MPI_PROD WZ_HANDLE_(MPI_Op, 4, 4)
#define MPI_LAND WZ_HANDLE_(MPI_Op, 4, 5)
#define MPI_BAND WZ_HANDLE_(MPI_Op, 4, 6)
#define MPI_LOR WZ_HANDLE_(MPI_Op, 4, 7)
#define MPI_BOR WZ_HANDLE_(MPI_Op, 4, 8)
#define MPI_LXOR WZ_HANDLE_(MPI_Op, 4, 9)
#define MPI_BXOR WZ_HANDLE_(MPI_Op, 4, 10)
#define MPI_MINLOC WZ_HANDLE_(MPI_Op, 4, 11)
#define MPI_MAXLOC WZ_HANDLE_(MPI_Op, 4, 12)
#define MPI_REPLACE WZ_HANDLE_(MPI_Op, 4, 13)
#define MPI_NO_OP WZ_HANDLE_(MPI_Op, 4, 14)

#define MPI_UNDEFINED (-32766)
#define MPI_PROC_NULL (-1)
#define MPI_ANY_SOURCE (-2)
#define MPI_ROOT (-3)
#define MPI_ANY_TAG (-1)
#define MPI_KEYVAL_INVALID (-1)
#define MPI_BSEND_OVERHEAD 64

/* Windows (MPI 4.1, 12). */
#define MPI_WIN_BASE 11
#define MPI_WIN_SIZE 12
#define MPI_WIN_DISP_UNIT 13
#define MPI_WIN_CREATE_FLAVOR 14
#define MPI_WIN_MODEL 15
#define MPI_LOCK_EXCLUSIVE 234
#define MPI_LOCK_SHARED 235
#define MPI_MODE_NOCHECK 1024
#define MPI_MODE_NOSTORE 2048
#define MPI_MODE_NOPUT 4096
#define MPI_MODE_NOPRECEDE 8192
#define MPI_MODE_NOSUCCEED 16384

#define MPI_MAX_PROCESSOR_NAME 128
#define MPI_MAX_ERROR_STRING 1024
#define MPI_MAX_OBJECT_NAME 128
#define MPI_MAX_LIBRARY_VERSION_STRING 256
#define MPI_MAX_INFO_KEY 255
#define MPI_MAX_INFO_VAL 1024
#define MPI_MAX_PORT_NAME 256
#define MPI_MAX_PSET_NAME_LEN 256
#define MPI_MAX_STRINGTAG_LEN 256

enum { MPI_THREAD_SINGLE, MPI_THREAD_FUNNELED, MPI_THREAD_SERIALIZED, MPI_THREAD_MULTIPLE };
/* Files (MPI 4.1, 14). */
#define MPI_MODE_CREATE 1
#define MPI_MODE_RDONLY 2
#define MPI_MODE_WRONLY 4
#define MPI_MODE_RDWR 8
#define MPI_MODE_DELETE_ON_CLOSE 16
#define MPI_MODE_UNIQUE_OPEN 32
#define MPI_MODE_EXCL 64
#define MPI_MODE_APPEND 128
#define MPI_MODE_SEQUENTIAL 256
#define MPI_SEEK_SET 600
#define MPI_SEEK_CUR 602
#define MPI_SEEK_END 604
#define MPI_DISPLACEMENT_CURRENT (-54278278)
#define MPI_MAX_DATAREP_STRING 128
#define MPIO_Request MPI_Request /* of ROMIO */
#define MPIO_Wait MPI_Wait
#define MPIO_Test MPI_Test

enum { MPI_WIN_FLAVOR_CREATE = 1, MPI_WIN_FLAVOR_ALLOCATE, MPI_WIN_FLAVOR_DYNAMIC, MPI_WIN_FLAVOR_SHARED };
enum { MPI_WIN_SEPARATE = 1, MPI_WIN_UNIFIED };
enum { MPI_IDENT, MPI_CONGRUENT, MPI_SIMILAR, MPI_UNEQUAL };
enum { MPI_COMM_TYPE_SHARED = 1, MPI_COMM_TYPE_HW_UNGUIDED, MPI_COMM_TYPE_HW_GUIDED };
enum { MPI_GRAPH = 1, MPI_CART, MPI_DIST_GRAPH };
enum {
    MPI_COMBINER_NAMED, MPI_COMBINER_DUP, MPI_COMBINER_CONTIGUOUS, MPI_COMBINER_VECTOR, MPI_COMBINER_HVECTOR, MPI_COMBINER_INDEXED, MPI_COMBINER_HINDEXED,
    MPI_COMBINER_INDEXED_BLOCK, MPI_COMBINER_HINDEXED_BLOCK, MPI_COMBINER_STRUCT, MPI_COMBINER_SUBARRAY, MPI_COMBINER_RESIZED, MPI_COMBINER_DARRAY, MPI_COMBINER_F90_REAL,
    MPI_COMBINER_F90_COMPLEX, MPI_COMBINER_F90_INTEGER, MPI_COMBINER_HVECTOR_INTEGER, MPI_COMBINER_HINDEXED_INTEGER, MPI_COMBINER_STRUCT_INTEGER
};
enum { MPI_ORDER_C = 56, MPI_ORDER_FORTRAN };
enum { MPI_TYPECLASS_INTEGER = 1, MPI_TYPECLASS_REAL, MPI_TYPECLASS_COMPLEX };
enum { MPI_DISTRIBUTE_BLOCK = 121, MPI_DISTRIBUTE_CYCLIC, MPI_DISTRIBUTE_NONE };
#define MPI_DISTRIBUTE_DFLT_DARG (-49767)
enum { MPI_TAG_UB = 1, MPI_HOST, MPI_IO, MPI_WTIME_IS_GLOBAL, MPI_UNIVERSE_SIZE, MPI_LASTUSEDCODE, MPI_APPNUM };

enum {
    MPI_SUCCESS, MPI_ERR_BUFFER, MPI_ERR_COUNT, MPI_ERR_TYPE, MPI_ERR_TAG, MPI_ERR_COMM, MPI_ERR_RANK, MPI_ERR_ROOT,
    MPI_ERR_GROUP, MPI_ERR_OP, MPI_ERR_TOPOLOGY, MPI_ERR_DIMS, MPI_ERR_ARG, MPI_ERR_UNKNOWN, MPI_ERR_TRUNCATE, MPI_ERR_OTHER,
    MPI_ERR_INTERN, MPI_ERR_IN_STATUS, MPI_ERR_PENDING, MPI_ERR_REQUEST, MPI_ERR_NO_MEM, MPI_ERR_KEYVAL, MPI_ERR_INFO,
    MPI_ERR_INFO_KEY, MPI_ERR_INFO_VALUE, MPI_ERR_INFO_NOKEY, MPI_ERR_UNSUPPORTED_OPERATION,
    MPI_ERR_WIN, MPI_ERR_BASE, MPI_ERR_SIZE, MPI_ERR_DISP, MPI_ERR_LOCKTYPE, MPI_ERR_ASSERT, MPI_ERR_RMA_CONFLICT, MPI_ERR_RMA_SYNC, MPI_ERR_RMA_RANGE,
    MPI_ERR_RMA_ATTACH, MPI_ERR_RMA_SHARED, MPI_ERR_RMA_FLAVOR,
    MPI_ERR_FILE, MPI_ERR_NOT_SAME, MPI_ERR_AMODE, MPI_ERR_UNSUPPORTED_DATAREP, MPI_ERR_NO_SUCH_FILE, MPI_ERR_FILE_EXISTS, MPI_ERR_BAD_FILE, MPI_ERR_ACCESS,
    MPI_ERR_NO_SPACE, MPI_ERR_QUOTA, MPI_ERR_READ_ONLY, MPI_ERR_FILE_IN_USE, MPI_ERR_DUP_DATAREP, MPI_ERR_CONVERSION, MPI_ERR_IO,
    MPI_ERR_SPAWN, MPI_ERR_PORT, MPI_ERR_SERVICE, MPI_ERR_NAME, MPI_ERR_SESSION, MPI_ERR_PROC_ABORTED, MPI_ERR_VALUE_TOO_LARGE, MPI_ERR_ERRHANDLER,
    MPI_ERR_LASTCODE = 1023
};

typedef void MPI_User_function(void *invec, void *inoutvec, int *len, MPI_Datatype *datatype);
typedef void MPI_User_function_c(void *invec, void *inoutvec, MPI_Count *len, MPI_Datatype *datatype);
typedef void MPI_Comm_errhandler_function(MPI_Comm *comm, int *code, ...);
typedef int MPI_Comm_copy_attr_function(MPI_Comm comm, int keyval, void *extra, void *value, void *copied, int *flag);
typedef int MPI_Comm_delete_attr_function(MPI_Comm comm, int keyval, void *value, void *extra);
#define MPI_COMM_NULL_COPY_FN ((MPI_Comm_copy_attr_function *)0)
#define MPI_COMM_NULL_DELETE_FN ((MPI_Comm_delete_attr_function *)0)
int wz_comm_dup_fn_(MPI_Comm comm, int keyval, void *extra, void *value, void *copied, int *flag);
#define MPI_COMM_DUP_FN wz_comm_dup_fn_
typedef int MPI_Type_copy_attr_function(MPI_Datatype type, int keyval, void *extra, void *value, void *copied, int *flag);
typedef int MPI_Type_delete_attr_function(MPI_Datatype type, int keyval, void *value, void *extra);
#define MPI_TYPE_NULL_COPY_FN ((MPI_Type_copy_attr_function *)0)
#define MPI_TYPE_NULL_DELETE_FN ((MPI_Type_delete_attr_function *)0)
int wz_type_dup_fn_(MPI_Datatype type, int keyval, void *extra, void *value, void *copied, int *flag);
#define MPI_TYPE_DUP_FN wz_type_dup_fn_
typedef int MPI_Grequest_query_function(void *extra, MPI_Status *status);
typedef int MPI_Grequest_free_function(void *extra);
typedef int MPI_Grequest_cancel_function(void *extra, int complete);
typedef MPI_Comm_errhandler_function MPI_Handler_function;
typedef MPI_Comm_copy_attr_function MPI_Copy_function;
typedef MPI_Comm_delete_attr_function MPI_Delete_function;
#define MPI_NULL_COPY_FN MPI_COMM_NULL_COPY_FN
#define MPI_NULL_DELETE_FN MPI_COMM_NULL_DELETE_FN
#define MPI_DUP_FN MPI_COMM_DUP_FN

typedef void MPI_Win_errhandler_function(MPI_Win *win, int *code, ...);
typedef int MPI_Win_copy_attr_function(MPI_Win win, int keyval, void *extra, void *value, void *copied, int *flag);
typedef int MPI_Win_delete_attr_function(MPI_Win win, int keyval, void *value, void *extra);
#define MPI_WIN_NULL_COPY_FN ((MPI_Win_copy_attr_function *)0)
#define MPI_WIN_NULL_DELETE_FN ((MPI_Win_delete_attr_function *)0)
int wz_win_dup_fn_(MPI_Win win, int keyval, void *extra, void *value, void *copied, int *flag);
#define MPI_WIN_DUP_FN wz_win_dup_fn_

typedef void MPI_Session_errhandler_function(MPI_Session *session, int *code, ...);
typedef void MPI_File_errhandler_function(MPI_File *file, int *code, ...);
typedef int MPI_Datarep_extent_function(MPI_Datatype datatype, MPI_Aint *extent, void *extra);
typedef int MPI_Datarep_conversion_function(void *userbuf, MPI_Datatype datatype, int count, void *filebuf, MPI_Offset position, void *extra);
#define MPI_CONVERSION_FN_NULL ((MPI_Datarep_conversion_function *)0)

/* The tool information interface (MPI 4.1, 15.3). It has no variables, so its handles name nothing. */
typedef struct wz_t_enum_ *MPI_T_enum;
typedef struct wz_t_cvar_ *MPI_T_cvar_handle;
typedef struct wz_t_pvar_ *MPI_T_pvar_handle;
typedef struct wz_t_session_ *MPI_T_pvar_session;
#define MPI_T_ENUM_NULL ((MPI_T_enum)0)
#define MPI_T_CVAR_HANDLE_NULL ((MPI_T_cvar_handle)0)
#define MPI_T_PVAR_HANDLE_NULL ((MPI_T_pvar_handle)0)
#define MPI_T_PVAR_ALL_HANDLES ((MPI_T_pvar_handle)-1)
#define MPI_T_PVAR_SESSION_NULL ((MPI_T_pvar_session)0)
typedef enum MPI_T_source_order { MPI_T_SOURCE_ORDERED, MPI_T_SOURCE_UNORDERED } MPI_T_source_order;
enum {
    MPI_T_VERBOSITY_USER_BASIC = 221, MPI_T_VERBOSITY_USER_DETAIL, MPI_T_VERBOSITY_USER_ALL, MPI_T_VERBOSITY_TUNER_BASIC, MPI_T_VERBOSITY_TUNER_DETAIL,
    MPI_T_VERBOSITY_TUNER_ALL, MPI_T_VERBOSITY_MPIDEV_BASIC, MPI_T_VERBOSITY_MPIDEV_DETAIL, MPI_T_VERBOSITY_MPIDEV_ALL
};
enum {
    MPI_T_BIND_NO_OBJECT = 9700, MPI_T_BIND_MPI_COMM, MPI_T_BIND_MPI_DATATYPE, MPI_T_BIND_MPI_ERRHANDLER, MPI_T_BIND_MPI_FILE, MPI_T_BIND_MPI_GROUP, MPI_T_BIND_MPI_OP,
    MPI_T_BIND_MPI_REQUEST, MPI_T_BIND_MPI_WIN, MPI_T_BIND_MPI_MESSAGE, MPI_T_BIND_MPI_INFO, MPI_T_BIND_MPI_SESSION
};
enum { MPI_T_SCOPE_CONSTANT = 60438, MPI_T_SCOPE_READONLY, MPI_T_SCOPE_LOCAL, MPI_T_SCOPE_GROUP, MPI_T_SCOPE_GROUP_EQ, MPI_T_SCOPE_ALL, MPI_T_SCOPE_ALL_EQ };
enum {
    MPI_T_PVAR_CLASS_STATE = 240, MPI_T_PVAR_CLASS_LEVEL, MPI_T_PVAR_CLASS_SIZE, MPI_T_PVAR_CLASS_PERCENTAGE, MPI_T_PVAR_CLASS_HIGHWATERMARK, MPI_T_PVAR_CLASS_LOWWATERMARK,
    MPI_T_PVAR_CLASS_COUNTER, MPI_T_PVAR_CLASS_AGGREGATE, MPI_T_PVAR_CLASS_TIMER, MPI_T_PVAR_CLASS_GENERIC
};
enum {
    MPI_T_ERR_INVALID = 200, MPI_T_ERR_MEMORY, MPI_T_ERR_NOT_INITIALIZED, MPI_T_ERR_CANNOT_INIT, MPI_T_ERR_INVALID_INDEX, MPI_T_ERR_INVALID_ITEM, MPI_T_ERR_INVALID_HANDLE,
    MPI_T_ERR_OUT_OF_HANDLES, MPI_T_ERR_OUT_OF_SESSIONS, MPI_T_ERR_INVALID_SESSION, MPI_T_ERR_CVAR_SET_NOT_NOW, MPI_T_ERR_CVAR_SET_NEVER, MPI_T_ERR_PVAR_NO_STARTSTOP,
    MPI_T_ERR_PVAR_NO_WRITE, MPI_T_ERR_PVAR_NO_ATOMIC, MPI_T_ERR_INVALID_NAME, MPI_T_ERR_NOT_ACCESSIBLE, MPI_T_ERR_NOT_SUPPORTED
};

/* Where the next call of this thread stands in the program. */
void wz_note_line_(const char *line);

#include "mpi_calls.h"

#ifdef __cplusplus
}
#endif

#ifndef WORZSUNAB_NO_LINES
#include "mpi_lines.h"
#endif

#endif
