/* Files: what opens and closes them, and their collective calls, which take places in an order of each file's own. */
#include "makers.h"

static int made_file(int result, const MPI_File *made, char *key, const char *maker) {
    log_lock();
    if (result == MPI_SUCCESS && key) {
        log_place(here);
        file_made(*made, key, maker);
    }
    free(key);
    log_unlock();
    return result;
}

MAKER(file, File_open, (MPI_Comm parent, const char *name, int mode, MPI_Info info, MPI_File *made), (parent, name, mode, info, made))

static void write_of_file(MPI_File file, char form, const char *name) {
    log_lock();
    write_named(context_of_file(file), form, name);
    log_unlock();
}

#define OF_FILE(NAME, suffix, parameters, arguments)                                                                                        \
    INTERPOSED(MPI_File_##NAME##suffix, parameters, arguments) {                                                                            \
        write_of_file(file, 'b', "File_" #NAME);                                                                                            \
        return next_MPI_File_##NAME##suffix arguments;                                                                                      \
    }

/* Its request isn't followed. */
#define REQUEST_OF_FILE(NAME, blocking, suffix, parameters, arguments)                                                                      \
    INTERPOSED(MPI_File_##NAME##suffix, parameters, arguments) {                                                                            \
        write_of_file(file, 'i', "File_" #blocking);                                                                                        \
        return next_MPI_File_##NAME##suffix arguments;                                                                                      \
    }

INTERPOSED(MPI_File_close, (MPI_File * file), (file)) {
    log_lock();
    struct context *context = context_of_file(*file);
    write_named(context, 'b', "File_close");
    context_gone(context);
    log_unlock();
    return next_MPI_File_close(file);
}

#define GIVEN(count_type) const void *buffer, count_type count, MPI_Datatype type
#define TAKEN(count_type) void *buffer, count_type count, MPI_Datatype type

/* A call that moves data: all at once, by a begin and an end, and by a request. */
#define MOVES(NAME, WITH, suffix, count_type)                                                                                               \
    OF_FILE(NAME##_all, suffix, (MPI_File file, WITH(count_type), MPI_Status *status), (file, buffer, count, type, status))                 \
    OF_FILE(NAME##_at_all, suffix, (MPI_File file, MPI_Offset at, WITH(count_type), MPI_Status *status),                                    \
            (file, at, buffer, count, type, status))                                                                                        \
    OF_FILE(NAME##_ordered, suffix, (MPI_File file, WITH(count_type), MPI_Status *status), (file, buffer, count, type, status))             \
    OF_FILE(NAME##_all_begin, suffix, (MPI_File file, WITH(count_type)), (file, buffer, count, type))                                       \
    OF_FILE(NAME##_at_all_begin, suffix, (MPI_File file, MPI_Offset at, WITH(count_type)), (file, at, buffer, count, type))                 \
    OF_FILE(NAME##_ordered_begin, suffix, (MPI_File file, WITH(count_type)), (file, buffer, count, type))                                   \
    REQUEST_OF_FILE(i##NAME##_all, NAME##_all, suffix, (MPI_File file, WITH(count_type), MPI_Request *request),                             \
                    (file, buffer, count, type, request))                                                                                   \
    REQUEST_OF_FILE(i##NAME##_at_all, NAME##_at_all, suffix, (MPI_File file, MPI_Offset at, WITH(count_type), MPI_Request *request),        \
                    (file, at, buffer, count, type, request))

MOVES(read, TAKEN, , int)
MOVES(write, GIVEN, , int)
#if MPI_VERSION >= 4
MOVES(read, TAKEN, _c, MPI_Count)
MOVES(write, GIVEN, _c, MPI_Count)
#endif

#define END_READ (MPI_File file, void *buffer, MPI_Status *status), (file, buffer, status)
#define END_WRITE (MPI_File file, const void *buffer, MPI_Status *status), (file, buffer, status)
#define ENDS(...) OF_FILE(__VA_ARGS__)

ENDS(read_all_end, , END_READ)
ENDS(read_at_all_end, , END_READ)
ENDS(read_ordered_end, , END_READ)
ENDS(write_all_end, , END_WRITE)
ENDS(write_at_all_end, , END_WRITE)
ENDS(write_ordered_end, , END_WRITE)
OF_FILE(set_size, , (MPI_File file, MPI_Offset size), (file, size))
OF_FILE(preallocate, , (MPI_File file, MPI_Offset size), (file, size))
OF_FILE(set_view, , (MPI_File file, MPI_Offset from, MPI_Datatype element, MPI_Datatype type, const char *form, MPI_Info info),
        (file, from, element, type, form, info))
OF_FILE(set_atomicity, , (MPI_File file, int atomic), (file, atomic))
OF_FILE(sync, , (MPI_File file), (file))
OF_FILE(set_info, , (MPI_File file, MPI_Info info), (file, info))
OF_FILE(seek_shared, , (MPI_File file, MPI_Offset at, int from), (file, at, from))
