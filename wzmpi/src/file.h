/* Files (MPI 4.1, 14), over pread and pwrite. Each has a communicator of its own, which no program sees: collectives on the file are that one's. */
#ifndef WZ_FILE_H
#define WZ_FILE_H

#include "collectives.h"

/* A type of a view: as the program gave it, and as its elements lie in the file, which other representations than the machine's may have shorter. */
struct seen_type {
    MPI_Datatype given, lies;
};

/* What a member sees of a file: the bytes of FILETYPE, which is repeated from DISPLACEMENT on, in elements of ETYPE. */
struct view {
    MPI_Offset displacement;
    const struct type *etype, *filetype; /* as they lie in the file */
    struct seen_type of_etype, of_filetype;
    bool external; /* in the representation external32 */
};
size_t bytes_in_file(const struct view *view, const struct type *type, size_t many); /* of the elements of a call */

/* A split collective that is begun. */
struct split_call {
    const char *call, *ends_with, *site; /* call NULL: none is */
    MPI_Count bytes;
    int code;
};

struct file_member {
    struct view view;
    MPI_Offset position; /* in etypes */
    struct split_call split;
    MPI_Info info;
};

struct file {
    struct comm *comm;
    int descriptor, error, mode; /* ERROR: why it couldn't be opened; 0: it could */
    char *name;
    pthread_mutex_t guard;  /* for the words below, and for accesses of an atomic file */
    MPI_Offset shared;      /* the shared position, in etypes, and what it was before a collective moved it last */
    MPI_Offset shared_before;
    uint64_t shared_at;     /* the place of the last collective that moved it, from 1 on */
    uint64_t changed_at;    /* the same of what sizes or syncs the file */
    bool is_atomic, was_deleted;
    struct file_member members[];
};

/* ---- file_open.c */
struct file *find_file(MPI_File handle, const char *call, int *code);
struct file_member *my_file(struct file *file);
/* A call that MPI doesn't allow. Where files' default handler, which returns, judges it, it is told as a warning. */
int refuse_file(struct file *file, int class, const char *call, const char *format, ...) __attribute__((format(printf, 4, 5)));
int system_error(struct file *file, int number, const char *call, const char *what); /* what errno says, with MPI's class */
int meet_on_file(struct file *file, const char *call, uint64_t *place); /* all members come; the place of that */
/* The same, and each says a number. *DONE is to be dropped. */
int tell_on_file(struct file *file, const char *call, long long mine, struct request **done);
long long told_on_file(struct request *done, int member);

/* ---- file_view.c */
struct piece_of_file {
    MPI_Offset at;
    size_t length;
};
/* The bytes of a view from its byte FROM on, one contiguous piece after the other. */
struct walk {
    const struct view *view;
    MPI_Offset tile;
    size_t run, within; /* the run of the filetype, and the byte within it */
};
void begin_walk(struct walk *walk, const struct view *view, MPI_Offset from);
struct piece_of_file next_piece(struct walk *walk, size_t most);
MPI_Offset bytes_up_to(const struct view *view, MPI_Offset end); /* of the view, before a byte of the file */
void release_view(struct view *view);

/* ---- file_position.c: where the shared position is. A collective moves it once, by whoever goes on first. */
void place_shared(struct file *file, uint64_t place, MPI_Offset to);
MPI_Offset move_shared(struct file *file, uint64_t place, MPI_Offset by); /* the position before */
MPI_Offset take_shared(struct file *file, MPI_Offset by);                 /* of one member's call */

/* ---- file_access.c */
enum where { AT_OFFSET, AT_OWN, AT_SHARED, IN_ORDER };
struct transfer {
    const char *call;
    bool writes;
    enum where where;
    bool all;          /* it is collective */
    MPI_Offset offset; /* AT_OFFSET, in etypes */
    void *buffer;
    MPI_Count many;
    MPI_Datatype type;
    MPI_File file;
};
int move_bytes(const struct transfer *transfer, struct file **file, MPI_Count *moved); /* how many bytes */

#endif
