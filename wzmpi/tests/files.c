/* Programs with files and without a mistake: files NAME runs one of them, which says nothing and ends with 0. */
#include <mpi.h>
#include <stdio.h>
#include <stdlib.h>
#include <string.h>
#include <unistd.h>

static int rank, size;
static char name[200];
static MPI_File file;

static void fail(int line, const char *what) {
    printf("rank %d: files.c:%d: not so: %s\n", rank, line, what);
    exit(1);
}
#define HOLDS(what) ((what) ? (void)0 : fail(__LINE__, #what))

static void open_file(int mode) { HOLDS(MPI_File_open(MPI_COMM_WORLD, name, mode, MPI_INFO_NULL, &file) == MPI_SUCCESS); }
static int moved(MPI_Status *status) {
    int count;
    MPI_Get_count(status, MPI_INT, &count);
    return count;
}

/* Each writes its block and reads its neighbour's, by offsets and by its own position. */
static void blocks(void) {
    int mine[10], got[10], right = (rank + 1) % size;
    MPI_Status status;
    MPI_Offset bytes;
    for (int i = 0; i < 10; i++) mine[i] = 100 * rank + i;
    open_file(MPI_MODE_CREATE | MPI_MODE_RDWR);
    HOLDS(MPI_File_write_at_all(file, 40 * rank, mine, 10, MPI_INT, &status) == MPI_SUCCESS && moved(&status) == 10);
    MPI_File_sync(file);
    MPI_File_get_size(file, &bytes);
    HOLDS(bytes == 40 * size);
    HOLDS(MPI_File_read_at(file, 40 * right, got, 10, MPI_INT, &status) == MPI_SUCCESS && moved(&status) == 10);
    for (int i = 0; i < 10; i++) HOLDS(got[i] == 100 * right + i);
    MPI_File_seek(file, 40 * rank, MPI_SEEK_SET);
    for (int i = 0; i < 10; i++) HOLDS(MPI_File_read(file, &got[i], 1, MPI_INT, &status) == MPI_SUCCESS && got[i] == mine[i]);
    MPI_File_get_position(file, &bytes);
    HOLDS(bytes == 40 * (rank + 1));
    MPI_File_seek(file, -8, MPI_SEEK_END);
    HOLDS(MPI_File_read(file, got, 10, MPI_INT, &status) == MPI_SUCCESS && moved(&status) == 2 && got[1] == 100 * (size - 1) + 9);
    HOLDS(MPI_File_read(file, got, 10, MPI_INT, &status) == MPI_SUCCESS && moved(&status) == 0);
}

/* Views of derived types: the ranks' elements lie by turns. */
static void views(void) {
    int mine[6], all[64 * 6];
    MPI_Datatype turns, pair, got_etype, got_filetype;
    MPI_Offset at;
    char representation[MPI_MAX_DATAREP_STRING];
    MPI_Status status;
    for (int i = 0; i < 6; i++) mine[i] = 10 * rank + i;
    MPI_Type_vector(3, 2, 2 * size, MPI_INT, &pair);
    MPI_Type_create_resized(pair, 0, 3 * 2 * size * 4, &turns);
    MPI_Type_commit(&turns);
    open_file(MPI_MODE_CREATE | MPI_MODE_RDWR);
    MPI_File_set_view(file, 8 + 8 * rank, MPI_INT, turns, "native", MPI_INFO_NULL);
    MPI_Type_free(&pair);
    MPI_Type_free(&turns);
    HOLDS(MPI_File_write_all(file, mine, 6, MPI_INT, &status) == MPI_SUCCESS && moved(&status) == 6);
    MPI_File_get_position(file, &at);
    HOLDS(at == 6);
    MPI_File_get_byte_offset(file, 3, &at);
    HOLDS(at == 8 + 8 * rank + 8 * size + 4);
    MPI_File_get_view(file, &at, &got_etype, &got_filetype, representation);
    HOLDS(at == 8 + 8 * rank && got_etype == MPI_INT && strcmp(representation, "native") == 0);
    MPI_Type_free(&got_filetype);
    MPI_Barrier(MPI_COMM_WORLD);
    MPI_File_set_view(file, 8, MPI_INT, MPI_INT, "native", MPI_INFO_NULL);
    HOLDS(MPI_File_read_at_all(file, 0, all, 6 * size, MPI_INT, &status) == MPI_SUCCESS && moved(&status) == 6 * size);
    for (int i = 0; i < 6 * size; i++) HOLDS(all[i] == 10 * (i / 2 % size) + 2 * (i / 2 / size) + i % 2);
}

/* A buffer with gaps, and a subarray of a matrix for each rank. */
static void matrices(void) {
    int buffer[8] = { rank, -1, rank, -1, rank, -1, rank, -1 }, row[64 * 4];
    MPI_Datatype every_other, column;
    MPI_Status status;
    MPI_Type_vector(4, 1, 2, MPI_INT, &every_other);
    MPI_Type_commit(&every_other);
    MPI_Type_create_subarray(2, (int[]){ 4, size }, (int[]){ 4, 1 }, (int[]){ 0, rank }, MPI_ORDER_C, MPI_INT, &column);
    MPI_Type_commit(&column);
    open_file(MPI_MODE_CREATE | MPI_MODE_RDWR);
    MPI_File_set_view(file, 0, MPI_INT, column, "native", MPI_INFO_NULL);
    HOLDS(MPI_File_write_all(file, buffer, 1, every_other, &status) == MPI_SUCCESS && moved(&status) == 4);
    for (int i = 0; i < 8; i++) buffer[i] = -2;
    HOLDS(MPI_File_read_at(file, 0, buffer, 1, every_other, &status) == MPI_SUCCESS);
    for (int i = 0; i < 8; i++) HOLDS(buffer[i] == (i % 2 == 0 ? rank : -2));
    MPI_Barrier(MPI_COMM_WORLD);
    MPI_File_set_view(file, 0, MPI_INT, MPI_INT, "native", MPI_INFO_NULL);
    MPI_File_read_at(file, 0, row, 4 * size, MPI_INT, &status);
    for (int i = 0; i < 4 * size; i++) HOLDS(row[i] == i % size);
    MPI_Type_free(&every_other);
    MPI_Type_free(&column);
}

/* The shared position: each element is written once, and in order where the call says so. */
static void shared(void) {
    int mine[3] = { rank, rank, rank }, all[64 * 4], times[64] = { 0 };
    MPI_Status status;
    MPI_Offset at;
    open_file(MPI_MODE_CREATE | MPI_MODE_RDWR);
    MPI_File_set_view(file, 0, MPI_INT, MPI_INT, "native", MPI_INFO_NULL);
    MPI_File_write_shared(file, mine, 1, MPI_INT, &status);
    MPI_Barrier(MPI_COMM_WORLD);
    MPI_File_get_position_shared(file, &at);
    HOLDS(at == size);
    MPI_Barrier(MPI_COMM_WORLD);
    HOLDS(MPI_File_write_ordered(file, mine, rank % 4, MPI_INT, &status) == MPI_SUCCESS && moved(&status) == rank % 4);
    MPI_File_seek_shared(file, 0, MPI_SEEK_SET);
    HOLDS(MPI_File_read_ordered(file, &all[0], 1, MPI_INT, &status) == MPI_SUCCESS && moved(&status) == 1);
    MPI_File_read_at(file, 0, all, size, MPI_INT, &status);
    for (int i = 0; i < size; i++) times[all[i]]++;
    for (int i = 0; i < size; i++) HOLDS(times[i] == 1);
    int many = 0;
    for (int i = 0; i < size; i++) many += i % 4;
    HOLDS(MPI_File_read_at(file, size, all, 4 * 64, MPI_INT, &status) == MPI_SUCCESS && moved(&status) == many);
    for (int i = 0, at_element = 0; i < size; i++)
        for (int j = 0; j < i % 4; j++) HOLDS(all[at_element++] == i);
}

/* Split collectives and calls with requests. */
static void later(void) {
    int mine[4] = { rank, 1, 2, 3 }, got[4];
    MPI_Request request;
    MPI_Status status;
    open_file(MPI_MODE_CREATE | MPI_MODE_RDWR);
    MPI_File_iwrite_at(file, 16 * rank, mine, 4, MPI_INT, &request);
    MPI_Wait(&request, &status);
    HOLDS(moved(&status) == 4);
    MPI_File_read_at_all_begin(file, 16 * rank, got, 4, MPI_INT);
    MPI_File_read_at_all_end(file, got, &status);
    HOLDS(moved(&status) == 4 && memcmp(got, mine, sizeof got) == 0);
    MPI_File_seek(file, 16 * rank, MPI_SEEK_SET);
    memset(got, 0, sizeof got);
    MPI_File_iread(file, got, 2, MPI_INT, &request);
    MPI_Wait(&request, &status);
    MPI_File_iread_all(file, got + 2, 2, MPI_INT, &request);
    MPI_Wait(&request, MPI_STATUS_IGNORE);
    HOLDS(memcmp(got, mine, sizeof got) == 0);
    MPI_File_write_ordered_begin(file, mine, 4, MPI_INT);
    MPI_File_write_ordered_end(file, mine, &status);
    HOLDS(moved(&status) == 4);
}

static int handled;
static void handle(MPI_File *of, int *code, ...) { handled += *of == file && *code == MPI_ERR_ACCESS; }

/* What a system says comes as MPI's classes, and files return their errors. */
static void errors(void) {
    int number = 1, flag, mode;
    MPI_File none;
    MPI_Offset bytes;
    MPI_Errhandler handler;
    HOLDS(MPI_File_open(MPI_COMM_WORLD, "/no/such/folder/file", MPI_MODE_RDONLY, MPI_INFO_NULL, &none) == MPI_ERR_NO_SUCH_FILE && none == MPI_FILE_NULL);
    HOLDS(MPI_File_delete("/no/such/folder/file", MPI_INFO_NULL) == MPI_ERR_NO_SUCH_FILE);
    open_file(MPI_MODE_CREATE | MPI_MODE_WRONLY);
    HOLDS(MPI_File_open(MPI_COMM_WORLD, name, MPI_MODE_CREATE | MPI_MODE_EXCL | MPI_MODE_RDWR, MPI_INFO_NULL, &none) == MPI_ERR_FILE_EXISTS);
    MPI_File_create_errhandler(handle, &handler);
    MPI_File_set_errhandler(file, handler);
    HOLDS(MPI_File_read(file, &number, 1, MPI_INT, MPI_STATUS_IGNORE) == MPI_ERR_ACCESS && handled == 1);
    MPI_Errhandler_free(&handler);
    MPI_File_set_errhandler(file, MPI_ERRORS_RETURN);
    HOLDS(MPI_File_set_view(file, 0, MPI_INT, MPI_INT, "unheard of", MPI_INFO_NULL) == MPI_ERR_UNSUPPORTED_DATAREP);
    MPI_File_get_amode(file, &mode);
    HOLDS(mode == (MPI_MODE_CREATE | MPI_MODE_WRONLY));
    MPI_File_set_size(file, 100);
    MPI_File_get_size(file, &bytes);
    HOLDS(bytes == 100);
    MPI_File_preallocate(file, 200);
    MPI_File_get_size(file, &bytes);
    HOLDS(bytes == 200);
    MPI_File_get_atomicity(file, &flag);
    HOLDS(!flag);
    MPI_File_set_atomicity(file, 1);
    MPI_File_get_atomicity(file, &flag);
    HOLDS(flag);
}

/* In external32: big-endian, and MPI_LONG has four bytes there. */
static void external(void) {
    unsigned char bytes[24];
    long longs[3] = { 1, -2, 3 }, got[4] = { 0 };
    double number = 1.0, back = 0;
    MPI_Offset at, displacement;
    MPI_Aint extent;
    MPI_Datatype etype, filetype, gaps;
    char representation[MPI_MAX_DATAREP_STRING];
    MPI_Status status;
    int count;
    MPI_Type_vector(2, 1, 2, MPI_INT, &gaps);
    MPI_Type_commit(&gaps);
    open_file(MPI_MODE_CREATE | MPI_MODE_RDWR);
    MPI_File_set_view(file, 100 * rank, MPI_LONG, MPI_LONG, "external32", MPI_INFO_NULL);
    HOLDS(MPI_File_write(file, longs, 3, MPI_LONG, &status) == MPI_SUCCESS);
    MPI_Get_count(&status, MPI_LONG, &count);
    MPI_File_get_position(file, &at);
    MPI_File_get_type_extent(file, MPI_LONG, &extent);
    HOLDS(count == 3 && at == 3 && extent == 4);
    MPI_File_read_at(file, 0, got, 3, MPI_LONG, &status);
    HOLDS(got[0] == 1 && got[1] == -2 && got[2] == 3);
    MPI_File_get_view(file, &displacement, &etype, &filetype, representation);
    HOLDS(displacement == 100 * rank && etype == MPI_LONG && filetype == MPI_LONG && strcmp(representation, "external32") == 0);
    MPI_File_set_view(file, 100 * rank + 12, MPI_INT, gaps, "external32", MPI_INFO_NULL);
    HOLDS(MPI_File_write_at_all(file, 1, &number, 1, MPI_DOUBLE, &status) == MPI_SUCCESS);
    HOLDS(MPI_File_read_at(file, 1, &back, 1, MPI_DOUBLE, &status) == MPI_SUCCESS && back == 1.0);
    MPI_File_set_view(file, 100 * rank, MPI_BYTE, MPI_BYTE, "native", MPI_INFO_NULL);
    MPI_File_read_at(file, 0, bytes, 24, MPI_BYTE, &status);
    HOLDS(bytes[0] == 0 && bytes[3] == 1 && bytes[4] == 0xff && bytes[7] == 0xfe && bytes[11] == 3);
    HOLDS(bytes[20] == 0x3f && bytes[21] == 0xf0);
    MPI_Barrier(MPI_COMM_WORLD);
    MPI_File_set_view(file, 100 * (size - 1) + 20, MPI_BYTE, MPI_BYTE, "external32", MPI_INFO_NULL);
    HOLDS(MPI_File_read_at(file, 0, got, 4, MPI_LONG, &status) == MPI_SUCCESS);
    MPI_Get_elements(&status, MPI_LONG, &count);
    HOLDS(count == 2 && got[0] == 0x3ff00000 && got[1] == 0);
    MPI_Type_free(&gaps);
}

/* A device that is always full. */
static void full(void) {
    MPI_File device;
    char bytes[10] = { 0 };
    MPI_File_set_errhandler(MPI_FILE_NULL, MPI_ERRORS_RETURN);
    HOLDS(MPI_File_open(MPI_COMM_SELF, "/dev/full", MPI_MODE_WRONLY, MPI_INFO_NULL, &device) == MPI_SUCCESS);
    HOLDS(MPI_File_write(device, bytes, 10, MPI_BYTE, MPI_STATUS_IGNORE) == MPI_ERR_NO_SPACE);
    MPI_File_close(&device);
}

/* Modes: appending, and being deleted by whoever closes it last. */
static void modes(void) {
    int one = 1, two = 2, got[2];
    MPI_Status status;
    MPI_File own;
    char own_name[260];
    snprintf(own_name, sizeof own_name, "%s.%d", name, rank);
    MPI_File_open(MPI_COMM_SELF, own_name, MPI_MODE_CREATE | MPI_MODE_WRONLY, MPI_INFO_NULL, &own);
    MPI_File_write(own, &one, 1, MPI_INT, &status);
    MPI_File_close(&own);
    MPI_File_open(MPI_COMM_SELF, own_name, MPI_MODE_WRONLY | MPI_MODE_APPEND, MPI_INFO_NULL, &own);
    MPI_File_write(own, &two, 1, MPI_INT, &status);
    MPI_File_close(&own);
    MPI_File_open(MPI_COMM_SELF, own_name, MPI_MODE_RDONLY | MPI_MODE_DELETE_ON_CLOSE, MPI_INFO_NULL, &own);
    HOLDS(MPI_File_read(own, got, 2, MPI_INT, &status) == MPI_SUCCESS && got[0] == 1 && got[1] == 2);
    MPI_File_close(&own);
    HOLDS(own == MPI_FILE_NULL && access(own_name, F_OK) != 0);
    MPI_File_open(MPI_COMM_SELF, own_name, MPI_MODE_CREATE | MPI_MODE_WRONLY | MPI_MODE_SEQUENTIAL | MPI_MODE_DELETE_ON_CLOSE, MPI_INFO_NULL, &own);
    HOLDS(MPI_File_write_shared(own, &one, 1, MPI_INT, &status) == MPI_SUCCESS && moved(&status) == 1);
    MPI_File_close(&own);
}

#define CASE(name) { #name, name }
static const struct {
    const char *name;
    void (*run)(void);
} cases[] = {
    CASE(blocks), CASE(views), CASE(matrices), CASE(shared), CASE(later), CASE(errors), CASE(full), CASE(modes), CASE(external),
};

int main(int argc, char **argv) {
    MPI_Init(&argc, &argv);
    MPI_Comm_rank(MPI_COMM_WORLD, &rank);
    MPI_Comm_size(MPI_COMM_WORLD, &size);
    snprintf(name, sizeof name, "%s/wzrun-files", getenv("TMPDIR") != NULL ? getenv("TMPDIR") : "/tmp");
    file = MPI_FILE_NULL;
    for (size_t i = 0; i < sizeof cases / sizeof cases[0]; i++)
        if (argc > 1 && strcmp(argv[1], cases[i].name) == 0) cases[i].run();
    if (file != MPI_FILE_NULL) MPI_File_close(&file);
    MPI_Barrier(MPI_COMM_WORLD);
    if (rank == 0) MPI_File_delete(name, MPI_INFO_NULL);
    MPI_Finalize();
    return 0;
}
