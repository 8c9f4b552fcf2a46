/* Programs with files and one planted mistake each: files_wrong NAME runs one of them. tests/files_wrong.want has what wzrun says of each. Files return their errors,
   so that most of them go on, with a warning. */
#include <mpi.h>
#include <stdio.h>
#include <stdlib.h>
#include <string.h>
#include <unistd.h>

static int rank, size, numbers[8];
static char name[200];
static MPI_File file;

#define open_file(mode) MPI_File_open(MPI_COMM_WORLD, name, mode, MPI_INFO_NULL, &file)
#define open_own(mode) MPI_File_open(MPI_COMM_SELF, name, mode, MPI_INFO_NULL, &file)

static void two_modes(void) {
    if (rank == 1) open_own(MPI_MODE_CREATE | MPI_MODE_RDWR | MPI_MODE_WRONLY);
}
static void read_only(void) {
    if (rank != 0) return;
    open_own(MPI_MODE_CREATE | MPI_MODE_WRONLY);
    MPI_File_close(&file);
    open_own(MPI_MODE_RDONLY);
    MPI_File_write(file, numbers, 8, MPI_INT, MPI_STATUS_IGNORE);
}
static void write_only(void) {
    if (rank != 1) return;
    open_own(MPI_MODE_CREATE | MPI_MODE_WRONLY);
    MPI_File_read(file, numbers, 8, MPI_INT, MPI_STATUS_IGNORE);
}
static void other_name(void) {
    char other[220];
    snprintf(other, sizeof other, "%s%s", name, rank == 1 ? "-other" : "");
    MPI_File_set_errhandler(MPI_FILE_NULL, MPI_ERRORS_ARE_FATAL);
    if (rank == 1) MPI_File_set_errhandler(MPI_FILE_NULL, MPI_ERRORS_RETURN);
    else usleep(200000);
    if (rank == 1) MPI_File_open(MPI_COMM_WORLD, "wzrun-other", MPI_MODE_CREATE | MPI_MODE_RDWR, MPI_INFO_NULL, &file);
    else if (rank == 0) open_file(MPI_MODE_CREATE | MPI_MODE_RDWR);
    else {
        MPI_File_set_errhandler(MPI_FILE_NULL, MPI_ERRORS_RETURN);
        open_file(MPI_MODE_CREATE | MPI_MODE_RDWR);
    }
}
static void lacking_close(void) {
    open_file(MPI_MODE_CREATE | MPI_MODE_RDWR);
    if (rank != 1) MPI_File_close(&file);
}
static void lacking_write(void) {
    open_file(MPI_MODE_CREATE | MPI_MODE_RDWR);
    if (rank != 2) MPI_File_write_all(file, numbers, 1, MPI_INT, MPI_STATUS_IGNORE);
}
static void two_collectives(void) {
    open_file(MPI_MODE_CREATE | MPI_MODE_RDWR);
    if (rank == 2) MPI_File_read_all(file, numbers, 1, MPI_INT, MPI_STATUS_IGNORE);
    else MPI_File_write_all(file, numbers, 1, MPI_INT, MPI_STATUS_IGNORE);
}
static void part_of_etype(void) {
    if (rank != 1) return;
    open_own(MPI_MODE_CREATE | MPI_MODE_RDWR);
    MPI_File_set_view(file, 0, MPI_DOUBLE, MPI_DOUBLE, "native", MPI_INFO_NULL);
    MPI_File_write(file, numbers, 3, MPI_INT, MPI_STATUS_IGNORE);
}
static void bad_filetype(void) {
    MPI_Datatype three;
    if (rank != 1) return;
    MPI_Type_contiguous(3, MPI_INT, &three);
    MPI_Type_commit(&three);
    open_own(MPI_MODE_CREATE | MPI_MODE_RDWR);
    MPI_File_set_view(file, 0, MPI_DOUBLE, three, "native", MPI_INFO_NULL);
}
static void back_filetype(void) {
    MPI_Datatype back;
    if (rank != 1) return;
    MPI_Type_indexed(2, (int[]){ 1, 1 }, (int[]){ 2, 0 }, MPI_INT, &back);
    MPI_Type_commit(&back);
    open_own(MPI_MODE_CREATE | MPI_MODE_RDWR);
    MPI_File_set_view(file, 0, MPI_INT, back, "native", MPI_INFO_NULL);
}
static void uncommitted(void) {
    MPI_Datatype two;
    if (rank != 1) return;
    MPI_Type_contiguous(2, MPI_INT, &two);
    open_own(MPI_MODE_CREATE | MPI_MODE_RDWR);
    MPI_File_write(file, numbers, 1, two, MPI_STATUS_IGNORE);
}
static void negative(void) {
    if (rank != 1) return;
    open_own(MPI_MODE_CREATE | MPI_MODE_RDWR);
    MPI_File_read_at(file, -4, numbers, 1, MPI_INT, MPI_STATUS_IGNORE);
}
static void before_beginning(void) {
    if (rank != 1) return;
    open_own(MPI_MODE_CREATE | MPI_MODE_RDWR);
    MPI_File_seek(file, -1, MPI_SEEK_CUR);
}
static void two_splits(void) {
    if (rank != 1) return;
    open_own(MPI_MODE_CREATE | MPI_MODE_RDWR);
    MPI_File_write_all_begin(file, numbers, 1, MPI_INT);
    MPI_File_write_at_all_begin(file, 0, numbers, 1, MPI_INT);
}
static void other_end(void) {
    if (rank != 1) return;
    open_own(MPI_MODE_CREATE | MPI_MODE_RDWR);
    MPI_File_write_all_begin(file, numbers, 1, MPI_INT);
    MPI_File_read_all_end(file, numbers, MPI_STATUS_IGNORE);
}
static void no_end(void) {
    if (rank != 1) return;
    open_own(MPI_MODE_CREATE | MPI_MODE_RDWR);
    MPI_File_write_all_begin(file, numbers, 1, MPI_INT);
    MPI_File_close(&file);
}
static void closed(void) {
    if (rank != 1) return;
    open_own(MPI_MODE_CREATE | MPI_MODE_RDWR);
    MPI_File kept = file;
    MPI_File_close(&file);
    MPI_File_read(kept, numbers, 1, MPI_INT, MPI_STATUS_IGNORE);
}
static void sequential(void) {
    if (rank != 1) return;
    open_own(MPI_MODE_CREATE | MPI_MODE_WRONLY | MPI_MODE_SEQUENTIAL);
    MPI_File_write_at(file, 0, numbers, 1, MPI_INT, MPI_STATUS_IGNORE);
}
static void full(void) {
    if (rank != 1) return;
    MPI_File_open(MPI_COMM_SELF, "/dev/full", MPI_MODE_WRONLY, MPI_INFO_NULL, &file);
    MPI_File_write(file, numbers, 8, MPI_INT, MPI_STATUS_IGNORE);
}
static void fatal(void) {
    if (rank != 1) return;
    open_own(MPI_MODE_CREATE | MPI_MODE_WRONLY);
    MPI_File_set_errhandler(file, MPI_ERRORS_ARE_FATAL);
    MPI_File_read(file, numbers, 8, MPI_INT, MPI_STATUS_IGNORE);
}
static void other_size(void) {
    open_file(MPI_MODE_CREATE | MPI_MODE_RDWR);
    MPI_File_set_errhandler(file, rank == 0 ? MPI_ERRORS_ARE_FATAL : MPI_ERRORS_RETURN);
    MPI_File_set_size(file, rank == 1 ? 5 : 6);
    if (rank != 0) sleep(2);
}
static void representation(void) {
    open_file(MPI_MODE_CREATE | MPI_MODE_RDWR);
    if (rank == 1) MPI_File_set_view(file, 0, MPI_INT, MPI_INT, "external64", MPI_INFO_NULL);
}
static void longs_with_gaps(void) {
    MPI_Datatype turns;
    MPI_Type_vector(2, 1, 2, MPI_LONG, &turns);
    MPI_Type_commit(&turns);
    open_file(MPI_MODE_CREATE | MPI_MODE_RDWR);
    if (rank == 1) MPI_File_set_view(file, 0, MPI_LONG, turns, "external32", MPI_INFO_NULL);
}

#define CASE(name) { #name, name }
static const struct {
    const char *name;
    void (*run)(void);
} cases[] = {
    CASE(two_modes), CASE(read_only), CASE(write_only), CASE(other_name), CASE(lacking_close), CASE(lacking_write), CASE(two_collectives), CASE(part_of_etype),
    CASE(bad_filetype), CASE(back_filetype), CASE(uncommitted), CASE(negative), CASE(before_beginning), CASE(two_splits), CASE(other_end), CASE(no_end), CASE(closed),
    CASE(sequential), CASE(full), CASE(fatal), CASE(other_size), CASE(representation), CASE(longs_with_gaps),
};

int main(int argc, char **argv) {
    MPI_Init(&argc, &argv);
    MPI_Comm_rank(MPI_COMM_WORLD, &rank);
    MPI_Comm_size(MPI_COMM_WORLD, &size);
    snprintf(name, sizeof name, "%s/wzrun-files-wrong", getenv("TMPDIR") != NULL ? getenv("TMPDIR") : "/tmp");
    for (size_t i = 0; i < sizeof cases / sizeof cases[0]; i++)
        if (argc > 1 && strcmp(argv[1], cases[i].name) == 0) cases[i].run();
    MPI_Finalize();
    return 0;
}
