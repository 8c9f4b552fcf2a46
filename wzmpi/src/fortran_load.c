/* Fortran programs as ranks: each rank has a copy of libgfortran for itself, so that units, random numbers and the like are its own. */
#include "fortran.h"

#include "elf_file.h"
#include "fortran_lines.h"

#include <dlfcn.h>
#include <link.h>
#include <unistd.h>

/* Where the library of a name lies. */
static bool find_library(const char *name, char *path, size_t room) {
    struct link_map *map;
    void *library = dlopen(name, RTLD_LAZY | RTLD_LOCAL);
    bool found = library != NULL && dlinfo(library, RTLD_DI_LINKMAP, &map) == 0;
    if (found) snprintf(path, room, "%s", map->l_name);
    if (library != NULL) dlclose(library);
    return found;
}

/* A rank's copy of the library, as a descriptor; -1: there is none. */
static int copy_of_library(int rank, const char *name) {
    static int copies[MOST_RANKS];
    struct elf_file file;
    char path[4096];
    if (copies[rank] != 0) return copies[rank];
    bool copied = find_library(name, path, sizeof path) && copy_elf(path, &file) == NULL;
    copies[rank] = copied ? file.descriptor : -1;
    if (copied) leave_elf(&file);
    return copies[rank];
}

/* The name is overwritten where it stands, since the versions of the library's symbols are named by it too. */
void give_own_library(int rank, char *name) {
    char own[64];
    if (strncmp(name, "libgfortran.so.", 15) != 0) return;
    int copy = copy_of_library(rank, name), length = snprintf(own, sizeof own, "/dev/fd/%d", copy);
    if (copy >= 0 && (size_t)length <= strlen(name)) strcpy(name, own);
    setenv("GFORTRAN_UNBUFFERED_PRECONNECTED", "y", 0); /* what a rank prints is out before a report ends the run */
}

void note_fortran(struct rank *rank, void *loaded, const char *program) {
    void *places = dlsym(loaded, "wz_fortran_places_");
    Dl_info about;
    if (places == NULL || dladdr(places, &about) == 0) return;
    rank->fortran_places = places;
    rank->fortran_base = about.dli_fbase;
    if (rank->number == 0) read_lines(program);
}
