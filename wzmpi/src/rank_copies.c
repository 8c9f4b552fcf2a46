/* Each rank loads its own copy of the program, and of the libraries beneath it that wzcc linked, so that it has their static variables for itself. The loader
   takes libraries of one name for one, so a rank's copy of the program names the rank's copies of the libraries. */
#include "rank_copies.h"

#include "elf_file.h"
#include "fortran.h"
#include "run.h"

#include <dlfcn.h>
#include <limits.h>
#include <link.h>
#include <sys/resource.h>
#include <sys/wait.h>
#include <unistd.h>

enum { MOST_FILES = 8192, PATH_OF_COPY = 40 };
static const char loader[] = "/lib64/ld-linux-x86-64.so.2";

/* A library that the loader finds for the program, or for a plugin. */
struct library {
    char *name, *path;
    bool linked_by_wzcc;
    struct library *next;
};
static struct library *libraries;

/* A rank's copy. */
struct copy {
    char *original;
    char path[PATH_OF_COPY];
    struct copy *next;
};
static struct copy *copies[MOST_RANKS];
static char program_path[PATH_MAX];
static pthread_mutex_t guard = PTHREAD_MUTEX_INITIALIZER; /* for libraries and copies: a rank's threads load plugins */

/* ---- which libraries there are */

/* Those that come with the system's compilers keep nothing of a program's. */
static bool is_of_system(const char *name) {
    static const char *const known[] = { "libc.so", "libm.so", "libdl.so", "librt.so", "libpthread.so", "ld-linux", "libgcc_s.so", "libstdc++.so", "libgomp.so",
                                         "libgfortran.so", "libquadmath.so", "libworzsunab-mpi.so", "linux-vdso" };
    for (size_t i = 0; i < sizeof known / sizeof known[0]; i++)
        if (strncmp(name, known[i], strlen(known[i])) == 0) return true;
    return false;
}

static struct library *find_library(const char *name) {
    struct library *library = libraries;
    while (library != NULL && strcmp(library->name, name) != 0) library = library->next;
    return library;
}

static void add_library(const char *name, const char *path) {
    struct elf_file file;
    char real[PATH_MAX];
    if (is_of_system(name) || find_library(name) != NULL || realpath(path, real) == NULL) return;
    struct library *library = must(malloc(sizeof *library));
    *library = (struct library){ .name = must(strdup(name)), .path = must(strdup(real)), .next = libraries };
    if (read_elf(real, &file) == NULL) {
        library->linked_by_wzcc = file.room != NULL;
        leave_elf(&file);
    }
    libraries = library;
}

/* Reads the loader's list: `NAME => PATH (ADDRESS)`. */
static void read_list(FILE *from) {
    char *line = NULL, name[PATH_MAX], path[PATH_MAX];
    size_t room = 0;
    while (getline(&line, &room, from) > 0)
        if (strlen(line) < PATH_MAX && sscanf(line, " %s => %[^\n]", name, path) == 2 && path[0] == '/') {
            char *end = strrchr(path, '(');
            if (end != NULL && end > path + 1) end[-1] = '\0';
            add_library(name, path);
        }
    free(line);
}

/* Asks the loader which libraries it finds for a file. */
static void list_libraries(const char *path) {
    int ends[2];
    if (pipe(ends) != 0) return;
    pid_t child = fork();
    if (child == 0) {
        dup2(ends[1], 1);
        dup2(ends[1], 2); /* of what it doesn't find the loading tells */
        unsetenv("LD_PRELOAD");
        execl(loader, loader, "--list", path, (char *)NULL);
        _exit(1);
    }
    close(ends[1]);
    FILE *from = fdopen(ends[0], "r");
    if (from != NULL) read_list(from);
    if (from != NULL) fclose(from);
    else close(ends[0]);
    if (child > 0) waitpid(child, NULL, 0);
}

static bool needs_libraries(const struct elf_file *file) {
    for (const Elf64_Dyn *entry = file->dynamic; entry < file->end; entry++)
        if (entry->d_tag == DT_NEEDED && !is_of_system(needed_name(file, entry))) return true;
    return false;
}

/* ---- copies */

static struct copy *find_copy(int rank, const char *original) {
    struct copy *copy = copies[rank];
    while (copy != NULL && strcmp(copy->original, original) != 0) copy = copy->next;
    return copy;
}

/* Also of the libraries beneath it. A plugin's copy needs the program's, where it finds what the program exports. */
static struct copy *make_copy(int rank, const char *original, const char *program, const char **why) {
    struct elf_file file;
    struct copy *copy = find_copy(rank, original);
    if (copy != NULL) return copy;
    *why = copy_elf(original, &file);
    if (*why != NULL) return NULL;
    copy = must(malloc(sizeof *copy));
    *copy = (struct copy){ .original = must(strdup(original)), .next = copies[rank] };
    snprintf(copy->path, sizeof copy->path, "/proc/%ld/fd/%d", (long)getpid(), file.descriptor);
    copies[rank] = copy;
    for (Elf64_Dyn *entry = file.dynamic; file.room != NULL && entry < file.end; entry++) {
        if (entry->d_tag == DT_NEEDED) give_own_library(rank, (char *)(uintptr_t)needed_name(&file, entry));
        const struct library *library = entry->d_tag == DT_NEEDED ? find_library(needed_name(&file, entry)) : NULL;
        const struct copy *needed = library != NULL && library->linked_by_wzcc ? make_copy(rank, library->path, NULL, why) : NULL;
        if (needed != NULL) rename_needed(&file, entry, needed->path);
    }
    if (program != NULL && file.room != NULL) add_needed(&file, program);
    leave_elf(&file);
    return copy;
}

/* Where they lie, so that a thread that the program makes has the rank whose code it runs. */
static void note_addresses(int rank, void *loaded) {
    struct link_map *map = NULL;
    if (dlinfo(loaded, RTLD_DI_LINKMAP, &map) != 0) return;
    while (map->l_prev != NULL) map = map->l_prev;
    for (; map != NULL; map = map->l_next)
        for (const struct copy *copy = copies[rank]; copy != NULL; copy = copy->next)
            if (strcmp(map->l_name, copy->path) == 0) note_copy(rank, (const void *)map->l_addr);
}

/* Each copy keeps a descriptor: one that is used again would give another copy its path. */
static void allow_files(void) {
    struct rlimit limit;
    if (getrlimit(RLIMIT_NOFILE, &limit) != 0 || limit.rlim_cur >= MOST_FILES) return;
    limit.rlim_cur = limit.rlim_max < MOST_FILES ? limit.rlim_max : MOST_FILES;
    setrlimit(RLIMIT_NOFILE, &limit);
}

const char *open_program(const char *program) {
    struct elf_file file;
    const char *why = read_elf(program, &file);
    if (why != NULL) return why;
    if (realpath(program, program_path) == NULL) return "its path is too long";
    allow_files();
    if (needs_libraries(&file)) list_libraries(program_path);
    leave_elf(&file);
    return NULL;
}

/* The loader runs the copy's constructors, which are the rank's. */
void *load_program(struct rank *rank, const char **why) {
    struct copy *copy = make_copy(rank->number, program_path, NULL, why);
    if (copy == NULL) return NULL;
    current_rank = rank;
    void *loaded = dlopen(copy->path, RTLD_NOW | RTLD_LOCAL), *run = NULL;
    current_rank = NULL;
    if (loaded == NULL) {
        *why = dlerror();
        return NULL;
    }
    note_addresses(rank->number, loaded);
    note_fortran(rank, loaded, program_path);
    run = dlsym(loaded, "wz_run_rank_");
    if (run == NULL) *why = "it was not linked by wzcc";
    return run;
}

/* ---- plugins (object_part.c) */

static bool is_in_system(const char *path) { return strncmp(path, "/usr/lib", 8) == 0 || strncmp(path, "/lib", 4) == 0; }

const char *wz_path_of_copy_(const char *path);
const char *wz_path_of_loaded_(void *library);
void wz_loaded_(void *library);

/* Where this rank's copy of a plugin lies, or of the program (NULL). NULL: the plugin itself is to be loaded, because it comes with the system, or is looked for
   by its name. */
const char *wz_path_of_copy_(const char *path) {
    char real[PATH_MAX];
    const char *why;
    const struct rank *rank = rank_of_code(__builtin_return_address(0));
    if (rank == NULL || (path != NULL && strchr(path, '/') == NULL)) return NULL;
    if (realpath(path != NULL ? path : program_path, real) == NULL || is_in_system(real)) return NULL;
    pthread_mutex_lock(&guard);
    const struct copy *program = find_copy(rank->number, program_path), *copy = find_copy(rank->number, real);
    if (copy == NULL) list_libraries(real);
    if (copy == NULL) copy = make_copy(rank->number, real, program != NULL ? program->path : NULL, &why);
    pthread_mutex_unlock(&guard);
    return copy != NULL ? copy->path : NULL;
}

const char *wz_path_of_loaded_(void *library) {
    struct link_map *map = NULL;
    if (dlinfo(library, RTLD_DI_LINKMAP, &map) != 0 || map->l_name[0] != '/' || strncmp(map->l_name, "/proc/", 6) == 0) return NULL;
    return wz_path_of_copy_(map->l_name);
}

void wz_loaded_(void *library) {
    const struct rank *rank = rank_of_code(__builtin_return_address(0));
    if (library == NULL || rank == NULL) return;
    pthread_mutex_lock(&guard);
    note_addresses(rank->number, library);
    pthread_mutex_unlock(&guard);
}

/* ---- what stays common */

/* Functions that act on the whole process, or count it. */
static bool acts_on_all(const char *name) {
    static const char *const of_process[] = { "setenv", "putenv", "unsetenv", "clearenv", "setlocale", "uselocale", "signal", "sigaction", "sigset", "alarm", "setitimer",
                                              "fork", "vfork", "_exit", "_Exit", "quick_exit", "getpid", "clock", "times", "getrusage", "setrlimit", "hcreate", "hsearch" };
    static const char *const of_folder[] = { "chdir", "fchdir", "umask" };
    for (size_t i = 0; i < sizeof of_process / sizeof of_process[0]; i++)
        if (strcmp(name, of_process[i]) == 0) return true;
    for (size_t i = 0; the_run.one_folder && i < sizeof of_folder / sizeof of_folder[0]; i++)
        if (strcmp(name, of_folder[i]) == 0) return true;
    return false;
}

struct shared {
    char functions[1000], libraries[1000];
};

static void add_name(char names[1000], const char *name) {
    size_t length = strlen(names), at = 0;
    for (const char *found = names; (found = strstr(found, name)) != NULL; found++) { /* not twice */
        at = (size_t)(found - names) + strlen(name);
        if ((found == names || found[-1] == ' ') && (names[at] == '\0' || names[at] == ',')) return;
    }
    snprintf(names + length, 1000 - length, "%s%s", length > 0 ? ", " : "", name);
}

/* Whether it calls MPI. */
static bool read_imports(const char *path, bool copied, struct shared *shared) {
    struct elf_file file;
    bool calls = false;
    if (read_elf(path, &file) != NULL) return false;
    const char *name;
    for (size_t i = 0; (name = imported_name(&file, i)) != NULL; i++) {
        if (copied && acts_on_all(name)) add_name(shared->functions, name);
        calls = calls || strncmp(name, "MPI_", 4) == 0;
    }
    leave_elf(&file);
    return calls;
}

static bool imports(const char *path, const char *name) {
    struct elf_file file;
    size_t length = strlen(name);
    bool begins = name[length - 1] == '*', found = false;
    const char *imported;
    if (read_elf(path, &file) != NULL) return false;
    for (size_t i = 0; !found && (imported = imported_name(&file, i)) != NULL; i++) found = begins ? strncmp(imported, name, length - 1) == 0 : strcmp(imported, name) == 0;
    leave_elf(&file);
    return found;
}

bool is_imported(const char *name) {
    bool found = imports(program_path, name);
    for (const struct library *library = libraries; library != NULL && !found; library = library->next) found = library->linked_by_wzcc && imports(library->path, name);
    return found;
}

void tell_shared(void) {
    struct shared shared = { "", "" };
    if (the_run.size < 2 || the_run.quiet) return;
    read_imports(program_path, true, &shared);
    for (const struct library *library = libraries; library != NULL; library = library->next) {
        bool calls = read_imports(library->path, library->linked_by_wzcc, &shared);
        if (!library->linked_by_wzcc && (calls || !is_in_system(library->path))) add_name(shared.libraries, library->name);
    }
    if (shared.libraries[0] != '\0')
        fprintf(stderr, "wzrun: note: all ranks share the static variables of %s: linked by `wzcc -shared` each rank has its own\n", shared.libraries);
    if (shared.functions[0] != '\0')
        fprintf(stderr, "wzrun: note: ranks are threads of one process, so what these functions do or tell is of all ranks: %s\n", shared.functions);
}
