/* Linked into each program and each library that wzcc links: what each of them has for itself, also where another linker word, as -z defs, wants all symbols
   to be known. Each rank has a copy of it, as of the program's variables. */
#include <dlfcn.h>
#include <stdio.h>

/* ---- the standard streams: the program's stdin is __wrap_stdin, and so on */

FILE *wz_stream_(int number);

#define HIDDEN __attribute__((visibility("hidden")))
extern HIDDEN FILE *__wrap_stdin, *__wrap_stdout, *__wrap_stderr;
FILE *__wrap_stdin, *__wrap_stdout, *__wrap_stderr;

__attribute__((constructor(101))) static void open_streams(void) {
    __wrap_stdin = wz_stream_(0);
    __wrap_stdout = wz_stream_(1);
    __wrap_stderr = wz_stream_(2);
}

/* ---- plugins: a rank loads its own copy. The C library's dlopen and dlsym look at where they are called from, so they are called from here. */

const char *wz_path_of_copy_(const char *path);
const char *wz_path_of_loaded_(void *library);
void wz_loaded_(void *library);
void *__real_dlopen(const char *path, int flags);
void *__real_dlsym(void *library, const char *name);
HIDDEN void *__wrap_dlopen(const char *path, int flags);
HIDDEN void *__wrap_dlsym(void *library, const char *name);

void *__wrap_dlopen(const char *path, int flags) {
    const char *copy = wz_path_of_copy_(path);
    void *library = __real_dlopen(copy != NULL ? copy : path, flags);
    if (library == NULL || copy != NULL) {
        wz_loaded_(library);
        return library;
    }
    copy = wz_path_of_loaded_(library); /* the C library has found it, by its name */
    if (copy == NULL) return library;
    dlclose(library);
    library = __real_dlopen(copy, flags);
    wz_loaded_(library);
    return library;
}

void *__wrap_dlsym(void *library, const char *name) {
    void *program = library == RTLD_DEFAULT ? __real_dlopen(wz_path_of_copy_(NULL), RTLD_LAZY | RTLD_NOLOAD) : NULL;
    void *found = program != NULL ? __real_dlsym(program, name) : NULL;
    if (program != NULL) dlclose(program);
    return found != NULL ? found : __real_dlsym(library, name);
}

/* ---- the mark by which wzrun knows what wzcc has linked, with room for the names of the copies that a rank's copy of it needs */
__asm__(".pushsection .note.worzsunab, \"a\", @note\n"
        ".balign 4\n"
        ".long 10, 4096, 1\n"
        ".asciz \"worzsunab\"\n"
        ".balign 4\n"
        ".zero 4096\n"
        ".popsection\n");
