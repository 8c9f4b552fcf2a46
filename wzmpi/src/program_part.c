/* Linked into each program: the way into its main, for wzrun, and from the system into wzrun. */
#include <dlfcn.h>
#include <limits.h>
#include <stdbool.h>
#include <stdint.h>
#include <stdio.h>
#include <stdlib.h>
#include <string.h>
#include <sys/syscall.h>
#include <unistd.h>

extern char **environ;
int main(int argc, char **argv, char **variables);
int MPI_Initialized(int *flag);

__attribute__((visibility("default"))) int wz_run_rank_(int argc, char **argv);
int wz_run_rank_(int argc, char **argv) { return main(argc, argv, environ); }

/* ---- a program that is run by itself: the system enters it here, and it becomes wzrun with itself as the program, so that configure scripts can run theirs */

__attribute__((section(".interp"), used)) static const char loader[] = "/lib64/ld-linux-x86-64.so.2";

/* Writes PREFIX/bin/wzrun, PREFIX being where the library lies in lib. Whether it could. */
static bool write_wzrun(char path[PATH_MAX + 16]) {
    Dl_info of_library;
    if (!dladdr((void *)(uintptr_t)MPI_Initialized, &of_library) || !realpath(of_library.dli_fname, path)) return false;
    char *library = strrchr(path, '/');
    if (library == NULL) return false;
    *library = '\0';
    char *folder = strrchr(path, '/');
    if (folder == NULL) return false;
    strcpy(folder, "/bin/wzrun");
    return true;
}

/* AT: what the system puts on the stack: the number of words, the words, and NULL. */
__attribute__((noreturn, used, visibility("hidden"))) void wz_become_wzrun_(void *const *at);
void wz_become_wzrun_(void *const *at) {
    size_t many = (size_t)(uintptr_t)at[0];
    char wzrun[PATH_MAX + 16], program[PATH_MAX] = "";
    char *words[many + 2];
    memcpy(&words[1], &at[1], (many + 1) * sizeof *words);
    words[0] = wzrun;
    words[1] = program;
    if (many > 0 && readlink("/proc/self/exe", program, sizeof program - 1) > 0 && write_wzrun(wzrun)) execv(wzrun, words);
    fputs("this program was linked by wzcc, and wzrun, which runs it, isn't found\n", stderr);
    syscall(SYS_exit_group, 1); /* exit is a rank's own, and _exit would stand among what the program imports */
    __builtin_unreachable();
}

__attribute__((naked, used)) void wz_start_(void);
void wz_start_(void) {
    __asm__("movq %rsp, %rdi\n\t"
            "andq $-16, %rsp\n\t"
            "call wz_become_wzrun_\n\t"
            "hlt");
}
