/* glibc's allocator: it keeps long blocks that were freed, and on large pages under --large-pages. It reads settings for these from the environment as a program
   begins, so wzrun executes itself anew with them. */
#include "options.h"

#include <malloc.h>
#include <sched.h>
#include <unistd.h>

/* All four are needed: a block of 512 KiB is a mapping of its own else, below the size of a large page. */
static const char settings[] = "glibc.malloc.mmap_threshold=1073741824:glibc.malloc.trim_threshold=4294967295:glibc.malloc.top_pad=268435456:glibc.malloc.hugetlb=1";
static const char tunables[] = "GLIBC_TUNABLES", variable[] = "WZ_LARGE_PAGES", is_set[] = "set"; /* is_set: wzrun has set them */

static int processors(void) {
    cpu_set_t set;
    return sched_getaffinity(0, sizeof set, &set) == 0 ? CPU_COUNT(&set) : 1;
}

/* Whether wzrun was executed anew with its settings. The program's environment is the user's again. */
static bool has_settings(void) {
    const char *before = getenv(variable);
    if (before == NULL || strcmp(before, is_set) != 0) return false;
    unsetenv(tunables);
    setenv(variable, "1", 1);
    return true;
}

static void tell_left(const char *why) {
    if (!the_run.quiet) fprintf(stderr, "wzrun: note: --large-pages: the allocator stays as it is, because %s\n", why);
}

/* By itself it gives a freed block of 512 KiB back to the system, and each operation on such rows takes fresh pages, which the system clears. 32 MiB is the most that it
   takes, and one setting alone changes nothing. What the user has set stays. */
static void keep_long_blocks(void) {
    static const char *const own[] = { tunables, "MALLOC_MMAP_THRESHOLD_", "MALLOC_TRIM_THRESHOLD_" };
    for (size_t i = 0; i < sizeof own / sizeof own[0]; i++)
        if (getenv(own[i]) != NULL) return;
    mallopt(M_MMAP_THRESHOLD, 32 << 20);
    mallopt(M_TRIM_THRESHOLD, 256 << 20);
}

static void take_large_pages(char **argv, const struct options *options) {
    char why[100];
    if (!options->large_pages) return;
    snprintf(why, sizeof why, "there are %d ranks on %d processors, and each rank takes up to 64 MiB", options->ranks, processors());
    if (getenv(tunables) != NULL) tell_left("GLIBC_TUNABLES is set");
    else if (options->ranks > processors()) tell_left(why);
    else if (setenv(tunables, settings, 1) == 0 && setenv(variable, is_set, 1) == 0) {
        execv("/proc/self/exe", argv);
        has_settings();
        tell_left("wzrun can't execute itself anew");
    }
}

void set_allocator(char **argv, const struct options *options) {
    if (has_settings()) return;
    take_large_pages(argv, options);
    keep_long_blocks();
}
