/* The words of wzrun. */
#ifndef WZ_OPTIONS_H
#define WZ_OPTIONS_H

#include "base.h"

struct options {
    int ranks;
    uint64_t first_seed, last_seed; /* of --seeds; 0: none */
    int program;                    /* where in argv the program stands */
    const char *page;               /* of --html; NULL: none */
    bool large_pages;
};

/* Reads them into *options and the_run. Ends with status 1, or 0 after --help. */
void read_options(int argc, char **argv, struct options *options);

/* Runs the program once for each seed, as a process of its own, until one ends badly. The status of that, or 0. */
int run_seeds(int argc, char **argv, const struct options *options);

/* Has glibc's allocator keep long blocks that were freed, unless the user has set it otherwise. Under --large-pages: executes wzrun anew with the settings that take large
   pages, where the user has set none and each rank has a processor. */
void set_allocator(char **argv, const struct options *options);

#endif
