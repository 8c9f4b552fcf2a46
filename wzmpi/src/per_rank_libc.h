/* What a rank doesn't share with the ranks beside it, though it isn't one of the program's variables. wzcc has the linker send the program's exit, rand and
   so on to the functions __wrap_exit, __wrap_rand and so on (--wrap). */
#ifndef WZ_PER_RANK_LIBC_H
#define WZ_PER_RANK_LIBC_H

#include "base.h"

/* A function that programs call in place of the C library's. */
#define OF_PROGRAM(result, name, ...) \
    result __wrap_##name(__VA_ARGS__); \
    result __wrap_##name(__VA_ARGS__)

#define RANK_OF_CALLER rank_of_code(__builtin_return_address(0))

/* A rank's standard streams, which are opened as they are first asked for. */
FILE *stream_of(const struct rank *rank, int number);
void flush_streams(void); /* of all ranks, but for those that are in use just now */

/* Calls a rank's main, as wz_run_rank_ of its program does. The rank's status: what main returns, or exit is given. */
int run_main(int (*run)(int, char **), int argc, char **argv);

#endif
