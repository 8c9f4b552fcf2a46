/* Loops of tests: a rank that calls MPI_Test, MPI_Iprobe and their like again and again, which say that nothing is done. */
#ifndef WZ_TEST_LOOPS_H
#define WZ_TEST_LOOPS_H

#include "collectives.h"

/* A test of this rank has said no. A completion of any of the list would have let it say yes; a probe among them is copied. */
void test_in_vain(const char *call, struct request **list, int many);

/* ---- for the thread that watches */
void look_at_tests(void);          /* once for each of its looks */
double seconds_of_testing(int rank);
bool is_testing(int rank);         /* for a while it has made nothing but tests */
bool all_others_test(uint64_t resting); /* all ranks but these, for so long that it is worth a closer look */
void show_tests(bool begin);       /* between the two, ranks that test stand as if they waited for what they test */
bool makes_threads(void);          /* the program may */
bool tells_time(void);             /* the program may leave such a loop by what isn't MPI: the time, a thread, a signal */

#endif
