/* The program wzrun: all of it is in the library. */
#include "run.h"

int main(int argc, char **argv) { return wz_main_(argc, argv); }
