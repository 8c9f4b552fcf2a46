/* The lines of a program's sources, as its debug information has them. */
#ifndef WZ_FORTRAN_LINES_H
#define WZ_FORTRAN_LINES_H

/* Reads them from the program's file: DWARF 2 to 4, as wzfort has gfortran write it. */
void read_lines(const char *program);

#endif
