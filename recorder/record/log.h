/* The file that one rank writes while its program runs. */
#ifndef LOG_H
#define LOG_H

#include <stdbool.h>

/* One thread at a time writes, and asks what is known. */
void log_lock(void);
void log_unlock(void);

/* Opens the folder's file of this rank. RUN is one number for all ranks of the run, LIBRARY a word for the MPI library. */
bool log_open(const char *folder, int rank, int size, long run, const char *library);

/* Whether lines are written: false before the opening, after the end, and where the file can't grow. */
bool log_stands(void);

/* Writes that the program came to its end, and cuts the file to what was written. */
void log_close(void);

/* A part of a line. The bytes are in the file as soon as the call returns, whatever becomes of the process. */
void log_text(const char *text);
void log_signed(long long number);
void log_unsigned(unsigned long long number);

#endif
