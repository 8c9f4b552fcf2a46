/* The standard streams of a rank. As a process it has a buffer of its own; but a line is written as a whole, so that lines of several ranks don't mix. Only
   rank 0 reads what wzrun is given, as under mpirun. A single rank has the streams of the process. */
#include "per_rank_libc.h"

#include <fcntl.h>
#include <stdarg.h>
#include <unistd.h>
#include <wchar.h>

static pthread_mutex_t opening = PTHREAD_MUTEX_INITIALIZER;
static FILE *_Atomic streams[MOST_RANKS][3];

static FILE *of_process(int number) { return number == 0 ? stdin : number == 1 ? stdout : stderr; }

/* On a descriptor of its own, so that freopen gives the rank's stream another file and leaves those of the other ranks. */
static FILE *open_stream(const struct rank *rank, int number) {
    if (the_run.size < 2 || (number == 0 && rank->number == 0)) return of_process(number);
    if (number == 0) return fopen("/dev/null", "re");
    int descriptor = fcntl(number, F_DUPFD_CLOEXEC, 3);
    FILE *stream = descriptor >= 0 ? fdopen(descriptor, "w") : NULL;
    if (stream != NULL) setvbuf(stream, NULL, number == 1 ? _IOLBF : _IONBF, BUFSIZ);
    return stream;
}

FILE *stream_of(const struct rank *rank, int number) {
    if (rank == NULL) return of_process(number);
    FILE *stream = atomic_load(&streams[rank->number][number]);
    if (stream != NULL) return stream;
    pthread_mutex_lock(&opening);
    stream = atomic_load(&streams[rank->number][number]);
    if (stream == NULL) {
        stream = open_stream(rank, number);
        if (stream == NULL) stream = of_process(number);
        atomic_store(&streams[rank->number][number], stream);
    }
    pthread_mutex_unlock(&opening);
    return stream;
}

void flush_streams(void) {
    for (int i = 0; i < the_run.size; i++) {
        FILE *stream = atomic_load(&streams[i][1]);
        if (stream == NULL || ftrylockfile(stream) != 0) continue;
        fflush(stream);
        funlockfile(stream);
    }
    fflush(stdout);
}

/* For the program's variables stdin, stdout and stderr. */
FILE *wz_stream_(int number);
FILE *wz_stream_(int number) { return stream_of(RANK_OF_CALLER, number); }

/* ---- functions that mean stdout */
#define OUT stream_of(RANK_OF_CALLER, 1)
#define PRINTED(print, format) \
    va_list rest; \
    va_start(rest, format); \
    int printed = print(OUT, format, rest); \
    va_end(rest); \
    return printed

OF_PROGRAM(__attribute__((format(printf, 1, 2))) int, printf, const char *format, ...) { PRINTED(vfprintf, format); }
OF_PROGRAM(int, vprintf, const char *format, va_list rest) { return vfprintf(OUT, format, rest); }
OF_PROGRAM(int, __printf_chk, int flag, const char *format, ...) {
    (void)flag;
    PRINTED(vfprintf, format);
}
OF_PROGRAM(int, __vprintf_chk, int flag, const char *format, va_list rest) {
    (void)flag;
    return vfprintf(OUT, format, rest);
}
OF_PROGRAM(int, wprintf, const wchar_t *format, ...) { PRINTED(vfwprintf, format); }
OF_PROGRAM(int, vwprintf, const wchar_t *format, va_list rest) { return vfwprintf(OUT, format, rest); }
OF_PROGRAM(int, puts, const char *line) {
    FILE *to = OUT;
    flockfile(to);
    int code = fputs(line, to) < 0 || putc('\n', to) == EOF ? EOF : 1;
    funlockfile(to);
    return code;
}
OF_PROGRAM(int, putchar, int byte) { return putc(byte, OUT); }
OF_PROGRAM(int, putchar_unlocked, int byte) { return putc(byte, OUT); }
OF_PROGRAM(wint_t, putwchar, wchar_t letter) { return putwc(letter, OUT); }

/* ---- functions that mean stdin */
#define IN stream_of(RANK_OF_CALLER, 0)
#define SCANNED(format) \
    va_list rest; \
    va_start(rest, format); \
    int many = vfscanf(IN, format, rest); \
    va_end(rest); \
    return many

OF_PROGRAM(__attribute__((format(scanf, 1, 2))) int, scanf, const char *format, ...) { SCANNED(format); }
OF_PROGRAM(int, __isoc99_scanf, const char *format, ...) { SCANNED(format); }
OF_PROGRAM(int, __isoc23_scanf, const char *format, ...) { SCANNED(format); }
OF_PROGRAM(int, vscanf, const char *format, va_list rest) { return vfscanf(IN, format, rest); }
OF_PROGRAM(int, __isoc99_vscanf, const char *format, va_list rest) { return vfscanf(IN, format, rest); }
OF_PROGRAM(int, __isoc23_vscanf, const char *format, va_list rest) { return vfscanf(IN, format, rest); }
OF_PROGRAM(int, getchar, void) { return getc(IN); }
OF_PROGRAM(int, getchar_unlocked, void) { return getc(IN); }
OF_PROGRAM(wint_t, getwchar, void) { return getwc(IN); }
