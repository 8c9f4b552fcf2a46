/* The file is mapped into memory, so a line costs no call of the system, and what was written stays if the process is killed. */
#define _GNU_SOURCE
#include "log.h"

#include "now.h"

#include <errno.h>
#include <fcntl.h>
#include <pthread.h>
#include <stdio.h>
#include <stdlib.h>
#include <string.h>
#include <sys/mman.h>
#include <sys/stat.h>
#include <unistd.h>

enum { WINDOW = 1 << 20 };

/* A library may free what it made while it is asked something under the lock. */
static pthread_mutex_t mutex = PTHREAD_RECURSIVE_MUTEX_INITIALIZER_NP;

/* The part of the file that is mapped. */
static struct {
    int file;
    char *bytes;
    size_t used;
    off_t begin;
} window = {.file = -1};

void log_lock(void) { pthread_mutex_lock(&mutex); }
void log_unlock(void) { pthread_mutex_unlock(&mutex); }

static void give_up(const char *what) {
    fprintf(stderr, "record: %s: %s; nothing further is recorded\n", what, strerror(errno));
    if (window.file >= 0)
        close(window.file);
    window.file = -1;
    window.bytes = NULL;
    now_lost();
}

/* Maps the window that begins at the page of the next byte. The room is asked for first: without it a write would end the program. */
static void move_window(void) {
    size_t page = (size_t)sysconf(_SC_PAGESIZE);
    size_t passed = window.used / page * page;
    if (window.bytes)
        munmap(window.bytes, WINDOW);
    window.bytes = NULL;
    window.begin += (off_t)passed;
    window.used -= passed;
    errno = posix_fallocate(window.file, window.begin, WINDOW);
    if (errno) {
        give_up("no room for the record");
        return;
    }
    void *bytes = mmap(NULL, WINDOW, PROT_READ | PROT_WRITE, MAP_SHARED, window.file, window.begin);
    if (bytes == MAP_FAILED)
        give_up("the record can't be mapped");
    else
        window.bytes = bytes;
}

static void put(const char *bytes, size_t length) {
    if (window.used + length > WINDOW && window.bytes)
        move_window();
    if (!window.bytes)
        return;
    memcpy(window.bytes + window.used, bytes, length);
    window.used += length;
}

bool log_open(const char *folder, int rank, int size, long run, const char *library) {
    char path[4096];
    if (mkdir(folder, 0777) && errno != EEXIST) {
        fprintf(stderr, "record: the folder %s can't be made: %s; rank %d isn't recorded\n", folder, strerror(errno), rank);
        return false;
    }
    snprintf(path, sizeof path, "%s/rank.%d", folder, rank);
    unlink(path); /* another run may still write to the file that was there */
    window.file = open(path, O_RDWR | O_CREAT | O_TRUNC | O_CLOEXEC, 0666);
    if (window.file < 0) {
        fprintf(stderr, "record: %s can't be opened: %s; rank %d isn't recorded\n", path, strerror(errno), rank);
        return false;
    }
    move_window();
    snprintf(path, sizeof path, "record 2 rank %d of %d run %ld library %s\n", rank, size, run, library);
    log_text(path);
    return log_stands();
}

bool log_stands(void) { return window.bytes != NULL; }

void log_close(void) {
    log_text("end\n");
    if (!log_stands())
        return;
    off_t length = window.begin + (off_t)window.used;
    munmap(window.bytes, WINDOW);
    window.bytes = NULL;
    if (ftruncate(window.file, length))
        fprintf(stderr, "record: the file's end can't be cut: %s\n", strerror(errno));
    close(window.file);
    window.file = -1;
}

void log_text(const char *text) { put(text, strlen(text)); }

void log_unsigned(unsigned long long number) {
    char digits[20];
    size_t first = sizeof digits;
    do {
        digits[--first] = (char)('0' + number % 10);
        number /= 10;
    } while (number);
    put(digits + first, sizeof digits - first);
}

void log_signed(long long number) {
    if (number < 0)
        put("-", 1);
    log_unsigned(number < 0 ? 0 - (unsigned long long)number : (unsigned long long)number);
}
