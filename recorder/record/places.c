#define _GNU_SOURCE
#include "places.h"

#include "log.h"
#include "python.h"

#include <dlfcn.h>
#include <execinfo.h>
#include <stdint.h>
#include <stdio.h>
#include <string.h>
#include <unistd.h>

enum { PLACES = 4096, FRAMES = 32, ALL_FRAMES = 1024, LINE = 4096 };

enum language { PROGRAM, FORTRAN, PYTHON, LIBRARY, RECORDER };

/* The return addresses that were met, by hash. A number of 0 is an empty slot. */
static struct {
    void *address;
    int number; /* -1 where it was met, and isn't written */
    enum language language;
} places[PLACES];
static int known_addresses, numbers;

/* The lines of Python programs, by hash of their text. */
static struct {
    uint64_t hash;
    int number;
} python_lines[PLACES];
static int known_lines;

static enum language language_of(const Dl_info *module) {
    const char *name = strrchr(module->dli_fname, '/');
    name = name ? name + 1 : module->dli_fname;
    if (strstr(name, "libmpi_mpifh") || strstr(name, "libmpi_usempi") || strstr(name, "libmpichfort"))
        return FORTRAN;
    if (strstr(name, "librecord"))
        return RECORDER;
    if (strstr(name, "libmpi") || strstr(name, "mca_") || strstr(name, "libopen-"))
        return LIBRARY;
    return strstr(module->dli_fname, "mpi4py") ? PYTHON : PROGRAM;
}

/* The slot of an address. */
static unsigned slot_of(void *address) {
    unsigned slot = (unsigned)((uintptr_t)address * UINT64_C(0x9e3779b97f4a7c15) >> 32) % PLACES;
    while (places[slot].number && places[slot].address != address)
        slot = (slot + 1) % PLACES;
    if (places[slot].number)
        return slot;
    Dl_info module;
    bool found = dladdr(address, &module) && module.dli_fname;
    places[slot].address = address;
    places[slot].language = found ? language_of(&module) : PROGRAM;
    /* The last free slot ends every search, so it is written anew for each address. */
    if (known_addresses < PLACES - 1) {
        known_addresses++;
        places[slot].number = -1;
    }
    return slot;
}

static enum language language_at(void *address) {
    log_lock();
    enum language language = places[slot_of(address)].language;
    log_unlock();
    return language;
}

bool place_is_fortran(void *caller) { return language_at(caller) == FORTRAN; }
bool place_is_library(void *caller) {
    enum language language = language_at(caller);
    return language == LIBRARY || language == RECORDER;
}

/* The first frames are the recorder's own, up to the entry that asks. */
bool place_is_below_entry(void) {
    void *frames[ALL_FRAMES];
    int count = backtrace(frames, ALL_FRAMES), frame = 0;
    while (frame < count && language_at(frames[frame]) == RECORDER)
        frame++;
    while (frame < count && language_at(frames[frame]) != RECORDER)
        frame++;
    return frame < count || count == ALL_FRAMES;
}

/* The first frame above the caller that doesn't lie between the program and the C interface. */
static void *frame_above(void *caller) {
    void *frames[FRAMES];
    int count = backtrace(frames, FRAMES), frame = 0;
    while (frame < count && frames[frame] != caller)
        frame++;
    while (frame < count && language_at(frames[frame]) == FORTRAN)
        frame++;
    return frame < count ? frames[frame] : caller;
}

/* Module and offset of an address, for the reader: both as it stands in memory, and from the module's begin. */
static void tell_address(void *address, int number) {
    char line[LINE + 500], program[LINE] = "";
    Dl_info module;
    uintptr_t before = (uintptr_t)address - 1;
    if (!dladdr(address, &module) || !module.dli_fname)
        return;
    /* The program itself has the name by which it was called, which says nothing in another folder. */
    bool named = module.dli_fname[0] == '/' || readlink("/proc/self/exe", program, sizeof program - 1) < 0;
    snprintf(line, sizeof line, "place %d %#lx %#lx %s\n", number, (unsigned long)before,
             (unsigned long)(before - (uintptr_t)module.dli_fbase), named ? module.dli_fname : program);
    log_text(line);
}

static int place_of_address(void *address) {
    log_lock();
    unsigned slot = slot_of(address);
    /* Before the file is open a place can't be written, so it gets its number later. */
    if (places[slot].number < 0 && log_stands()) {
        places[slot].number = ++numbers;
        tell_address(address, numbers);
    }
    int number = places[slot].number;
    log_unlock();
    return number > 0 ? number : 0;
}

static int place_of_line(const char *line) {
    uint64_t hash = 14695981039346656037u;
    for (const char *byte = line; *byte; byte++)
        hash = (hash ^ (uint64_t)(unsigned char)*byte) * 1099511628211u;
    log_lock();
    unsigned slot = (unsigned)(hash >> 32) % PLACES;
    while (python_lines[slot].number && python_lines[slot].hash != hash)
        slot = (slot + 1) % PLACES;
    int number = python_lines[slot].number;
    if (!number && known_lines < PLACES - 1 && log_stands()) {
        known_lines++;
        number = ++numbers;
        python_lines[slot].hash = hash;
        python_lines[slot].number = number;
        log_text("place ");
        log_signed(number);
        log_text(" python ");
        log_text(line);
        log_text("\n");
    }
    log_unlock();
    return number;
}

int place_of(void *caller) {
    char line[LINE];
    enum language language = language_at(caller);
    if (language == PYTHON && python_line(line, sizeof line))
        return place_of_line(line);
    return place_of_address(language == FORTRAN ? frame_above(caller) : caller);
}

void log_place(int place) {
    log_text("@");
    log_signed(place);
    log_text("\n");
}
