/* A program or library as a file in memory. */
#ifndef WZ_ELF_FILE_H
#define WZ_ELF_FILE_H

#include <elf.h>
#include <stdbool.h>
#include <stddef.h>

struct elf_file {
    int descriptor;  /* of the copy; -1: it is the file itself, and stays as it is */
    char *bytes;     /* that file */
    size_t length;
    Elf64_Dyn *dynamic, *end;
    const char *names; /* of its dynamic symbols and libraries */
    char *room;        /* in which other libraries' names can be written; NULL: wzcc didn't link it */
    size_t room_left;
    Elf64_Addr names_address, room_address;
};

/* Reads a file, or makes a copy of it in memory. NULL: it could; else why not. */
const char *read_elf(const char *path, struct elf_file *file);
const char *copy_elf(const char *path, struct elf_file *file);
void leave_elf(struct elf_file *file); /* the copy stays, until its descriptor is closed */

const char *needed_name(const struct elf_file *file, const Elf64_Dyn *entry); /* NULL: the entry names no library */
bool rename_needed(struct elf_file *file, Elf64_Dyn *entry, const char *name); /* false: there is no room */
bool add_needed(struct elf_file *file, const char *name);
const char *imported_name(const struct elf_file *file, size_t at); /* of symbol AT, from 0 on; "": it isn't imported; NULL: there are no more */

#endif
