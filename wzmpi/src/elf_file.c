/* Programs and libraries, as the loader reads them (elf(5)). What a copy needs is rewritten before it is loaded: an entry's name may lie anywhere in the loaded
   file, since the loader adds its offset to the address of the names, so new names are written into the note that wzcc links (object_part.c). */
#include "elf_file.h"

#include <errno.h>
#include <fcntl.h>
#include <string.h>
#include <sys/mman.h>
#include <sys/sendfile.h>
#include <sys/stat.h>
#include <unistd.h>

static const char *copy_bytes(const char *path, struct elf_file *file) {
    struct stat about;
    off_t at = 0;
    int from = open(path, O_RDONLY | O_CLOEXEC);
    if (from < 0) return strerror(errno);
    const char *name = strrchr(path, '/');
    file->descriptor = memfd_create(name != NULL ? name + 1 : path, MFD_CLOEXEC);
    if (file->descriptor < 0 || fstat(from, &about) != 0) {
        close(from);
        return strerror(errno);
    }
    file->length = (size_t)about.st_size;
    while (at < about.st_size && sendfile(file->descriptor, from, &at, (size_t)(about.st_size - at)) > 0) {}
    close(from);
    return at < about.st_size || about.st_size == 0 ? "it can't be read" : NULL;
}

static Elf64_Phdr *segments(const struct elf_file *file, size_t *many) {
    const Elf64_Ehdr *head = (const Elf64_Ehdr *)file->bytes;
    *many = head->e_phnum;
    return (Elf64_Phdr *)(file->bytes + head->e_phoff);
}

/* Where in the file an address of the loaded one lies. NULL: nowhere. */
static char *at_address(const struct elf_file *file, Elf64_Addr address) {
    size_t many;
    const Elf64_Phdr *segment = segments(file, &many);
    for (size_t i = 0; i < many; i++) {
        if (segment[i].p_type != PT_LOAD || address < segment[i].p_vaddr || address - segment[i].p_vaddr >= segment[i].p_filesz) continue;
        size_t at = segment[i].p_offset + (address - segment[i].p_vaddr);
        return at < file->length ? file->bytes + at : NULL;
    }
    return NULL;
}

static const Elf64_Dyn *entry_of(const struct elf_file *file, Elf64_Sxword tag) {
    for (const Elf64_Dyn *entry = file->dynamic; entry < file->end; entry++)
        if (entry->d_tag == tag) return entry;
    return NULL;
}

/* A note's bytes, where it is wzcc's. */
static void find_room(struct elf_file *file, const Elf64_Phdr *segment) {
    static const char owner[] = "worzsunab";
    size_t at = segment->p_offset, end = at + segment->p_filesz;
    while (end <= file->length && at + sizeof(Elf64_Nhdr) < end) {
        const Elf64_Nhdr *note = (const Elf64_Nhdr *)(file->bytes + at);
        size_t name = at + sizeof *note, bytes = name + (note->n_namesz + 3) / 4 * 4;
        if (note->n_namesz == sizeof owner && bytes + note->n_descsz <= end && memcmp(file->bytes + name, owner, sizeof owner) == 0) {
            file->room = file->bytes + bytes;
            file->room_left = note->n_descsz;
            file->room_address = segment->p_vaddr + (bytes - segment->p_offset);
            return;
        }
        at = bytes + (note->n_descsz + 3) / 4 * 4;
    }
}

static bool read_segments(struct elf_file *file) {
    const Elf64_Ehdr *head = (const Elf64_Ehdr *)file->bytes;
    size_t many = file->length >= sizeof *head ? head->e_phnum : 0;
    if (many == 0 || memcmp(head->e_ident, ELFMAG, SELFMAG) != 0 || head->e_ident[EI_CLASS] != ELFCLASS64) return false;
    if (head->e_phoff > file->length || many * sizeof(Elf64_Phdr) > file->length - head->e_phoff) return false;
    for (const Elf64_Phdr *segment = segments(file, &many), *end = segment + many; segment < end; segment++) {
        if (segment->p_type == PT_NOTE && file->room == NULL) find_room(file, segment);
        if (segment->p_type != PT_DYNAMIC || segment->p_offset > file->length || segment->p_filesz > file->length - segment->p_offset) continue;
        file->dynamic = (Elf64_Dyn *)(file->bytes + segment->p_offset);
        file->end = file->dynamic + segment->p_filesz / sizeof(Elf64_Dyn);
    }
    if (file->dynamic == NULL) return false;
    const Elf64_Dyn *names = entry_of(file, DT_STRTAB);
    if (names == NULL) return false;
    file->names_address = names->d_un.d_ptr;
    file->names = at_address(file, file->names_address);
    return file->names != NULL;
}

static const char *map(struct elf_file *file, int descriptor, int sharing) {
    file->bytes = mmap(NULL, file->length, PROT_READ | PROT_WRITE, sharing, descriptor, 0);
    if (file->bytes == MAP_FAILED) file->bytes = NULL;
    if (file->bytes == NULL) return strerror(errno);
    if (read_segments(file)) return NULL;
    leave_elf(file);
    return "it is no program or library";
}

const char *read_elf(const char *path, struct elf_file *file) {
    struct stat about = { .st_size = 0 };
    *file = (struct elf_file){ .descriptor = -1 };
    int from = open(path, O_RDONLY | O_CLOEXEC);
    if (from < 0) return strerror(errno);
    bool regular = fstat(from, &about) == 0 && S_ISREG(about.st_mode) && about.st_size > 0;
    file->length = (size_t)about.st_size;
    const char *why = regular ? map(file, from, MAP_PRIVATE) : "it can't be read";
    close(from);
    return why;
}

const char *copy_elf(const char *path, struct elf_file *file) {
    *file = (struct elf_file){ .descriptor = -1 };
    const char *why = copy_bytes(path, file);
    if (why == NULL) why = map(file, file->descriptor, MAP_SHARED);
    if (why != NULL && file->descriptor >= 0) close(file->descriptor);
    return why;
}

void leave_elf(struct elf_file *file) {
    if (file->bytes != NULL) munmap(file->bytes, file->length);
    file->bytes = NULL;
}

const char *needed_name(const struct elf_file *file, const Elf64_Dyn *entry) {
    return entry->d_tag == DT_NEEDED ? file->names + entry->d_un.d_val : NULL;
}

bool rename_needed(struct elf_file *file, Elf64_Dyn *entry, const char *name) {
    size_t length = strlen(name) + 1;
    if (length > file->room_left) return false;
    memcpy(file->room, name, length);
    entry->d_tag = DT_NEEDED;
    entry->d_un.d_val = file->room_address - file->names_address;
    file->room += length;
    file->room_left -= length;
    file->room_address += length;
    return true;
}

/* The linker leaves entries free, behind the last one. */
bool add_needed(struct elf_file *file, const char *name) {
    for (Elf64_Dyn *entry = file->dynamic; entry + 1 < file->end; entry++)
        if (entry->d_tag == DT_NULL) return rename_needed(file, entry, name);
    return false;
}

const char *imported_name(const struct elf_file *file, size_t at) {
    const Elf64_Dyn *symbols = entry_of(file, DT_SYMTAB), *hash = entry_of(file, DT_GNU_HASH);
    const Elf64_Sym *symbol = symbols != NULL ? (const Elf64_Sym *)at_address(file, symbols->d_un.d_ptr) : NULL;
    const uint32_t *table = hash != NULL ? (const uint32_t *)at_address(file, hash->d_un.d_ptr) : NULL;
    if (symbol == NULL || table == NULL || at >= table[1]) return NULL; /* those that a hash table has aren't imported, and stand behind the others */
    return symbol[at].st_shndx == SHN_UNDEF ? file->names + symbol[at].st_name : "";
}
