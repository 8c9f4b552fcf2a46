/* Where a call of a Fortran program stands: its return address, and the program's line table (DWARF 4, 6.2), which is read once. */
#include "fortran_lines.h"

#include "elf_file.h"
#include "fortran.h"

/* From OFFSET in the program on, up to the next one's. */
struct row {
    uint64_t offset;
    const char *folder, *file; /* file NULL: the sequence ends here */
    unsigned line;
};
static struct row *rows;
static size_t many_rows, room_for_rows;

/* ---- the bytes of a line table */

struct reader {
    const unsigned char *at, *end;
};

static uint64_t read_number(struct reader *reader, size_t bytes) {
    uint64_t number = 0;
    if ((size_t)(reader->end - reader->at) < bytes) {
        reader->at = reader->end;
        return 0;
    }
    memcpy(&number, reader->at, bytes);
    reader->at += bytes;
    return number;
}

static uint64_t read_unsigned(struct reader *reader) {
    uint64_t number = 0;
    for (unsigned shift = 0; reader->at < reader->end; shift += 7) {
        unsigned char byte = *reader->at++;
        if (shift < 64) number |= (uint64_t)(byte & 0x7f) << shift;
        if ((byte & 0x80) == 0) break;
    }
    return number;
}

static int64_t read_signed(struct reader *reader) {
    uint64_t number = 0;
    unsigned shift = 0;
    unsigned char byte = 0x80;
    while (reader->at < reader->end && (byte & 0x80) != 0) {
        byte = *reader->at++;
        if (shift < 64) number |= (uint64_t)(byte & 0x7f) << shift;
        shift += 7;
    }
    if ((byte & 0x40) != 0 && shift < 64) number |= UINT64_MAX << shift;
    return (int64_t)number;
}

static const char *read_string(struct reader *reader) {
    const char *text = (const char *)reader->at;
    while (reader->at < reader->end && *reader->at != 0) reader->at++;
    if (reader->at < reader->end) reader->at++;
    return text;
}

/* ---- a unit: its header, and the program that writes its rows */

enum { MOST_FILES = 1000, EXTENDED = 0, COPY = 1, ADVANCE_ADDRESS, ADVANCE_LINE, SET_FILE, SET_COLUMN, NEGATE, SET_BLOCK, ADD_CONSTANT, ADVANCE_FIXED };

struct unit {
    unsigned version, least, line_range, first_special;
    int line_base;
    const unsigned char *lengths; /* of the standard operations */
    size_t folders, files;
    const char *folder[MOST_FILES], *file[MOST_FILES];
    /* the machine */
    uint64_t address, at_file;
    int64_t line;
};

static bool read_header(struct reader *reader, struct unit *unit) {
    unit->version = (unsigned)read_number(reader, 2);
    if (unit->version < 2 || unit->version > 4) return false;
    uint64_t length = read_number(reader, 4);
    if (length > (uint64_t)(reader->end - reader->at)) return false;
    const unsigned char *program = reader->at + length;
    const char *folders[MOST_FILES];
    unit->least = (unsigned)read_number(reader, 1);
    if (unit->version == 4) read_number(reader, 1);
    read_number(reader, 1);
    unit->line_base = (signed char)read_number(reader, 1);
    unit->line_range = (unsigned)read_number(reader, 1);
    unit->first_special = (unsigned)read_number(reader, 1);
    unit->lengths = reader->at;
    if (unit->first_special == 0 || unit->line_range == 0) return false;
    reader->at += unit->first_special - 1;
    while (reader->at < program && *reader->at != 0 && unit->folders < MOST_FILES - 1) folders[++unit->folders] = read_string(reader);
    reader->at++;
    while (reader->at < program && *reader->at != 0 && unit->files < MOST_FILES - 1) {
        unit->file[++unit->files] = read_string(reader);
        uint64_t folder = read_unsigned(reader);
        unit->folder[unit->files] = folder > 0 && folder <= unit->folders ? folders[folder] : NULL;
        read_unsigned(reader);
        read_unsigned(reader);
    }
    reader->at = program;
    return true;
}

static void add_row(const struct unit *unit, bool ends) {
    if (many_rows == room_for_rows) {
        room_for_rows = 2 * room_for_rows + 1000;
        rows = must(realloc(rows, sizeof *rows * room_for_rows));
    }
    bool known = !ends && unit->at_file > 0 && unit->at_file <= unit->files;
    rows[many_rows++] = (struct row){ unit->address, known ? unit->folder[unit->at_file] : NULL, known ? unit->file[unit->at_file] : NULL, (unsigned)unit->line };
}

static void begin_sequence(struct unit *unit) {
    unit->address = 0;
    unit->at_file = unit->line = 1;
}

static void run_extended(struct reader *reader, struct unit *unit) {
    uint64_t length = read_unsigned(reader);
    if (length == 0 || length > (uint64_t)(reader->end - reader->at)) return;
    const unsigned char *next = reader->at + length;
    unsigned operation = (unsigned)read_number(reader, 1);
    if (operation == 1) {
        add_row(unit, true);
        begin_sequence(unit);
    } else if (operation == 2) unit->address = read_number(reader, length - 1 < 8 ? length - 1 : 8);
    reader->at = next;
}

static void run_standard(struct reader *reader, struct unit *unit, unsigned operation) {
    switch (operation) {
    case EXTENDED: run_extended(reader, unit); break;
    case COPY: add_row(unit, false); break;
    case ADVANCE_ADDRESS: unit->address += read_unsigned(reader) * unit->least; break;
    case ADVANCE_LINE: unit->line += read_signed(reader); break;
    case SET_FILE: unit->at_file = read_unsigned(reader); break;
    case ADD_CONSTANT: unit->address += (255 - unit->first_special) / unit->line_range * unit->least; break;
    case ADVANCE_FIXED: unit->address += read_number(reader, 2); break;
    default:
        for (int i = 0; i < unit->lengths[operation - 1]; i++) read_unsigned(reader);
    }
}

static void run_unit(struct reader *reader, struct unit *unit) {
    begin_sequence(unit);
    while (reader->at < reader->end) {
        unsigned operation = *reader->at++;
        if (operation < unit->first_special) {
            run_standard(reader, unit, operation);
            continue;
        }
        unsigned special = operation - unit->first_special;
        unit->address += special / unit->line_range * unit->least;
        unit->line += unit->line_base + (int)(special % unit->line_range);
        add_row(unit, false);
    }
}

/* ---- the table */

static int by_offset(const void *one, const void *other) {
    const struct row *a = one, *b = other;
    if (a->offset != b->offset) return a->offset < b->offset ? -1 : 1;
    return (a->file != NULL) - (b->file != NULL); /* a sequence ends before the next one begins */
}

static void read_table(const unsigned char *bytes, size_t length) {
    struct reader all = { bytes, bytes + length };
    struct unit *unit = must(malloc(sizeof *unit));
    while (all.end - all.at > 4) {
        uint64_t own = read_number(&all, 4);
        if (own >= 0xfffffff0u || own > (uint64_t)(all.end - all.at)) break; /* of 4 GiB or more, or damaged */
        struct reader reader = { all.at, all.at + own };
        all.at += own;
        memset(unit, 0, sizeof *unit);
        if (read_header(&reader, unit)) run_unit(&reader, unit);
    }
    free(unit);
    qsort(rows, many_rows, sizeof *rows, by_offset);
}

/* The file stays in memory, since the rows name what it has. */
void read_lines(const char *program) {
    struct elf_file file;
    if (read_elf(program, &file) != NULL) return;
    const Elf64_Ehdr *head = (const Elf64_Ehdr *)file.bytes;
    const Elf64_Shdr *sections = (const Elf64_Shdr *)(file.bytes + head->e_shoff);
    if (head->e_shoff + head->e_shnum * sizeof *sections > file.length || head->e_shstrndx >= head->e_shnum) return;
    const char *names = file.bytes + sections[head->e_shstrndx].sh_offset;
    for (int i = 0; i < head->e_shnum; i++) {
        const Elf64_Shdr *section = &sections[i];
        bool inside = section->sh_offset + section->sh_size <= file.length && (section->sh_flags & SHF_COMPRESSED) == 0;
        if (inside && strcmp(names + section->sh_name, ".debug_line") == 0) read_table((const unsigned char *)file.bytes + section->sh_offset, section->sh_size);
    }
}

/* ---- calls */

enum { REMEMBERED = 256 };
struct remembered {
    const void *back;
    const char *site;
    struct remembered *next;
};

static const struct row *find_row(uint64_t offset) {
    size_t low = 0, high = many_rows;
    while (low < high) {
        size_t middle = (low + high) / 2;
        if (rows[middle].offset <= offset) low = middle + 1;
        else high = middle;
    }
    return low > 0 && rows[low - 1].file != NULL ? &rows[low - 1] : NULL;
}

/* The call is before the address that it returns to. */
static const char *new_site(const struct rank *rank, const void *back) {
    const struct row *row = find_row((uint64_t)((const char *)back - (const char *)rank->fortran_base) - 1);
    char *site = NULL;
    if (row == NULL) return "a line that wzfort hasn't compiled";
    if (row->folder != NULL && row->file[0] != '/') {
        if (asprintf(&site, "%s/%s:%u", row->folder, row->file, row->line) < 0) site = NULL;
    } else if (asprintf(&site, "%s:%u", row->file, row->line) < 0) site = NULL;
    return must(site);
}

static const char *site_of(struct rank *rank, const void *back) {
    if (rank->fortran_sites == NULL) rank->fortran_sites = must(calloc(REMEMBERED, sizeof *rank->fortran_sites));
    struct remembered **at = &rank->fortran_sites[((uintptr_t)back >> 2) % REMEMBERED];
    while (*at != NULL && (*at)->back != back) at = &(*at)->next;
    if (*at == NULL) {
        *at = must(malloc(sizeof **at));
        **at = (struct remembered){ back, new_site(rank, back), NULL };
    }
    return (*at)->site;
}

void note_fortran_line(const void *back) {
    struct rank *rank = rank_of_code(back);
    if (rank == NULL) return; /* the call itself tells that its thread is no rank's */
    wz_note_line_(site_of(rank, back));
}
