/* The lines of a text that colljob names have, as comments above them, the calls of the program: a sentence of colljob's is followed by these. */
#include "explain.h"

enum { MOST_NAMED = 4 }; /* calls of a stretch of lines, before only its first and its last are named */

struct lines text_lines(FILE *from) {
    struct lines lines = { NULL, 0 };
    char *line = NULL;
    size_t room = 0;
    while (from != NULL && getline(&line, &room, from) > 0) {
        line[strcspn(line, "\n")] = '\0';
        if (lines.many % 64 == 0) lines.at = must(realloc(lines.at, sizeof *lines.at * (lines.many + 64)));
        lines.at[lines.many++] = must(strdup(line));
    }
    free(line);
    return lines;
}

void free_lines(struct lines *lines) {
    for (size_t i = 0; i < lines->many; i++) free(lines->at[i]);
    free(lines->at);
}

/* Where a command of the text stands in the program: the comment above it. NULL: it has none. */
static const char *where(const struct lines *text, size_t number) {
    if (number < 2 || number > text->many) return NULL;
    const char *above = text->at[number - 2];
    return strncmp(above, "# ", 2) == 0 && text->at[number - 1][0] != '#' ? above + 2 : NULL;
}

/* The number of the text's line that a line of colljob's shows, as ` 12 | post 0 ..`; 0: none. */
static size_t shown(const char *line) {
    char *end;
    size_t number = strtoul(line, &end, 10);
    return strncmp(end, " | ", 3) == 0 ? number : 0;
}

/* ---- lines that a sentence names: `.. its line 12 stands behind its wait in line 9`, `.. place 0: lines 6, 10` */

/* A fault of the whole text is reported with its last line, which is none of the program's. */
static void write_named(FILE *to, const struct lines *text, const char *sentence) {
    const char *before = "    # ";
    if (strstr(sentence, " missing") != NULL) return;
    for (const char *at = strstr(sentence, "line"); at != NULL; at = strstr(at + 1, "line")) {
        if (at[4] != ' ' && strncmp(at + 4, "s ", 2) != 0) continue;
        const char *rest = at + (at[4] == 's' ? 6 : 5);
        while (*rest >= '0' && *rest <= '9') {
            char *end;
            size_t number = strtoul(rest, &end, 10);
            const char *place = where(text, number);
            if (place != NULL) fprintf(to, "%sline %zu: %s", before, number, place);
            if (place != NULL) before = "; ";
            rest = strncmp(end, ", ", 2) == 0 ? end + 2 : end;
        }
    }
}

/* ---- the lines of a run that is shown */

/* The first line behind a rank's `rank R`; 0: it has none. */
static size_t section(const struct lines *text, int rank) {
    char head[20];
    snprintf(head, sizeof head, "rank %d", rank);
    for (size_t i = 0; i < text->many; i++)
        if (strcmp(text->at[i], head) == 0) return i + 2;
    return 0;
}

static size_t end_of_section(const struct lines *text, int rank) {
    size_t number = section(text, rank);
    while (number != 0 && number <= text->many && strncmp(text->at[number - 1], "rank ", 5) != 0) number++;
    return number != 0 ? number - 1 : 0;
}

/* Where the program made a request of a rank. */
static const char *place_of_request(const struct lines *text, int rank, int request) {
    size_t last = end_of_section(text, rank);
    for (size_t number = section(text, rank); number != 0 && number <= last; number++) {
        bool makes = strncmp(text->at[number - 1], "post ", 5) == 0 || strncmp(text->at[number - 1], "init ", 5) == 0;
        if (makes && request-- == 0) return where(text, number);
    }
    return NULL;
}

/* A comment may also say that a call is carried. */
static int length_of(const char *place) {
    const char *more = strstr(place, ": carried");
    return (int)(more != NULL ? (size_t)(more - place) : strlen(place));
}

static bool is_same(const char *one, const char *other) { return length_of(one) == length_of(other) && strncmp(one, other, (size_t)length_of(one)) == 0; }

/* `MPI_Ibarrier, a.c:3; MPI_Ibcast, a.c:4`, and of more calls the first and the last. A blocking one has two lines. */
static void write_stretch(FILE *to, const struct lines *text, size_t first, size_t last) {
    const char *places[MOST_NAMED], *end = NULL;
    int many = 0;
    for (size_t number = first; number <= last; number++) {
        const char *place = where(text, number);
        if (place == NULL || (end != NULL && is_same(place, end))) continue;
        if (many < MOST_NAMED) places[many] = place;
        end = place;
        many++;
    }
    for (int i = 0; i < many && many <= MOST_NAMED; i++) fprintf(to, "%s%.*s", i > 0 ? "; " : "    # ", length_of(places[i]), places[i]);
    if (many > MOST_NAMED) fprintf(to, "    # %.*s, to %.*s", length_of(places[0]), places[0], length_of(end), end);
}

/* What `completes ..` names: requests of a rank. */
static void write_completed(FILE *to, const struct lines *text, int rank, size_t number, const char *completes) {
    const char *place = where(text, number), *before = " completes ";
    if (place == NULL) return;
    fprintf(to, "    # %s,%s", place, strstr(completes, "nothing") != NULL ? " completes nothing" : "");
    for (const char *at = completes + strcspn(completes, "0123456789"); *at != '\0'; at += strcspn(at, "0123456789")) {
        char *end;
        const char *made = place_of_request(text, rank, (int)strtol(at, &end, 10));
        fprintf(to, "%s%.*s", before, made != NULL ? length_of(made) : 9, made != NULL ? made : "a request");
        before = " and ";
        at = end;
    }
}

/* Whether the line is one of a run; then its calls are written. */
static bool write_run(FILE *to, const struct lines *text, const char *line) {
    int rank, end = 0;
    size_t first, last;
    const char *completes = strstr(line, " completes ");
    if (sscanf(line, " rank %d carries out line %zu", &rank, &first) == 2 || sscanf(line, "a run that ends: rank %d's line %zu", &rank, &first) == 2) {
        if (completes != NULL) write_completed(to, text, rank, first, completes);
        else write_stretch(to, text, first, first);
    } else if (sscanf(line, " rank %d carries out lines %zu to %zu", &rank, &first, &last) == 3) write_stretch(to, text, first, last);
    else if (sscanf(line, " rank %d carries out its lines from %zu on%n", &rank, &first, &end) == 2 && end > 0) write_stretch(to, text, first, end_of_section(text, rank));
    else return strstr(line, " carries out ") != NULL;
    return true;
}

void write_places(FILE *to, const struct lines *text, const char *line) {
    const char *place = where(text, shown(line));
    if (place != NULL) fprintf(to, "    # %s", place);
    else if (shown(line) == 0 && !write_run(to, text, line)) write_named(to, text, line);
}
