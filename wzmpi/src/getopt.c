/* getopt and getopt_long, linked into each program beside per_rank_libc.c: those of the C library keep their place in variables that all ranks would share. A program that
   brings its own has that. What they do is said in getopt(3). */
#include <getopt.h>
#include <stdbool.h>
#include <stdio.h>
#include <stdlib.h>
#include <string.h>

__attribute__((weak)) char *optarg;
__attribute__((weak)) int optind = 1, opterr = 1, optopt = '?';

static struct {
    char *rest;   /* of a word with several letters; NULL: the next word is due */
    int skipped;  /* how many words that aren't options lie at optind */
    int expected; /* optind as it was left; where it is another the program begins anew */
} place;

/* A call of one of the functions. */
struct scan {
    int argc;
    char **argv;
    const char *letters;
    const struct option *names;
    int *index;
    bool one_dash;              /* `-name` is looked for among the names first */
    bool in_order, stops, quiet; /* as `-`, `+` and `:` in front of the letters say */
};

static int complain(const struct scan *scan, const char *what, const char *dashes, const char *name, int length) {
    if (opterr && !scan->quiet) fprintf(stderr, "%s: %s '%s%.*s'\n", scan->argv[0], what, dashes, length, name);
    return '?';
}

static bool is_option(const char *word) { return word[0] == '-' && word[1] != '\0'; }

/* Moves the word that follows the skipped ones to the place before them. */
static void bring_forward(char **argv) {
    char *word = argv[optind + place.skipped];
    memmove(&argv[optind + 1], &argv[optind], sizeof *argv * (size_t)place.skipped);
    argv[optind] = word;
}

/* Brings the next option to optind. Whether there is one. */
static bool find_option(const struct scan *scan) {
    while (!scan->in_order && !scan->stops && optind + place.skipped < scan->argc && !is_option(scan->argv[optind + place.skipped])) place.skipped++;
    if (optind + place.skipped >= scan->argc || (scan->stops && !is_option(scan->argv[optind]))) return false;
    bring_forward(scan->argv);
    return true;
}

/* The argument of an option, which is the next word. Whether there is one. */
static bool take_argument(const struct scan *scan) {
    if (optind + place.skipped >= scan->argc) return false;
    bring_forward(scan->argv);
    optarg = scan->argv[optind++];
    return true;
}

static int read_letter(const struct scan *scan) {
    int letter = (unsigned char)*place.rest++;
    const char *known = letter != ':' && letter != ';' ? strchr(scan->letters, letter) : NULL;
    char *rest = place.rest, name = (char)letter;
    bool takes = known != NULL && known[1] == ':';
    if (*rest == '\0' || takes) {
        place.rest = NULL;
        optind++;
    }
    if (known == NULL) {
        optopt = letter;
        return complain(scan, "invalid option --", "", &name, 1);
    }
    if (takes && *rest != '\0') optarg = rest;
    else if (takes && known[2] != ':' && !take_argument(scan)) {
        optopt = letter;
        complain(scan, "option requires an argument --", "", &name, 1);
        return scan->quiet ? ':' : '?';
    }
    return letter;
}

/* The position of a name, which may be cut short where it is the only one that begins so. -1: there is none, -2: there are several. */
static int find_name(const struct scan *scan, const char *name, size_t length) {
    int found = -1;
    for (int i = 0; scan->names[i].name != NULL; i++) {
        if (strncmp(scan->names[i].name, name, length) != 0) continue;
        if (strlen(scan->names[i].name) == length) return i;
        const struct option *other = &scan->names[found >= 0 ? found : i];
        bool alike = other->has_arg == scan->names[i].has_arg && other->flag == scan->names[i].flag && other->val == scan->names[i].val;
        if (found != -2) found = alike ? (found >= 0 ? found : i) : -2;
    }
    return found;
}

static int read_name(const struct scan *scan, int at, const char *dashes, const char *name, int length) {
    const struct option *option = &scan->names[at];
    bool given = name[length] == '=';
    optind++;
    optopt = option->flag == NULL ? option->val : 0;
    if (given && option->has_arg == no_argument) return complain(scan, "option doesn't allow an argument", dashes, name, length);
    if (given) optarg = (char *)name + length + 1;
    else if (option->has_arg == required_argument && !take_argument(scan)) {
        complain(scan, "option requires an argument", dashes, name, length);
        return scan->quiet ? ':' : '?';
    }
    if (scan->index != NULL) *scan->index = at;
    if (option->flag == NULL) return option->val;
    *option->flag = option->val;
    return 0;
}

/* A word that names an option, or one with letters. */
static int read_word(const struct scan *scan) {
    char *word = scan->argv[optind];
    const char *dashes = word[1] == '-' ? "--" : "-", *name = word + strlen(dashes);
    int length = (int)strcspn(name, "=");
    bool named = scan->names != NULL && (word[1] == '-' || (scan->one_dash && (word[2] != '\0' || strchr(scan->letters, word[1]) == NULL)));
    int at = named ? find_name(scan, name, (size_t)length) : -1;
    if (at >= 0) return read_name(scan, at, dashes, name, length);
    if (named && (word[1] == '-' || strchr(scan->letters, word[1]) == NULL)) {
        optind++;
        optopt = 0;
        return complain(scan, at == -2 ? "option is ambiguous" : "unrecognized option", dashes, name, length);
    }
    place.rest = word + 1;
    return read_letter(scan);
}

static int next(const struct scan *scan) {
    optarg = NULL;
    if (place.rest != NULL) return read_letter(scan);
    if (!find_option(scan)) return -1;
    if (scan->in_order && !is_option(scan->argv[optind])) {
        optarg = scan->argv[optind++];
        return 1;
    }
    if (strcmp(scan->argv[optind], "--") != 0) return read_word(scan);
    optind++;
    return -1;
}

static int scan(int argc, char *const argv[], const char *letters, const struct option *names, int *index, bool one_dash) {
    struct scan scanned = { .argc = argc, .argv = (char **)argv, .names = names, .index = index, .one_dash = one_dash };
    scanned.in_order = letters[0] == '-';
    scanned.stops = letters[0] == '+' || (!scanned.in_order && getenv("POSIXLY_CORRECT") != NULL);
    if (letters[0] == '-' || letters[0] == '+') letters++;
    scanned.quiet = letters[0] == ':';
    scanned.letters = letters;
    if (optind != place.expected || optind == 0) {
        place.rest = NULL;
        place.skipped = 0;
    }
    if (optind == 0) optind = 1;
    int code = next(&scanned);
    if (code == -1) place.skipped = 0;
    place.expected = optind;
    return code;
}

__attribute__((weak)) int getopt(int argc, char *const argv[], const char *letters) { return scan(argc, argv, letters, NULL, NULL, false); }

__attribute__((weak)) int getopt_long(int argc, char *const argv[], const char *letters, const struct option *names, int *index) {
    return scan(argc, argv, letters, names, index, false);
}

__attribute__((weak)) int getopt_long_only(int argc, char *const argv[], const char *letters, const struct option *names, int *index) {
    return scan(argc, argv, letters, names, index, true);
}
