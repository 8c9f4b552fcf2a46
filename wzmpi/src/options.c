/* The words of wzrun, and runs over many seeds. */
#include "options.h"

#include "diagnostics.h"

#include <sys/wait.h>
#include <unistd.h>

static const char version[] = "wzrun (Worzsunab) 0.1.0, MPI 4.1 with ranks as threads of one process\n";
static const char help[] =
    "wzrun: runs an MPI program with its ranks as threads of one process, and reports deadlocks, mismatched collectives and wrong calls\n"
    "  wzrun [-n N] [OPTION ..] PROGRAM [ARGUMENT ..]      PROGRAM was linked by wzcc, wzc++ or wzfort (C, C++, Fortran)\n"
    "Ranks:\n"
    "  -n N, -np N      1 to 64 ranks; else WZ_RANKS says how many, or there is one\n"
    "  -x NAME[=VALUE]  sets a variable of the environment\n"
    "  --progress N     0 to 8 threads for each communicator, which go on with its collectives while all its ranks compute\n"
    "Checks:\n"
    "  --strict         a collective is complete only once all its members have called it, and a send once it is received\n"
    "  --check          reports where a program changes what a nonblocking or persistent call sends, or writes to where it receives, before it is completed\n"
    "  --seed S         draws by the number S how the ranks interleave and which of several finished requests MPI_Waitany and its like take\n"
    "  --seeds A..B     runs it with each of these seeds until a run ends badly\n"
    "  --explain        at a bad end has colljob, which PATH has or COLLJOB names, tell why; at a good one, whether the run deadlocks where MPI_Waitany and its like complete others\n"
    "  --schedule FILE  has each MPI_Waitany, MPI_Test and the like complete what FILE says, as --write-schedule wrote it, so that a deadlock comes again\n"
    "  --timeout S      ends the run after S seconds with status 124, and says where each rank stands, as SIGINT and SIGTERM do; SIGQUIT says it, and the run goes on\n"
    "Files and figures:\n"
    "  --text FILE      writes the calls as a job text\n"
    "  --values FILE    writes what requests got, as the lines of `colljob plain`\n"
    "  --write-schedule FILE  writes what each of these calls completed, or completes in the run that --explain shows\n"
    "  --timeline FILE  writes when each collective and message was under way, and each wait, as trace events that Perfetto opens\n"
    "  --trace FILE     writes each call that an engine accepted, in the order in which the engines took them\n"
    "  --html FILE      writes a page of the run for any browser, by wzrecord, which lies beside wzrun or in PATH\n"
    "  --stats          says what ranks and collectives gave, got and waited, how many collectives the engine carried out as they are, and how many it carried\n"
    "Else:\n"
    "  --status-of-faults N  the status where wzrun reports a fault, 1 to 255, so that it can't be the program's\n"
    "  --large-pages    glibc's allocator takes large pages, for programs with long rows; not where GLIBC_TUNABLES is set, or ranks are more than processors\n"
    "  --color WHEN     auto, always or never; auto where standard error is a terminal and NO_COLOR isn't set\n"
    "  -q, --quiet      without notes about what ranks share, as processes wouldn't\n"
    "  --oversubscribe, --allow-run-as-root  are taken, as mpirun's, and mean nothing\n"
    "  --version, --help\n"
    "  --               ends the options\n"
    "Statuses: that of the program; 1: wzrun can't run it, or --schedule doesn't fit it; 2: a call that MPI doesn't allow, or calls that don't agree; 3: stalled; 128 + the signal of a crash.\n";

static void give_up(const char *word, const char *reason) __attribute__((noreturn));
static void give_up(const char *word, const char *reason) {
    fprintf(stderr, "wzrun: %s: %s (wzrun --help says more)\n", word, reason);
    exit(1);
}

static uint64_t number(const char *word, const char *text, const char **rest) {
    char *end;
    uint64_t it = text[0] >= '0' && text[0] <= '9' ? strtoull(text, &end, 10) : 0;
    if (it == 0) give_up(word, "a number from 1 on stands after it");
    if (rest == NULL && *end != '\0') give_up(word, "a number from 1 on stands after it");
    if (rest != NULL) *rest = end;
    return it;
}

static int ranks_of(const char *word, const char *text) {
    uint64_t it = number(word, text, NULL);
    if (it > MOST_RANKS) give_up(word, "there are 1 to 64 ranks");
    return (int)it;
}

static int status_of(const char *word, const char *text) {
    uint64_t it = number(word, text, NULL);
    if (it > 255) give_up(word, "a status is 1 to 255");
    return (int)it;
}

static uint32_t progress_of(const char *word, const char *text) {
    if (text[0] < '0' || text[0] > '8' || text[1] != '\0') give_up(word, "0 to 8 progress threads stand after it");
    return (uint32_t)(text[0] - '0');
}

static enum colours colours_of(const char *word, const char *text) {
    if (strcmp(text, "auto") != 0 && strcmp(text, "always") != 0 && strcmp(text, "never") != 0) give_up(word, "auto, always or never stands after it");
    return text[0] == 'n' ? NEVER : text[1] == 'l' ? ALWAYS : AUTOMATIC;
}

static double seconds_of(const char *word, const char *text) {
    char *end;
    double it = strtod(text, &end);
    if (end == text || *end != '\0' || !(it > 0) || it > 1e9) give_up(word, "seconds stand after it");
    return it;
}

static void read_seeds(const char *text, struct options *options) {
    const char *rest;
    options->first_seed = number("--seeds", text, &rest);
    if (strncmp(rest, "..", 2) != 0) give_up("--seeds", "A..B stands after it");
    options->last_seed = number("--seeds", rest + 2, NULL);
    if (options->first_seed > options->last_seed) give_up("--seeds", "A..B stands after it, and A is at most B");
}

/* NAME=VALUE; a NAME alone is in the environment already. */
static void set_variable(const char *text) {
    const char *equals = strchr(text, '=');
    if (equals == NULL) return;
    char *name = must(strndup(text, (size_t)(equals - text)));
    if (setenv(name, equals + 1, 1) != 0) give_up("-x", "NAME or NAME=VALUE stands after it");
    free(name);
}

static bool is_word(const char *word, const char *text) { return strcmp(word, text) == 0; }

/* A word without a value. Whether it is one. */
static bool read_flag(const char *word, struct options *options) {
    if (is_word(word, "--strict")) the_run.strict = true;
    else if (is_word(word, "--check")) the_run.checks = true;
    else if (is_word(word, "--explain")) the_run.explains = true;
    else if (is_word(word, "--stats")) the_run.statistics = true;
    else if (is_word(word, "--large-pages")) options->large_pages = true;
    else if (is_word(word, "--quiet") || is_word(word, "-q")) the_run.quiet = true;
    else return is_word(word, "--oversubscribe") || is_word(word, "--allow-run-as-root");
    return true;
}

static bool read_value(const char *word, const char *value, struct options *options) {
    if (is_word(word, "-n") || is_word(word, "-np")) options->ranks = ranks_of(word, value);
    else if (is_word(word, "-x")) set_variable(value);
    else if (is_word(word, "--status-of-faults")) the_run.status_of_faults = status_of(word, value);
    else if (is_word(word, "--color")) the_run.colours = colours_of(word, value);
    else if (is_word(word, "--timeout")) the_run.timeout = seconds_of(word, value);
    else if (is_word(word, "--progress")) the_run.progress = progress_of(word, value);
    else if (is_word(word, "--seed")) the_run.seed = number(word, value, NULL);
    else if (is_word(word, "--seeds")) read_seeds(value, options);
    else if (is_word(word, "--text")) the_run.text = value;
    else if (is_word(word, "--values")) the_run.values = value;
    else if (is_word(word, "--timeline")) the_run.timeline = value;
    else if (is_word(word, "--trace")) the_run.trace = value;
    else if (is_word(word, "--schedule")) the_run.schedule = value;
    else if (is_word(word, "--write-schedule")) the_run.schedule_out = value;
    else if (is_word(word, "--html")) options->page = value;
    else return false;
    return true;
}

/* A variable's value; NULL: it has none. */
static const char *variable(const char *name) {
    const char *value = getenv(name);
    return value != NULL && value[0] != '\0' ? value : NULL;
}

static bool is_set(const char *name) { return variable(name) != NULL && !is_word(variable(name), "0"); }

/* A program that runs by itself has its options in variables. */
static void read_variables(struct options *options) {
    if (variable("WZ_RANKS") != NULL) options->ranks = ranks_of("WZ_RANKS", variable("WZ_RANKS"));
    the_run.strict = is_set("WZ_STRICT");
    the_run.checks = is_set("WZ_CHECK");
    the_run.explains = is_set("WZ_EXPLAIN");
    the_run.statistics = is_set("WZ_STATS");
    the_run.quiet = is_set("WZ_QUIET");
    options->large_pages = is_set("WZ_LARGE_PAGES");
    if (variable("WZ_STATUS_OF_FAULTS") != NULL) the_run.status_of_faults = status_of("WZ_STATUS_OF_FAULTS", variable("WZ_STATUS_OF_FAULTS"));
    if (variable("WZ_TIMEOUT") != NULL) the_run.timeout = seconds_of("WZ_TIMEOUT", variable("WZ_TIMEOUT"));
    if (variable("WZ_SEED") != NULL) the_run.seed = number("WZ_SEED", variable("WZ_SEED"), NULL);
    if (variable("WZ_PROGRESS") != NULL) the_run.progress = progress_of("WZ_PROGRESS", variable("WZ_PROGRESS"));
    the_run.text = variable("WZ_TEXT");
    the_run.values = variable("WZ_VALUES");
    the_run.timeline = variable("WZ_TIMELINE");
    the_run.trace = variable("WZ_TRACE");
    the_run.schedule = variable("WZ_SCHEDULE");
    the_run.schedule_out = variable("WZ_WRITE_SCHEDULE");
}

static void tell_and_end(const char *text) {
    fputs(text, stdout);
    exit(fflush(stdout) == 0 ? 0 : 1);
}

/* An option with its value: in the next word, after `=`, or as in -n4. How many words it is. */
static int read_option(char **words, int many, struct options *options) {
    char *equals = strchr(words[0], '=');
    if (is_word(words[0], "--help") || is_word(words[0], "-h")) tell_and_end(help);
    if (is_word(words[0], "--version") || is_word(words[0], "-V")) tell_and_end(version);
    if (read_flag(words[0], options)) return 1;
    size_t letters = strspn(words[0], "-np");
    if (strncmp(words[0], "-n", 2) == 0 && words[0][letters] >= '0' && words[0][letters] <= '9' && read_value("-n", words[0] + letters, options)) return 1;
    if (strncmp(words[0], "--", 2) == 0 && equals != NULL) {
        char *word = must(strndup(words[0], (size_t)(equals - words[0])));
        if (!read_value(word, equals + 1, options)) give_up(word, "wzrun has no such option with a value");
        free(word);
        return 1;
    }
    if (many < 2 || !read_value(words[0], words[1], options)) give_up(words[0], "wzrun has no such option, or its value is missing");
    return 2;
}

/* mpirun starts processes, each of which would be a run of one rank. */
static void refuse_mpirun(const char *program) {
    static const char *const sizes[] = { "OMPI_COMM_WORLD_SIZE", "PMI_SIZE" };
    for (size_t i = 0; i < sizeof sizes / sizeof sizes[0]; i++) {
        const char *size = variable(sizes[i]);
        if (size == NULL || strtol(size, NULL, 10) < 2) continue;
        fprintf(stderr, "wzrun: mpirun can't run %s, which wzcc linked: wzrun -n %s %s\n", program, size, program);
        exit(1);
    }
}

/* wzrecord runs the same words once more, and makes the page of what they write. Where the variable WZ_PAGE is set, it does so already. */
static void make_page(int argc, char **argv, const char *page) {
    char beside[4096] = "", *name = beside;
    ssize_t length = readlink("/proc/self/exe", beside, sizeof beside - sizeof "wzrecord");
    char *own = length > 0 ? must(strdup(beside)) : argv[0];
    char *slash = strrchr(beside, '/');
    strcpy(slash != NULL ? slash + 1 : beside, "wzrecord");
    if (access(beside, X_OK) != 0) name = strrchr(beside, '/') != NULL ? strrchr(beside, '/') + 1 : beside;
    char **words = must(calloc((size_t)argc + 5, sizeof *words));
    char *first[] = { name, "page", (char *)page, "--" };
    for (int i = 0; i < 4; i++) words[i] = first[i];
    for (int i = 0; i < argc; i++) words[4 + i] = argv[i];
    words[4] = own;
    setenv("WZ_PAGE", page, 1);
    execvp(name, words);
    give_up("--html", "there is no wzrecord beside wzrun or in PATH, which makes the page");
}

void read_options(int argc, char **argv, struct options *options) {
    int at = 1;
    *options = (struct options){ .ranks = 0 };
    read_variables(options);
    while (at < argc && argv[at][0] == '-' && !is_word(argv[at], "--")) at += read_option(argv + at, argc - at, options);
    if (at < argc && is_word(argv[at], "--")) at++;
    if (at == argc) give_up("no program", "it stands after the options");
    if (options->page != NULL && variable("WZ_PAGE") == NULL) make_page(argc, argv, options->page);
    if (options->ranks == 0) refuse_mpirun(argv[at]);
    if (options->ranks == 0) options->ranks = 1;
    options->program = at;
}

/* ---- many seeds */

/* The same words with --seed SEED in place of --seeds. */
static int run_seed(int argc, char **argv, uint64_t seed) {
    static char quiet[] = "--oversubscribe"; /* a word that means nothing */
    char text[40];
    char **words = must(calloc((size_t)argc + 1, sizeof *words));
    for (int i = 0; i < argc; i++) words[i] = argv[i];
    for (int i = 1; i < argc; i++) {
        if (strncmp(words[i], "--seeds", 7) != 0) continue;
        snprintf(text, sizeof text, "--seed=%llu", (unsigned long long)seed);
        bool one = words[i][7] == '=';
        words[i] = text;
        if (!one) words[i + 1] = quiet; /* in place of the seeds */
        break;
    }
    int status = 0;
    pid_t child = fork();
    if (child == 0) {
        execv("/proc/self/exe", words);
        _exit(1);
    }
    free(words);
    if (child < 0 || waitpid(child, &status, 0) != child) give_up("--seeds", "a process can't be made");
    return WIFSIGNALED(status) ? 128 + WTERMSIG(status) : WEXITSTATUS(status);
}

int run_seeds(int argc, char **argv, const struct options *options) {
    for (uint64_t seed = options->first_seed; seed <= options->last_seed; seed++) {
        fflush(stdout);
        int status = run_seed(argc, argv, seed);
        if (status == 0) continue;
        fprintf(stderr, "wzrun: the run with --seed %llu ended with status %d\n", (unsigned long long)seed, status);
        return status;
    }
    fprintf(stderr, "wzrun: all runs with the seeds %llu to %llu ended well\n", (unsigned long long)options->first_seed, (unsigned long long)options->last_seed);
    return 0;
}
