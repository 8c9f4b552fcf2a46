/* wzrun: each rank has a copy of the program in memory, so that it has its static variables for itself, and a thread that calls its main. */
#include "run.h"

#include "trace.h"
#include "options.h"
#include "per_rank_libc.h"
#include "explain.h"
#include "rank_copies.h"
#include "signals.h"
#include "threads.h"
#include "warnings.h"
#include "record.h"
#include "schedule.h"
#include "diagnostics.h"

#include <errno.h>
#include <fcntl.h>
#include <sched.h>
#include <semaphore.h>
#include <signal.h>
#include <sys/resource.h>
#include <sys/syscall.h>
#include <time.h>
#include <unistd.h>

enum { LOOK_NANOSECONDS = 25000000, LEAST_STACK = 64 << 20, SIGNAL_STACK = 1 << 16 };

struct start {
    struct rank *rank;
    int argc;
    char **argv;
    int (*run)(int, char **);
};

static sem_t ended;

static void give_up(const char *what, const char *reason) __attribute__((noreturn));
static void give_up(const char *what, const char *reason) {
    fprintf(stderr, "wzrun: %s: %s\n", what, reason);
    exit(1);
}

/* ---- the program's copies */

static void load(struct start *start, const char *program) {
    const char *why = NULL;
    void *run = load_program(start->rank, &why);
    if (run == NULL) give_up(program, why);
    memcpy(&start->run, &run, sizeof run);
}

/* A name without a slash is looked for as it is, and then in PATH, as mpirun does. */
static const char *find_program(const char *name) {
    static char path[4096];
    if (strchr(name, '/') != NULL || access(name, R_OK) == 0 || getenv("PATH") == NULL) return name;
    char *folders = strdup(getenv("PATH")), *rest = folders;
    for (char *folder = strsep(&rest, ":"); folder != NULL; folder = strsep(&rest, ":")) {
        snprintf(path, sizeof path, "%s/%s", folder, name);
        if (access(path, X_OK) == 0) break;
        path[0] = '\0';
    }
    free(folders);
    return path[0] != '\0' ? path : name;
}

/* ---- crashes */

enum { CRASHES = 5, KEPT = 6 };
static const int kept[KEPT] = { SIGSEGV, SIGBUS, SIGFPE, SIGILL, SIGABRT, SIGQUIT }; /* first those of crashes */
static const char *const crash_names[CRASHES] = { "segmentation fault", "bus error", "arithmetic error", "illegal instruction", "abort" };
static void (*after_crash[CRASHES])(int); /* libgfortran's own, which write a backtrace */

/* In a call of MPI what isn't there is the program's buffer, or what a function of the program uses that the call calls. */
static int write_crash(char *text, size_t room, const char *name, const void *address) {
    const struct rank *me = current_rank;
    const char *site = atomic_load(&me->site), *call = atomic_load(&me->call);
    char completed[500] = "";
    if (!is_inside_call() || address == NULL) return snprintf(text, room, "wzrun: rank %d crashes: %s, after its call at %s\n", me->number, name, site);
    if (me->completes != NULL && (strstr(call, "Wait") != NULL || strstr(call, "Test") != NULL))
        snprintf(completed, sizeof completed, ", which completes %s at %s", me->completes, me->completes_at);
    return snprintf(text, room, "wzrun: rank %d crashes: %s in %s at %s%s: memory at %p isn't there; a buffer was freed or unmapped, or is shorter than the call says\n", me->number, name,
                    call, site, completed, address);
}

/* A crash of one rank ends all. */
static void tell_crash(int number, siginfo_t *about, void *context) {
    char text[1500];
    (void)context;
    const char *name = "a signal";
    void (*after)(int) = NULL;
    for (int i = 0; i < CRASHES; i++)
        if (kept[i] == number) name = crash_names[i], after = after_crash[i];
    int length = current_rank == NULL ? 0 : write_crash(text, sizeof text, name, number == SIGSEGV || number == SIGBUS ? about->si_addr : NULL);
    if (length > 0 && write(2, text, (size_t)length) < 0) _exit(128 + number);
    signal(number, SIG_DFL);
    if (after != NULL) after(number);
    raise(number);
}

/* A sanitizer that is there already keeps its handlers. */
static void tell_crashes(void) {
    struct sigaction before, action = { .sa_sigaction = tell_crash, .sa_flags = SA_ONSTACK | SA_NODEFER | SA_SIGINFO };
    sigemptyset(&action.sa_mask);
    for (int i = 0; i < CRASHES; i++)
        if (sigaction(kept[i], NULL, &before) == 0 && before.sa_handler == SIG_DFL) sigaction(kept[i], &action, NULL);
}

/* As a program in Fortran begins, libgfortran takes these signals. The handlers that were there stay, and hand crashes on to it. */
void wz_keep_handlers_(void (*set_options)(int, int *), int many, int *options) {
    static pthread_mutex_t guard = PTHREAD_MUTEX_INITIALIZER; /* all ranks begin at one time */
    struct sigaction before[KEPT], own;
    pthread_mutex_lock(&guard);
    for (int i = 0; i < KEPT; i++) sigaction(kept[i], NULL, &before[i]);
    set_options(many, options);
    for (int i = 0; i < KEPT; i++) {
        sigaction(kept[i], NULL, &own);
        if (before[i].sa_handler == SIG_DFL || before[i].sa_handler == own.sa_handler) continue;
        if (i < CRASHES) after_crash[i] = own.sa_handler;
        sigaction(kept[i], &before[i], NULL);
    }
    pthread_mutex_unlock(&guard);
}

/* ---- ranks */

static void *play(void *given) {
    struct start *start = given;
    struct rank *me = current_rank = start->rank;
    atomic_store(&me->thread, (int)syscall(SYS_gettid));
    stack_t stack = { .ss_sp = must(malloc(SIGNAL_STACK)), .ss_size = SIGNAL_STACK }, none = { .ss_flags = SS_DISABLE };
    sigaltstack(&stack, NULL); /* for the crash that runs out of stack */
    be_main();
    if (!the_run.one_folder) unshare(CLONE_FS);
    me->status = run_main(start->run, start->argc, start->argv);
    if (me->begun && !atomic_load(&me->finalized) && me->status == 0)
        warn_at_end(me->number, NULL, me->sessions > 0 ? "ended without MPI_Session_finalize" : "ended without MPI_Finalize");
    sigaltstack(&none, NULL);
    free(stack.ss_sp);
    atomic_store(&me->ended, true);
    sem_post(&ended);
    return NULL;
}

static size_t stack_bytes(void) {
    struct rlimit limit;
    if (getrlimit(RLIMIT_STACK, &limit) != 0 || limit.rlim_cur == RLIM_INFINITY || limit.rlim_cur < LEAST_STACK) return LEAST_STACK;
    return limit.rlim_cur;
}

static char **copied_words(int argc, char **argv) {
    char **words = must(calloc((size_t)argc + 1, sizeof *words));
    for (int i = 0; i < argc; i++) words[i] = must(strdup(argv[i]));
    return words;
}

/* Waits until all ranks have ended, and looks now and then whether they still can. */
static void watch_ranks(int size) {
    for (int left = size; left > 0;) {
        struct timespec until;
        clock_gettime(CLOCK_REALTIME, &until);
        until.tv_nsec += LOOK_NANOSECONDS;
        until.tv_sec += until.tv_nsec / 1000000000;
        until.tv_nsec %= 1000000000;
        if (sem_timedwait(&ended, &until) == 0) left--;
        else if (errno == ETIMEDOUT) watch_for_deadlock();
        answer_signals();
    }
}

static int run_ranks(int argc, char **argv, const struct options *options) {
    int size = options->ranks, status = 0;
    const char *program = find_program(argv[options->program]);
    pthread_t threads[MOST_RANKS];
    static struct start starts[MOST_RANKS]; /* the ranks' words stay as long as the run */
    pthread_attr_t attributes;
    pthread_attr_init(&attributes);
    pthread_attr_setstacksize(&attributes, stack_bytes());
    begin_run(size);
    const char *unread = the_run.schedule != NULL ? read_schedule(the_run.schedule, size) : NULL;
    if (unread != NULL) give_up(the_run.schedule, unread);
    the_run.one_folder = unshare(CLONE_FS) != 0; /* some containers forbid it; else each rank has its own working directory and umask */
    the_run.folder = open(".", O_PATH | O_DIRECTORY | O_CLOEXEC);
    sem_init(&ended, 0, 0);
    tell_crashes();
    catch_signals();
    const char *why = open_program(program);
    if (why != NULL) give_up(program, why);
    tell_shared();
    for (int i = 0; i < size; i++) {
        starts[i] = (struct start){ .rank = &the_run.ranks[i], .argc = argc - options->program };
        starts[i].argv = copied_words(starts[i].argc, argv + options->program);
        load(&starts[i], program);
    }
    for (int i = 0; i < size; i++)
        if (pthread_create(&threads[i], &attributes, play, &starts[i]) != 0) give_up("a thread for each rank", strerror(errno));
    watch_ranks(size);
    for (int i = 0; i < size; i++) pthread_join(threads[i], NULL); /* destructors of thread_local objects, which may speak or crash, come after `ended` */
    for (int i = 0; i < size && status == 0; i++) status = the_run.ranks[i].status;
    if (status == 0) warn_of_mail();
    flush_streams();
    tell_warnings();
    return status;
}

int wz_main_(int argc, char **argv) {
    struct options options;
    read_options(argc, argv, &options);
    if (options.first_seed > 0) return run_seeds(argc, argv, &options);
    set_allocator(argv, &options);
    int status = run_ranks(argc, argv, &options);
    flush_streams();
    go_back();
    if (schedule_goes_on()) status = 1;
    bool recorded = record_write();
    if (recorded && status == 0 && the_run.explains) explain_choices();
    bool kept = write_schedule();
    if (the_run.statistics) tell_statistics();
    if (!recorded) give_up(the_run.text != NULL ? the_run.text : the_run.values, "it can't be written");
    if (!kept) give_up(the_run.schedule_out, "it can't be written");
    const char *unwritten = the_run.notes ? write_notes() : NULL;
    if (unwritten != NULL) give_up(unwritten, "it can't be written");
    return status;
}
