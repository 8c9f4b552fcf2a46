/* SIGQUIT asks where the ranks stand; SIGINT, SIGTERM and --timeout end the run after that, and the files that are wanted are written. A program that has handlers
   of its own keeps them. */
#include "signals.h"

#include "per_rank_libc.h"
#include "standing.h"
#include "trace.h"

#include <signal.h>
#include <time.h>

static atomic_bool caught[3]; /* as the numbers below: one that ends isn't lost where another comes at the same time */
static const int numbers[] = { SIGINT, SIGTERM, SIGQUIT };
static struct timespec begun;

static void catch(int number) {
    for (int i = 0; i < 3; i++)
        if (numbers[i] == number) atomic_store(&caught[i], true);
}

/* A second signal that ends does so at once. */
void catch_signals(void) {
    clock_gettime(CLOCK_MONOTONIC, &begun);
    for (int i = 0; i < 3; i++) {
        struct sigaction before, action = { .sa_handler = catch, .sa_flags = SA_RESTART };
        if (numbers[i] != SIGQUIT) action.sa_flags |= (int)SA_RESETHAND;
        sigemptyset(&action.sa_mask);
        if (sigaction(numbers[i], NULL, &before) == 0 && before.sa_handler == SIG_DFL) sigaction(numbers[i], &action, NULL);
    }
}

static void tell(const char *why) {
    flush_streams();
    fprintf(stderr, "%s: %s: here the ranks stand:\n", fault_head(), why);
    tell_where_all_stand();
}

static void end(const char *why, int status) {
    tell_alone();
    tell(why);
    if (the_run.statistics) tell_statistics();
    end_run(status, (struct question){ NULL, NULL });
}

void answer_signals(void) {
    struct timespec now;
    char text[60];
    if (atomic_exchange(&caught[2], false)) tell("SIGQUIT");
    if (atomic_exchange(&caught[0], false)) end("SIGINT ends the run", 128 + SIGINT);
    if (atomic_exchange(&caught[1], false)) end("SIGTERM ends the run", 128 + SIGTERM);
    if (the_run.timeout <= 0) return;
    clock_gettime(CLOCK_MONOTONIC, &now);
    double seconds = (double)(now.tv_sec - begun.tv_sec) + (double)(now.tv_nsec - begun.tv_nsec) / 1e9;
    snprintf(text, sizeof text, "--timeout ends the run after %g s", the_run.timeout);
    if (seconds >= the_run.timeout) end(text, fault_status(STATUS_TIMED_OUT));
}
