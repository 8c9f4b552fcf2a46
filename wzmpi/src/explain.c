/* Has colljob report why a run ended badly: the calls so far, and those that ranks haven't come to, are written as a job text, and after the lines of the text that
   colljob names stand those of the program, which the text has as comments. */
#include "explain.h"

#include "record.h"
#include "schedule.h"
#include "diagnostics.h"

#include <sys/wait.h>
#include <unistd.h>

/* A line of colljob's, with "the calls" in place of a file that is removed by the time that it is read. */
static void tell_text(const char *line, const char *removed) {
    const char *found;
    size_t length = removed != NULL ? strlen(removed) : 0;
    for (; length > 0 && (found = strstr(line, removed)) != NULL; line = found + length) fprintf(stderr, "%.*sthe calls", (int)(found - line), line);
    fputs(line, stderr);
}

/* What is proved of the text needn't hold for the program, which has stalled: schedules may complete a collective before all members have called it, and a
   message stands as a collective of its ranks. */
static bool says_well(const char *line) { return strstr(line, "no run stalls (proved)") != NULL || strstr(line, "never stalls") != NULL; }

static void tell_line(const struct lines *text, const char *line, const char *removed) {
    fputs("  ", stderr);
    tell_text(line, removed);
    if (says_well(line)) fputs(the_run.strict ? "    # with these schedules; --strict waits for all members and receives, as MPI allows, and so the program has stalled"
                                              : "    # of the calls as the text has them, with messages as collectives; the program has stalled all the same", stderr);
    write_places(stderr, text, line);
    fputc('\n', stderr);
}

static struct lines read_file(const char *path) {
    FILE *from = fopen(path, "r");
    struct lines lines = text_lines(from);
    if (from != NULL) fclose(from);
    return lines;
}

/* What colljob says of a text, and its status. */
static struct lines ask(const char *colljob, const char *words, const char *path, int *status) {
    char command[2 * 4096 + 100];
    snprintf(command, sizeof command, "'%s' %s '%s' 2>&1", colljob, words, path);
    FILE *from = popen(command, "r");
    struct lines answer = text_lines(from);
    int ended = from != NULL ? pclose(from) : -1;
    *status = WIFEXITED(ended) ? WEXITSTATUS(ended) : -1;
    return answer;
}

/* A file that nobody asked for has another name for the user. */
static void tell_answer(const char *words, const char *path, bool removed, const struct lines *answer) {
    struct lines text = read_file(path);
    fprintf(stderr, "  colljob %s %s says:\n", words, removed ? "of the calls" : path);
    for (size_t i = 0; i < answer->many; i++) tell_line(&text, answer->at[i], removed ? path : NULL);
    free_lines(&text);
}

static char own[] = "/tmp/wzrun-XXXXXX"; /* a file of the text that nobody asked for */

/* Whether there is one, with the text. ALONE: as record_write_text has it. */
static bool write_own(bool alone) {
    strcpy(own + strlen(own) - 6, "XXXXXX");
    int file = mkstemp(own);
    if (file < 0) return false;
    close(file);
    return record_write_text(own, alone);
}

/* The file that has the text; NULL: it can't be written. */
static const char *text_path(void) { return the_run.text != NULL ? the_run.text : write_own(false) ? own : NULL; }

static void remove_own(const char *path) {
    if (path == own) unlink(own);
}

/* colljob's path or name; NULL: there is none. Where COLLJOB names another file, that is reported. Whether colljob can be asked. */
static bool find_colljob(const char **colljob) {
    const char *named = getenv("COLLJOB");
    *colljob = named == NULL && system("command -v colljob > /dev/null 2>&1") == 0 ? "colljob" : named;
    if (named == NULL || strchr(named, '/') == NULL || access(named, X_OK) == 0) return true;
    fprintf(stderr, "  --explain: COLLJOB names %s, which isn't there or can't be run\n", named);
    return false;
}

/* ---- a bad end */

/* Where it isn't known of the calls whether runs differ, this one is explained alone. */
static void tell_end(const char *colljob, const char *words, const char *path) {
    int status;
    struct lines answer = ask(colljob, words, path, &status);
    if (answer.many > 0 && strncmp(answer.at[0], "may stall", 9) == 0 && record_has_choices()) {
        remove_own(path);
        if (!write_own(true)) return;
        path = own;
        fprintf(stderr, "  each call is taken to complete what it did in this run:\n");
        free_lines(&answer);
        answer = ask(colljob, words, path, &status);
    }
    /* Status 0 says that the text has no fault, or never stalls: then it hasn't what is wrong with the program. */
    if (status == 0) fprintf(stderr, "  colljob %s can't tell why: a job text doesn't have what is wrong here\n", words);
    else tell_answer(words, path, path == own, &answer);
    free_lines(&answer);
    remove_own(path);
}

void explain_end(const struct question *question) {
    const char *colljob, *path;
    if (question->untold != NULL && (the_run.explains || the_run.text != NULL)) {
        fprintf(stderr, "  colljob can't tell more of it: %s\n", question->untold);
        return;
    }
    if (!the_run.explains) {
        if (the_run.text != NULL) fprintf(stderr, "  the calls stand in %s: colljob %s %s\n", the_run.text, question->words, the_run.text);
        return;
    }
    if (!find_colljob(&colljob) || (path = text_path()) == NULL) return;
    if (colljob != NULL) tell_end(colljob, question->words, path);
    else fprintf(stderr, "  the calls stand in %s; with colljob in PATH, or its path in COLLJOB: colljob %s %s\n", path, question->words, path);
}

/* ---- a good end, which another run may not have */

/* The requests of `"completes":[0, 1]}`. */
static void read_completed(struct pass *pass, const char *at) {
    while (*at >= '0' && *at <= '9') {
        char *end;
        pass->completed = must(realloc(pass->completed, sizeof *pass->completed * (size_t)(pass->many + 1)));
        pass->completed[pass->many++] = (int)strtol(at, &end, 10);
        at = end + strspn(end, ", ");
    }
}

/* The run that colljob's objects show. */
static struct shown_run read_run(const struct lines *objects) {
    struct shown_run run = { .passes = must(calloc(objects->many + 1, sizeof(struct pass))) };
    for (size_t i = 0; i < objects->many; i++) {
        int rank, end = 0;
        size_t line;
        const char *object = objects->at[i];
        if (sscanf(object, "{\"reason\":\"waits\",\"rank\":%d,\"line\":%zu", &rank, &line) == 2 && rank >= 0 && rank < the_run.size) run.stops[rank] = line;
        if (sscanf(object, "{\"reason\":\"passes\",\"rank\":%d,\"line\":%zu,\"completes\":[%n", &rank, &line, &end) != 2 || end == 0 || rank < 0 || rank >= the_run.size) continue;
        struct pass *pass = &run.passes[run.many++];
        *pass = (struct pass){ .rank = rank, .line = line };
        read_completed(pass, object + end);
    }
    return run;
}

/* The schedule becomes that of the run. */
static void take_over(const char *colljob, const char *path) {
    int status;
    if (the_run.schedule_out == NULL) {
        fprintf(stderr, "  --write-schedule FILE keeps what its calls complete, and --schedule FILE has them complete that again\n");
        return;
    }
    struct lines objects = ask(colljob, "explain --format json", path, &status);
    struct shown_run run = read_run(&objects);
    keep_shown(&run);
    for (size_t i = 0; i < run.many; i++) free(run.passes[i].completed);
    free(run.passes);
    free_lines(&objects);
    fprintf(stderr, "  wzrun --schedule %s has the calls complete what they do in that run\n", the_run.schedule_out);
}

/* Nothing shows whether another run deadlocks. */
static void tell_unknown(const char *why) {
    if (!the_run.quiet) fprintf(stderr, "wzrun: note: whether a run deadlocks in which MPI_Waitany and its like complete others isn't known: %s\n", why);
}

static void tell_others(const char *colljob, const char *path) {
    int status;
    struct lines answer = ask(colljob, "explain", path, &status);
    bool shows = status == 6 && answer.many > 0 && strncmp(answer.at[0], "stalls in some runs", 19) == 0;
    if (shows) {
        fprintf(stderr, "%s: this run ended, but with the same calls others deadlock (not sure: the program may call otherwise once a call has completed another request)\n", warning_head());
        tell_answer("explain", path, path == own, &answer);
        take_over(colljob, path);
    } else if (status != 0) tell_unknown("colljob explain neither shows one nor that there is none");
    free_lines(&answer);
}

void explain_choices(void) {
    const char *colljob, *path, *lacks = record_lacks();
    if (!record_has_choices() || !find_colljob(&colljob)) return;
    if (colljob == NULL) lacks = "colljob is neither in PATH nor named by COLLJOB";
    if (lacks != NULL) tell_unknown(lacks);
    else if ((path = text_path()) != NULL) {
        tell_others(colljob, path);
        remove_own(path);
    }
}
