/* Schedules: what each call that chooses completes, by rank (docs/WZRUN.md). A run's own is kept as it goes, and written into a file; --schedule replays one. */
#ifndef WZ_SCHEDULE_H
#define WZ_SCHEDULE_H

#include "collectives.h"

/* ---- schedule_keep.c: that of this run, for --write-schedule and --explain */

enum { NO_STEP = -1 };

/* A call of this rank that chooses begins: it waits until it is noted what it completes. The number of the step; NO_STEP: none is kept. */
long keep_begun(const char *call);
/* What it completes, as indices of its list; none: a test says no, or nothing of the list is active. */
void keep_completed(long step, const int *completed, int many);
/* A receive or a probe of a rank that asks for any source: whom the message is from, as the communicator numbers ranks. */
void keep_source(int rank, long step, int source);
/* Where the rank's part of the job text has the step's line, and how the text numbers the requests of its list; -1: it hasn't one. */
void keep_text(long step, size_t offset, const int *recorded, int many);

/* A run that colljob shows, with the calls of this one. */
struct pass {
    int rank, many, *completed; /* requests, as the text numbers them */
    size_t line;
};
struct shown_run {
    struct pass *passes; /* of the lines whose completions depend on time */
    size_t many;
    size_t stops[MOST_RANKS]; /* the line in which a rank waits; 0: it comes to its end */
};
/* The schedule that is kept becomes that of the run. */
void keep_shown(const struct shown_run *run);

/* Writes it to the file of --write-schedule. Whether it could. */
bool write_schedule(void);
/* The run whose schedule is kept deadlocks. */
void keep_deadlock(void);

/* ---- schedule_replay.c: that of --schedule */

/* Reads it. Why it can't, or NULL. */
const char *read_schedule(const char *path, int ranks);

enum planned { FREE, NOTHING, SOME, SOURCE, WAITS };
struct plan {
    enum planned what;
    int line, many; /* line: of the file */
    const int *indices; /* of the call's list; SOURCE: the rank of whom it receives */
};
/* What this rank's call is to complete; FREE where there is no schedule, or no more of it. A schedule with another call is reported, and the run ends. */
struct plan next_planned(const char *call);
/* Waits until those of the list are done that the plan names. */
void wait_for_planned(const struct plan *plan, struct request **list, int many, const char *call);
/* As a plan has it, a receive or a probe of any source is for one. */
void ask_planned(struct request *request, const struct plan *plan);
/* Reports that the call can't do what the plan says, and ends the run. */
void misfit(const struct plan *plan, const char *call, const char *why) __attribute__((noreturn));

/* For whoever watches: reports a lost rank that waits for what the schedule has it complete, and ends the run. */
void tell_unfit(uint64_t lost);
/* At a deadlock: the first lines that ranks haven't come to. */
void tell_unread(void);
/* At a good end: reports what the schedule has more. Whether it has. */
bool schedule_goes_on(void);

#endif
