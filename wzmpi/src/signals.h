/* Signals and --timeout: where the ranks stand. */
#ifndef WZ_SIGNALS_H
#define WZ_SIGNALS_H

enum { STATUS_TIMED_OUT = 124 }; /* as timeout(1) has it */

void catch_signals(void);
void answer_signals(void); /* for the thread that watches: tells what was asked, and ends the run where that was asked */

#endif
