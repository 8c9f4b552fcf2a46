/* What the ranks do, and how each must end. `line` adds a line to a rank's program. */
#define ends(rank, how) assert(ending[rank] == how)
#define everyone(what, of) i = 0; do :: i < RANKS -> line(i, what, of); i++ :: else -> break od
#define all_end_well assert(!stalled); i = 0; do :: i < RANKS -> ends(i, WELL); i++ :: else -> break od

#ifdef ONE              /* all post one collective, and wait */
inline program() { members[0] = EVERYONE; combines[0] = 1; everyone(POST, 0); everyone(WAIT, 0) }
inline verdict() { all_end_well }
#endif

#ifdef CROSSED          /* two ranks wait in crossed order */
inline program() {
    members[0] = 3; members[1] = 3;
    line(0, POST, 0); line(0, WAIT, 0); line(0, POST, 1); line(0, WAIT, 1);
    line(1, POST, 1); line(1, WAIT, 1); line(1, POST, 0); line(1, WAIT, 0)
}
inline verdict() { assert(stalled); ends(0, STALLED); ends(1, STALLED) }
#endif

#ifdef STALL            /* ranks 0 and 1 combine, and nobody's request is finished by that, since rank 2 doesn't post */
inline program() {
    members[0] = 7; combines[0] = 1; members[1] = 6;
    line(0, POST, 0); line(0, WAIT, 0);
    line(1, POST, 0); line(1, WAIT, 0);
    line(2, POST, 1); line(2, WAIT, 1)
}
inline verdict() { assert(stalled); ends(0, STALLED); ends(1, STALLED); ends(2, STALLED) }
#endif

#ifdef LEAVER           /* rank 0 waits; rank 1 posts and makes no call until rank 0 has ended */
inline program() {
    members[0] = 3; combines[0] = 1; members[1] = 4;
    line(0, POST, 0); line(0, WAIT, 0);
    line(1, POST, 0); line(1, AWAIT, 0); line(1, WAIT, 0);
    line(2, POST, 1); line(2, AWAIT, 0); line(2, WAIT, 1)
}
inline verdict() { all_end_well }
#endif

#ifdef LEAVER_TO_A_TEST /* the same, but rank 1 tests once it has posted */
inline program() {
    members[0] = 3; combines[0] = 1; members[1] = 4;
    line(0, POST, 0); line(0, WAIT, 0);
    line(1, POST, 0); line(1, POLL, 0);
    line(2, POST, 1); line(2, AWAIT, 1); line(2, WAIT, 1)
}
inline verdict() { all_end_well }
#endif

#ifdef EXIT             /* whoever serves rank 1's post on the way out makes work for rank 2; 0 and 1 make no call until 2 has ended */
inline program() {
    members[0] = 3; members[1] = 6; combines[1] = 1;
    line(0, POST, 0); line(0, WAIT, 0); line(0, AWAIT, 2);
    line(1, POST, 0); line(1, POST, 1); line(1, AWAIT, 2); line(1, WAIT, 0); line(1, WAIT, 1);
    line(2, POST, 1); line(2, WAIT, 1)
}
inline verdict() { all_end_well }
#endif

#ifdef THREE            /* three collectives, all posted before the first wait */
inline program() {
    members[0] = 3; combines[0] = 1; members[1] = 3; combines[1] = 1; members[2] = 3; combines[2] = 1;
    everyone(POST, 0); everyone(POST, 1); everyone(POST, 2); everyone(WAIT, 0); everyone(WAIT, 1); everyone(WAIT, 2)
}
inline verdict() { all_end_well }
#endif

#ifdef POLLS            /* all ranks only test */
inline program() { members[0] = EVERYONE; combines[0] = 1; everyone(POST, 0); everyone(POLL, 0) }
inline verdict() { all_end_well }
#endif

#ifdef LISTS            /* rank 0 waits for any of two, then for the other */
inline program() {
    members[0] = 3; combines[0] = 1; members[1] = 3;
    line(0, POST, 0); line(0, POST, 1); line(0, WAIT_ANY, 3); line(0, WAIT_ANY, 3);
    line(1, POST, 1); line(1, WAIT, 1); line(1, POST, 0); line(1, WAIT, 0)
}
inline verdict() { all_end_well }
#endif

#ifdef ABSENTEE         /* rank 1 ends without its post */
inline program() {
    members[0] = 3; combines[0] = 1; members[1] = 2;
    line(0, POST, 0); line(0, WAIT, 0);
    line(1, POST, 1); line(1, WAIT, 1)
}
inline verdict() { assert(stalled); ends(0, STALLED); ends(1, WELL) }
#endif

#ifdef RESUMED          /* a stall is reported, and both ranks go on and post what the other needs */
inline program() {
    members[0] = 3; members[1] = 3; combines[1] = 1;
    line(0, POST, 0); line(0, TRY, 0); line(0, POST, 1); line(0, WAIT, 0); line(0, WAIT, 1);
    line(1, POST, 1); line(1, TRY, 1); line(1, POST, 0); line(1, WAIT, 1); line(1, WAIT, 0)
}
inline verdict() { all_end_well }
#endif

#ifdef LATER            /* a stall is reported, and rank 1 waits again; rank 0 goes on and posts what rank 1 waits for */
inline program() {
    members[0] = 3; members[1] = 3; combines[1] = 1;
    line(0, POST, 0); line(0, TRY, 0); line(0, POST, 1); line(0, WAIT, 1);
    line(1, POST, 1); line(1, TRY, 1); line(1, WAIT, 1)
}
inline verdict() { all_end_well }
#endif

#ifdef IN_VAIN          /* a stall is reported, and reported again each time nobody can go on: once rank 0 waits again, and once it has ended */
inline program() {
    members[0] = 3; members[1] = 3;
    line(0, POST, 0); line(0, TRY, 0); line(0, WAIT, 0);
    line(1, POST, 1); line(1, TRY, 1); line(1, TRY, 1); line(1, WAIT, 1)
}
inline verdict() { assert(stalled); ends(0, STALLED); ends(1, STALLED) }
#endif

#ifdef DROPPED          /* rank 1 lets its port go without its post */
inline program() {
    members[0] = 3; combines[0] = 1;
    line(0, POST, 0); line(0, WAIT, 0);
    line(1, DROP, 0)
}
inline verdict() { assert(stalled); ends(0, STALLED); ends(1, WELL) }
#endif

#ifdef MIXED            /* one waits, one only tests, one waits in vain */
inline program() {
    members[0] = 3; combines[0] = 1; members[1] = 6;
    line(0, POST, 0); line(0, WAIT, 0);
    line(1, POST, 0); line(1, POLL, 0);
    line(2, POST, 1); line(2, WAIT, 1)
}
inline verdict() { assert(stalled); ends(0, WELL); ends(1, WELL); ends(2, STALLED) }
#endif

#ifdef REFUSED_MEMORY   /* combinations are refused: each wait ends somehow */
inline program() { members[0] = EVERYONE; combines[0] = 1; everyone(POST, 0); everyone(WAIT, 0) }
inline verdict() { skip }
#endif

#ifdef REFUSED_AGAIN    /* combinations are refused: a rank whose wait is given up waits again, and all end well */
inline program() { members[0] = EVERYONE; combines[0] = 1; everyone(POST, 0); everyone(TRY, 0); everyone(TRY, 0); everyone(WAIT, 0) }
inline verdict() { all_end_well }
#endif

#ifdef AGAIN            /* two collectives one after the other, so that records are used again */
inline program() {
    members[0] = 3; combines[0] = 1; members[1] = 3; combines[1] = 1;
    everyone(POST, 0); everyone(WAIT, 0); everyone(POST, 1); everyone(WAIT, 1)
}
inline verdict() { all_end_well }
#endif
