/* How threads share one engine by bindings/c/src/combiner.c: records, the lock, sleeping, and who makes progress. Run by
 * shim.py; README.md says what is checked and what isn't.
 *
 * The words that threads read and write without the lock (stage, combination, sleeps, held) change in steps of their own,
 * in one order for all. What is done to the engine under one hold of the lock is one step for each record that is served,
 * and one for the progress that follows. How often a thread looks before it sleeps, and how often a combiner looks again,
 * are free choices.
 *
 * Sizes:   RANKS, COLLECTIVES, COMBINATIONS (combinations of a collective), HELPERS (progress threads: 0 or 1),
 *          PROCESSORS (where rows are wide: how many that wait compute at the same time; 0: rows aren't wide)
 * Forms:   LONG (combinations are computed with the lock free), CHAINED (a combination is ready once the one before it is there),
 *          FAIR (for liveness), COARSE (what one hold of the lock does to the records is one step for all of them, and so are the wake-ups
 *          that follow it)
 * Faults:  NOT_WOKEN          who gives the lock up wakes none of those that have published
 *          LOOKS_FIRST        who is about to sleep looks at its record before it says so
 *          LOCK_UNSEEN        and doesn't look whether the lock is free
 *          NOT_HANDED_ON      work is left without calling one who waits
 *          UNJUDGED_RETURN    who only returns a combination doesn't look for a stall
 *          EARLY_STALL        a stall is reported though work is left
 *          STALL_WHILE_OUT    a stall is reported though a combination is out
 *          TAKES_MANY         who posts or tests goes on after its combination
 *          LEFT_UNSEEN        those who wait look for a combination to take out, and not for the one that is left to them
 *          NEVER_LATE         who tests leaves a combination again and again, also where the one who was called to it doesn't come
 *          GONE_TWICE         who had left and calls again counts as gone still
 *          HELPER_COUNTS      a progress thread counts as a rank that waits
 *          HELPER_UNSERVED    nobody takes a progress thread's combination back but itself, and it isn't woken to
 *          HELPER_UNSEEN      work is left to a progress thread, and only ranks are called
 */
#ifndef RANKS
#define RANKS 2
#endif
#ifndef COLLECTIVES
#define COLLECTIVES 1
#endif
#ifndef COMBINATIONS
#define COMBINATIONS 2
#endif
#ifndef HELPERS
#define HELPERS 0
#endif
#ifndef PROCESSORS
#define PROCESSORS 0
#endif
#define RECORDS (RANKS + HELPERS)       /* those of ranks, then those of progress threads */
#define BIT(n) (1 << (n))

hidden byte i, j;       /* scratch of one step */

/* ---------------------------------------------------------------- the engine */
byte members[COLLECTIVES];  /* which ranks */
byte posted[COLLECTIVES];   /* which of them have posted */
byte ready[COLLECTIVES];    /* combinations that can be made */
byte missing[COLLECTIVES];  /* combinations that aren't there yet */
#define IS_DONE(c) (posted[c] == members[c] && missing[c] == 0)

/* ---------------------------------------------------------------- records */
#define ANSWERED 0
#define PUBLISHED 1
#define TESTED 2
#define WAITING 3
#define CALLED 4
byte stage[RECORDS];
#define NONE 0
#define COMPUTING 1
#define COMPUTED 2
byte combination[RECORDS];
bit sleeps[RECORDS];
#define A_POST 0
#define A_TEST 1
#define A_WAIT 2
#define A_LEAVE 3
byte kind[RECORDS], about[RECORDS], taken[RECORDS];
#define DONE 0
#define PENDING 1
#define STALLED 2
byte reply[RECORDS];
byte combinations[RECORDS];     /* that this call has computed */

bit held;
/* under the lock */
byte waiting, gone, outside;
byte next_of;           /* the collective, and one more, of the combination that is left to those who wait; 0: none is */
bit stalled, unsettled, left[RANKS];
bit late[RECORDS];        /* it gave the lock up while a rank that had been called before hadn't come: once is often enough here */

#ifdef HELPER_COUNTS
#define COUNTS(r) true
#else
#define COUNTS(r) (r < RANKS)
#endif
#define IS_OVER(r) (stage[r] == ANSWERED && combination[r] == NONE)
#ifdef NOT_WOKEN
#define IS_DUE(r) (stage[r] == ANSWERED || stage[r] == CALLED || combination[r] == COMPUTED)
#else
#define IS_DUE(r) (stage[r] != WAITING || combination[r] == COMPUTED)
#endif
#define NEEDS_LOCK(r) (stage[r] == PUBLISHED || stage[r] == CALLED || combination[r] == COMPUTED)

/* ---------------------------------------------------------------- what the holder of the lock does */
inline answer(r, what) {
    if
    :: (stage[r] == WAITING || stage[r] == CALLED) && COUNTS(r) -> waiting--
    :: else
    fi;
    reply[r] = what; stage[r] = ANSWERED
}

inline make_ready(c) {
#ifdef CHAINED
    ready[c] = (missing[c] > 0 -> 1 : 0)
#else
    ready[c] = missing[c]
#endif
}

/* a rank that had left and calls again is there again */
inline come_back(r) {
#ifndef GONE_TWICE
    if
    :: left[r] && kind[r] != A_LEAVE -> left[r] = 0; gone--
    :: else
    fi
#else
    skip
#endif
}

inline carry_out(r) {
    come_back(r);
    if
    :: kind[r] == A_POST ->
        posted[about[r]] = posted[about[r]] | BIT(r);
        if
        :: posted[about[r]] == members[about[r]] -> make_ready(about[r])
        :: else
        fi;
        stalled = 0; unsettled = 1; answer(r, DONE)
    :: kind[r] == A_LEAVE -> gone = gone + (left[r] -> 0 : 1); left[r] = 1; answer(r, DONE)
    :: (kind[r] == A_TEST || kind[r] == A_WAIT) && IS_DONE(about[r]) -> answer(r, DONE)
    :: kind[r] == A_TEST && !IS_DONE(about[r]) && unsettled -> stage[r] = TESTED
    :: kind[r] == A_TEST && !IS_DONE(about[r]) && !unsettled -> answer(r, PENDING)
    :: kind[r] == A_WAIT && !IS_DONE(about[r]) ->
        waiting++; stage[r] = WAITING;
        if
        :: stalled && !unsettled -> answer(r, STALLED)
        :: else
        fi
    fi
}

inline take_back(r) {
    missing[taken[r]]--;
#ifdef CHAINED
    make_ready(taken[r]);
#endif
    outside--; unsettled = 1; combination[r] = NONE; taken[r] = 0
}

inline serve(r) {
    if
    :: combination[r] == COMPUTED -> take_back(r)
    :: else
    fi;
    if
    :: stage[r] == PUBLISHED -> carry_out(r)
    :: else
    fi
}

inline answer_waits() {
    i = 0;
    do
    :: i < RANKS ->
        if
        :: stage[i] >= TESTED && IS_DONE(about[i]) -> answer(i, DONE)
        :: stage[i] == TESTED && !IS_DONE(about[i]) -> answer(i, PENDING)
        :: else
        fi;
        i++
    :: else -> break
    od
}

/* j becomes the first collective with a combination that can be made, or COLLECTIVES */
inline find_work() {
    j = 0;
    do
    :: j < COLLECTIVES && ready[j] == 0 -> j++
    :: else -> break
    od
}

#define HELPED (waiting > 0 || HELPERS > 0)
#define GOES_ON_WAITING(r) (kind[r] == A_WAIT && !(HELPERS > 0 && stage[r] == ANSWERED))
#ifdef NEVER_LATE
#define LEAVES(r) (!GOES_ON_WAITING(r) && HELPED)
#else
#define LEAVES(r) (!GOES_ON_WAITING(r) && HELPED && !late[r])
#endif
#if HELPERS
#define HAS_ROOM true
#else
#define HAS_ROOM (outside < PROCESSORS)
#endif
#ifdef LEFT_UNSEEN
#define IS_LEFT(r) (next_of > 0 && kind[r] != A_WAIT)
#else
#define IS_LEFT(r) (next_of > 0)
#endif

/* as many actions as one call makes; or the next combination is taken out, and computed by this rank or left */
inline progress(r) {
    find_work();
    if
#ifdef LONG
    :: IS_LEFT(r)
    :: !IS_LEFT(r) && j == COLLECTIVES -> unsettled = 0
    :: !IS_LEFT(r) && j < COLLECTIVES -> ready[j] = ready[j] - 1; next_of = j + 1
    fi;
    if
    :: next_of > 0 && unsettled && !LEAVES(r) ->
        taken[r] = next_of - 1; next_of = 0; outside++; combination[r] = COMPUTING;
        find_work();
        if
        :: HAS_ROOM && j == COLLECTIVES -> unsettled = 0
        :: HAS_ROOM && j < COLLECTIVES -> ready[j] = ready[j] - 1; next_of = j + 1
        :: !(HAS_ROOM)
        fi
    :: else
#else
    :: j == COLLECTIVES -> unsettled = 0
    :: j < COLLECTIVES ->
        ready[j] = ready[j] - 1; missing[j] = missing[j] - 1;
#ifdef CHAINED
        make_ready(j)
#endif
#endif
    fi;
    answer_waits()
}

#ifdef STALL_WHILE_OUT
#define NOTHING_OUT true
#else
#define NOTHING_OUT (outside == 0)
#endif
#ifdef EARLY_STALL
#define ALL_SETTLED true
#else
#define ALL_SETTLED (!unsettled)
#endif

/* where each rank waits or has left, and nothing can be done */
inline judge() {
    if
    :: waiting + gone == RANKS && waiting > 0 && NOTHING_OUT && ALL_SETTLED ->
        stalled = 1; i = 0;
        do
        :: i < COLLECTIVES -> assert(ready[i] == 0); i++
        :: else -> break
        od;
        assert(outside == 0 && next_of == 0);
        i = 0;
        do
        :: i < RANKS ->
            if
            :: stage[i] == WAITING || stage[i] == CALLED -> assert(!IS_DONE(about[i])); answer(i, STALLED)
            :: else
            fi;
            i++
        :: else -> break
        od
    :: else
    fi
}

#define PARALLEL (next_of > 0 && HAS_ROOM)
#ifdef HELPER_UNSEEN
#define CALLABLE RANKS
#else
#define CALLABLE RECORDS
#endif
#define GOES_ON(r) (stage[r] == WAITING && combination[r] != NONE)

/* ranks are called before progress threads */
inline hand_on(r) {
#ifndef NOT_HANDED_ON
    if
    :: unsettled && HELPED ->
        late[r] = 0; i = 0; j = RECORDS;
        do
        :: i < CALLABLE ->
            if
            :: stage[i] == CALLED ->
#ifdef LONG
                late[r] = 1;
#endif
                j = RECORDS; break
            :: GOES_ON(i) && !PARALLEL -> j = RECORDS; break
            :: stage[i] == WAITING && combination[i] == NONE && j == RECORDS -> j = i; i++
            :: else -> i++
            fi
        :: else -> break
        od;
        if
        :: j < RECORDS -> stage[j] = CALLED
        :: else
        fi
    :: !HELPED -> late[r] = 0
    :: HELPED && !unsettled
    fi
#else
    skip
#endif
}

/* ---------------------------------------------------------------- programs */
#define END 0
#define POST 1
#define WAIT 2
#define TEST 3
#define POLL 4          /* tests until it is done */
#define LEAVE 5         /* and goes on all the same */
#define COMPUTE 6       /* makes no call until it is done */
#define LINES 6
hidden byte command[RANKS * LINES], argument[RANKS * LINES], length[RANKS];     /* which don't change */
byte ending[RANKS];     /* what its last wait returned */
byte over;              /* ranks whose programs have ended */
#define EVERYONE ((1 << RANKS) - 1)
inline line(r, what, on) { command[(r) * LINES + length[r]] = what; argument[(r) * LINES + length[r]] = on; length[r] = length[r] + 1 }
#define ALL(what, on) j = 0; do :: j < RANKS -> line(j, what, on); j++ :: else -> break od
byte must_stall;        /* ranks to which a stall must be reported */

inline program() {
    i = 0;
    do
    :: i < COLLECTIVES -> members[i] = EVERYONE; missing[i] = COMBINATIONS; i++
    :: else -> break
    od;
#if defined(ONE)
    ALL(POST, 0); ALL(WAIT, 0)
#elif defined(COMPUTES)     /* nobody is in a call until all is done */
    ALL(POST, 0); ALL(COMPUTE, 0); ALL(WAIT, 0)
#elif defined(TWO)
    ALL(POST, 0); ALL(POST, 1); ALL(WAIT, 1); ALL(WAIT, 0)
#elif defined(POLLS)
    ALL(POST, 0); ALL(POLL, 0)
#elif defined(SOME_POLL)    /* the last rank tests, the others wait */
    ALL(POST, 0); line(0, WAIT, 0); line(RANKS - 1, POLL, 0);
#if RANKS == 3
    line(1, WAIT, 0)
#endif
#elif defined(LEAVER)       /* the last to post may leave at once: those who wait have to do what it has made ready */
    ALL(POST, 0); line(0, WAIT, 0);
#if RANKS == 3
    line(1, WAIT, 0)
#endif
#elif defined(RETURNS)      /* rank 0 leaves, and comes back to wait for the others, which test */
    line(0, LEAVE, 0); line(0, POST, 0); line(0, WAIT, 0);
    line(1, POST, 0); line(1, POLL, 0);
#if RANKS == 3
    line(2, POST, 0); line(2, POLL, 0)
#endif
#elif defined(TESTER)       /* rank 0 posts and tests a collective of its own beside those of the others */
    members[0] = EVERYONE & ~1; members[1] = 1;
    line(0, POST, 1); line(0, POLL, 1);
    line(1, POST, 0); line(1, WAIT, 0);
#if RANKS == 3
    line(2, POST, 0); line(2, WAIT, 0)
#endif
#elif defined(CROSSED)      /* each waits for a collective that another posts later */
    line(0, POST, 0); line(0, WAIT, 0); line(0, POST, 1);
    line(1, POST, 1); line(1, WAIT, 1); line(1, POST, 0);
#if RANKS == 3
    line(2, POST, 0); line(2, POST, 1); line(2, WAIT, 1); must_stall = must_stall | 4;
#endif
    must_stall = must_stall | 3
#elif defined(ABSENTEE)     /* rank 0 leaves without a post, after a collective of the others is to be combined */
    members[1] = EVERYONE & ~1;
    line(1, POST, 1); line(1, WAIT, 1); line(1, POST, 0); line(1, WAIT, 0);
#if RANKS == 3
    line(2, POST, 1); line(2, POST, 0); line(2, WAIT, 0); line(2, WAIT, 1); must_stall = must_stall | 4;
#endif
    must_stall = must_stall | 2
#endif
}

#if HELPERS
#define HELPER_PUBLISHED (combination[RANKS] == COMPUTED)
#else
#define HELPER_PUBLISHED false
#endif
#if RANKS == 3
#define SOME_PUBLISHED (stage[0] == PUBLISHED || stage[1] == PUBLISHED || stage[2] == PUBLISHED || combination[0] == COMPUTED || combination[1] == COMPUTED || combination[2] == COMPUTED || HELPER_PUBLISHED)
#else
#define SOME_PUBLISHED (stage[0] == PUBLISHED || stage[1] == PUBLISHED || combination[0] == COMPUTED || combination[1] == COMPUTED || HELPER_PUBLISHED)
#endif

#ifdef HELPER_UNSERVED
#define SERVED RANKS
#else
#define SERVED RECORDS
#endif
#ifdef COARSE
#define SERVE_ALL true; d_step { do :: next < SERVED -> serve(next); next++ :: else -> next = 0; break od }
#define WAKE_ALL d_step { do :: next < SERVED -> if :: sleeps[next] && IS_DUE(next) -> sleeps[next] = 0 :: else fi; next++ :: else -> next = 0; break od }
#else
#define SERVE_ALL do :: next < SERVED -> d_step { serve(next) }; next++ :: else -> next = 0; break od
#define WAKE_ALL do :: next < SERVED -> if :: sleeps[next] -> if :: IS_DUE(next) -> sleeps[next] = 0 :: else fi :: else fi; next++ :: else -> next = 0; break od
#endif

/* ---------------------------------------------------------------- the thread of a rank, or a progress thread, which waits until the end */
proctype Rank(byte me) {
    byte at, what, next;
    bit was;
    if
    :: me >= RANKS -> goto Looks
    :: else
    fi;
Next: true;
    if
    :: command[me * LINES + at] == COMPUTE -> IS_DONE(argument[me * LINES + at]); at++
    :: else
    fi;
    d_step {
        what = command[me * LINES + at]; about[me] = argument[me * LINES + at]; at++; combinations[me] = 0; reply[me] = DONE;
        kind[me] = (what == POST -> A_POST : (what == WAIT -> A_WAIT : (what == END || what == LEAVE -> A_LEAVE : A_TEST)));
        stage[me] = PUBLISHED
    };

Looks:
    if
    :: IS_OVER(me) -> goto Answered
    :: !IS_OVER(me) && NEEDS_LOCK(me) && !held ->      /* by the time it has the lock, it may have been served */
        if
        :: atomic { !held -> held = 1 }; goto Leads
        :: held -> goto Looks
        fi
    :: !IS_OVER(me) && !(NEEDS_LOCK(me) && !held)      /* it has looked often enough */
    fi;

#ifdef LOOKS_FIRST
    if
    :: IS_OVER(me) -> goto Looks
    :: else
    fi;
    if
    :: NEEDS_LOCK(me) && !held -> goto Looks
    :: else
    fi;
    sleeps[me] = 1;
#else
    sleeps[me] = 1;
    if
    :: stage[me] == ANSWERED ->
        if
        :: combination[me] == NONE -> sleeps[me] = 0; goto Looks
        :: else
        fi
    :: else
    fi;
#ifndef LOCK_UNSEEN
    if
    :: stage[me] == PUBLISHED || stage[me] == CALLED -> was = 1
    :: else -> was = (combination[me] == COMPUTED)
    fi;
    if
    :: was && !held -> was = 0; sleeps[me] = 0; goto Looks
    :: else -> was = 0
    fi;
#endif
#endif
    !sleeps[me];
    goto Looks;

Leads:
    if
    :: stage[me] == ANSWERED ->         /* only a combination is left to return */
        SERVE_ALL;
        true;
        d_step { answer_waits(); i = 0 };
#ifndef UNJUDGED_RETURN
        d_step { judge() };
#endif
#ifdef TAKES_MANY
        d_step {
            if
            :: unsettled && stage[me] == ANSWERED -> progress(me)
            :: else
            fi
        };
#endif
        goto Unlocks
    :: stage[me] == CALLED -> stage[me] = WAITING
    :: else
    fi;
Turn:
    SERVE_ALL;
    true;
    d_step {
        if
        :: unsettled -> progress(me)
        :: else
        fi
    };
    d_step { judge() };
    if
    :: stage[me] == ANSWERED || combination[me] == COMPUTING
    :: !(stage[me] == ANSWERED || combination[me] == COMPUTING) && unsettled -> goto Turn
    :: !(stage[me] == ANSWERED || combination[me] == COMPUTING) && !unsettled       /* it has looked often enough */
    :: !(stage[me] == ANSWERED || combination[me] == COMPUTING) && !unsettled && SOME_PUBLISHED -> goto Turn
    fi;

Unlocks: true;
    d_step { hand_on(me) };
    held = 0;
    WAKE_ALL;
    if
    :: combination[me] == COMPUTING ->              /* it is computed with the lock free */
        combinations[me] = combinations[me] + 1;
        assert(kind[me] == A_WAIT || combinations[me] <= 1);
        combination[me] = COMPUTED
    :: else
    fi;
    goto Looks;

Answered:
    if
    :: me >= RANKS -> goto Ended
    :: me < RANKS && what == END -> d_step { over = over | BIT(me) }; goto Ended
    :: me < RANKS && what == WAIT && reply[me] == STALLED -> d_step { ending[me] = STALLED; at = length[me] }; goto Next
    :: me < RANKS && what == POLL && reply[me] == PENDING -> at--; goto Next
    :: else -> assert(reply[me] != STALLED); goto Next
    fi;
Ended:
    skip
}

/* the engine is closed: its progress threads end */
inline close() {
#if HELPERS
    atomic { !held -> held = 1 };
    d_step { answer(RANKS, DONE); j = 0; i = 0 };
    held = 0;
    if
    :: sleeps[RANKS] -> sleeps[RANKS] = 0
    :: else
    fi
#else
    skip
#endif
}

init {
    d_step {
        program();
#if HELPERS
        kind[RANKS] = A_WAIT; stage[RANKS] = WAITING;
#ifdef HELPER_COUNTS
        waiting++;
#endif
#endif
    };
    atomic {
        i = 0;
        do
        :: i < RECORDS -> run Rank(i); i++
        :: else -> break
        od
    };
    over == EVERYONE;
    close();
    (_nr_pr == 1);
    d_step {
        i = 0;
        do
        :: i < RANKS -> assert((ending[i] == STALLED) == ((must_stall & BIT(i)) != 0)); i++
        :: else -> break
        od
    }
}

#ifdef FAIR
ltl ends { <> (over == EVERYONE) }
#endif
