/* How threads share one engine by flat combining. Run by check.py; README.md says what is checked and what isn't.
 *
 * Each rank's port has a publication record. Whoever holds the engine's lock serves all records, steps, completes for waiters,
 * reports a stall, finds a successor for what is ready, and unlocks: RELEASE is the only way out of the lock, but for a combination of a
 * few bytes, after which the thread comes back. What is done under one hold is one step of the model, since nobody else sees its
 * middle; publishing, taking the lock, unlocking, waking and the look at the records after the unlock are steps of their own.
 *
 * Sizes:   RANKS, COLLECTIVES, WORKERS (progress threads), STEPS (engine steps under one hold: 1 covers each partial advance),
 *          SPURIOUS (wake-ups of each thread for no reason), REFUSALS (combinations that are refused memory)
 * Forms:   WATCHED (the invariants are looked at whenever the lock is free), FAIR (the lock goes in turn; for liveness),
 *          GATED (pieces 0 and 1 are held up until piece 2 has been written), UNCHAINED (unlocks after each commit),
 *          NO_SECOND_LOOK (no look at the records after the unlock; ports ask for the lock themselves, so it isn't needed)
 * Faults:  UNTOLD_STALL       only a port that parks or ends looks whether all is stalled
 *          LEAVER_COUNTS      a port whose post isn't served yet counts as one that will look
 *          EARLY_SUCCESSOR    the successor is chosen before the records are served
 *          TEST_ONLY_LOOKS    a test makes no progress
 *          TEST_ONLY_STEPS    a test never computes a combination
 *          AWAY_COUNTS        a waiting port that is out with a combination counts as one that will look
 *          PLAIN_UNLOCK       who goes out with a combination unlocks without RELEASE
 *          LATE_PARK          a port is marked as parked after it has unlocked
 *          UNWOKEN            a parked port is answered, and isn't woken
 *          STALL_WHILE_OUT    a stall is reported though a combination is out
 *          STALL_BEFORE_SERVE a stall is looked for before the records are served, and what is published counts as a rest
 *          LASTING_STALL      a stall that was reported stays, though a request is ready again
 *          STALL_FOR_ALL      who begins to wait after a stall was reported is refused as if it had waited then
 *          MARKED_RESTS       a port that a stall was reported to counts as blocked until it has gone on
 *          ONE_STALL          a stall is reported only once until a request is ready again
 *          UNSEEN_DROP        who gives the lock up doesn't look for ports that were dropped meanwhile
 */
#ifndef RANKS
#define RANKS 2
#endif
#ifndef COLLECTIVES
#define COLLECTIVES 1
#endif
#ifndef WORKERS
#define WORKERS 0
#endif
#ifndef STEPS
#define STEPS 1
#endif
#ifndef SPURIOUS
#define SPURIOUS 0
#endif
#ifndef REFUSALS
#define REFUSALS 0
#endif
#define BIT(n) (1 << (n))
#define EVERYONE ((1 << RANKS) - 1)

/* scratch of one deterministic step, set before it is read */
hidden byte i, j, count, found, waiting;

/* ---------------------------------------------------------------- the engine: a request of each rank for each collective */
#define ABSENT 0
#define SENDING 1       /* ready: its next action sends its contribution */
#define AWAITING 2      /* needs a message of another member */
#define COMBINING 3     /* ready: its next action is a combination */
#define OUT 4           /* a thread computes that combination */
#define FINISHING 5     /* needs the messages of all members */
#define DONE 6
#define COMPLETED 7
byte request[RANKS * COLLECTIVES];
#define REQUEST(rank, c) request[(rank) * COLLECTIVES + (c)]
byte members[COLLECTIVES];  /* which ranks */
bit combines[COLLECTIVES];  /* whether members combine what they get */
byte sent[COLLECTIVES];     /* which members have sent */
byte refusals = REFUSALS;
byte pieces;                /* combinations handed out so far */
byte written;               /* pieces whose results were written */

/* beside it under the lock */
byte waits_for[RANKS];      /* the collectives of a registered wait */
byte any;                   /* ranks that wait for any of several */
byte parked, away, ended;   /* ranks */
byte marked;                /* ranks that have waited since a stall was reported */
byte dropped;               /* ranks whose ports were let go, until a combiner notes that they have ended */
byte idle;                  /* progress threads that sleep, or are about to */
bit stalled, stopped;

/* messages that have come move their receivers on */
inline deliver(c) {
    j = 0;
    do
    :: j < RANKS ->
        if
        :: REQUEST(j, c) == AWAITING && combines[c] && (sent[c] & ~BIT(j)) != 0 -> REQUEST(j, c) = COMBINING
        :: REQUEST(j, c) == AWAITING && (!combines[c] || members[c] == BIT(j)) && sent[c] == members[c] -> REQUEST(j, c) = DONE
        :: REQUEST(j, c) == FINISHING && sent[c] == members[c] -> REQUEST(j, c) = DONE
        :: else
        fi;
        j++
    :: else -> break
    od
}

/* what is first: 0 nothing is ready, 1 a send, 2 only combinations. `out`: whether a combination is out */
inline look(first, out) {
    i = 0; first = 0; out = 0;
    do
    :: i < RANKS * COLLECTIVES ->
        if
        :: request[i] == SENDING -> first = 1
        :: request[i] == COMBINING && first == 0 -> first = 2
        :: request[i] == OUT -> out = 1
        :: else
        fi;
        i++
    :: else -> break
    od
}

inline hand_out(piece) {
    i = 0;
    do
    :: request[i] != COMBINING -> i++
    :: else -> break
    od;
    request[i] = OUT; work = i; piece = pieces;
#ifdef GATED
    pieces++
#endif
}

inline commit() { request[work] = FINISHING; i = work % COLLECTIVES; deliver(i); work = 0; settle() }

inline abandon() { refusals--; request[work] = COMBINING; work = 0 }

/* ---------------------------------------------------------------- publication records */
#define EMPTY 0
#define PUBLISHED 1
#define REGISTERED 2
#define ANSWERED 3
#define CALLED 4        /* as Registered, and the parked port is to go on */
byte word[RANKS];
#define NONE 0
#define A_POST 1
#define A_WAIT 2
byte operation[RANKS], operand[RANKS];
#define MADE 1
#define FINISHED 2      /* the request was completed for its waiter */
#define LOOK 3          /* the port is to take the lock and look */
byte reply[RANKS];

inline answer(rank, what) {
    reply[rank] = what; goes_on(rank); word[rank] = ANSWERED; wakes(rank)
}

/* the rank's port waits no longer */
inline goes_on(rank) { waits_for[rank] = 0; any = any & ~BIT(rank); marked = marked & ~BIT(rank) }

inline wakes(rank) {
    if
    :: parked & BIT(rank) -> parked = parked & ~BIT(rank);
#ifndef UNWOKEN
        wake = wake | BIT(rank)
#endif
    :: else
    fi
}

/* a called port has taken the lock */
inline heed() {
    if
    :: word[me] == CALLED -> word[me] = REGISTERED
    :: else
    fi
}

/* ---------------------------------------------------------------- what the holder of the lock does for everybody */
inline serve() {
    i = 0;
    do
    :: i < RANKS ->
        if
        :: word[i] == PUBLISHED && operation[i] == A_POST ->
            REQUEST(i, operand[i]) = SENDING; reply[i] = MADE; word[i] = ANSWERED; operation[i] = NONE; operand[i] = 0
        :: word[i] == PUBLISHED && operation[i] == A_WAIT ->
            if
            :: REQUEST(i, operand[i]) == DONE -> REQUEST(i, operand[i]) = COMPLETED; reply[i] = FINISHED; word[i] = ANSWERED
            :: else -> waits_for[i] = BIT(operand[i]); any = any & ~BIT(i); word[i] = REGISTERED
            fi;
            operation[i] = NONE; operand[i] = 0
        :: else
        fi;
        i++
    :: else -> break
    od
}

inline advance() {
#ifndef LASTING_STALL
    look(count, found);
    if
    :: count != 0 -> stalled = 0
    :: else
    fi;
#endif
    count = 0; i = 0;
    do
    :: i < RANKS * COLLECTIVES && count < STEPS ->
        if
        :: request[i] == SENDING ->
            request[i] = AWAITING; sent[i % COLLECTIVES] = sent[i % COLLECTIVES] | BIT(i / COLLECTIVES); deliver(i % COLLECTIVES); count++
        :: else
        fi;
        i++
    :: else -> break
    od
}

/* completes for who waits for one request, and calls who waits for any */
inline settle() {
    i = 0;
    do
    :: i < RANKS ->
        j = 0;
        do
        :: j < COLLECTIVES ->
            if
            :: (waits_for[i] & BIT(j)) && REQUEST(i, j) == DONE ->
                if
                :: any & BIT(i) -> answer(i, LOOK)
                :: else -> REQUEST(i, j) = COMPLETED; answer(i, FINISHED)
                fi
            :: else
            fi;
            j++
        :: else -> break
        od;
        i++
    :: else -> break
    od
}

/* whether a stall was reported while the rank's port waited for what it waits for now */
#ifdef STALL_FOR_ALL
#define IS_STALLED(rank) stalled
#else
#define IS_STALLED(rank) (stalled && (marked & BIT(rank)))
#endif

/* whether a stall was reported that some port hasn't gone on from */
#ifdef MARKED_RESTS
#define IS_TOLD (stalled && (waiting & ~marked) == 0)
#else
#ifdef ONE_STALL
#define IS_TOLD stalled
#else
#define IS_TOLD (stalled && marked != 0)
#endif
#endif

/* nothing is ready or out, and each port is blocked in a wait or has ended: nobody can go on. Who waits takes the lock, and is refused */
inline tell_stall() {
    look(count, found);
#ifdef STALL_WHILE_OUT
    found = 0;
#endif
    if
    :: count == 0 && !found && ended != EVERYONE ->
        i = 0; waiting = 0;
        do
        :: i < RANKS ->
            if
            :: ended & BIT(i)
            :: !(ended & BIT(i)) && waits_for[i] != 0 -> waiting = waiting | BIT(i)
#ifdef STALL_BEFORE_SERVE
            :: !(ended & BIT(i)) && waits_for[i] == 0 && word[i] == PUBLISHED
            :: !(ended & BIT(i)) && waits_for[i] == 0 && word[i] != PUBLISHED -> found = 1
#else
            :: else -> found = 1
#endif
            fi;
            i++
        :: else -> break
        od;
        if
        :: !found && !IS_TOLD ->
            stalled = 1; i = 0;
            do
            :: i < RANKS && !(ended & BIT(i)) ->
                assert((inside & BIT(i)) && waits_for[i] == wanted[i]);     /* the port can't act */
                j = 0;
                do
                :: j < COLLECTIVES ->
                    assert(!(wanted[i] & BIT(j)) || (REQUEST(i, j) != SENDING && REQUEST(i, j) != COMBINING && REQUEST(i, j) != OUT && REQUEST(i, j) != DONE));
                    j++
                :: else -> break
                od;
                marked = marked | BIT(i);
                if
                :: parked & BIT(i) -> word[i] = CALLED; wakes(i)
                :: else
                fi;
                i++
            :: i < RANKS && (ended & BIT(i)) -> i++
            :: else -> break
            od
        :: else
        fi;
        waiting = 0
    :: else
    fi
}

/* who goes on with what is ready */
#define NOT_NEEDED 0    /* nothing is ready, or a waiting port that looks takes the lock by itself */
#define WORKER 1
#define NOBODY 2
#define PORT 3          /* and the rank */
inline choose(who) {
    look(count, found); who = NOT_NEEDED;
    if
    :: count != 0 ->
        who = NOBODY; i = RANKS;
        do
        :: i > 0 ->
            i--;
            if
            :: parked & BIT(i) -> who = PORT + i
            :: else
            fi
        :: else -> break
        od;
        if
        :: idle != 0 -> who = WORKER
        :: else
        fi;
        i = 0;
        do
        :: i < RANKS ->
            if
#ifdef AWAY_COUNTS
            :: waits_for[i] != 0 && !(parked & BIT(i)) -> who = NOT_NEEDED
#else
            :: waits_for[i] != 0 && !((parked | away) & BIT(i)) -> who = NOT_NEEDED
#endif
            :: else
            fi;
            i++
        :: else -> break
        od;
#ifdef LEAVER_COUNTS
        if
        :: posting != 0 -> who = NOT_NEEDED
        :: else
        fi
#endif
    :: else
    fi
}

inline call(who) {
    if
    :: who == WORKER -> ring = 1
    :: who >= PORT -> i = who - PORT; word[i] = CALLED; wakes(i)
    :: else
    fi;
    who = 0
}

/* the first half of RELEASE, under the lock. `leaving`: the port parks or ends */
inline hand_on(leaving) {
#ifdef STALL_BEFORE_SERVE
    tell_stall();
#endif
#ifdef EARLY_SUCCESSOR
    choose(who); call(who);
#endif
    ended = ended | dropped; dropped = 0;
    serve(); advance(); settle();
#ifdef UNTOLD_STALL
    if
    :: leaving -> tell_stall()
    :: else
    fi;
#else
    tell_stall();
#endif
#ifndef EARLY_SUCCESSOR
    choose(who); call(who)
#endif
}

inline is_published(answer_is) {
    i = 0; answer_is = 0;
    do
    :: i < RANKS -> answer_is = answer_is || (word[i] == PUBLISHED); i++
    :: else -> break
    od
}

/* ---------------------------------------------------------------- the lock: free, held, or left to those that sleep for it */
#define FREE 0
#define HELD 1
#define LEFT 2
byte lock, sleepers;
#ifdef FAIR
byte turn;
#define ENTER if \
    :: atomic { lock == FREE -> lock = HELD } \
    :: atomic { lock != FREE -> sleepers = sleepers | BIT(ME) }; \
       atomic { lock == LEFT && turn == ME -> lock = HELD; sleepers = sleepers & ~BIT(ME) } \
    fi
#define UNLOCK d_step { \
    if \
    :: sleepers == 0 -> lock = FREE \
    :: else -> lock = LEFT; turn = (turn + 1) % (RANKS + WORKERS + 1); \
        do \
        :: sleepers & BIT(turn) -> break \
        :: else -> turn = (turn + 1) % (RANKS + WORKERS + 1) \
        od \
    fi }
#else
#define ENTER if \
    :: atomic { lock == FREE -> lock = HELD } \
    :: atomic { lock != FREE -> sleepers++ }; atomic { lock != HELD -> lock = HELD; sleepers-- } \
    fi
#define UNLOCK atomic { lock = (sleepers > 0 -> LEFT : FREE) }
#endif

/* threads that the kernel holds: ranks on their word, progress threads on theirs, which has changed for those in `rung` */
byte asleep, worker_asleep, rung;
#define WAKE \
    if \
    :: wake != 0 -> d_step { asleep = asleep & ~wake; wake = 0 } \
    :: else \
    fi; \
    if \
    :: ring -> d_step { rung = rung | idle; ring = 0 }; \
        if \
        :: d_step { (worker_asleep & 1) -> worker_asleep = worker_asleep & ~1 } \
        :: d_step { (worker_asleep & 2) -> worker_asleep = worker_asleep & ~2 } \
        :: worker_asleep == 0 \
        fi \
    :: else \
    fi
#ifdef GATED
#define GO_AHEAD (piece >= 2 || (written & BIT(2)))
#define WRITTEN if \
    :: d_step { due != 0 -> written = written | BIT(due - 1); due = 0 } \
    :: else \
    fi
#define NOTE_DUE due = 1 + piece; piece = 0
#else
#define GO_AHEAD true
#define WRITTEN skip
#define NOTE_DUE skip
#endif
/* after the unlock: what was published meanwhile may be served at once; ports that were dropped meanwhile have to be looked for */
#ifdef UNSEEN_DROP
#define SAW_DROP false
#else
#define SAW_DROP (dropped != 0)
#endif
#ifdef NO_SECOND_LOOK
#define SECOND_LOOK skip
#else
#define SECOND_LOOK \
    d_step { is_published(more) }; \
    if \
    :: more || SAW_DROP -> more = 0; \
        if \
        :: atomic { lock == FREE -> lock = HELD }; goto Release \
        :: lock != FREE || !SAW_DROP \
        fi \
    :: else \
    fi
#endif

/* ---------------------------------------------------------------- what the checks look at */
byte inside;            /* ranks in a wait */
byte wanted[RANKS];     /* for which collectives */
byte posting;           /* ranks that published a post and haven't taken the answer */
byte over;              /* ranks whose programs have ended */
#define WELL 0
#define STALLED 1
#define REFUSED 2
byte ending[RANKS];

/* ---------------------------------------------------------------- programs */
#define END 0
#define POST 1
#define WAIT 2
#define TEST 3
#define POLL 4          /* tests until it is complete */
#define WAIT_ANY 5      /* of the collectives whose bits are set */
#define AWAIT 6         /* outside the engine, until that rank has ended */
#define TRY 7           /* waits, and goes on also where that is refused as Stalled, or memory is */
#define DROP 8          /* lets the port go unfinished */
#define LINES 8
byte command[RANKS * LINES], argument[RANKS * LINES], length[RANKS];
inline line(rank, what, on) { command[(rank) * LINES + length[rank]] = what; argument[(rank) * LINES + length[rank]] = on; length[rank] = length[rank] + 1 }
#include "programs.pml"

/* ---------------------------------------------------------------- a port */
#define TO_NEXT 0
#define TO_TAKE_ENTRY 1
#define TO_SPIN 2
#define TO_TAKE 3
#define TO_COMPUTE 4
#define TO_PARK 5
#define TO_FINISH 6
#define TO_OVER 7
#define TO_TEST 8
#define TO_COMPUTE_FOR_TEST 9
#define TO_WAIT 10
#define TO_GIVE_UP 11
#define ME me
proctype Port(byte me) {
    byte at, what, on, next, wake, who, first, work, piece, due, spurious = SPURIOUS;
    bit ring, more, leaving, got, out;
Next: true;
    d_step { what = command[me * LINES + at]; on = argument[me * LINES + at]; at++; inside = inside & ~BIT(me); wanted[me] = 0 };
    if
    :: what == END -> goto Finish
    :: what == POST -> goto Posts
    :: (what == WAIT || what == TRY) && REQUEST(me, on) != COMPLETED -> goto Waits
    :: (what == WAIT || what == TRY) && REQUEST(me, on) == COMPLETED -> goto Next
    :: what == WAIT_ANY -> goto Looks
    :: what == TEST || what == POLL -> goto Tests
    :: what == DROP -> goto Drops
    :: what == AWAIT -> (over & BIT(on)); goto Next
    fi;

Posts:
    if
    :: atomic { lock == FREE -> lock = HELD }; d_step { REQUEST(me, on) = SENDING; next = TO_NEXT }; goto Release    /* it leads */
    :: true
    fi;
    d_step { operation[me] = A_POST; operand[me] = on; word[me] = PUBLISHED; posting = posting | BIT(me) };
TakesEntry:
    if
    :: d_step { word[me] == ANSWERED -> reply[me] = NONE; posting = posting & ~BIT(me) }; goto Next    /* its word stays Answered */
    :: atomic { word[me] != ANSWERED && lock == FREE -> lock = HELD; next = TO_TAKE_ENTRY }; goto Release
    :: word[me] != ANSWERED -> ENTER; next = TO_TAKE_ENTRY; goto Release
    fi;

Waits:
    if
    :: atomic { lock == FREE -> lock = HELD }; got = 1      /* it leads */
    :: true
    fi;
    d_step { inside = inside | BIT(me); wanted[me] = BIT(on); operation[me] = A_WAIT; operand[me] = on; word[me] = PUBLISHED };
    if
    :: got -> got = 0; goto Turn
    :: else
    fi;
Spins:
    if
    :: word[me] == ANSWERED
    :: atomic { word[me] != ANSWERED && lock == FREE -> lock = HELD }; goto Turn
    :: word[me] != ANSWERED -> ENTER; goto Turn
    fi;
Takes: true;
    d_step { who = reply[me]; reply[me] = NONE; word[me] = (what == WAIT_ANY -> EMPTY : ANSWERED) };
    if
    :: who == FINISHED -> who = 0; goto Next
    :: who == LOOK -> who = 0
    fi;
Looks:
    if
    :: what == WAIT_ANY -> d_step { inside = inside | BIT(me); wanted[me] = on }
    :: else
    fi;
    ENTER;
    d_step {
        got = 0; j = 0;
        do
        :: j < COLLECTIVES ->
            if
            :: !got && (wanted[me] & BIT(j)) && REQUEST(me, j) == DONE -> REQUEST(me, j) = COMPLETED; got = 1
            :: else
            fi;
            j++
        :: else -> break
        od;
        if
        :: !got && what == WAIT_ANY -> waits_for[me] = wanted[me]; word[me] = REGISTERED; any = any | BIT(me)
        :: else
        fi
    };
    if
    :: got -> d_step { got = 0; inside = inside & ~BIT(me); next = TO_NEXT }; goto Release
    :: !got && what != WAIT_ANY -> next = TO_WAIT; goto Release     /* it publishes its wait again */
    :: !got && what == WAIT_ANY
    fi;

Turn: true;
    d_step { heed(); serve(); advance(); settle(); look(first, out); out = 0 };
    if
    :: word[me] == ANSWERED -> d_step { first = 0; next = TO_TAKE }; goto Release
    :: word[me] != ANSWERED && first == 2 ->
        d_step { first = 0; hand_out(piece); away = away | BIT(me); next = TO_COMPUTE };
#ifdef PLAIN_UNLOCK
        UNLOCK; WAKE; WRITTEN; goto Computes
#else
        goto Release
#endif
#ifndef GATED
    :: first == 2 -> d_step { first = 0; hand_out(piece) }; UNLOCK; WAKE; goto ComputesBetween      /* it is of a few bytes */
#endif
    :: word[me] != ANSWERED && first == 1 -> d_step { first = 0; next = TO_SPIN }; goto Release
    :: word[me] != ANSWERED && first == 0 && IS_STALLED(me) ->
        d_step { goes_on(me); ending[me] = (what == TRY -> WELL : STALLED); inside = inside & ~BIT(me); next = TO_GIVE_UP };
        goto Release
    :: word[me] != ANSWERED && first == 0 && !IS_STALLED(me) ->
        d_step { is_published(more) };
        if
        :: more -> more = 0; goto Turn      /* it keeps the lock, and serves */
        :: d_step { more = 0; next = TO_SPIN }; goto Release
#ifdef LATE_PARK
        :: d_step { more = 0; next = TO_PARK }; goto Release
#else
        :: d_step { more = 0; parked = parked | BIT(me); leaving = 1; next = TO_PARK }; goto Release
#endif
        fi
    fi;

Computes:       /* the lock is free */
    GO_AHEAD;
    ENTER;
    if
    :: refusals > 0 ->
        d_step { abandon(); piece = 0; away = away & ~BIT(me); goes_on(me); ending[me] = (what == TRY -> WELL : REFUSED); inside = inside & ~BIT(me); next = TO_GIVE_UP };
        goto Release
    :: true -> d_step { commit(); away = away & ~BIT(me); NOTE_DUE };
        if
#ifndef UNCHAINED
        :: goto Turn
#endif
        :: next = TO_SPIN; goto Release
        fi
    fi;

#ifndef GATED
ComputesBetween:    /* the lock is free, and nothing was done for others but to wake them */
    ENTER;
    d_step { commit(); piece = 0 };
    goto Turn;
#endif

Parks: true;
#ifdef LATE_PARK
    d_step { parked = parked | BIT(me) };
#endif
    d_step {
        if
        :: word[me] == REGISTERED -> asleep = asleep | BIT(me)
        :: else
        fi
    };
    if
    :: !(asleep & BIT(me))
    :: d_step { (asleep & BIT(me)) && spurious > 0 -> spurious--; asleep = asleep & ~BIT(me) }
    fi;
    if
    :: word[me] == REGISTERED -> goto Parks
    :: else -> goto Spins
    fi;

Tests:
    ENTER;
#ifdef TEST_ONLY_LOOKS
    if
    :: REQUEST(me, on) == DONE -> d_step { REQUEST(me, on) = COMPLETED }; UNLOCK; goto Next
    :: else -> UNLOCK
    fi;
    if
    :: what == POLL -> goto Tests
    :: else -> goto Next
    fi;
#else
    d_step { serve(); advance(); settle() };
    if
    :: REQUEST(me, on) == DONE -> d_step { REQUEST(me, on) = COMPLETED; next = TO_NEXT }; goto Release
    :: else
    fi;
#ifndef TEST_ONLY_STEPS
    d_step { choose(who); look(first, out); out = 0 };
    if
    :: who == NOBODY && first == 2 -> d_step { who = 0; first = 0; hand_out(piece); next = TO_COMPUTE_FOR_TEST }; goto Release
    :: else -> d_step { who = 0; first = 0 }
    fi;
#endif
    d_step { next = (what == POLL -> TO_TEST : TO_NEXT) }; goto Release;
#endif
ComputesForTest:
    ENTER;
    if
    :: refusals > 0 -> d_step { abandon(); piece = 0; next = (what == POLL -> TO_TEST : TO_NEXT) }; goto Release
    :: true ->
        d_step {
            commit(); piece = 0;
            if
            :: REQUEST(me, on) == DONE -> REQUEST(me, on) = COMPLETED; next = TO_NEXT
            :: else -> next = (what == POLL -> TO_TEST : TO_NEXT)
            fi
        };
        goto Release
    fi;

GivesUp: true;  /* until here its word stays Registered */
    d_step { word[me] = EMPTY; reply[me] = NONE };
    if
    :: ending[me] == WELL -> goto Next
    :: else
    fi;
Finish:
    ENTER;
    d_step { ended = ended | BIT(me); inside = inside & ~BIT(me); leaving = 1; next = TO_OVER };

    goto Release;

Drops: true;    /* without waiting for the lock */
    d_step { dropped = dropped | BIT(me); inside = inside & ~BIT(me); next = TO_OVER };
    if
    :: atomic { lock == FREE -> lock = HELD }
    :: lock != FREE -> goto Over
    fi;

Release: true;
    d_step { hand_on(leaving); leaving = 0 };
    UNLOCK;
    WAKE;
    WRITTEN;
    SECOND_LOOK;
    if
    :: d_step { next == TO_NEXT -> next = 0 }; goto Next
    :: d_step { next == TO_TAKE_ENTRY -> next = 0 }; goto TakesEntry
    :: d_step { next == TO_SPIN -> next = 0 }; goto Spins
    :: d_step { next == TO_TAKE -> next = 0 }; goto Takes
    :: d_step { next == TO_COMPUTE -> next = 0 }; goto Computes
    :: d_step { next == TO_PARK -> next = 0 }; goto Parks
    :: d_step { next == TO_FINISH -> next = 0 }; goto Finish
    :: d_step { next == TO_TEST -> next = 0 }; goto Tests
    :: d_step { next == TO_COMPUTE_FOR_TEST -> next = 0 }; goto ComputesForTest
    :: d_step { next == TO_WAIT -> next = 0 }; goto Waits
    :: d_step { next == TO_GIVE_UP -> next = 0 }; goto GivesUp
    :: next == TO_OVER
    fi;
Over:
    over = over | BIT(me)
}

/* ---------------------------------------------------------------- a progress thread */
#define TO_WORK 0
#define TO_SLEEP 1
#define TO_STOP 2
#undef ME
#define ME (RANKS + me)
proctype Worker(byte me) {
    byte next, wake, who, first, work, piece, due, spurious = SPURIOUS;
    bit ring, more, out;
Works:
    ENTER;
Turn: true;
    d_step { serve(); advance(); settle(); look(first, out); out = 0 };
    if
    :: stopped -> first = 0; next = TO_STOP
    :: !stopped && first == 2 -> d_step { first = 0; hand_out(piece); next = TO_COMPUTE };
#ifdef PLAIN_UNLOCK
        UNLOCK; WAKE; WRITTEN; goto Computes
#endif
    :: !stopped && first == 1 -> first = 0; next = TO_WORK
    :: !stopped && first == 0 -> d_step { idle = idle | BIT(me); rung = rung & ~BIT(me); next = TO_SLEEP }
    fi;
Release: true;
    d_step { hand_on(0) };
    UNLOCK;
    WAKE;
    WRITTEN;
    SECOND_LOOK;
    if
    :: d_step { next == TO_WORK -> next = 0 }; goto Works
    :: d_step { next == TO_COMPUTE -> next = 0 }; goto Computes
    :: d_step { next == TO_SLEEP -> next = 0 }; goto Sleeps
    :: d_step { next == TO_STOP -> next = 0 }; goto Stops
    fi;
Computes:
    GO_AHEAD;
    ENTER;
    if
    :: refusals > 0 -> d_step { abandon(); piece = 0; next = TO_STOP }; goto Release
    :: true -> d_step { commit(); NOTE_DUE };
        if
#ifndef UNCHAINED
        :: goto Turn
#endif
        :: next = TO_WORK; goto Release
        fi
    fi;
Sleeps: true;
    d_step {
        if
        :: !(rung & BIT(me)) -> worker_asleep = worker_asleep | BIT(me)
        :: else
        fi;
        rung = rung & ~BIT(me)
    };
    if
    :: !(worker_asleep & BIT(me))
    :: d_step { (worker_asleep & BIT(me)) && spurious > 0 -> spurious--; worker_asleep = worker_asleep & ~BIT(me) }
    fi;
    ENTER;
    d_step { idle = idle & ~BIT(me) };
    goto Turn;
Stops:
    skip
}

/* ---------------------------------------------------------------- invariants, whenever nobody holds the lock */
#ifdef WATCHED
#define IS_BUSY(n) (request[n] == SENDING || request[n] == COMBINING || request[n] == OUT)
#define IS_MET(n) ((waits_for[(n) / COLLECTIVES] & BIT((n) % COLLECTIVES)) && request[n] == DONE)
#define RESTS(rank) ((ended & BIT(rank)) || waits_for[rank] != 0)
#define IS_LOST(rank) ((parked & BIT(rank)) && (word[rank] != REGISTERED || waits_for[rank] == 0))
#if RANKS * COLLECTIVES == 2
#define SOME_REQUEST(P) (P(0) || P(1))
#elif RANKS * COLLECTIVES == 3
#define SOME_REQUEST(P) (P(0) || P(1) || P(2))
#elif RANKS * COLLECTIVES == 4
#define SOME_REQUEST(P) (P(0) || P(1) || P(2) || P(3))
#else
#define SOME_REQUEST(P) (P(0) || P(1) || P(2) || P(3) || P(4) || P(5))
#endif
#if RANKS == 2
#define ALL_REST (RESTS(0) && RESTS(1))
#define ONE_IS_LOST (IS_LOST(0) || IS_LOST(1))
#else
#define ALL_REST (RESTS(0) && RESTS(1) && RESTS(2))
#define ONE_IS_LOST (IS_LOST(0) || IS_LOST(1) || IS_LOST(2))
#endif
proctype Watcher() {
end:
    if
    :: lock != HELD && SOME_REQUEST(IS_MET) -> assert(false)    /* who waits is answered under the hold that finishes the request */
    :: lock != HELD && !(stalled && marked != 0) && ended != EVERYONE && ALL_REST && !SOME_REQUEST(IS_BUSY) -> assert(false)     /* a stall is reported at once */
    :: lock != HELD && stalled && (marked & parked) != 0 -> assert(false)       /* to who sleeps too */
    :: lock != HELD && ONE_IS_LOST -> assert(false)             /* who is marked as parked is registered */
    fi
}
#define OTHERS 2
#else
#define OTHERS 1
#endif

#undef ME
#define ME (RANKS + WORKERS)
init {
    d_step { program() };
    atomic {
#ifdef WATCHED
        run Watcher();      /* first, since processes end in reverse order */
#endif
        i = 0;
        do
        :: i < RANKS -> run Port(i); i++
        :: else -> break
        od;
        i = 0;
        do
        :: i < WORKERS -> run Worker(i); i++
        :: else -> break
        od
    };
    over == EVERYONE;
    ENTER;
    stopped = 1;
    UNLOCK;
    d_step { rung = idle; worker_asleep = 0 };
    (_nr_pr == OTHERS);
    d_step { verdict() }
}

#ifdef FAIR
ltl ends { <> (over == EVERYONE) }
#endif
