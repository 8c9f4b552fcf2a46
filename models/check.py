#!/usr/bin/env python3
"""Checks the model of flat combining (combining.pml) with Spin, in each configuration, and says which came out otherwise than it must.

    models/check.py [WORD ..]    (only configurations whose names have one of the words)

It ends with 0 where all came out as they must, with 1 where some came out otherwise, and else with 2 where some searches weren't finished.
It needs `spin` 6.5 and `gcc` (Debian: apt-get install spin gcc). --quick leaves out what takes longer than ten seconds, --jobs N
searches N at a time. What --quick leaves takes three minutes of processor time, mostly for the compiler; the whole an hour, and at most 8 GiB
for each search, which cuts off `stall, 3 ranks, 1 worker` (more than 135 million states).
"""

import argparse
import concurrent.futures
import os
import re
import shutil
import subprocess
import sys
import tempfile
import time

HERE = os.path.dirname(os.path.abspath(__file__))
MEBIBYTES = 8000
SECONDS = 1200
HOLDS, FAILS = "holds", "fails"
# how a configuration came out: as it must, otherwise, or with no result, since its search was cut off or couldn't begin
RIGHT, WRONG, OPEN = "ok", "WRONG", "OPEN"
# a search for ends that aren't proper and for failed assertions, or for runs in which a rank never ends
SAFE, LIVE = "safe", "live"

THREE = "RANKS=3"
TWO = "COLLECTIVES=2"
WORKER = "WORKERS=1"
# what must come out, the search, whether it is quick, the name, the program and its flags
PROTOCOL = [
    (HOLDS, SAFE, True, "one, 2 ranks", "ONE WATCHED"),
    (HOLDS, SAFE, True, "one, 2 ranks, 1 worker", f"ONE WATCHED {WORKER}"),
    (HOLDS, SAFE, True, "one, 2 ranks, 1 worker, spurious wake-ups", f"ONE WATCHED {WORKER} SPURIOUS=1 STEPS=8"),
    (HOLDS, SAFE, False, "one, 2 ranks, 2 workers", "ONE WATCHED WORKERS=2 STEPS=8"),
    (HOLDS, SAFE, True, "one, 3 ranks", f"ONE WATCHED {THREE}"),
    (HOLDS, SAFE, True, "again, 2 ranks", f"AGAIN WATCHED {TWO}"),
    (HOLDS, SAFE, True, "crossed, 2 ranks", f"CROSSED WATCHED {TWO}"),
    (HOLDS, SAFE, True, "crossed, 2 ranks, 1 worker", f"CROSSED WATCHED {TWO} {WORKER}"),
    (HOLDS, SAFE, False, "crossed, 2 ranks, 2 workers", f"CROSSED WATCHED {TWO} WORKERS=2"),
    (HOLDS, SAFE, True, "absentee, 2 ranks, 1 worker", f"ABSENTEE WATCHED {TWO} {WORKER}"),
    (HOLDS, SAFE, True, "resumed, 2 ranks", f"RESUMED WATCHED {TWO}"),
    (HOLDS, SAFE, True, "resumed, 2 ranks, 1 worker", f"RESUMED WATCHED {TWO} {WORKER} STEPS=8"),
    (HOLDS, SAFE, True, "later, 2 ranks", f"LATER WATCHED {TWO}"),
    (HOLDS, SAFE, True, "later, 2 ranks, 1 worker", f"LATER WATCHED {TWO} {WORKER} STEPS=8"),
    (HOLDS, SAFE, True, "in vain, 2 ranks", f"IN_VAIN WATCHED {TWO}"),
    (HOLDS, SAFE, True, "in vain, 2 ranks, 1 worker", f"IN_VAIN WATCHED {TWO} {WORKER} STEPS=8"),
    (HOLDS, SAFE, True, "dropped, 2 ranks", "DROPPED WATCHED"),
    (HOLDS, SAFE, True, "dropped, 2 ranks, 1 worker", f"DROPPED WATCHED {WORKER}"),
    (HOLDS, SAFE, True, "lists, 2 ranks", f"LISTS WATCHED {TWO}"),
    (HOLDS, SAFE, True, "lists, 2 ranks, 1 worker", f"LISTS WATCHED {TWO} {WORKER} STEPS=8"),
    (HOLDS, SAFE, True, "stall, 3 ranks", f"STALL WATCHED {THREE} {TWO}"),
    (HOLDS, SAFE, False, "stall, 3 ranks, 1 worker", f"STALL WATCHED {THREE} {TWO} {WORKER} STEPS=8"),
    (HOLDS, SAFE, True, "leaver, 3 ranks", f"LEAVER WATCHED {THREE} {TWO}"),
    (HOLDS, SAFE, False, "leaver, 3 ranks, 1 worker", f"LEAVER WATCHED {THREE} {TWO} {WORKER}"),
    (HOLDS, SAFE, True, "exit, 3 ranks", f"EXIT WATCHED {THREE} {TWO}"),
    (HOLDS, SAFE, False, "exit, 3 ranks, 1 worker", f"EXIT WATCHED {THREE} {TWO} {WORKER} STEPS=8"),
    (HOLDS, SAFE, True, "mixed, 3 ranks", f"MIXED WATCHED {THREE} {TWO}"),
    (HOLDS, SAFE, True, "refused memory, 2 ranks", "REFUSED_MEMORY WATCHED REFUSALS=2"),
    (HOLDS, SAFE, True, "refused memory, 2 ranks, 1 worker", f"REFUSED_MEMORY WATCHED REFUSALS=1 {WORKER} STEPS=8"),
    (HOLDS, SAFE, True, "refused again, 2 ranks", "REFUSED_AGAIN WATCHED REFUSALS=2"),
    (HOLDS, SAFE, False, "refused again, 2 ranks, 1 worker", f"REFUSED_AGAIN WATCHED REFUSALS=1 {WORKER} STEPS=8"),
    (HOLDS, SAFE, False, "gate, 2 ranks, 1 worker", f"THREE WATCHED COLLECTIVES=3 {WORKER} GATED STEPS=8 UNCHAINED"),
    (HOLDS, SAFE, True, "no second look, 2 ranks, 1 worker", f"ONE {WORKER} NO_SECOND_LOOK"),
    (HOLDS, LIVE, True, "one ends, 2 ranks", "ONE"),
    (HOLDS, LIVE, True, "in vain ends, 2 ranks", f"IN_VAIN {TWO}"),
    (HOLDS, LIVE, True, "polls end, 2 ranks", "POLLS"),
    (HOLDS, LIVE, False, "polls end, 2 ranks, 1 worker", f"POLLS {WORKER}"),
    (HOLDS, LIVE, False, "polls end, 3 ranks", f"POLLS {THREE} STEPS=8"),
    (HOLDS, LIVE, False, "mixed ends, 3 ranks", f"MIXED {THREE} {TWO} STEPS=8"),
    (HOLDS, LIVE, False, "leaver to a test ends, 3 ranks", f"LEAVER_TO_A_TEST {THREE} {TWO} STEPS=8"),
]
FAULTS = [
    (FAILS, SAFE, True, "untold stall", f"STALL {THREE} {TWO} {WORKER} UNTOLD_STALL"),
    (FAILS, SAFE, True, "leaver counts", f"LEAVER {THREE} {TWO} {WORKER} LEAVER_COUNTS"),
    (FAILS, SAFE, True, "early successor", f"EXIT {THREE} {TWO} EARLY_SUCCESSOR"),
    (FAILS, LIVE, True, "leaver counts and tests only look", f"LEAVER_TO_A_TEST {THREE} {TWO} {WORKER} LEAVER_COUNTS TEST_ONLY_LOOKS"),
    (FAILS, LIVE, True, "tests only look", "POLLS TEST_ONLY_LOOKS"),
    (FAILS, LIVE, True, "tests only step", "POLLS TEST_ONLY_STEPS"),
    (FAILS, SAFE, True, "gate without a worker", "THREE COLLECTIVES=3 GATED STEPS=8"),
    (FAILS, SAFE, True, "away counts", f"THREE COLLECTIVES=3 {WORKER} GATED STEPS=8 AWAY_COUNTS"),
    (FAILS, SAFE, False, "plain unlock", f"THREE COLLECTIVES=3 {WORKER} GATED STEPS=8 PLAIN_UNLOCK"),
    (FAILS, SAFE, True, "late park", f"ONE {WORKER} LATE_PARK"),
    (FAILS, SAFE, True, "unwoken", "ONE UNWOKEN"),
    (FAILS, SAFE, True, "stall while a combination is out", "ONE STALL_WHILE_OUT"),
    (FAILS, SAFE, True, "stall before serving", "ONE STALL_BEFORE_SERVE"),
    (FAILS, SAFE, True, "lasting stall", f"RESUMED {TWO} LASTING_STALL"),
    (FAILS, SAFE, True, "stall for all", f"LATER {TWO} STALL_FOR_ALL"),
    (FAILS, SAFE, True, "marked rests", f"LATER {TWO} MARKED_RESTS"),
    (FAILS, SAFE, True, "one stall", f"IN_VAIN {TWO} ONE_STALL"),
    (FAILS, SAFE, True, "unseen drop", "DROPPED UNSEEN_DROP"),
]


def run(words, log):
    """Runs a command in the background of the machine, and says how it ended."""
    with open(log, "w") as out:
        return subprocess.run(["nice", *words], stdout=out, stderr=subprocess.STDOUT, cwd=os.path.dirname(log)).returncode


def searched(kind, flags, folder):
    """Searches one configuration in that folder: what Spin found, how many states it saw, and in how many seconds."""
    for name in ["combining.pml", "programs.pml"]:
        shutil.copy(os.path.join(HERE, name), folder)
    live = kind == LIVE
    defines = [f"-D{flag}" for flag in flags.split()] + (["-DFAIR"] if live else [])
    made = ["-DNFAIR=3"] if live else ["-DSAFETY"]
    log = os.path.join(folder, "log")
    if run(["spin", *defines, "-a", "combining.pml"], log) != 0:
        return "spin refuses: " + open(log).read(), "", 0.0
    if run(["gcc", "-O1", "-w", *made, "-DCOLLAPSE", f"-DMEMLIM={MEBIBYTES}", "-o", "pan", "pan.c"], log) != 0:
        return "gcc refuses: " + open(log).read(), "", 0.0
    began = time.monotonic()
    ended = run(["timeout", str(SECONDS), "./pan", *(["-a", "-f"] if live else []), "-m1000000", "-w22"], log)
    seconds = time.monotonic() - began
    text = open(log).read()
    states = re.search(r"(\d\S*) states, stored", text)
    found = re.search(r"^pan:1: (.*?)(?: \(at depth.*)?$", text, re.M)
    if ended == 124 or re.search("max search depth too small|reached -DMEMLIM|out of memory", text):
        what = "not finished"
    elif "errors: 0" in text:
        what = HOLDS
    else:
        what = found.group(1) if found else "no result"
    return what, states.group(1) if states else "", seconds


def judged(configuration):
    """One line on a configuration, and how it came out."""
    must, kind, _quick, name, flags = configuration
    folder = tempfile.mkdtemp(prefix="combining")
    try:
        what, states, seconds = searched(kind, flags, folder)
    finally:
        shutil.rmtree(folder)
    is_fault = re.search("invalid end state|assertion violated|acceptance cycle", what) is not None
    if what != HOLDS and not is_fault:
        how = OPEN
    else:
        how = RIGHT if is_fault == (must == FAILS) else WRONG
    line = f"{how:5} {name:45} {kind}  {what[:50]:50} {states:>12} {seconds:7.1f} s"
    return line, how


def main():
    words = argparse.ArgumentParser(description=__doc__, formatter_class=argparse.RawDescriptionHelpFormatter)
    words.add_argument("names", nargs="*")
    words.add_argument("--quick", action="store_true")
    words.add_argument("--jobs", type=int, default=1)
    asked = words.parse_args()
    came = []
    for title, configurations in [("the protocol holds", PROTOCOL), ("each fault is found", FAULTS)]:
        print(title, flush=True)
        wanted = [c for c in configurations if not asked.names or any(word in c[3] for word in asked.names)]
        wanted = [c for c in wanted if c[2] or not asked.quick]
        with concurrent.futures.ThreadPoolExecutor(asked.jobs) as pool:
            for line, how in pool.map(judged, wanted):
                print(line, flush=True)
                came.append(how)
    print(f"{came.count(RIGHT)} came out as they must, {came.count(WRONG)} otherwise, {came.count(OPEN)} weren't finished")
    sys.exit(1 if WRONG in came else 2 if OPEN in came else 0)


if __name__ == "__main__":
    main()
