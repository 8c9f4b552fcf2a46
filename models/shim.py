#!/usr/bin/env python3
"""Checks the model of the C shim's protocol (shim.pml) with Spin, in each configuration, and says which came out otherwise than it must.

    models/shim.py [WORD ..]    (only configurations whose names have one of the words)

It ends with 0 where all came out as they must, with 1 where some came out otherwise, and else with 2 where some searches weren't finished.
It needs `spin` 6.5 and `gcc` (Debian: apt-get install spin gcc). --quick leaves out those of three ranks that must hold, --jobs N searches N at a time,
each for --seconds N at most (600) and in 3 GB.
"""

import argparse
import concurrent.futures
import os
import re
import shutil
import subprocess
import sys
import tempfile
import time

HERE = os.path.dirname(os.path.abspath(__file__))
MEBIBYTES = 3000
THREE, TWO, HELPED, WIDE = "RANKS=3", "COLLECTIVES=2", "HELPERS=1", "LONG PROCESSORS=2"
# how a configuration came out: as it must, otherwise, or with no result, since its search was cut off or couldn't begin
RIGHT, WRONG, OPEN = "ok", "WRONG", "OPEN"
# whether it must hold, whether every run must end (else: no run ends but as it must), the name, the program and its flags
CONFIGURATIONS = [
    (True, False, "one, 2 ranks", "ONE"),
    (True, False, "one, 2 ranks, long", "ONE LONG"),
    (True, False, "one, 2 ranks, long, chained", "ONE LONG CHAINED"),
    (True, False, "one, 3 ranks", f"ONE {THREE} COMBINATIONS=1 COARSE"),
    (True, False, "one, 3 ranks, long", f"ONE {THREE} LONG COMBINATIONS=1 COARSE"),
    (True, False, "two, 2 ranks", f"TWO {TWO}"),
    (True, False, "two, 2 ranks, long", f"TWO {TWO} LONG"),
    (True, False, "polls, 2 ranks, long", "POLLS LONG"),
    (True, False, "some poll, 2 ranks, long", "SOME_POLL LONG"),
    (True, False, "some poll, 3 ranks, long", f"SOME_POLL {THREE} LONG COMBINATIONS=1 COARSE"),
    (True, False, "leaver, 2 ranks", "LEAVER"),
    (True, False, "leaver, 2 ranks, long", "LEAVER LONG"),
    (True, False, "leaver, 3 ranks", f"LEAVER {THREE} COMBINATIONS=1 COARSE"),
    (True, False, "leaver, 3 ranks, long", f"LEAVER {THREE} LONG COMBINATIONS=1 COARSE"),
    (True, False, "returns, 2 ranks", "RETURNS"),
    (True, False, "returns, 2 ranks, long", "RETURNS LONG"),
    (True, False, "tester, 3 ranks, long", f"TESTER {THREE} {TWO} LONG COMBINATIONS=1 COARSE"),
    (True, False, "crossed, 2 ranks", f"CROSSED {TWO}"),
    (True, False, "crossed, 2 ranks, long", f"CROSSED {TWO} LONG"),
    (True, False, "crossed, 3 ranks", f"CROSSED {THREE} {TWO} COMBINATIONS=1 COARSE"),
    (True, False, "absentee, 2 ranks, long", f"ABSENTEE {TWO} LONG"),
    (True, False, "absentee, 3 ranks", f"ABSENTEE {THREE} {TWO} COMBINATIONS=1 COARSE"),
    (True, False, "absentee, 3 ranks, long", f"ABSENTEE {THREE} {TWO} LONG COMBINATIONS=1 COARSE"),
    (True, False, "one, 2 ranks, wide", f"ONE {WIDE}"),
    (True, False, "one, 2 ranks, wide, chained", f"ONE {WIDE} CHAINED"),
    (True, False, "one, 2 ranks, wide, one processor", "ONE LONG PROCESSORS=1"),
    (True, False, "one, 3 ranks, wide", f"ONE {THREE} {WIDE} COARSE"),
    (True, False, "two, 2 ranks, wide", f"TWO {TWO} {WIDE}"),
    (True, False, "polls, 2 ranks, wide", f"POLLS {WIDE}"),
    (True, False, "some poll, 2 ranks, wide", f"SOME_POLL {WIDE}"),
    (True, False, "leaver, 2 ranks, wide", f"LEAVER {WIDE}"),
    (True, False, "leaver, 3 ranks, wide", f"LEAVER {THREE} {WIDE} COARSE"),
    (True, False, "returns, 2 ranks, wide", f"RETURNS {WIDE}"),
    (True, False, "crossed, 2 ranks, wide", f"CROSSED {TWO} {WIDE}"),
    (True, False, "absentee, 2 ranks, wide", f"ABSENTEE {TWO} {WIDE}"),
    (True, False, "absentee, 3 ranks, wide", f"ABSENTEE {THREE} {TWO} {WIDE} COARSE"),
    (True, False, "computes, 2 ranks, helped", f"COMPUTES {HELPED} COARSE"),
    (True, False, "computes, 2 ranks, long, helped", f"COMPUTES LONG {HELPED} COARSE"),
    (True, False, "computes, 2 ranks, long, chained, helped", f"COMPUTES LONG CHAINED {HELPED} COARSE"),
    (True, False, "computes, 3 ranks, long, helped", f"COMPUTES {THREE} LONG COMBINATIONS=1 COARSE {HELPED}"),
    (True, False, "one, 2 ranks, long, helped", f"ONE LONG COMBINATIONS=1 {HELPED} COARSE"),
    (True, False, "some poll, 2 ranks, long, helped", f"SOME_POLL LONG COMBINATIONS=1 {HELPED} COARSE"),
    (True, False, "leaver, 2 ranks, long, helped", f"LEAVER LONG COMBINATIONS=1 {HELPED} COARSE"),
    (True, False, "crossed, 2 ranks, long, helped", f"CROSSED {TWO} LONG COMBINATIONS=1 COARSE {HELPED}"),
    (True, False, "absentee, 2 ranks, long, helped", f"ABSENTEE {TWO} LONG COMBINATIONS=1 COARSE {HELPED}"),
    (True, True, "computes ends, 2 ranks, long, helped", f"COMPUTES LONG COMBINATIONS=1 {HELPED} COARSE"),
    (True, True, "one ends, 2 ranks", "ONE"),
    (True, True, "one ends, 2 ranks, long", "ONE LONG"),
    (True, True, "leaver ends, 2 ranks, long", "LEAVER LONG"),
    (True, True, "some poll ends, 2 ranks, long", "SOME_POLL LONG"),
    (True, True, "one ends, 2 ranks, wide", f"ONE {WIDE}"),
    (True, True, "leaver ends, 2 ranks, wide", f"LEAVER {WIDE}"),
    (True, True, "some poll ends, 2 ranks, wide", f"SOME_POLL {WIDE}"),
    (False, False, "not woken", "ONE NOT_WOKEN"),
    (False, False, "looks first", "ONE LOOKS_FIRST"),
    (False, False, "lock unseen", "ONE LOCK_UNSEEN"),
    (False, False, "not handed on", "LEAVER LONG NOT_HANDED_ON"),
    (False, False, "not handed on, short", "LEAVER NOT_HANDED_ON"),
    (False, False, "return without a judgement", f"ABSENTEE {THREE} {TWO} LONG COMBINATIONS=1 UNJUDGED_RETURN"),
    (False, False, "early stall", "ONE COMBINATIONS=3 EARLY_STALL"),
    (False, False, "stall while a combination is out", "ONE LONG STALL_WHILE_OUT"),
    (False, False, "a post takes many", "POLLS LONG TAKES_MANY"),
    (False, False, "left unseen", "LEAVER LONG LEFT_UNSEEN"),
    (False, False, "left unseen, wide", f"ONE {WIDE} LEFT_UNSEEN"),
    (False, True, "never late", "SOME_POLL LONG NEVER_LATE"),
    (False, False, "gone twice", "RETURNS GONE_TWICE"),
    (False, False, "a helper counts", f"CROSSED {TWO} LONG COMBINATIONS=1 {HELPED} HELPER_COUNTS"),
    (False, False, "a helper is unserved", f"COMPUTES LONG {HELPED} HELPER_UNSERVED"),
    (False, False, "a helper is unseen", f"COMPUTES LONG {HELPED} HELPER_UNSEEN"),
]


def run(words, log):
    """Runs a command in the folder of its log, and says how it ended."""
    with open(log, "w") as out:
        return subprocess.run(words, stdout=out, stderr=subprocess.STDOUT, cwd=os.path.dirname(log)).returncode


def searched(ends, flags, folder, limit):
    """Searches one configuration in that folder, for that many seconds at most: what Spin found, how many states it saw, and in how many seconds."""
    shutil.copy(os.path.join(HERE, "shim.pml"), folder)
    log = os.path.join(folder, "log")
    defines = [f"-D{flag}" for flag in flags.split()] + (["-DFAIR"] if ends else [])
    if run(["spin", *defines, "-a", "shim.pml"], log) != 0:
        return open(log).read(), "", 0.0
    made = ["-DNFAIR=3"] if ends else ["-DSAFETY"]
    level = "-O2" if THREE in flags else "-O0"  # to compile takes longer than a short search
    if run(["gcc", level, "-w", *made, "-DCOLLAPSE", f"-DMEMLIM={MEBIBYTES}", "-o", "pan", "pan.c"], log) != 0:
        return open(log).read(), "", 0.0
    began = time.monotonic()
    ended = run(["timeout", str(limit), "./pan", *(["-a", "-f"] if ends else []), "-m1000000", "-w22"], log)
    seconds = time.monotonic() - began
    text = open(log).read()
    states = re.search(r"(\d\S*) states, stored", text)
    found = re.search(r"^pan:1: (.*?)(?: \(at depth.*)?$", text, re.M)
    if ended == 124 or re.search("max search depth too small|reached -DMEMLIM|out of memory", text):
        what = "not finished"
    elif "errors: 0" in text:
        what = "holds"
    else:
        what = found.group(1) if found else "no result"
    return what, states.group(1) if states else "", seconds


def judged(configuration, limit):
    """One line on a configuration, and how it came out."""
    must_hold, ends, name, flags = configuration
    folder = tempfile.mkdtemp(prefix="shim")
    try:
        what, states, seconds = searched(ends, flags, folder, limit)
    finally:
        shutil.rmtree(folder)
    is_fault = re.search("invalid end state|assertion violated|acceptance cycle", what) is not None
    if what != "holds" and not is_fault:
        how = OPEN
    else:
        how = RIGHT if is_fault != must_hold else WRONG
    return f"{how:5} {name:36} {what[:60]:60} {states:>12} {seconds:7.1f} s", how


def main():
    words = argparse.ArgumentParser(description=__doc__, formatter_class=argparse.RawDescriptionHelpFormatter)
    words.add_argument("names", nargs="*")
    words.add_argument("--quick", action="store_true")
    words.add_argument("--jobs", type=int, default=1)
    words.add_argument("--seconds", type=int, default=600)
    asked = words.parse_args()
    wanted = [c for c in CONFIGURATIONS if not asked.names or any(word in c[2] for word in asked.names)]
    if asked.quick:
        wanted = [c for c in wanted if not (c[0] and (THREE in c[3] or HELPED in c[3]))]
    came = []
    with concurrent.futures.ThreadPoolExecutor(asked.jobs) as pool:
        for line, how in pool.map(lambda it: judged(it, asked.seconds), wanted):
            print(line, flush=True)
            came.append(how)
    print(f"{came.count(RIGHT)} came out as they must, {came.count(WRONG)} otherwise, {came.count(OPEN)} weren't finished")
    sys.exit(1 if WRONG in came else 2 if OPEN in came else 0)


if __name__ == "__main__":
    main()
