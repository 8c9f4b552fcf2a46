#!/usr/bin/env python3
"""Runs texts by `colljob run` many times and holds each answer against that of `colljob plain`.

    tests/fuzz/run.py [RUNS]    (1,000 by default)

One text has 16 ranks and 500 collectives of all kinds on 16 communicators, some persistent, with waits and tests in
between; it is run with 0 to 8 progress threads in turn. Then `plain` and `run` are timed on a text of 64 ranks and 4,096
requests. Run it at the top of the repository after the program is built (`./colljob run < examples/sum_of_three.job`).
"""

import os
import random
import resource
import statistics
import subprocess
import sys
import time

sys.path.insert(0, os.path.join(os.path.dirname(os.path.realpath(__file__)), "..", "..", "recorder", "record"))

import job_words  # noqa: E402

PROGRAM = os.path.join(os.path.dirname(__file__), "..", "..", "crates", "colljob", "out", "colljob")
RANKS = 16
COLLECTIVES = 500
TYPES = [word for word in job_words.OPERATIONS_ON if word != "byte"]
SECONDS = 120


class Collective:
    """One collective, or one persistent one, of a communicator."""

    def __init__(self, dice, comm, members, counts):
        self.comm, self.members = comm, members
        self.kind = dice.choice(list(job_words.GIVEN))
        self.starts = dice.randint(1, 3) if dice.random() < 0.2 else 0
        self.root = dice.randrange(len(members))
        self.count = dice.choice(counts)
        words = [self.kind]
        if self.kind in job_words.ROOTED:
            words.append(str(self.root))
        self.type = dice.choice(TYPES)
        if self.kind in job_words.COMBINING:
            words.append(dice.choice(job_words.OPERATIONS_ON[self.type]))
        self.counts = [dice.choice(counts) for _ in members]
        if self.kind != "barrier":
            words += [self.type, *map(str, self.counts if job_words.GIVEN[self.kind] == "counted" else [self.count])]
        self.words = " ".join(words)

    def given(self, dice, rank):
        """What the rank gives at a start."""
        member, members = self.members.index(rank), len(self.members)
        count = self.counts[member] if job_words.GIVEN[self.kind] == "counted" else self.count
        n = count * job_words.blocks_given(self.kind, member == self.root, members)
        return "".join(f" {dice.randint(0, 9)}" + (f",{rank}" if self.type == "2int" else "") for _ in range(n))


def mixed(dice, ranks=RANKS, collectives=COLLECTIVES, counts=range(5)):
    """The text of all kinds, whose blocks have one of these counts of values. All ranks go through the same events in the same order, and
    wait for earlier ones alone, so it doesn't stall."""
    comms = [list(range(ranks))] + [dice.sample(range(ranks), dice.randint(2, min(12, ranks))) for _ in range(15)]
    lines = [f"ranks {ranks}"] + ["comm " + " ".join(map(str, members)) for members in comms[1:]]
    events = []
    for _ in range(collectives):
        comm = dice.randrange(len(comms))
        one = Collective(dice, comm, comms[comm], counts)
        events.append((one, 0))
    for one, _ in list(events):
        at = events.index((one, 0))
        for start in range(one.starts):
            at = dice.randint(at + 1, min(at + 40, len(events)))
            events.insert(at, (one, start + 1))
    requests = 0
    for rank in range(ranks):
        lines.append(f"rank {rank}")
        numbers = {}
        for one, start in events:
            if rank not in one.members:
                continue
            if start == 0:
                numbers[one] = len(numbers)
                requests += 1
                word = "init" if one.starts else "post"
                lines.append(f"{word} {one.comm} {one.words}" + ("" if one.starts else " :" + one.given(dice, rank)))
            else:
                if start > 1:
                    lines.append(f"wait {numbers[one]}")
                lines.append(f"start {numbers[one]} :{one.given(dice, rank)}")
            if dice.random() < 0.2:
                call = dice.choice(["wait", "test", "waitany", "waitsome", "waitall"])
                some = dice.sample(range(len(numbers)), 1 if call in ("wait", "test") else dice.randint(1, len(numbers)))
                lines.append(call + " " + " ".join(map(str, some)))
    return "\n".join(lines) + "\n", requests


def many_requests():
    """64 allreduces of each of 64 ranks."""
    lines = ["ranks 64"]
    for rank in range(64):
        lines.append(f"rank {rank}")
        lines += [f"post 0 allreduce sum i32 4 : {rank} 1 2 3"] * 64
    return "\n".join(lines) + "\n"


def answer(words, text):
    """What the program writes, and the seconds that it takes."""
    begin = time.monotonic()
    ran = subprocess.run([PROGRAM, *words], input=text.encode(), capture_output=True, timeout=SECONDS)
    seconds = time.monotonic() - begin
    if ran.returncode:
        raise SystemExit(f"{' '.join(words)}: status {ran.returncode}: {ran.stderr.decode()}")
    return ran.stdout, seconds


def repeat(runs):
    text, requests = mixed(random.Random(1))
    wanted, _ = answer(["plain"], text)
    times, unlike, hanging = [], 0, 0
    for run in range(runs):
        try:
            told, seconds = answer(["run", "--workers", str(run % 9)], text)
            times.append(seconds)
            unlike += told != wanted
        except subprocess.TimeoutExpired:
            hanging += 1
    peak = resource.getrusage(resource.RUSAGE_CHILDREN).ru_maxrss / 1024
    print(f"{RANKS} ranks, {COLLECTIVES} collectives, {requests} requests, {len(text)} bytes, {len(wanted)} bytes answered")
    print(f"{runs} runs: {unlike} unlike plain, {hanging} without an end in {SECONDS} s; "
          f"median {statistics.median(times):.3f} s, longest {max(times):.3f} s, peak memory {peak:.1f} MiB")
    return unlike + hanging


def compare():
    text = many_requests()
    wanted, seconds = answer(["plain"], text)
    print(f"64 ranks, 4,096 requests: plain {seconds:.3f} s")
    unlike = 0
    for workers in [0, 2, 8]:
        told, seconds = answer(["run", "--workers", str(workers)], text)
        unlike += told != wanted
        print(f"  run with {workers} workers {seconds:.3f} s{'' if told == wanted else ', UNLIKE plain'}")
    return unlike


def main():
    runs = int(sys.argv[1]) if len(sys.argv) > 1 else 1000
    failed = repeat(runs) + compare()
    return 1 if failed else 0


if __name__ == "__main__":
    sys.exit(main())
