#!/usr/bin/env python3
"""Verdicts and values of `colljob explain` and `plain` beside runs of the same texts:

    explain.py PROGRAM [TEXTS [SEED [RANKS]]] [--choices] [--runs N] [--part I/N]

Each text has 2 to 6 ranks, or 2 to RANKS and at most 100 lines, some communicators, and collectives that are posted or started in an order of
each rank's own among communicators, with waits, waits for any and some, and tests in between. It is explained once, and run three times, or N,
with 0 to 8 progress threads. --part 2/4 takes the second quarter of the texts. A text that never stalls must end in each run, one that stalls in every run must stall in each, and a run that ends must
write what `plain` writes. Ends with 1 where one doesn't, and shows the text. So it does where the shortest cycle that is reported is no cycle,
or a search of all cycles finds a shorter one; where a run that is shown leaves out or repeats a line; where its text doesn't stall in which each
call completes what it does in that run; and, where no run is shown, where a rank that waits isn't shown with each request that its call names and
that some member holds up whose contribution the value needs, with just those members, and the lines in which they wait and would give. It also
prints how many of the texts that stall in some runs, or may, did so in some run, and in each, and how long the runs took. With --choices most
waits are waits for any or some, and tests.
"""
import argparse
import collections
import json
import os
import random
import statistics
import subprocess
import sys
import time

sys.path.insert(0, os.path.join(os.path.dirname(os.path.realpath(__file__)), "..", "..", "recorder", "record"))

import job_words  # noqa: E402
import reading  # noqa: E402

KINDS = [kind for kind in job_words.GIVEN if kind != "allgatherv"]
SECONDS = 60
MOST_LINES = 100
# The verdicts with which runs may differ.
OPEN = ["in some", "sometimes", "perhaps"]


def arguments():
    parser = argparse.ArgumentParser()
    parser.add_argument("program")
    parser.add_argument("texts", type=int, nargs="?", default=2000)
    parser.add_argument("seed", type=int, nargs="?", default=1)
    parser.add_argument("ranks", type=int, nargs="?")
    parser.add_argument("--choices", action="store_true")
    parser.add_argument("--runs", type=int, default=3)
    parser.add_argument("--part", default="1/1")
    return parser.parse_args()


WORDS = arguments()


class Collective:
    """One collective of a communicator, or one persistent one that is started a few times."""

    def __init__(self, rng, comm, group, turn):
        self.comm = comm
        self.group = group
        self.kind = rng.choice(KINDS)
        self.root = rng.randrange(len(group))
        self.starts = rng.choice([0, 0, 0, 1, 2])
        self.turn = turn
        words = [self.kind]
        if self.kind in job_words.ROOTED:
            words.append(str(self.root))
        if self.kind in job_words.COMBINING:
            words.append("sum")
        if self.kind != "barrier":
            words += ["i32", "1"]
        self.words = " ".join(words)

    def values(self, rank):
        """What a rank gives, after a colon."""
        count = job_words.blocks_given(self.kind, self.group.index(rank) == self.root, len(self.group))
        if count == 0:
            return ""
        return " : " + " ".join(str(rank * 10 + it) for it in range(count))


def completion(rng, live):
    """A line that waits for or tests some of these requests, and those that are surely inactive after it."""
    some = rng.sample(live, rng.randint(1, len(live)))
    names = " ".join(map(str, some))
    match rng.randrange(4) if WORDS.choices and rng.random() < 0.8 else rng.randrange(6):
        case 0:
            return f"waitany {names}", []
        case 1:
            return f"waitsome {names}", []
        case 2:
            return f"test {some[0]}", []
        case 3:
            return f"waitall {names}", some
        case _:
            return f"wait {some[0]}", some[:1]


def section(rng, rank, lists):
    """The lines of a rank, which takes the collectives of each communicator in order."""
    lines = [f"rank {rank}"]
    left = [list(it) for it in lists if it and rank in it[0].group]
    made = 0
    live = []
    again = []
    while left or again:
        if live and rng.random() < 0.45:
            line, over = completion(rng, live)
            lines.append(line)
            live = [it for it in live if it not in over]
            continue
        if again and (not left or rng.random() < 0.5):
            request, collective, count = again.pop(rng.randrange(len(again)))
            if request in live:
                lines.append(f"wait {request}")
                live.remove(request)
            lines.append(f"start {request}{collective.values(rank)}")
            live.append(request)
            if count > 1:
                again.append((request, collective, count - 1))
            continue
        # Mostly ranks keep to one order of all collectives.
        mine = min(left, key=lambda it: it[0].turn) if rng.random() < 0.8 else rng.choice(left)
        collective = mine.pop(0)
        if collective.starts:
            lines.append(f"init {collective.comm} {collective.words}")
            again.append((made, collective, collective.starts))
        else:
            lines.append(f"post {collective.comm} {collective.words}{collective.values(rank)}")
            live.append(made)
        made += 1
        left = [it for it in left if it]
    return lines


def random_text(rng, most):
    """A text of 2 to `most` ranks."""
    ranks = rng.randint(2, most)
    groups = [list(range(ranks))]
    for _ in range(rng.randint(1, 3)):
        groups.append(rng.sample(range(ranks), rng.randint(2, ranks)))
    lists = [[] for _ in groups]
    for turn in range(rng.randint(2, 8)):
        comm = rng.randrange(len(groups))
        lists[comm].append(Collective(rng, comm, groups[comm], turn))
    lines = [f"ranks {ranks}"] + ["comm " + " ".join(map(str, it)) for it in groups[1:]]
    for rank in range(ranks):
        lines += section(rng, rank, lists)
    return "\n".join(lines) + "\n"


def short_text(rng, most):
    """A text of 2 to `most` ranks and at most MOST_LINES lines; a rank that calls nothing has no section."""
    while True:
        lines = random_text(rng, most).splitlines()
        kept = [line for line, after in zip(lines, lines[1:] + ["rank"]) if not (line.startswith("rank ") and after.startswith("rank"))]
        if len(kept) <= MOST_LINES:
            return "\n".join(kept) + "\n"


def shortest_length(awaited):
    """The length of a shortest cycle, by a search in breadth from each rank; 0 where there is none."""
    best = 0
    for first in awaited:
        reached, steps = {first}, 0
        while reached and steps <= len(awaited):
            reached, steps = set().union(*(awaited.get(rank, set()) for rank in reached)), steps + 1
            if first in reached:
                best = min(best or steps, steps)
                break
    return best


def is_shortest(objects):
    """Whether the ranks of `shortest` wait each for the next, and no cycle has fewer."""
    stuck = [it for it in objects if it["reason"] == "waits"]
    awaited = {it["rank"]: {lack["rank"] for request in it["requests"] for lack in request["lacks"]} for it in stuck}
    ring = objects[-1]["shortest"]
    waits = all(after in awaited[rank] for rank, after in zip(ring, ring[1:] + ring[:1]))
    return waits and len(ring) == shortest_length(awaited)


def is_run(objects, text):
    """Whether each rank of a run that is shown carries its lines out in their order, up to the line in which it waits."""
    passes = [it for it in objects if it["reason"] == "passes"]
    stops = {it["rank"]: it["line"] for it in objects if it["reason"] == "waits"}
    rank, lines = None, collections.defaultdict(list)
    for number, words in enumerate(map(str.split, text.splitlines()), 1):
        if words[0] == "rank":
            rank = int(words[1])
        elif rank is not None:
            lines[rank].append(number)
    for rank in range(int(text.split()[1])):
        own = lines[rank] + [None]
        done = own[: own.index(stops[rank])] if rank in stops else own
        if [it["line"] for it in passes if it["rank"] == rank] != done:
            return False
    return True


def fault_of_waits(text, objects):
    """What is wrong with the ranks that are shown to wait; nothing where all is right."""
    there, shown = reading.Reading(text), {it["rank"]: it for it in objects[:-1]}
    waits = {rank: it["line"] for rank, it in shown.items()}
    for rank, it in shown.items():
        reported, wanted = [], []
        for one in it["requests"]:
            if any(waits.get(lack["rank"]) != lack["behind"] for lack in one["lacks"]):
                return f"rank {rank}: a member waits in another line: {one}"
            lacks = {lack["rank"]: lack["line"] for lack in one["lacks"] if lack["needed"]}
            if lacks:
                reported.append((one["req"], one["kind"], one["comm"], one["place"], one["start"], one["line"], lacks))
        for number, start, lacks in there.awaited(rank, it["line"], waits):
            own = there.requests[rank][number]
            wanted.append((number, own.kind, own.comm, own.place, start, own.starts[start], lacks))
        if sorted(reported) != sorted(wanted):
            return f"rank {rank} waits for {reported} and not {wanted}"
    if shown and set(shown) | set(objects[-1]["ended"]) != set(there.groups[0]):
        return f"{sorted(shown)} wait, {objects[-1]['ended']} are at their ends"
    return ""


def picked_text(objects, text):
    """The text in which each call of a run that is shown waits for what it completes there: it must stall whatever the time."""
    lines = text.splitlines()
    for it in objects:
        if it["reason"] == "passes" and it["completes"] is not None:
            lines[it["line"] - 1] = " ".join(["waitall", *map(str, it["completes"])]) if it["completes"] else ""
    return "\n".join(lines) + "\n"


def verdict(program, text):
    ended = subprocess.run([program, "explain", "--format", "json"], input=text.encode(), capture_output=True, timeout=SECONDS)
    if ended.returncode not in (0, 3, 6):
        return f"{ended.returncode} {ended.stderr.decode()}"
    objects = [json.loads(line) for line in ended.stdout.decode().splitlines()]
    if not is_shortest(objects):
        return f"no shortest cycle: {objects[-1]['shortest']}"
    if objects[-1]["verdict"] in ("in some", "sometimes"):
        if not is_run(objects, text):
            return "no run of the text"
        if not all(run(program, picked_text(objects, text), workers)[0] for workers in (0, 2)):
            return "a run that doesn't stall"
        return objects[-1]["verdict"]
    fault = fault_of_waits(text, objects)
    if fault:
        return fault
    return objects[-1]["verdict"]


def output(program, words, text):
    """The status of the program, what it writes, and the seconds that it takes; any status but 0 and 3 is an error."""
    begin = time.monotonic()
    ended = subprocess.run([program, *words], input=text.encode(), capture_output=True, timeout=SECONDS)
    if ended.returncode not in (0, 3):
        raise ValueError(f"{ended.returncode} {ended.stderr.decode()}\n{text}")
    return ended.returncode, ended.stdout, time.monotonic() - begin


def run(program, text, workers):
    """Whether a run stalls, and the seconds that it takes; other values than those of `plain` are an error."""
    status, values, seconds = output(program, ["run", "--workers", str(workers)], text)
    if status == 0 and values != output(program, ["plain"], text)[1]:
        raise ValueError(f"other values than those of plain:\n{text}")
    return status == 3, seconds


def texts_of_part():
    """The texts with their numbers."""
    rng = random.Random(WORDS.seed)
    part, parts = map(int, WORDS.part.split("/"))
    for number in range(WORDS.texts):
        text = short_text(rng, WORDS.ranks) if WORDS.ranks else random_text(rng, 6)
        if WORDS.texts * (part - 1) // parts <= number < WORDS.texts * part // parts:
            yield number, text


def main():
    verdicts, some, each = collections.Counter(), collections.Counter(), collections.Counter()
    times = []
    for number, text in texts_of_part():
        reported = verdict(WORDS.program, text)
        runs, seconds = zip(*(run(WORDS.program, text, (number + 3 * it + it // 3) % 9) for it in range(WORDS.runs)))
        times += seconds
        wanted = {"never": [False], "never here": [False], "always here": [True], "always": [True]} | dict.fromkeys(OPEN, [False, True])
        if reported not in wanted or any(it not in wanted[reported] for it in runs):
            print(f"text {number}: {reported}, but runs stall so: {runs}\n--\n{text}")
            return 1
        verdicts[reported] += 1
        some[reported] += any(runs)
        each[reported] += all(runs)
    print(f"{sum(verdicts.values())} texts, each run {WORDS.runs} times:", ", ".join(f"{it} {verdicts[it]}" for it in verdicts))
    for it in OPEN:
        print(f"of those with the verdict '{it}' {some[it]} stalled in some run, {each[it]} in each")
    print(f"a run took {statistics.median(times):.3f} s, the longest {max(times):.3f} s, {sum(it > 1 for it in times)} took over a second")
    return 0


sys.exit(main())
