#!/usr/bin/env python3
"""many_ranks.py COLLJOB: runs a job of 33 ranks and one of 64, and compares by value what is printed and each file that is written.

This script computes the values, the lines of the trace, the tables and the picture by itself; of the timeline it knows which bar ends before
which begins. A job in which the last rank leaves the others waiting must be reported as stalled. A drawn barrier has just the arrows of
dissemination, as text and as a picture. The last line is `N passed, N failed`; the status is 0 where none failed, else 1."""
import collections
import json
import os
import re
import subprocess
import sys
import tempfile
import time

# One more than half of an engine's most ranks, and its most.
MANY = (33, 64)
SECONDS = 600
STARTS = 2


class Checks:
    def __init__(self):
        self.passed = self.failed = 0

    def one(self, name, fault):
        """A check passes where there is no fault to tell."""
        self.passed += not fault
        self.failed += bool(fault)
        print(f"FAILED: {name}: {fault[:400]}" if fault else f"passed: {name}", flush=True)


def first_difference(said, wanted):
    """Returns the first lines that differ, or nothing."""
    said, wanted = said.splitlines(), wanted.splitlines()
    for at, (one, other) in enumerate(zip(said, wanted)):
        if one != other:
            return f"line {at + 1}: {one!r} and not {other!r}"
    return "" if len(said) == len(wanted) else f"{len(said)} lines and not {len(wanted)}"


def calls_of(rank, n):
    """Returns what a rank does, as (line, what its trace says, without the line's number)."""
    square, last = rank * rank, n - 1
    given = " ".join(str((rank + p) % 251) for p in range(n))
    got = " ".join(str((rank + p) % 251) for p in range(n))
    before = sum(range(rank + 1))
    every = " ".join(str(p) for p in range(n)) if rank == last else ""
    did = [
        (f"post 0 allreduce sum i64 1 : {square}", f"posted      req 0 comm 0 place 0 allreduce sum i64 1 : {square}"),
        (f"post 0 alltoall u8 1 : {given}", f"posted      req 1 comm 0 place 1 alltoall u8 1 : {given}"),
        ("init 0 scan sum i32 1", "initialised req 2 comm 0 place 2 scan sum i32 1"),
        ("wait 1", f"completed   req 1 comm 0 place 1 start 0 : {got}"),
        ("wait 0", f"completed   req 0 comm 0 place 0 start 0 : {sum(p * p for p in range(n))}"),
    ]
    for start in range(STARTS):
        did += [
            (f"start 2 : {rank + start}", f"started     req 2 comm 0 place 2 start {start} : {rank + start}"),
            ("wait 2", f"completed   req 2 comm 0 place 2 start {start} : {before + start * (rank + 1)}"),
        ]
    return did + [
        ("free 2", "freed       req 2 comm 0 place 2"),
        (f"post 0 gather {last} u8 1 : {rank}", f"posted      req 3 comm 0 place 3 gather {last} u8 1 : {rank}"),
        ("wait 3", f"completed   req 3 comm 0 place 3 start 0 :{' ' * bool(every)}{every}"),
    ]


def job_of(n):
    """Returns a text, what it prints, and the trace's lines of each rank."""
    text, printed, trace = [f"ranks {n}"], [], []
    for rank in range(n):
        text.append(f"rank {rank}")
        lines = []
        for line, told in calls_of(rank, n):
            text.append(line)
            lines.append(f"rank {rank} {told}  # line {len(text)}")
        trace.append(lines)
        outcomes = [re.match(r"rank \d+ completed +req (\d+) comm 0 place \d+ start (\d+) :(.*)  #", it) for it in lines]
        for req, start, values in sorted((int(it[1]), int(it[2]), it[3]) for it in outcomes if it):
            printed.append(f"rank {rank} req {req} start {start} :{values}")
    return "\n".join(text) + "\n", "\n".join(printed) + "\n", trace


def tables_of(n):
    """Returns for each rank and all of them: posts, inits, starts, completed, bytes given, bytes got."""
    rows = {}
    for rank in range(n):
        got = 8 + n + 4 * STARTS + (n if rank == n - 1 else 0)
        rows[str(rank)] = [3, 1, STARTS, 3 + STARTS, 8 + n + 4 * STARTS + 1, got]
    rows["all"] = [sum(row[at] for row in rows.values()) for at in range(6)]
    return rows


def fault_of_tables(text, n):
    lines, wanted = text.splitlines(), tables_of(n)
    found = {line.split()[0]: [int(it) for it in line.split()[1:]] for line in lines[1:n + 2]}
    for name, row in wanted.items():
        if found.get(name, [])[:6] != row:
            return f"{name}: {found.get(name)} and not {row}"
    # Each work of a schedule is somebody's.
    for at in (7, 8, 9):
        if sum(row[at] for name, row in found.items() if name != "all") != found["all"][at]:
            return f"column {at} of all isn't the sum of the ranks'"
    rounds = (n - 1).bit_length()
    scans = next((it for line in lines[n + 3:] if " scan sum" in line for it in [line.split()]), None)
    if scans is None or int(scans[2]) != STARTS or int(scans[3]) != rounds:
        return f"of the scan: {scans} and not {STARTS} times and {rounds} exchanges"
    return ""


def fault_of_trace(text, trace):
    ranks = collections.defaultdict(list)
    for line in text.splitlines():
        ranks[int(line.split()[1])].append(line)
    for rank, wanted in enumerate(trace):
        fault = first_difference("\n".join(ranks[rank]), "\n".join(wanted))
        if fault:
            return f"rank {rank}: {fault}"
    return "" if len(ranks) == len(trace) else f"{len(ranks)} ranks"


def mark_of(did, req):
    """What a call's row has in its rank's column."""
    return {"posted": "o", "started": "o", "initialised": "i", "completed": "x", "freed": "f"}[did] + str(req)


def fault_of_picture(text, trace):
    """Compares each row's mark and the bars of every rank with the trace of the same run."""
    head, *rows = text.splitlines()
    begins = [it.start() for it in re.finditer(r"rank \d+", head)] + [head.index(" line") - 1]
    if len(rows) != len(trace):
        return f"{len(rows)} rows and not {len(trace)}"
    active = collections.defaultdict(set)
    for at, (row, line) in enumerate(zip(rows, trace)):
        rank, did, req, told = re.match(r"rank (\d+) (\w+) +req (\d+) .*  # (?:line )?(\w+)", line).groups()
        rank, req = int(rank), int(req)
        cells = [row[begin:end] for begin, end in zip(begins, begins[1:])]
        if int(row[:5]) != at or not re.match(rf"\s*{told}  {did}\b", row[begins[-1]:]):
            return f"row {at}: {row[:8]!r}, {row[begins[-1]:]!r}, and not line {told}, {did}"
        if did == "completed":
            active[rank].discard(req)
        for other, cell in enumerate(cells):
            marks = cell.split()
            bars = [it for it in marks if it == "|"]
            own = [it for it in marks if it != "|"]
            if own != ([mark_of(did, req)] if other == rank else []):
                return f"row {at}, rank {other}: {cell!r} in place of {mark_of(did, req)}"
            if len(bars) != len(active[other]):
                return f"row {at}, rank {other}: {len(bars)} bars and not {len(active[other])}"
        if did in ("posted", "started"):
            active[rank].add(req)
    return ""


def fault_of_timeline(text, trace, seconds):
    """Which bar each completion has, that a rank's later calls begin after what earlier ones ended, and that a collective in which each member
    rests on all ends at nobody before the last has begun it."""
    events = json.loads(text)["traceEvents"]
    bars = {}
    for event in events:
        if event["ph"] == "X":
            args = event["args"]
            bars[event["pid"], args["req"], args["start"]] = (event["ts"], event["ts"] + event["dur"], args["line"], args["completed_in_line"])
    began, lines = {}, {}
    for rank, told in enumerate(trace):
        for line in told:
            did, req, at = re.match(r"rank \d+ (\w+) +req (\d+) .*# line (\d+)", line).groups()
            if did in ("posted", "started"):
                began[rank, int(req)] = int(at)
            elif did == "completed":
                start = int(re.search(r" start (\d+) ", line)[1])
                lines[rank, int(req), start] = (began[rank, int(req)], int(at))
    if {key: bar[2:] for key, bar in bars.items()} != lines:
        return f"the bars aren't those of the trace: {sorted(set(bars) ^ set(lines))[:3]}"
    if max(bar[1] for bar in bars.values()) > seconds * 1e6:
        return f"a bar ends after the run's {seconds:.3f} s"
    for rank in range(len(trace)):
        own = sorted(bar for key, bar in bars.items() if key[0] == rank)
        for bar in own:
            for later in own:
                if later[2] > bar[3] and later[0] < bar[1] - 0.002:
                    return f"rank {rank}: the call of line {later[2]} begins before that of line {bar[3]} has ended"
                if bar[2] < later[2] and bar[0] > later[0] + 0.002:
                    return f"rank {rank}: the call of line {later[2]} begins before that of line {bar[2]}"
    for req, start in ((0, 0), (1, 0)):
        last = max(bar[0] for key, bar in bars.items() if key[1:] == (req, start))
        first = min(bar[1] for key, bar in bars.items() if key[1:] == (req, start))
        if first < last - 0.002:
            return f"request {req} ends at {first}, before the last rank begins it at {last}"
    return ""


def arrows_of(text):
    """Returns the arrows of each round of a drawing, as pairs of members."""
    lines = text.splitlines()
    places = {it.start(): int(it[0]) for it in re.finditer(r"\d+", lines[1])}
    rounds = []
    for line in lines[2:]:
        if re.match(r"round 0|\s+\d+ ", line[:9]):
            rounds.append(set())
        for it in re.finditer(r"o(?=(<?)-+(>?)o)", line):
            to = it.end() + len(re.match(r"<?-+>?", line[it.end():])[0])
            one, other = places[it.start()], places[to]
            rounds[-1] |= ({(other, one)} if it[1] else set()) | ({(one, other)} if it[2] else set())
    return rounds


def arrows_of_picture(text):
    """Returns the same of a picture: each arrow is a line between two columns, with a head at a column to which it leads."""
    columns = [int(x) for x in re.findall(r'<text class="member" x="(\d+)"', text)]
    bands = [(int(y), int(y) + int(height)) for y, height in re.findall(r'<rect y="(\d+)" width="100%" height="(\d+)"', text)]
    heads = re.findall(r'<path d="M(\d+) (\d+)l(-?)9 -4v8z"/>', text)
    leads = {(int(x) + (1 if side else -1), int(y), bool(side)) for x, y, side in heads}
    rounds = [set() for _band in bands]
    for x1, y, x2 in re.findall(r'<line class="arrow" x1="(\d+)" y1="(\d+)" x2="(\d+)"', text):
        one, other = (min(range(len(columns)), key=lambda p: abs(columns[p] - int(x))) for x in (x1, x2))
        found = next(round for round, (begin, end) in zip(rounds, bands) if begin <= int(y) < end)
        found |= {(other, one)} if (columns[one], int(y), False) in leads else set()
        found |= {(one, other)} if (columns[other], int(y), True) in leads else set()
    return rounds


def fault_of_rounds(found, n):
    """Says how the arrows of a barrier differ from those of dissemination."""
    wanted = [{(p, (p + 2**k) % n) for p in range(n)} for k in range((n - 1).bit_length())]
    if len(found) != len(wanted):
        return f"{len(found)} rounds and not {len(wanted)}"
    for at, (one, other) in enumerate(zip(found, wanted)):
        if one != other:
            return f"round {at}: {sorted(one ^ other)[:4]}"
    return ""


def colljob(program, words, text):
    begun = time.monotonic()
    ran = subprocess.run([program, *words], input=text, capture_output=True, text=True, timeout=SECONDS, check=False)
    return ran.returncode, ran.stdout, ran.stderr, time.monotonic() - begun


def check_run(program, n, workers, checks):
    text, printed, trace = job_of(n)
    name = f"{n} ranks, {workers} progress threads"
    with tempfile.TemporaryDirectory(prefix="colljob-") as folder:
        files = {it: os.path.join(folder, it) for it in ("stats", "trace", "timeline", "picture")}
        words = ["run", "--quiet", f"--workers={workers}"]
        status, said, errors, seconds = colljob(program, [*words, *(f"--{it}={at}" for it, at in files.items())], text)
        checks.one(f"{name}: the values", f"status {status}: {errors}" if status else first_difference(said, printed))
        if status:
            return
        wrote = {}
        for it, at in files.items():
            with open(at, encoding="utf-8") as file:
                wrote[it] = file.read()
    checks.one(f"{name}: the trace", fault_of_trace(wrote["trace"], trace))
    checks.one(f"{name}: the tables", fault_of_tables(wrote["stats"], n))
    checks.one(f"{name}: the picture", fault_of_picture(wrote["picture"], wrote["trace"].splitlines()))
    checks.one(f"{name}: the timeline", fault_of_timeline(wrote["timeline"], trace, seconds))


def check_stall(program, n, workers, checks):
    """All ranks but the last wait for a sum of all."""
    text = f"ranks {n}\n" + "".join(f"rank {rank}\npost 1 barrier\nwait 0\npost 0 barrier\n" for rank in range(n - 1))
    text = text.replace("\n", "\ncomm " + " ".join(str(rank) for rank in range(n)) + "\n", 1)
    text += f"rank {n - 1}\npost 0 barrier\nwait 0\npost 1 barrier\n"
    status, said, errors, _seconds = colljob(program, ["run", "--quiet", f"--workers={workers}"], text)
    fault = "" if (status, said, errors.splitlines()[:1]) == (3, "", ["stalled"]) else f"{status}, {said[:80]!r}, {errors[:80]!r}"
    checks.one(f"{n} ranks, {workers} progress threads: all wait in vain", fault)


def main():
    program, checks = os.path.abspath(sys.argv[1]), Checks()
    for n in MANY:
        for workers in (0, 2):
            check_run(program, n, workers, checks)
            check_stall(program, n, workers, checks)
        text, printed, _trace = job_of(n)
        status, said, errors, _seconds = colljob(program, ["plain"], text)
        checks.one(f"{n} ranks: plain", f"status {status}: {errors}" if status else first_difference(said, printed))
        status, said, errors, _seconds = colljob(program, ["draw", "barrier", "--members", str(n)], "")
        checks.one(f"{n} members: the drawn barrier", f"status {status}: {errors}" if status else fault_of_rounds(arrows_of(said), n))
        status, said, errors, _seconds = colljob(program, ["draw", "barrier", "--members", str(n), "--svg"], "")
        checks.one(f"{n} members: the barrier's picture", f"status {status}: {errors}" if status else fault_of_rounds(arrows_of_picture(said), n))
    print(f"{checks.passed} passed, {checks.failed} failed")
    return int(checks.failed > 0)


if __name__ == "__main__":
    sys.exit(main())
