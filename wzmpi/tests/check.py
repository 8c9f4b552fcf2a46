#!/usr/bin/env python3
"""Runs the tests of this folder over the tools in a folder, and compares what they say and end with:

    tests/check.py BIN [--write] [--only WORD ..]

tests/wrong.c has programs with one planted mistake each, and tests/wrong.want what is said of them; tests/right.c and tests/right_edges.c
have programs without, of which nothing is said; examples/*.c are those of docs/WZRUN.md. tests/explained.want has what wzrun adds to
colljob's words under --explain, where COLLJOB or PATH names colljob; else that isn't checked. --write writes both files anew: read what
changed. Ends with 0 where all is as it should be.
"""

import json
import os
import pathlib
import re
import shutil
import sys
import tempfile

import check_calling
import check_processes
import check_sanitizers
import check_schedules
import check_standing
import check_thorough
import check_threads
from checking import HERE, compiled, run

NAME_LINE = re.compile(r"== (.*): status (\d+)")

# How each wrong program is run that isn't run as `wzrun -n 3`.
OPTIONS = {
    "changed": "-n 2 --check", "lucky_bcasts": "-n 2 --strict", "lucky_sends": "-n 2 --strict", "receives_first": "-n 2", "truncated": "-n 2", "other_type": "-n 2",
    "in_place": "-n 2", "start_twice": "-n 1", "stale": "-n 1", "free_nonblocking": "-n 1", "twice_in_list": "-n 1", "finalized": "-n 1", "uncommitted": "-n 1",
    "freed_type": "-n 1", "freed_operation": "-n 1", "null_communicator": "-n 1", "freed_communicator": "-n 1", "unequal": "-n 1", "no_topology": "-n 1",
    "same_buffer": "-n 1", "overlap": "-n 2", "not_for_type": "-n 1", "no_root": "-n 1", "negative": "-n 1", "never_completed": "-n 1",
    "null_counts": "-n 1", "null_places": "-n 1", "null_types": "-n 1", "null_among_counts": "-n 1", "changed_send": "-n 2 --check", "changed_outcome": "-n 2 --check",
    "changed_carried": "-n 2 --check", "changed_receive": "-n 2 --check", "too_many": "-n 2", "neighbors": "-n 2", "null_buffer": "-n 2", "told_by_code": "-n 2", "never_received": "-n 2", "gatherv": "-n 3", "inits": "-n 1", "late_room": "-n 2",
}
# Those that --explain is tried with.
EXPLAINED = ["root", "blocking", "lacking", "crossed", "missing_start", "missing_split", "any_of_two", "receives_first", "lucky_bcasts", "lucky_sends"]
# Other tests, each in a file of its own.
MODULES = [check_calling, check_processes, check_sanitizers, check_schedules, check_standing, check_threads]
# The programs without a mistake.
RIGHT = [HERE / "right.c", HERE / "right_edges.c"]
# The examples some of whose runs deadlock: one of that many runs ends well, however busy the machine is.
TRIES = {"server": 60}
# How many ranks each right program is run with, where these aren't 1, 2 and 5.
RIGHT_RANKS = {"many_places": [2], "threads": [2], "grid": [4, 6], "intercommunicators": [2, 3, 5], "neighbors": [1, 2, 4]}


def names_of(source):
    return re.findall(r"CASE\((\w+)\)[,}]? ?", source.read_text())


def wrong_blocks(binaries, program, only):
    """What is said of each wrong program, as tests/wrong.want has it."""
    for name in names_of(HERE / "wrong.c")[1:]:
        if only and name not in only:
            continue
        options = OPTIONS.get(name, "-n 3")
        status, said = run([str(binaries / "wzrun"), *options.split(), str(program), name])
        said = said.replace(f"{HERE}/", "tests/")
        yield name, f"== wzrun {options} wrong {name}: status {status}\n{said}"


def own_words(said):
    """What is said, without the words that are colljob's own: lines of the text stay with those of the program, and of a sentence the lines that it names.
    Where calls don't agree the run ends at once, and whether a rank's wait stands in the text before that is a matter of time: lines have no numbers there."""
    head, says, answer = said.partition(" says:\n")
    if "don't agree" in head:
        answer = re.sub(r"(?m)^ *\d+ \|", " .. |", re.sub(r"\bline \d+", "line ..", answer))
    lines = []
    for line in answer.splitlines():
        words, mark, place = line.partition("    # ")
        if mark:
            lines.append(line if re.match(r" *(\d+|\.\.) \| ", words) else f"  ..{mark}{place}")
    return head + says + "".join(f"{it}\n" for it in lines)


def explained_blocks(binaries, program, out, only):
    """What --explain says of some wrong programs, as tests/explained.want has it."""
    for name in EXPLAINED:
        if only and name not in only:
            continue
        options = OPTIONS.get(name, "-n 3")
        status, said = run([str(binaries / "wzrun"), *options.split(), "--explain", "--text", str(out / "wrong.job"), str(program), name])
        said = own_words(said.replace(f"{HERE}/", "tests/").replace(f"{out}/", ""))
        yield name, f"== wzrun {options} --explain --text wrong.job wrong {name}: status {status}\n{said}"


def read_want(path):
    blocks = re.split(r"(?m)^(?=== )", path.read_text())
    return {re.search(r"wrong (\w+):", it)[1]: it for it in blocks if it.startswith("== ")}


def compare(got, want_path, write, what):
    """How many blocks aren't as they should be."""
    if write:
        kept = read_want(want_path) if want_path.exists() else {}
        want_path.write_text("".join({**kept, **got}.values()))
        return 0
    want = read_want(want_path)
    failed = 0
    for name, block in got.items():
        if block != want.get(name):
            failed += 1
            print(f"check.py: wrong {name}: got\n{block}and not\n{want.get(name)}")
    print(f"check.py: {len(got) - failed} of {len(got)} programs with a mistake are {what} as they should be")
    return failed


def check_wrong(binaries, out, only, write):
    program = compiled(binaries, HERE / "wrong.c", out / "wrong")
    failed = compare(dict(wrong_blocks(binaries, program, only)), HERE / "wrong.want", write, "reported")
    if shutil.which(os.environ.get("COLLJOB", "colljob")) is None:
        print("check.py: there is no colljob in PATH or COLLJOB, so --explain isn't checked")
        return failed
    return failed + compare(dict(explained_blocks(binaries, program, out, only)), HERE / "explained.want", write, "explained")


# ---- what a run did

TRACED = re.compile(r"rank (\d+) (posted|initialised|started|completed|freed) +req (\d+) on (.*) place (\d+)( start (\d+))? ?(\w*).*  # MPI_\w+, .*right\.c:\d+.*")
# The collectives that no member has done before all have called them.
ALL_CALL = {"barrier", "allgather", "allgatherv", "alltoall", "allreduce", "rsblock"}


def faults_of_trace(path, ranks):
    """What isn't so of a trace: each start is completed once, and later; a rank's requests are numbered in order; who needs all members has them before."""
    begun, ended, made, called = {}, set(), {rank: 0 for rank in range(ranks)}, {}
    for line in path.read_text().splitlines():
        match = TRACED.fullmatch(line)
        if match is None:
            yield f"a line that isn't one: {line}"
            continue
        rank, word, request, start, place = int(match[1]), match[2], int(match[3]), int(match[7] or 0), int(match[5])
        if word in ("posted", "initialised") and request != made[rank]:
            yield f"a request out of order: {line}"
        made[rank] += word in ("posted", "initialised")
        if word in ("posted", "started"):
            begun[rank, request, start] = line
        if word == "posted" and match[4] == "MPI_COMM_WORLD" and match[8] in ALL_CALL:
            called.setdefault(place, set()).add(rank)
        if word == "completed" and match[4] == "MPI_COMM_WORLD" and len(called.get(place, range(ranks))) < ranks:
            yield f"completed before all have called it: {line}"
        if word == "completed" and ((rank, request, start) not in begun or (rank, request, start) in ended):
            yield f"a completion of nothing: {line}"
        if word == "completed":
            ended.add((rank, request, start))
    if set(begun) != ended:
        yield f"{len(begun)} starts, {len(ended)} completions"


def faults_of_timeline(path, trace, ranks):
    """What isn't so of a timeline: bars of one lane don't overlap, and each post and start of the trace has its bar."""
    lanes, bars = {}, 0
    for event in json.loads(path.read_text())["traceEvents"]:
        if event["ph"] != "X":
            continue
        bars += event["cat"].endswith("collective")
        if not 0 <= event["pid"] < ranks or event["dur"] < 0:
            yield f"a bar of no rank, or no length: {event}"
        lanes.setdefault((event["pid"], event["tid"]), []).append((event["ts"], event["ts"] + event["dur"]))
    for lane, times in lanes.items():
        times.sort()
        if any(later[0] < earlier[1] for earlier, later in zip(times, times[1:])):
            yield f"bars overlap in lane {lane}"
    begun = sum(line.split()[2] in ("posted", "started") for line in trace.read_text().splitlines())
    if bars != begun:
        yield f"{bars} bars for {begun} posts and starts"


def check_notes(binaries, out):
    """Whether --trace, --timeline and --stats say what a run did."""
    program, failed = compiled(binaries, HERE / "right.c", out / "right"), 0
    trace, timeline = out / "trace", out / "timeline.json"
    for name in ("all_kinds", "requests", "persistent", "doubles", "intercommunicators", "messages"):
        status, said = run([str(binaries / "wzrun"), "-n", "3", "--stats", "--trace", str(trace), "--timeline", str(timeline), str(program), name])
        faults = [*faults_of_trace(trace, 3), *faults_of_timeline(timeline, trace, 3)]
        row = re.search(r"(?m)^ +all +(\d+) +(\d+) +(\d+) +(\d+) ", said)
        if status != 0 or row is None or int(row[1]) + int(row[3]) != int(row[4]):
            faults.append(f"status {status}, and --stats says {said}")
        failed += bool(faults)
        for fault in faults:
            print(f"check.py: right {name}: {fault}")
    print("check.py: traces, timelines and statistics are as they should be" if failed == 0 else f"check.py: {failed} runs have other traces, timelines or statistics")
    return failed


def right_programs(binaries, out, only):
    for source in RIGHT:
        program = compiled(binaries, source, out / source.stem)
        for name in names_of(source)[1:]:
            if not only or name in only:
                yield name, program


def check_right(binaries, out, only):
    failed, all_runs = 0, 0
    for name, program in right_programs(binaries, out, only):
        for ranks in RIGHT_RANKS.get(name, [1, 2, 5]):
            for more in ([], ["--strict", "--check"], ["--seed", "7"], ["--progress", "2"]):
                if name == "many_places" and more:
                    continue
                all_runs += 1
                status, said = run([str(binaries / "wzrun"), "-n", str(ranks), *more, str(program), name])
                if status != 0 or said:
                    failed += 1
                    print(f"check.py: right {name}, {ranks} ranks, {more}: status {status}: {said}")
    print(f"check.py: {all_runs - failed} of {all_runs} runs of right programs end well, with nothing said")
    return failed


def check_examples(binaries, out):
    failed = 0
    for source in sorted((HERE.parent / "examples").glob("*.c*")):
        if source.suffix == ".cpp" and shutil.which((os.environ.get("WZ_CXX") or "c++").split()[0]) is None:
            print(f"check.py: there is no C++ compiler, so {source.name} isn't checked")
            continue
        program = compiled(binaries, source, out / source.stem)
        head = source.read_text().split("*/")[0]
        words = re.search(r"wzrun (.*?) \./(\w+)", head)
        status = int(re.search(r"status (\d+)", head)[1])
        for _ in range(TRIES.get(source.stem, 1)):
            got, said = run([str(binaries / "wzrun"), *words[1].split(), str(program)])
            if got == status:
                break
        lines = [it.strip()[2:] for it in head.splitlines() if it.strip().startswith("> ")]
        if got != status or said.replace(f"{source.parent}/", "").splitlines() != lines:
            failed += 1
            print(f"check.py: {source.name}: status {got}:\n{said}and not {status}:\n" + "\n".join(lines))
    print("check.py: the examples say what they should" if failed == 0 else f"check.py: {failed} examples failed")
    return failed


def check_alone(binaries, out):
    """A program without a call of MPI, as configure scripts try one, is compiled and runs by itself."""
    source = out / "alone.c"
    source.write_text("int main(void) { return 7; }\n")
    status, said = run([str(compiled(binaries, source, out / "alone"))])
    if (status, said) == (7, ""):
        return 0
    print(f"check.py: a program without a call of MPI: status {status}: {said}")
    return 1


def main():
    words = sys.argv[1:]
    write = "--write" in words
    only = words[words.index("--only") + 1 :] if "--only" in words else []
    binaries = pathlib.Path(words[0]).resolve()
    with tempfile.TemporaryDirectory() as folder:
        out = pathlib.Path(folder)
        failed = check_wrong(binaries, out, only, write) + check_thorough.check_said(binaries, out, only, write)
        if not write:
            failed += check_right(binaries, out, only)
        if not write and not only:
            failed += check_notes(binaries, out)
            failed += check_examples(binaries, out)
            failed += check_alone(binaries, out)
            failed += sum(module.check(binaries, out) for module in MODULES)
    print("check.py: all as it should be" if failed == 0 else f"check.py: {failed} failed")
    return min(failed, 1)


if __name__ == "__main__":
    sys.exit(main())
