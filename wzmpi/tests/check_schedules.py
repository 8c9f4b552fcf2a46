"""Runs that deadlock where calls complete other requests, as --explain shows them and --schedule replays them, of schedules.c: for check.py."""

import concurrent.futures
import os
import re
import shutil

from checking import HERE, compiled, reported, run

TIMES = 20
AT_ONCE = 5  # runs; a loop of tests in vain is judged after two seconds
# The microseconds that rank 2 comes later than the others, in one try after the other: by the last one of them the others are there on the busiest machine.
LATER = [30000 * 2**turn for turn in range(10)]
# Of each case: the ranks, lines of the run that is shown, and where the ranks wait once it is replayed.
CASES = {
    "server": (3, ["MPI_Waitany, schedules.c:32, completes MPI_Igather, schedules.c:18", "MPI_Igather, schedules.c:18"], ["MPI_Waitany at schedules.c:34", "MPI_Barrier at schedules.c:36"]),
    "event_loop": (3, ["MPI_Testsome, schedules.c:50, completes MPI_Ibcast, schedules.c:42 and MPI_Ibcast, schedules.c:42"], ["tests in vain in MPI_Testsome at schedules.c:50", "MPI_Barrier at schedules.c:64"]),
    "race": (2, ["MPI_Waitany, schedules.c:77, completes MPI_Ibarrier, schedules.c:76"], ["rank 0 waits in MPI_Waitany at schedules.c:79", "rank 1 waits in MPI_Waitany at schedules.c:79"]),
}
# What `--schedule FILE` says of a file that is no schedule of three ranks.
BAD = {
    "": "not a schedule, which begins with `ranks N`",
    "rank 0\n": "not a schedule, which begins with `ranks N`",
    "ranks 2\nend\n": "it is of 2 ranks, and this run has 3: -n 2",
    "ranks 65\nend\n": "not a schedule, which begins with `ranks N`",
    "ranks 3\nrank 0\n": "it was cut: its last line isn't `end` or `end deadlock`",
    "ranks 3\nend\nrank 0\n": "line 3: something stands behind its end",
    "ranks 3\nrank 3\nend\n": "line 2: there is no such rank",
    "ranks 3\nrank 1\nrank 1\nend\n": "line 3: the rank has a section already",
    "ranks 3\nMPI_Waitany, a.c:1: waits\nend\n": "line 2: it stands in no rank's section",
    **{f"ranks 3\nrank 0\n{it}\nend\n": "line 3: not CALL, FILE:LINE: completes INDEX .., completes nothing, from RANK, or waits" for it in (
        "MPI_Waitany a.c:1 waits", "MPI_Waitany, a.c:1: completes", "MPI_Waitany, a.c:1: completes x", "MPI_Waitany, a.c:1: completes 99999999999",
        "MPI_Waitany, a.c:1: completes 1, 0 times", "MPI_Waitany, a.c:1: completes nothing, often", "MPI_Recv, a.c:1: from", "MPI_Recv, a.c:1: from 1 2", "waitany 1")},
}


def plain(said):
    return said.replace(f"{HERE}/", "")


def ended_well(words):
    """Status and what is said of the first run that ends well; else of the last one."""
    for later in LATER:
        status, said = run([*words, str(later)])
        if status == 0:
            break
    return status, plain(said)


def explained(binaries, program, name, schedule):
    """Has the run that --explain shows written into a file, after one that ends."""
    ranks, lines, _ = CASES[name]
    status, said = ended_well([str(binaries / "wzrun"), "-n", str(ranks), "--explain", "--write-schedule", str(schedule), str(program), name])
    shown = status == 0 and "stalls in some runs (proved)" in said and "a run that stalls:" in said and all(it in said for it in lines)
    return reported(shown and schedule.read_text().endswith("end deadlock\n"), f"schedules {name}, --explain: status {status}:\n{said}")


def replayed(binaries, program, name, schedule, *more):
    ranks = CASES[name][0]
    status, said = run([str(binaries / "wzrun"), "-n", str(ranks), "--schedule", str(schedule), *more, str(program), name])
    return status, plain(said)


def check_replay(binaries, program, name, schedule):
    """The deadlock comes in each run, and without the schedule some run ends; the schedule that a replay writes is the one that it had."""
    failed, again = 0, schedule.with_suffix(".again")
    words = [["--write-schedule", str(again)] if turn == 0 else ["--seed", str(turn)] if turn % 2 else [] for turn in range(TIMES)]
    with concurrent.futures.ThreadPoolExecutor(AT_ONCE) as runs:
        ended = list(runs.map(lambda more: replayed(binaries, program, name, schedule, *more), words))
    for status, said in ended:
        right = status == 3 and said.startswith("wzrun: stalled: no rank can go on") and all(it in said for it in CASES[name][2]) and "not as in" not in said
        failed += reported(right, f"schedules {name}, --schedule: status {status}:\n{said}")
    calls = [re.sub(r"completes nothing, \d+ times", "completes nothing", it) for it in again.read_text().splitlines()]
    wanted = [re.sub(r"completes nothing, \d+ times", "completes nothing", it) for it in schedule.read_text().splitlines()]
    failed += reported([it for it in calls if "nothing" not in it] == [it for it in wanted if "nothing" not in it], f"schedules {name}: a replay writes {calls}, and had {wanted}")
    free = ended_well([str(binaries / "wzrun"), "-n", str(CASES[name][0]), str(program), name])
    return failed + reported(free[0] == 0, f"schedules {name}: without a schedule no run ends: {free}")


def check_altered(binaries, program, out, schedule):
    """Schedules of the server that don't fit it: each is reported with the rank, the call and its line."""
    text, failed = schedule.read_text(), 0
    line = text.splitlines().index(next(it for it in text.splitlines() if "completes 1" in it)) + 1
    call = re.search(r"MPI_Waitany, (.*:32): completes 1\n", text)
    for altered, wanted in {
        text.replace("completes 1", "completes 0"): (f"wzrun: rank 0: MPI_Waitany at schedules.c:34 can't do what {{}} has in line {line + 1}: one of its list is done", 1),
        text.replace("completes 1", "completes 2"): (f"wzrun: rank 0: MPI_Waitany at schedules.c:32 can't do what {{}} has in line {line}: its list has no such active request", 1),
        text.replace("completes 1", "completes 0 0"): (f"wzrun: rank 0: MPI_Waitany at schedules.c:32 can't do what {{}} has in line {line}: a request stands twice there", 1),
        text.replace("completes 1", "completes 1 0"): (f"wzrun: rank 0: MPI_Waitany at schedules.c:32 can't do what {{}} has in line {line}: it completes one request", 1),
        text.replace("completes 1", "completes nothing"): (f"wzrun: rank 0: MPI_Waitany at schedules.c:32 can't do what {{}} has in line {line}: some of its list are active", 1),
        text.replace("MPI_Waitany", "MPI_Waitsome"): (f"wzrun: rank 0: MPI_Waitany at schedules.c:32 can't do what {{}} has in line {line}: the schedule has another call", 1),
        text.replace(": waits", ": completes 0"): (f"wzrun: rank 0: MPI_Waitany at schedules.c:34 can't do what {{}} has in line {line + 1}: what it is to complete isn't done, and those for whom it waits can't go on", 1),
        text.replace("rank 1\n", f"rank 1\n{call[0]}"): (f"  (not as in {{}}: rank 1 hasn't come to its line {line + 3}: MPI_Waitany, schedules.c:32)", 3),
        re.sub(r"(?m)^MPI_.*\n", "", text): ("wzrun: all calls were as in {}, whose run deadlocked, and this one ended", 1),
        re.sub(r"(?m)^MPI_.*\n", "", text).replace("rank 1\n", f"rank 1\n{call[0]}"): (f"wzrun: rank 1 ended before it came to line {line + 1} of {{}}: MPI_Waitany, schedules.c:32", 1),
    }.items():
        path = out / "altered"
        path.write_text(altered)
        status, said = replayed(binaries, program, "server", path)
        failed += reported(status == wanted[1] and wanted[0].format(path) in said, f"schedules server, altered: status {status}, not {wanted}:\n{said}")
    return failed


def check_files(binaries, program, out):
    failed = 0
    path = out / "bad"
    for text, why in BAD.items():
        path.write_text(text)
        status, said = replayed(binaries, program, "server", path)
        failed += reported((status, said) == (1, f"wzrun: {path}: {why}\n"), f"--schedule of {text!r}: status {status}: {said}")
    for there, why in ((out / "nowhere", "No such file or directory"), (out, "Is a directory")):
        status, said = replayed(binaries, program, "server", there)
        failed += reported((status, said) == (1, f"wzrun: {there}: {why}\n"), f"--schedule {there}: status {status}: {said}")
    status, said = run([str(binaries / "wzrun"), "-n", "2", "--write-schedule", str(out / "no" / "where"), str(program), "harmless"])
    return failed + reported(status == 1 and said == f"wzrun: {out / 'no' / 'where'}: it can't be written\n", f"--write-schedule into no folder: status {status}: {said}")


def check_right(binaries, program, out):
    """A run that ends well is replayed, loops of tests with it; and where no run deadlocks, nothing is said."""
    kept, failed = out / "harmless", 0
    for seed in range(1, 11):
        status, said = run([str(binaries / "wzrun"), "-n", "3", "--seed", str(seed), "--write-schedule", str(kept), str(program), "harmless"])
        again = run([str(program), "harmless"], env={**os.environ, "WZ_RANKS": "3", "WZ_SCHEDULE": str(kept), "WZ_WRITE_SCHEDULE": f"{kept}.again"})
        same = kept.read_text() == (out / "harmless.again").read_text() and kept.read_text().endswith("\nend\n")
        failed += reported((status, said, *again) == (0, "", 0, "") and same, f"schedules harmless, seed {seed}: status {status}, {said}, and replayed {again}, the same: {same}")
    return failed


def check_messages(binaries, program, out):
    """Whose message a receive or a probe from any rank gets is a choice, too."""
    kept, failed, words = out / "first_come", 0, [str(binaries / "wzrun"), "-n", "3"]
    status, said = ended_well([*words, "--write-schedule", str(kept), str(program), "first_come"])
    lines = plain(kept.read_text()).splitlines()
    sources = [it for it in lines if ": from " in it]
    failed += reported((status, said) == (0, "") and [it.split(":")[0] for it in sources] == ["MPI_Iprobe, schedules.c", *3 * ["MPI_Recv, schedules.c"]], f"schedules first_come: status {status}: {said}{lines}")
    probe, receive = (re.search(rf"(?m)^{call}, .*(?=: from )", kept.read_text())[0] for call in ("MPI_Iprobe", "MPI_Recv"))
    for first, second, wanted in ((2, 1, "waits in MPI_Recv at"), (2, 2, None), (1, 1, None)):
        kept.write_text(f"ranks 3\nrank 0\n{probe}: completes nothing, 3 times\n{probe}: from {first}\n{receive}: from {second}\nend{' deadlock' if wanted else ''}\n")
        for _ in range(TIMES):
            status, said = run([*words, "--schedule", str(kept), str(program), "first_come"])
            failed += reported(status == 3 and wanted in said and "not as in" not in said if wanted else (status, said) == (0, ""), f"schedules first_come, {first} and {second}: status {status}: {said}")
    for second, why in ((3, "there is no such rank in the communicator"), (0, "what it is to complete isn't done, and those for whom it waits can't go on")):
        kept.write_text(f"ranks 3\nrank 0\n{probe}: from 2\n{receive}: from {second}\nend\n")
        status, said = run([*words, "--schedule", str(kept), str(program), "first_come"])
        failed += reported(status == 1 and f"rank 0: MPI_Recv at {receive.split(', ')[1]} can't do what {kept} has in line 4: {why}\n" in said, f"schedules first_come, from {second}: status {status}: {said}")
    return failed


def check_debugger(binaries, program, schedule):
    if shutil.which("gdb") is None:
        print("check.py: there is no gdb, so --schedule isn't tried with it")
        return 0
    if run(["gdb", "-q", "-batch", "-ex", "break main", "-ex", "run", "-ex", "next", "--args", str(binaries / "wzrun")])[0] != 0:
        print("check.py: gdb can't run programs here, so --schedule isn't tried with it")
        return 0
    words = ["gdb", "-q", "-batch", "-ex", "set breakpoint pending on", "-ex", "set debuginfod enabled off", "-ex", "break schedules.c:33", "-ex", "run", "-ex", "print which", "-ex", "continue", "--args"]
    status, said = run([*words, str(binaries / "wzrun"), "-n", "3", "--schedule", str(schedule), str(program), "server"])
    return reported("$1 = 1\n" in said and "wzrun: stalled: no rank can go on" in said, f"schedules server under gdb: status {status}:\n{said}")


def check(binaries, out):
    program = compiled(binaries, HERE / "schedules.c", out / "schedules")
    failed = check_files(binaries, program, out) + check_right(binaries, program, out) + check_messages(binaries, program, out)
    if shutil.which(os.environ.get("COLLJOB", "colljob")) is None:
        print("check.py: there is no colljob in PATH or COLLJOB, so runs that deadlock aren't looked for")
    else:
        status, said = run([str(binaries / "wzrun"), "-n", "3", "--explain", str(program), "harmless"])
        failed += reported((status, said) == (0, ""), f"schedules harmless, --explain: status {status}:\n{said}")
        for name in CASES:
            failed += explained(binaries, program, name, out / name)
            failed += check_replay(binaries, program, name, out / name)
        failed += check_altered(binaries, program, out, out / "server") + check_debugger(binaries, program, out / "server")
    print("check.py: runs that deadlock are shown and replayed" if failed == 0 else f"check.py: {failed} runs aren't shown or replayed as they should be")
    return failed
