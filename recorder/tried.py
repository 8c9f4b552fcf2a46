#!/usr/bin/env python3
"""Records small programs with planted faults and right ones, and compares what where.py reports of them with what is true of them:

    recorder/tried.py               all of them with each MPI library whose compiler is found
    recorder/tried.py --short       a part of them, with one library
    recorder/tried.py NAME ..       those of these names
    recorder/tried.py --table       also a table of what is reported first
    recorder/tried.py --library L   with this library alone, openmpi or mpich
    recorder/tried.py --jobs N      N programs at a time
    recorder/tried.py --records F   the records stay in the folder F
    recorder/tried.py --again F     the records in the folder F are judged again, and nothing runs

The programs stand in tried/. One with a fault is ended as soon as no rank has begun or ended a call for a second, and any after four
minutes. A sentence is false where a right program is said to have a fault or to stall, and where a wrong one is said to have none, of the
records or of the text that join.py makes of them; a line that should have been there and wasn't counts as failed too. A program that failed
without a false sentence is run again, four times at most, since on a busy machine it may have been ended too early, and one that isn't through
then is skipped. The status is 1 where one failed. The oracle is the program that the variable COLLJOB names, or ./colljob at the top of the repository.
"""

import argparse
import collections
import concurrent.futures
import contextlib
import functools
import io
import multiprocessing
import os
import re
import shutil
import signal
import subprocess
import sys
import tempfile
import time

HERE = os.path.dirname(os.path.abspath(__file__))
sys.path[:0] = [os.path.join(HERE, "record"), os.path.join(HERE, "tried")]

import join  # noqa: E402
import text_places  # noqa: E402
from expected import OPEN_MPI_ONLY, OTHERS, PROGRAMS, SOURCES  # noqa: E402
from records import Unreadable  # noqa: E402
from standing import ASLEEP, SECOND, Now  # noqa: E402

LIBRARIES = {"mpich": [], "openmpi": ["--oversubscribe"], "default": []}
SETTINGS = {"OMPI_ALLOW_RUN_AS_ROOT": "1", "OMPI_ALLOW_RUN_AS_ROOT_CONFIRM": "1", "OMPI_MCA_mpi_yield_when_idle": "1", "OMPI_MCA_rmaps_base_oversubscribe": "1"}
# Where a rank has used RAN nanoseconds of a processor in its call without leaving it, or slept there, and its file has it in that call for a
# second, it hangs: on a machine with ten times as much to do as it has processors, 5 milliseconds were too few for making a window with MPICH,
# whose ranks give no turns away. Where no rank's time goes on, GONE seconds long, its processes have died.
SECONDS, STILL, WORKS, RAN, GONE = 240, 1.2, 2.0, 1e8, 60

# How often a program is run that failed without a false sentence, and how long what started the ranks has for their end.
TRIES, TO_END = 5, 30

# To judge a record takes a second.
JUDGED = 600

# How a run ended, what is reported of it, and what is wrong with that.
Outcome = collections.namedtuple("Outcome", "ended report failed")

# What says that a program is wrong, and what says that it isn't.
ACCUSES = re.compile(r"^fault|^a cycle|^a wait (without|for)|^stalled|^by this engine's schedules every run stalls|^warning(?!: may stall|.* may stall$)", re.M)
ACQUITS = re.compile(r"no fault: |^never stalls|let no run stall", re.M)


def call(*words):
    subprocess.run(words, check=True)


def compiler(name, language="cc"):
    """How the compiler of a library is called: Debian has one of each, others just one."""
    return f"mpi{language}" if name == "default" else f"mpi{language}.{name}"


def starter(name):
    return "mpirun" if name == "default" else f"mpirun.{name}"


def there(only):
    """The libraries that are there."""
    found = [name for name in LIBRARIES if shutil.which(compiler(name)) and shutil.which(starter(name)) and only in (None, name)]
    return [name for name in found if name != "default"] or found


def write(path, text):
    os.makedirs(os.path.dirname(path), exist_ok=True)
    with open(path, "w") as file:
        file.write(text)


def read(path):
    """What a file has; nothing where there is none."""
    try:
        with open(path) as file:
            return file.read()
    except OSError:
        return ""


def is_newer(made, *sources):
    return os.path.exists(made) and all(os.path.getmtime(made) > os.path.getmtime(source) for source in sources)


class Library:
    """The programs built for one MPI library, unless records are judged again."""

    def __init__(self, name, folder, again):
        self.name, self.folder = name, folder
        if again:
            return
        self.out = f"{HERE}/out/{name}"
        call("make", "-s", "-C", HERE, f"MPICC={compiler(name)}", f"OUT=out/{name}", f"out/{name}/librecord.so")
        for source in SOURCES:
            program = f"{folder}/{source[:-2]}.{name}"
            if not is_newer(program, f"{HERE}/tried/{source}", f"{HERE}/tried/tried.h"):
                # (Compilers warn of some of the faults, each of others.)
                call(compiler(name), "-std=c11", "-g", "-w", f"{HERE}/tried/{source}", "-o", program, "-lpthread")

    def command(self, name):
        """How a program is called, or None where it can't be here."""
        if name in OPEN_MPI_ONLY and self.name != "openmpi":
            return None
        if name not in OTHERS:
            return [f"{self.folder}/{source_of(name)[:-2]}.{self.name}", name]
        file, libraries = OTHERS[name]
        if self.name not in libraries:
            return None
        if file.endswith(".py"):
            there = subprocess.run(["/usr/bin/python3", "-c", "import mpi4py"], capture_output=True)
            return None if there.returncode else ["/usr/bin/python3", f"{HERE}/tried/{file}"]
        if not shutil.which(compiler(self.name, "f90")):
            return None
        call(compiler(self.name, "f90"), "-g", f"{HERE}/tried/{file}", f"-J{self.folder}", "-o", f"{self.folder}/{name}.{self.name}")
        return [f"{self.folder}/{name}.{self.name}"]

    def starts(self):
        """Whether programs can be started here at all."""
        command = [starter(self.name), *LIBRARIES[self.name], "-n", "2", *self.command("right_packed")]
        try:
            return subprocess.run(command, stdin=subprocess.DEVNULL, capture_output=True, timeout=SECONDS, env=dict(os.environ, **SETTINGS)).returncode == 0
        except subprocess.TimeoutExpired:
            return False

    def record(self, name, command, ranks, records):
        """How the run ended."""
        environment = dict(os.environ, **SETTINGS, TRIED_FILE=f"{self.folder}/{name}.data")
        command = [starter(self.name), *LIBRARIES[self.name], "-n", str(ranks), "env", f"LD_PRELOAD={self.out}/librecord.so", f"RECORD_DIR={records}", *command]
        run = subprocess.Popen(command, stdin=subprocess.DEVNULL, stdout=subprocess.DEVNULL, stderr=subprocess.DEVNULL, env=environment, start_new_session=True)
        try:
            return watch(run, records, ranks, WORKS if name.startswith("ended") or name == "endless_tests" else None, not name.startswith("right"))
        finally:
            end(run)


def end(run):
    """Ends the run's own processes, and no others."""
    if run.poll() is None:
        run.terminate()
        try:
            run.wait(TO_END)
        except subprocess.TimeoutExpired:
            pass
    try:
        os.killpg(run.pid, signal.SIGKILL)
    except ProcessLookupError:
        pass
    run.wait()


def watch(run, records, ranks, works, may_hang):
    """Waits for the end of a run, or until no rank has begun or ended a call for a while, though all had their turns. The processes may be gone
    while what started them still waits."""
    begin, changed, before, beaten, beats = time.monotonic(), time.monotonic(), None, time.monotonic(), None
    while time.monotonic() - begin < SECONDS:
        try:
            return f"ended with status {run.wait(0.2)}"
        except subprocess.TimeoutExpired:
            pass
        nows = [Now(f"{records}/now.{rank}", None) for rank in range(ranks)]
        standings = [now.threads for now in nows]
        now = [[thread.since for thread in threads] for threads in standings]
        if now != before or [] in now:
            changed, before = time.monotonic(), now
        if beats != [it.beat for it in nows] or [] in now:
            beaten, beats = time.monotonic(), [it.beat for it in nows]
        if may_hang and time.monotonic() - changed > STILL and all(hangs(it, thread) for it in nows for thread in it.threads):
            return "hung"
        if time.monotonic() - beaten > GONE:
            return "died"
        if works and [] not in now:
            time.sleep(works)
            return "was ended"
    return f"not through in {SECONDS} seconds"


def hangs(now, thread):
    """Whether a rank's thread doesn't come out of its call, and the rank's file says so."""
    return thread.name == "MPI_Finalize" or (thread.ran >= RAN or thread.asleep >= ASLEEP) and now.beat >= thread.since + SECOND


def source_of(name):
    if name in OTHERS:
        return OTHERS[name][0]
    names = list(PROGRAMS)
    return next(source for source, first in reversed(SOURCES.items()) if names.index(first) <= names.index(name))


def marks(name):
    """The marked lines of a program, by their letters."""
    source = source_of(name)
    found, inside = {}, name in OTHERS
    with open(f"{HERE}/tried/{source}") as file:
        for number, line in enumerate(file, 1):
            if line.startswith("static"):
                inside = line.startswith(f"static void {name}(")
            for letter in re.findall(r"(?:/\*|!|#) ([AB])(?: \*/|$)", line) if inside else ():
                found[letter] = f"{source}:{number}"
    return found


# What is true of a program whose only fault is one that isn't judged, or that was warned of.
BESIDE = re.compile(r"^no fault: the collective calls agree, and by themselves .*|^no fault beside .*", re.M)


def falsehoods(name, report, of=""):
    """What is false of a report."""
    if name.startswith(("right", "ended")):
        return [f"FALSE{of}: a right program is accused"] if ACCUSES.search(report) else []
    is_beside = name.startswith("unsafe") or "\nwarning: " in report
    return [f"FALSE{of}: a wrong program is said to be right"] if ACQUITS.search(BESIDE.sub("", report) if is_beside else report) else []


def failings(name, program, report, status):
    """What is wrong with a report: false sentences, then lines that lack."""
    text = report
    for letter, place in marks(name).items():
        text = text.replace(place, "{" + letter + "}")
    found = falsehoods(name, report)
    found += [f"not there: {want}" for want in program.wants if want not in text]
    if program.status is not None and status != program.status:
        found.append(f"status {status}, not {program.status}")
    return found


def oracle():
    return os.environ.get("COLLJOB", f"{HERE}/../colljob")


def has_oracle():
    """Whether colljob answers here: it says what lets runs stall."""
    with tempfile.NamedTemporaryFile("w", suffix=".job") as text:
        text.write("ranks 1\n")
        text.flush()
        try:
            return subprocess.run([oracle(), "plain", text.name], capture_output=True).returncode == 0
        except OSError:
            return False


def judge(records):
    try:
        run = subprocess.run([sys.executable, f"{HERE}/record/where.py", records], capture_output=True, text=True, timeout=JUDGED)
    except subprocess.TimeoutExpired:
        return f"where.py isn't through in {JUDGED} seconds", None
    return run.stdout + run.stderr, run.returncode


def judge_text(records):
    """What is reported of the text that is made of the records."""
    words, path = sys.argv, f"{records}/text.job"
    try:
        sys.argv = ["join.py", records]
        with open(path, "w") as text, contextlib.redirect_stdout(text), contextlib.redirect_stderr(io.StringIO()):
            join.main()
    finally:
        sys.argv = words
    with contextlib.suppress(Unreadable):
        return "".join(f"{line}\n" for line in text_places.tell(path, oracle())[0])
    return ""


def first_words(report):
    """What is reported first of a fault, a wait or none."""
    lines = [line for line in report.splitlines() if ACCUSES.search(line) or re.match(r"no fault|not sure|others wait|stalls aren't|.*didn't come out of it", line)]
    return lines[0] if lines else report.splitlines()[-1] if report else "nothing"


def try_one(library, name, folder, again):
    """The outcome of one run of a program, or of the records that were kept of it; None where there is none."""
    records, program = f"{folder}/record.{library.name}.{name}", PROGRAMS[name]
    if not again:
        command = library.command(name)
        if not command:
            return None
        shutil.rmtree(records, ignore_errors=True)
        ended = library.record(name, command, program.ranks, records)
        write(f"{records}/ended", ended)
    elif not os.path.isdir(records):
        return None
    else:
        ended = read(f"{records}/ended") or "ended"
    report, status = judge(records)
    failed = failings(name, program, report, status)
    if not name.endswith("first_of_two"):
        # Of this one a text says what the library chose, as if another library must choose the same.
        failed += falsehoods(name, judge_text(records), " of the text")
    return Outcome(ended, report, failed)


def built(name, folder, again):
    """A library with its programs, or None where these can't be built."""
    try:
        return Library(name, folder, again)
    except subprocess.CalledProcessError as error:
        print(f"FAILED: {name}: {' '.join(error.cmd)} ended with status {error.returncode}", flush=True)
        return None


def is_false(outcome):
    return any(it.startswith("FALSE") for it in outcome.failed)


def try_again(library, name, folder, again):
    """The same, of a further run where one failed without a false sentence."""
    for turn in range(TRIES):
        outcome = try_one(library, name, folder, again)
        if not outcome or not outcome.failed or is_false(outcome) or again or turn > 0 and outcome.ended.startswith("not through"):
            break
        print(f"{name}, {library.name}: {outcome.ended}, {'; '.join(outcome.failed)}", file=sys.stderr)
    return outcome


def count(library, name, outcome, counts):
    """Counts an outcome, and says what failed or was skipped."""
    if outcome.failed and not is_false(outcome) and outcome.ended.startswith("not through"):
        print(f"skipped: {name}, {library.name}: {outcome.ended}: this machine has too much to do", flush=True)
        return
    counts[bool(outcome.failed)] += 1
    counts["false"] += is_false(outcome)
    print(f"{name}, {library.name}: {short(outcome.ended)}, {'failed' if outcome.failed else 'passed'}", file=sys.stderr)
    if outcome.failed:
        print(f"FAILED: {name}, {library.name}, {PROGRAMS[name].ranks} ranks, {outcome.ended}: {'; '.join(outcome.failed)}\n    " + outcome.report.strip().replace("\n", "\n    "), flush=True)


def short(ended):
    return "ends" if ended == "ended with status 0" else ended.replace("ended with ", "").split(" in ")[0]


def table_lines(table, libraries):
    """A row for what is reported first, of each library where these differ, with the programs of which it is and how they end."""
    groups = {}
    for name in dict.fromkeys(name for name, _ in table):
        found = {library: table.get((name, library), ("not run", None)) for library in libraries}
        words = {library: first for library, (_, first) in found.items() if first}
        alike = len(set(words.values())) == 1
        reported = next(iter(words.values())) if alike else "; ".join(f"{library}: {first}" for library, first in words.items())
        ends = "; ".join(ended for ended, _ in found.values())
        groups.setdefault(reported, {}).setdefault(ends, []).append(f"{name} {PROGRAMS[name].ranks}")
    yield f"| Reported first | Programs and ranks (how they end with {'; with '.join(libraries)}) |"
    yield "|---|---|"
    for reported, programs in groups.items():
        yield f"| {reported} | " + ". ".join(f"{', '.join(names)} ({ends})" for ends, names in programs.items()) + " |"


def outcomes(library, names, folder, words):
    """The programs' names and outcomes. Several are tried at a time by processes of their own."""
    if words.jobs == 1:
        yield from ((name, try_again(library, name, folder, words.again)) for name in names)
        return
    with concurrent.futures.ProcessPoolExecutor(words.jobs) as pool:
        try:
            yield from zip(names, pool.map(functools.partial(try_again, library, folder=folder, again=words.again), names))
        except BaseException:
            pool.shutdown(wait=False)
            for process in multiprocessing.active_children():  # each ends its run
                process.terminate()
            raise


def parsed_words():
    parser = argparse.ArgumentParser(description="Records small programs, and compares what is reported of them with what is true.")
    parser.add_argument("names", nargs="*", metavar="NAME")
    parser.add_argument("--short", action="store_true", help="a part of them, with one library")
    parser.add_argument("--table", action="store_true", help="also a table of what is reported first")
    parser.add_argument("--library", choices=LIBRARIES)
    parser.add_argument("--jobs", type=int, default=1, help="how many programs are tried at a time")
    parser.add_argument("--records", metavar="FOLDER", help="where the records stay")
    parser.add_argument("--again", metavar="FOLDER", help="judges the records there again, and runs nothing")
    words = parser.parse_args()
    unknown = set(words.names) - set(PROGRAMS)
    if unknown:
        sys.exit(f"no program has the name {', '.join(sorted(unknown))}: they are {', '.join(PROGRAMS)}")
    return words


def main():
    words = parsed_words()
    # Whoever ends this ends the run that is under way too.
    signal.signal(signal.SIGTERM, lambda *_: sys.exit(1))
    names = [name for name, program in PROGRAMS.items() if (name in words.names if words.names else program.short or not words.short)]
    libraries = there(words.library)
    lacking = "no MPI compiler is there (mpicc.openmpi, mpicc.mpich or mpicc, and mpirun)" if not libraries else "colljob gives no answer here: name it by the variable COLLJOB"
    if not libraries or not has_oracle():
        print(f"skipped: recorded programs: {lacking}\n0 passed, 0 failed")
        return 0
    counts, table = collections.Counter(), {}
    with tempfile.TemporaryDirectory() as temporary:
        folder = os.path.abspath(words.again or words.records or temporary)
        os.makedirs(folder, exist_ok=True)
        for name in libraries[:1] if words.short else libraries:
            library = built(name, temporary if words.again else folder, words.again)
            if not library:
                counts[True] += 1
                continue
            if not words.again and not library.starts():
                print(f"skipped: recorded programs, {library.name}: {starter(library.name)} starts no program here")
                continue
            for program, outcome in outcomes(library, names, folder, words):
                if outcome:
                    table[program, library.name] = short(outcome.ended), first_words(outcome.report)
                    count(library, program, outcome, counts)
    if words.table:
        print("\n".join(table_lines(table, list(dict.fromkeys(library for _, library in table)))))
    if counts[True]:
        print(f"{counts['false']} of those that failed have a false sentence")
    print(f"{counts[False]} passed, {counts[True]} failed")
    return 1 if counts[True] else 0


if __name__ == "__main__":
    sys.exit(main())
