#!/usr/bin/env python3
"""Compares collectives of this engine with MPI libraries, in one run: medians of RUNS runs in turn, in microseconds a collective, for
2, 4 and 8 ranks. Ours are threads, theirs are processes.

    bench/mpi.py [RUNS] [--busy] [--large-pages] [--long]    (5 runs by default)

Long rows are compared in two ways, each of the same work. Kept: each collective has fresh buffers, a giver writes its row, and nothing is
freed; so `coll_bench` does it, whose trace keeps each post and outcome, and whose ranks take the memory of their rows from
`Port::alloc_row`. Used again: all collectives have the same buffers; so wzrun does it, which keeps no trace and runs the MPI program
itself.

With --busy it does so beside as many busy processes as there are processors. With --large-pages all programs, ours and theirs, take memory
by the same settings of glibc's allocator: from one heap that keeps what it has, in steps of 256 MiB, on large pages. With --long only long
rows are measured. In brackets stands how many of the runs weren't through in time: a thread that waits in a loop may keep the processor
from the one that it waits for.

Run it at the top of the repository after `rt run` in crates/coll_bench has built the program, and `make -C wzmpi` wzrun, with nothing else
beside it. Each library is measured whose compiler is found, mpicc.openmpi or mpicc.mpich (Debian's libopenmpi-dev and libmpich-dev).
"""

import os
import shutil
import signal
import statistics
import subprocess
import sys
import tempfile

HERE = os.path.dirname(os.path.abspath(__file__))
PROGRAM = os.path.join(HERE, "..", "crates", "coll_bench", "out", "coll_bench")
TOOLS = os.path.join(HERE, "..", "wzmpi", "out", "bin")
RANKS = [2, 4, 8]
LIBRARIES = {"openmpi": ["--oversubscribe"], "mpich": []}
SHORT = ["barrier", "allreduce of one i32", "persistent allreduce of one i32", "outstanding allreduces of one i32"]
# In the order of `coll_bench`, which numbers these after the short ones.
ROWS = [
    "bcast of 64 KiB",
    "bcast of 512 KiB",
    "allreduce of 512 KiB",
    "allreduce of 64 KiB",
    "allgather of 64 KiB",
    "allgather of 512 KiB",
]
KEPT, AGAIN = ([f"{row}, {way}" for row in ROWS] for way in ("kept", "used again"))
# All four are needed: a long block is a mapping of its own else, below the size of a large page.
LARGE_PAGES = ":".join(
    f"glibc.malloc.{word}" for word in ("mmap_threshold=1073741824", "trim_threshold=4294967295", "top_pad=268435456", "hugetlb=1")
)
# The seconds for one of our measures, and for all of a library's; a library that wasn't through with a number of ranks isn't tried again with it.
OUR_SECONDS, THEIR_SECONDS = 10, 60


def output(command, seconds):
    """What a command prints; nothing where it isn't through in time."""
    environment = dict(os.environ, OMPI_ALLOW_RUN_AS_ROOT="1", OMPI_ALLOW_RUN_AS_ROOT_CONFIRM="1")
    with subprocess.Popen(command, stdout=subprocess.PIPE, text=True, env=environment, start_new_session=True) as run:
        try:
            text, _ = run.communicate(timeout=seconds)
        except subprocess.TimeoutExpired:
            os.killpg(run.pid, signal.SIGKILL)
            return None
        if run.returncode != 0:
            sys.exit(f"{' '.join(command)} ended with {run.returncode}")
        return text


def ours(measures):
    """(measure, ranks) -> nanoseconds, without progress threads; none where it wasn't through."""
    found = {}
    for number, measure in enumerate(SHORT + KEPT, 1):
        if measure not in measures:
            continue
        for ranks in RANKS:
            text = output([PROGRAM, "operations", "times", str(number), str(ranks)], OUR_SECONDS)
            found[measure, ranks] = int(text) if text else None
    return found


def theirs(launcher, program, given_up, measures):
    """The same of an MPI library."""
    found = {}
    for ranks in RANKS:
        if ranks in given_up:
            continue
        words = ["long"] if SHORT[0] not in measures else []
        text = output([*launcher, "-n", str(ranks), program, *words], THEIR_SECONDS)
        if text is None:
            given_up.add(ranks)
            continue
        for line in text.splitlines():
            measure, time = line.split(": ")
            found[measure, ranks] = int(time)
    return found


def mpi_programs(folder):
    """Name -> the launcher and the program, of wzrun and of each library whose compiler is found."""
    launchers = {"wzrun": ([os.path.join(TOOLS, "wzcc")], [os.path.join(TOOLS, "wzrun")])}
    for library, options in LIBRARIES.items():
        launchers[library] = ([f"mpicc.{library}"], [f"mpirun.{library}", *options])
    made = {}
    for name, (compiler, launcher) in launchers.items():
        if shutil.which(compiler[0]):
            program = os.path.join(folder, name)
            subprocess.run([*compiler, "-O2", os.path.join(HERE, "mpi.c"), "-o", program], check=True)
            made[name] = (launcher, program)
    return made


def measured(runs, folder, measures):
    """(name, measure, ranks) -> the times of all runs."""
    programs = {"ours": lambda: ours(measures)}
    for name, (launcher, program) in mpi_programs(folder).items():
        given_up = set()
        programs[name] = lambda launcher=launcher, program=program, given_up=given_up: theirs(launcher, program, given_up, measures)
    times = {}
    for _ in range(runs):
        for name, measure in programs.items():
            for key, time in measure().items():
                times.setdefault((name, *key), []).append(time)
    return times


def cell(column):
    """The median of the runs that were through, and how many weren't."""
    through = [time for time in column if time is not None]
    late = f" ({len(column) - len(through)})" if len(through) < len(column) else ""
    return f"{statistics.median(through) / 1000:.1f}{late}" if through else f"-{late}"


def main():
    if "--help" in sys.argv:
        print(__doc__)
        return
    options = {"--busy", "--large-pages", "--long"}
    words = [word for word in sys.argv[1:] if word not in options]
    if len(words) > 1 or not all(word.isdigit() and int(word) > 0 for word in words):
        sys.exit("mpi.py: [RUNS] [--busy] [--large-pages] [--long]")
    if not os.path.exists(PROGRAM):
        sys.exit(f"{PROGRAM} isn't built: call `rt run` in crates/coll_bench first")
    if "--large-pages" in sys.argv:
        os.environ["GLIBC_TUNABLES"] = LARGE_PAGES
    runs = int(words[0]) if words else 5
    measures = KEPT + AGAIN if "--long" in sys.argv else SHORT + KEPT + AGAIN
    count = len(os.sched_getaffinity(0)) if "--busy" in sys.argv else 0
    busy = [subprocess.Popen([sys.executable, "-c", "while True: pass"]) for _ in range(count)]
    try:
        with tempfile.TemporaryDirectory() as folder:
            times = measured(runs, folder, measures)
    finally:
        for process in busy:
            process.kill()
            process.wait()
    print("allocator of all:", os.environ.get("GLIBC_TUNABLES", "as glibc sets it"))
    for name in dict.fromkeys(key[0] for key in times):
        print(name)
        for measure in measures:
            if any((name, measure, ranks) in times for ranks in RANKS):
                print(f"  {measure}:", *(cell(times.get((name, measure, ranks), [])) for ranks in RANKS))


if __name__ == "__main__":
    main()
