#!/usr/bin/env python3
"""Compares small collectives through the C library with MPI libraries, in one run: medians of RUNS runs in turn, in
microseconds an operation of all ranks, for 1, 2, 4 and 8 ranks. Ours are one thread that plays all ranks, and a thread for each;
theirs are processes.

    bench/c_interface.py [RUNS]    (3 by default)

With `samples` after RUNS each thread of the shim has a processor of its own, for 2 and 4 ranks, and of 400 samples of 40 operations the
lowest tenth counts: that can be compared on a machine that does other work too. WZ_HEADERS names a folder with other headers.

With `waits` after RUNS it compares how ranks wait, on the machine as it is and beside as many busy processes as it has processors: medians of small
operations by 2, 4 and 8 ranks, with the time that nine of ten stay below in brackets, ours and each MPI library's interleaved. `idle`, `busy` and numbers of
ranks after `waits` choose some of these. WZ_BEFORE="HEADERS:LIBRARY .." adds other states of ours, each named by its folder of headers,
WZ_TRIED="0 200 WZ_FEW_LOOKS=20,WZ_LOOKS=2000" the shim with other numbers of looks before a thread sleeps, or with other macros, and WZ_WITHOUT="mpich"
leaves programs out. WZ_SECONDS is how long each measure is repeated (0.7).

A run that isn't through in WZ_LIMIT seconds (15) is ended, and left out.

With `rows` after RUNS it compares sums of rows of 1 to 256 KiB under the shim instead, where combinations are computed with the lock
free and where they aren't, by 2 and 4 ranks. With `instructions` it counts those of one thread that plays all ranks, by valgrind.

Run it at the top of the repository after `make -C bindings` has built out/lib/libworzsunab.a, with nothing beside it. Each library
is measured whose compiler is found, mpicc.openmpi or mpicc.mpich (Debian's libopenmpi-dev and libmpich-dev).
"""

import glob
import os
import re
import shutil
import statistics
import subprocess
import sys
import tempfile

import mpi

LIBRARY = os.path.join(mpi.HERE, "..", "out", "lib", "libworzsunab.a")
SHIM = os.path.join(mpi.HERE, "..", "bindings", "c", "src", "*.c")
RANKS = [1, 2, 4, 8]
# A library that isn't through by then is left out.
SECONDS = float(os.environ.get("WZ_LIMIT", "15"))
# How long a measure of `waits` is repeated.
REPEATED = os.environ.get("WZ_SECONDS", "0.7")
STATES = {"idle": "as it is", "busy": "beside busy processes"}
# What a row is called in mpi.c.
NAMES = ["barrier", "allreduce of one i32", "persistent allreduce of one i32"]


def ours(program):
    """(measure, ranks) -> nanoseconds."""
    found = {}
    for ranks in RANKS:
        for line in subprocess.run([program, str(ranks)], check=True, capture_output=True, text=True).stdout.splitlines():
            measure, time = line.split(": ")
            found[measure, ranks] = int(time)
    return found


def samples(library, runs):
    """Medians of the lowest tenths."""
    with tempfile.TemporaryDirectory() as folder:
        program = compiled(folder, library, "samples")
        for ranks in (2, 4):
            times = {}
            for _ in range(runs):
                told = subprocess.run([program, str(ranks), "0", "samples"], check=True, capture_output=True, text=True).stdout
                for line in told.splitlines():
                    measure, time = line.split(": ")
                    times.setdefault(measure, []).append(int(time))
            for measure, column in times.items():
                print(f"{ranks} ranks, {measure}: {statistics.median(column) / 1000:.1f}", flush=True)


def compiled(folder, library, name, *defines, headers=os.environ.get("WZ_HEADERS", os.path.join(mpi.HERE, "..", "include"))):
    """The program, with these headers. Where there are definitions, the library's combiner is compiled with them too, and serves in place of its own."""
    program = os.path.join(folder, name)
    sources = [os.path.join(mpi.HERE, "c_interface.c"), *(sorted(glob.glob(SHIM)) if defines else [])]
    subprocess.run(["cc", "-O2", "-D_GNU_SOURCE", f"-I{headers}", *defines, *sources, library, "-pthread", "-o", program], check=True)
    return program


def rows(library, runs):
    """Medians of sums of rows, interleaved."""
    with tempfile.TemporaryDirectory() as folder:
        programs = {"free": compiled(folder, library, "free", "-DWZ_LONG=1"),
                    "held": compiled(folder, library, "held", "-DWZ_LONG=2147483647")}
        for ranks in (2, 4):
            for size in (1024, 4096, 16384, 65536, 262144):
                times = {name: [] for name in programs}
                for _ in range(runs):
                    for name, program in programs.items():
                        line = subprocess.run([program, str(ranks), str(size)], check=True, capture_output=True, text=True).stdout
                        times[name].append(int(line.split(": ")[1]))
                row = (f"{name} {statistics.median(column) / 1000:.1f}" for name, column in times.items())
                print(f"{ranks} ranks, {size} bytes:", *row, flush=True)


def instructions(library):
    """Instructions of a post and a test of each rank, with the settling, of each measure of one thread: the difference of two runs."""
    with tempfile.TemporaryDirectory() as folder:
        for ranks in RANKS:
            counts = []
            for turns in (100, 1100):
                program = compiled(folder, library, f"turns{turns}", f"-DTURNS={turns}")
                words = ["valgrind", "--tool=callgrind", "--callgrind-out-file=/dev/null", program, str(ranks), "0", "one"]
                told = subprocess.run(words, check=True, capture_output=True, text=True).stderr
                counts.append(int(re.search(r"Collected : (\d+)", told).group(1)))
            print(f"{ranks} ranks: {(counts[1] - counts[0]) / 1000:.0f} instructions for an allreduce, a persistent one and a barrier")


def busy():
    """As many processes that do nothing but compute as there are processors."""
    return [subprocess.Popen([sys.executable, "-c", "while True: pass"]) for _ in range(os.cpu_count() or 1)]


def waiters(folder, library):
    """name -> the command of one run for a number of ranks, each a list of words."""
    made = {"ours": compiled(folder, library, "ours")}
    for tried in os.environ.get("WZ_TRIED", "").split():
        defines = [f"-D{word}" for word in tried.split(",")] if "=" in tried else [f"-DWZ_LOOKS={tried}", f"-DWZ_FEW_LOOKS={tried}"]
        made[f"ours, {tried}"] = compiled(folder, library, f"tried{len(made)}", *defines)
    for other in os.environ.get("WZ_BEFORE", "").split():
        headers, before = other.split(":")
        made[os.path.basename(headers)] = compiled(folder, before, f"before{len(made)}", headers=headers)
    commands = {name: lambda ranks, program=program: [program, str(ranks), "0", "waits", REPEATED] for name, program in made.items()}
    for name, options in mpi.LIBRARIES.items():
        if shutil.which(f"mpicc.{name}"):
            program = os.path.join(folder, name)
            source = os.path.join(mpi.HERE, "c_interface_mpi.c")
            subprocess.run([f"mpicc.{name}", "-O2", source, "-o", program], check=True)
            commands[name] = lambda ranks, name=name, options=options, program=program: [
                f"mpirun.{name}", *options, "-n", str(ranks), program, REPEATED]
    return {name: command for name, command in commands.items() if name not in os.environ.get("WZ_WITHOUT", "").split()}


def waits(library, runs, asked):
    """Medians of both, interleaved, in the states and for the numbers of ranks that are asked for, or all."""
    states = [word for word in STATES if word in asked] or list(STATES)
    numbers = [int(word) for word in asked if word not in STATES] or [2, 4, 8]
    environment = dict(os.environ, OMPI_ALLOW_RUN_AS_ROOT="1", OMPI_ALLOW_RUN_AS_ROOT_CONFIRM="1")
    with tempfile.TemporaryDirectory() as folder:
        commands = waiters(folder, library)
        for state in states:
            for ranks in numbers:
                processes = busy() if state == "busy" else []
                times = {}
                try:
                    for _ in range(runs):
                        for name, command in commands.items():
                            for measure, half, most in waited(command(ranks), environment):
                                times.setdefault((measure, name), []).append((half, most))
                finally:
                    for process in processes:
                        process.kill()
                        process.wait()
                for measure in dict.fromkeys(key[0] for key in times):
                    row = (f"{name} {told(column)}" for (other, name), column in times.items() if other == measure)
                    print(f"{STATES[state]}, {ranks} ranks, {measure}:", *row, sep="  ", flush=True)


def waited(command, environment):
    """What one run prints; nothing where it doesn't end in time."""
    try:
        run = subprocess.run(command, check=True, capture_output=True, text=True, timeout=SECONDS, env=environment)
    except subprocess.TimeoutExpired:
        return
    for line in run.stdout.splitlines():
        measure, numbers = line.split(": ")
        half, most = numbers.split()
        yield measure, int(half), int(most)


def told(column):
    """The medians of what runs printed, in microseconds."""
    half, most = (statistics.median(run[i] for run in column) / 1000 for i in (0, 1))
    return f"{half:.1f} ({most:.1f})"


def main():
    library = os.environ.get("WORZSUNAB_LIB", LIBRARY)
    if not os.path.exists(library):
        sys.exit(f"{library} isn't built: call `make -C bindings` first")
    runs = int(sys.argv[1]) if len(sys.argv) > 1 else 3
    if sys.argv[2:] == ["samples"]:
        return samples(library, runs)
    if sys.argv[2:] == ["rows"]:
        return rows(library, runs)
    if sys.argv[2:3] == ["waits"]:
        return waits(library, runs, sys.argv[3:])
    if sys.argv[2:] == ["instructions"]:
        return instructions(library)
    mpi.RANKS = RANKS
    mpi.SECONDS = SECONDS
    with tempfile.TemporaryDirectory() as folder:
        program = compiled(folder, library, "ours")
        measured = {"ours": lambda: ours(program)}
        for name in mpi.LIBRARIES:
            if shutil.which(f"mpicc.{name}"):
                theirs = os.path.join(folder, name)
                subprocess.run([f"mpicc.{name}", "-O2", os.path.join(mpi.HERE, "mpi.c"), "-o", theirs], check=True)
                measured[name] = lambda name=name, theirs=theirs: mpi.theirs(name, theirs)
        times = {}
        for _ in range(runs):
            for name, measure in measured.items():
                for key, time in measure().items():
                    times.setdefault((name, *key), []).append(time)
    for name in measured:
        print(name)
        for measure in dict.fromkeys(key[1] for key in times if key[0] == name):
            if name == "ours" or measure in NAMES:
                row = [times.get((name, measure, ranks)) for ranks in RANKS]
                print(f"  {measure}:", *(f"{statistics.median(column) / 1000:.1f}" if column else "-" for column in row))


if __name__ == "__main__":
    main()
