#!/usr/bin/env python3
"""Measures bench/mpi_programs.c under wzrun, whose ranks are threads, beside MPI libraries, whose ranks are processes: medians of
ROUNDS interleaved rounds, in microseconds an operation, for 2, 4 and 8 ranks, on the machine as it is and beside as many busy processes as
it has processors. Prints the rows of two tables for bench/RESULTS.md.

    bench/mpi_programs.py [ROUNDS] [--bin [NAME=]BIN[+large] ..] [--ours] [--without NAME ..] [--seconds S] [--longest S] [--ranks N ..]
                          [--only idle|busy] [--measures WORD ..]

3 rounds where no number is said. BIN has wzcc and wzrun, wzmpi/out/bin where it isn't named. Several builds, each with a NAME, are
compared by turns, and `+large` runs one under --large-pages. A measure takes S seconds in each run, 0.3 where it isn't said. Each library is
measured whose compiler is found, mpicc.openmpi or mpicc.mpich (Debian's libopenmpi-dev and libmpich-dev); with --ours none is, and --without
names some that aren't. --measures chooses those whose names have a word. `-` stands
where a run was ended, after 40 seconds or those of --longest, before it came to the measure; (n) where n of the rounds came to it.
Run it with nothing beside it.
"""

import argparse
import os
import pathlib
import shutil
import signal
import statistics
import subprocess
import sys
import tempfile

HERE = pathlib.Path(__file__).resolve().parent
SOURCE = HERE / "mpi_programs.c"
LIBRARIES = {"Open MPI": ("openmpi", ["--oversubscribe"]), "MPICH": ("mpich", [])}
STATES = {"idle": "The machine as it is", "busy": "Beside as many busy processes as processors"}
ROOT = {"OMPI_ALLOW_RUN_AS_ROOT": "1", "OMPI_ALLOW_RUN_AS_ROOT_CONFIRM": "1"}


def own_command(word, folder):
    """The name of a build of ours, and what runs the program that it compiles."""
    name, _, path = word.rpartition("=")
    name, binaries = name or "wzrun", pathlib.Path(path.replace("+large", "")).resolve()
    if not (binaries / "wzcc").exists():
        sys.exit(f"mpi_programs.py: {binaries} has no wzcc: call `make -C wzmpi` first, or name its folder by --bin")
    program, options = folder / f"ours-{name}", ["--large-pages"] if path.endswith("+large") else []
    subprocess.run([binaries / "wzcc", "-O2", SOURCE, "-o", program], check=True)
    return name, lambda ranks: [binaries / "wzrun", "-n", str(ranks), *options, program]


def commands(options, folder):
    """Name -> what runs the program with a number of ranks, as a list of words."""
    made = dict(own_command(word, folder) for word in options.bin)
    for name, (word, words) in {}.items() if options.ours else LIBRARIES.items():
        if name in options.without:
            continue
        if shutil.which(f"mpicc.{word}"):
            theirs = folder / word
            subprocess.run([f"mpicc.{word}", "-O2", SOURCE, "-o", theirs], check=True)
            made[name] = lambda ranks, word=word, words=words, theirs=theirs: [f"mpirun.{word}", *words, "-n", str(ranks), theirs]
        else:
            print(f"mpi_programs.py: there is no mpicc.{word}, so {name} isn't measured", file=sys.stderr)
    return made


def ended(process):
    """Ends a run, whose launcher is given five seconds to end its ranks, and returns what it printed."""
    for number in (signal.SIGTERM, signal.SIGKILL):
        os.killpg(process.pid, number)
        try:
            return process.communicate(timeout=5)[0]
        except subprocess.TimeoutExpired:
            pass
    return ""


def run(words, longest):
    """Measure -> nanoseconds; of a run that isn't through in time those that it came to."""
    process = subprocess.Popen(words, stdout=subprocess.PIPE, stdin=subprocess.DEVNULL, text=True, env={**os.environ, **ROOT}, start_new_session=True)
    try:
        output, _ = process.communicate(timeout=longest)
    except subprocess.TimeoutExpired:
        output = ended(process)
    else:
        if process.returncode != 0:
            sys.exit(f"mpi_programs.py: {' '.join(map(str, words))}: status {process.returncode}")
    return {name: int(time) for name, time in (line.rsplit(": ", 1) for line in output.splitlines() if ": " in line)}


def busy():
    """As many processes that do nothing but compute as there are processors."""
    return [subprocess.Popen([sys.executable, "-c", "while True: pass"]) for _ in range(os.cpu_count() or 1)]


def measured(made, state, options):
    """(measure, name, ranks) -> a time of each round."""
    times = {}
    processes = busy() if state == "busy" else []
    try:
        for _ in range(options.rounds):
            for ranks in options.ranks:
                for name, words in made.items():
                    for measure, time in run([*words(ranks), str(options.seconds), *options.measures], options.longest).items():
                        times.setdefault((measure, name, ranks), []).append(time)
    finally:
        for process in processes:
            process.kill()
            process.wait()
    return times


def cell(column, rounds):
    if not column:
        return "-"
    time = statistics.median(column) / 1000
    few = "" if len(column) == rounds else f" ({len(column)})"
    return (f"{time:,.0f}" if time >= 100 else f"{time:.0f}" if time >= 20 else f"{time:.1f}") + few


def print_table(made, state, times, options):
    ranks = " / ".join(map(str, options.ranks))
    print(f"\n{STATES[state]}, {ranks} ranks, medians of {options.rounds} rounds:\n")
    print("| | " + " | ".join(made) + " |")
    print("|---" * (len(made) + 1) + "|")
    for measure in dict.fromkeys(key[0] for key in times):
        row = [" / ".join(cell(times.get((measure, name, many)), options.rounds) for many in options.ranks) for name in made]
        print(f"| {measure} | " + " | ".join(row) + " |", flush=True)


def main():
    parser = argparse.ArgumentParser(description=__doc__, formatter_class=argparse.RawDescriptionHelpFormatter)
    parser.add_argument("rounds", type=int, nargs="?", default=3)
    parser.add_argument("--bin", nargs="+", default=[str(HERE.parent / "wzmpi/out/bin")])
    parser.add_argument("--ours", action="store_true")
    parser.add_argument("--seconds", type=float, default=0.3)
    parser.add_argument("--longest", type=float, default=40)
    parser.add_argument("--ranks", type=int, nargs="+", default=[2, 4, 8])
    parser.add_argument("--only", choices=STATES)
    parser.add_argument("--without", nargs="+", default=[], choices=list(LIBRARIES))
    parser.add_argument("--measures", nargs="+", default=[])
    options = parser.parse_args()
    with tempfile.TemporaryDirectory() as folder:
        made = commands(options, pathlib.Path(folder))
        for state in STATES:
            if options.only in (None, state):
                print_table(made, state, measured(made, state, options), options)


if __name__ == "__main__":
    main()
