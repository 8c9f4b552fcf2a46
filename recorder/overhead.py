#!/usr/bin/env python3
"""What the recorder costs: loops of small allreduces without it and with it, in turn, medians of ROUNDS rounds in nanoseconds a turn.

    recorder/overhead.py [ROUNDS]    (3 where no number is said)

Each library is measured whose compiler is found, mpicc.openmpi or mpicc.mpich, with one rank and with two. Beside the time by the clock
stands that of the first rank's processor, which other work on the machine changes less.
"""

import collections
import os
import shutil
import statistics
import subprocess
import sys
import tempfile

HERE = os.path.dirname(os.path.abspath(__file__))
LIBRARIES = {"openmpi": ["--oversubscribe"], "mpich": []}
SETTINGS = {"OMPI_ALLOW_RUN_AS_ROOT": "1", "OMPI_ALLOW_RUN_AS_ROOT_CONFIRM": "1"}
SECONDS = 60


def measure(library, program, ranks, setting):
    """(measure) -> time by the clock, and of the processor."""
    command = [f"mpirun.{library}", *LIBRARIES[library], "-n", str(ranks), "env", *setting, program]
    run = subprocess.run(command, check=True, capture_output=True, text=True, stdin=subprocess.DEVNULL, timeout=SECONDS, env=dict(os.environ, **SETTINGS))
    return {name: tuple(map(int, times.split())) for name, times in (line.split(": ") for line in run.stdout.splitlines())}


def main():
    rounds = int(sys.argv[1]) if len(sys.argv) > 1 else 3
    with tempfile.TemporaryDirectory() as folder:
        for library in LIBRARIES:
            if not shutil.which(f"mpicc.{library}"):
                continue
            program = os.path.join(folder, library)
            subprocess.run(["make", "-s", "-C", HERE, f"MPICC=mpicc.{library}", f"OUT=out/{library}"], check=True)
            subprocess.run([f"mpicc.{library}", "-O2", os.path.join(HERE, "examples", "allreduces.c"), "-o", program], check=True)
            settings = {"without": [], "with": [f"LD_PRELOAD={HERE}/out/{library}/librecord.so", f"RECORD_DIR={folder}/record"]}
            for ranks in (1, 2):
                found = collections.defaultdict(list)
                for _ in range(rounds):
                    for name, setting in settings.items():
                        for what, times in measure(library, program, ranks, setting).items():
                            found[what, name].append(times)
                for what in dict.fromkeys(key[0] for key in found):
                    (clock, used), (slower, more) = ([statistics.median(column) for column in zip(*found[what, name])] for name in settings)
                    print(f"{library}, {ranks} ranks, {what}: clock {clock:.0f}, {slower:.0f}, ratio {slower / clock:.1f}; processor {used:.0f}, {more:.0f}, ratio {more / used:.1f}", flush=True)


if __name__ == "__main__":
    main()
