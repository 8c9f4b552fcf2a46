#!/usr/bin/env python3
"""What MPI libraries do where a program has one of seven mistakes: bench/mistakes.c with four ranks, at most SECONDS each. It prints
the end of each run and what the ranks got. bench/RESULTS.md has the table, with our answer to the same job as a text.

    bench/mistakes.py

Each library is tried whose compiler is found, mpicc.openmpi or mpicc.mpich (Debian's libopenmpi-dev and libmpich-dev).
"""

import os
import shutil
import signal
import subprocess
import tempfile

HERE = os.path.dirname(os.path.abspath(__file__))
MISTAKES = ["roots differ", "operations differ", "counts differ", "types differ", "kinds differ", "waits cross", "started twice"]
LIBRARIES = {"openmpi": ["--oversubscribe"], "mpich": []}
RANKS = 4
SECONDS = 10


def meet(library, program, number):
    """How a run ended, and what it printed."""
    command = [f"mpirun.{library}", *LIBRARIES[library], "-n", str(RANKS), program, str(number)]
    environment = dict(os.environ, OMPI_ALLOW_RUN_AS_ROOT="1", OMPI_ALLOW_RUN_AS_ROOT_CONFIRM="1")
    run = subprocess.Popen(command, stdout=subprocess.PIPE, stderr=subprocess.STDOUT, text=True, errors="replace", env=environment, start_new_session=True)
    try:
        output, _ = run.communicate(timeout=SECONDS)
        end = f"status {run.returncode}"
    except subprocess.TimeoutExpired:
        os.killpg(run.pid, signal.SIGKILL)
        output, _ = run.communicate()
        end = f"not through in {SECONDS} seconds"
    return end, output.splitlines()


def main():
    with tempfile.TemporaryDirectory() as folder:
        for library in LIBRARIES:
            if not shutil.which(f"mpicc.{library}"):
                continue
            program = os.path.join(folder, library)
            subprocess.run([f"mpicc.{library}", "-O2", os.path.join(HERE, "mistakes.c"), "-o", program], check=True)
            for number, mistake in enumerate(MISTAKES):
                end, lines = meet(library, program, number)
                print(f"{library}, {mistake}: {end}")
                for line in sorted(lines)[:12]:
                    print(f"  {line}")


if __name__ == "__main__":
    main()
