#!/usr/bin/env python3
"""Records programs of Debian's packages whole, as they are installed, and judges them:

    recorder/examples/packages.py FOLDER [ROUNDS] [NAME ...]    inputs and records go to FOLDER; 3 rounds where no number is said

The packages are lammps, hpcc, phyml and netpipe-openmpi (apt-get install --no-install-recommends and their names), built for Debian's Open
MPI. Each runs with four ranks, netpipe with two, without the recorder and with it in turn, ROUNDS times. A row has the collective
calls of all ranks, the seconds by the clock without and with the recorder (medians), the size of the records, the seconds that where.py
takes, and what it reports last. The oracle is the program that the variable COLLJOB names, or ./colljob at the top of the repository.
"""

import os
import re
import shutil
import signal
import statistics
import subprocess
import sys
import time

HERE = os.path.dirname(os.path.abspath(__file__))
RECORDER = os.path.dirname(HERE)
SETTINGS = {"OMPI_ALLOW_RUN_AS_ROOT": "1", "OMPI_ALLOW_RUN_AS_ROOT_CONFIRM": "1", "OMPI_MCA_mpi_yield_when_idle": "1", "OMP_NUM_THREADS": "1"}
RANKS, SECONDS = {"netpipe": 2}, 1200

MELT = """units lj
atom_style atomic
lattice fcc 0.8442
region box block 0 10 0 10 0 10
create_box 1 box
create_atoms 1 box
mass 1 1.0
velocity all create 1.44 87287 loop geom
pair_style lj/cut 2.5
pair_coeff 1 1 1.0 1.0 2.5
neighbor 0.3 bin
neigh_modify every 20 delay 0 check no
fix 1 all nve
thermo 10
run 500
"""

def write(path, text):
    with open(path, "w") as file:
        file.write(text)


def prepare_lammps(folder):
    write(f"{folder}/in.melt", MELT)
    return ["lmp", "-in", "in.melt"]


def prepare_hpcc(folder):
    with open("/usr/share/doc/hpcc/examples/_hpccinf.txt") as file:
        text = file.read()
    write(f"{folder}/hpccinf.txt", re.sub(r"(?m)^1000( +Ns)", r"100 \1", text))
    return ["hpcc"]


def prepare_phyml(folder):
    shutil.copy("/usr/share/doc/phyml/examples/nucleic", f"{folder}/nucleic")
    return ["phyml-mpi", "-i", "nucleic", "-b", "4", "-o", "n", "--r_seed", "1", "--no_memory_check"]


def prepare_netpipe(folder):
    return ["NPopenmpi", "-u", "65536", "-n", "20"]


PROGRAMS = {"lammps": prepare_lammps, "hpcc": prepare_hpcc, "phyml": prepare_phyml, "netpipe": prepare_netpipe}


def run(words, ranks, folder, settings):
    """The seconds of a run by the clock. Its processes are ended with it."""
    command = ["mpirun.openmpi", "--oversubscribe", "-n", str(ranks), "env", *settings, *words]
    begin = time.monotonic()
    with open(f"{folder}/output", "w") as output:
        process = subprocess.Popen(command, cwd=folder, stdin=subprocess.DEVNULL, stdout=output, stderr=subprocess.STDOUT, env=dict(os.environ, **SETTINGS), start_new_session=True)
        try:
            status = process.wait(SECONDS)
        except subprocess.TimeoutExpired:
            status = None
        finally:
            try:
                os.killpg(process.pid, signal.SIGKILL)
            except ProcessLookupError:
                pass
            process.wait()
    if status:
        sys.exit(f"{words[0]} ended with status {status}: see {folder}/output")
    return time.monotonic() - begin if status == 0 else float("inf")


def measure(name, folder, rounds):
    shutil.rmtree(folder, ignore_errors=True)
    os.makedirs(folder)
    words = PROGRAMS[name](folder)
    if not shutil.which(words[0]):
        sys.exit(f"{words[0]} isn't installed")
    records, ranks = f"{folder}/record", RANKS.get(name, 4)
    recorded = [f"LD_PRELOAD={RECORDER}/out/openmpi/librecord.so", f"RECORD_DIR={records}"]
    without, with_it = [], []
    for _ in range(rounds):
        without.append(run(words, ranks, folder, []))
        shutil.rmtree(records, ignore_errors=True)
        with_it.append(run(words, ranks, folder, recorded))
    size = sum(os.path.getsize(f"{records}/{it}") for it in os.listdir(records) if it.startswith("rank."))
    begin = time.monotonic()
    judged = subprocess.run([sys.executable, f"{RECORDER}/record/where.py", records], capture_output=True, text=True)
    seconds = time.monotonic() - begin
    calls = re.search(r"(\d+) collective calls", judged.stdout)
    last = (judged.stdout + judged.stderr).strip().splitlines()
    print(f"| {name} | {calls[1] if calls else '?'} | {statistics.median(without):.1f}, {statistics.median(with_it):.1f} | {size} | {seconds:.1f} | {'; '.join(last[1:])} |", flush=True)
    return judged.returncode in (0, 3) and not re.search(r"(?m)^(fault|a cycle|a wait|warning)", judged.stdout)


def main():
    rounds = int(sys.argv[2]) if sys.argv[2:] and sys.argv[2].isdigit() else 3
    names = [it for it in sys.argv[2:] if not it.isdigit()] or list(PROGRAMS)
    if len(sys.argv) < 2 or not set(names) <= set(PROGRAMS):
        sys.exit(__doc__)
    # Whoever ends this ends the run that is under way too.
    signal.signal(signal.SIGTERM, lambda *_: sys.exit(1))
    subprocess.run(["make", "-s", "-C", RECORDER, "MPICC=mpicc.openmpi", "OUT=out/openmpi", "out/openmpi/librecord.so"], check=True)
    print("| Program | Calls | Seconds without, with | Bytes | where.py, seconds | Reported |\n|---|---|---|---|---|---|")
    right = [measure(name, os.path.abspath(f"{sys.argv[1]}/{name}"), rounds) for name in names]
    sys.exit(0 if all(right) else 1)


if __name__ == "__main__":
    main()
