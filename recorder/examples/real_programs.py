#!/usr/bin/env python3
"""Records three programs that others wrote, as they are and with planted faults, and judges them:

    recorder/examples/real_programs.py FOLDER [PROGRAM ...]    sources and records go to FOLDER, some 200 MB

Debian's source packages mpich and hpcc are fetched with apt-get, from the mirror that the system's own sources name. Of mpich come two
tests of nonblocking collectives, nonblocking2.c and nonblocking3.c (its turns are fewer here); hpcc is the HPC Challenge benchmark, over
a small matrix, and wants a BLAS library (libblas-dev). The oracle is the program that the variable COLLJOB names, else ./colljob at the
top of the repository. A fault is right where where.py names the planted line.
"""

import collections
import glob
import os
import re
import shutil
import signal
import subprocess
import sys

HERE = os.path.dirname(os.path.abspath(__file__))
RECORDER = os.path.dirname(HERE)
LIBRARIES = {"openmpi": ["--oversubscribe"], "mpich": []}
SETTINGS = {"OMPI_ALLOW_RUN_AS_ROOT": "1", "OMPI_ALLOW_RUN_AS_ROOT_CONFIRM": "1", "OMPI_MCA_mpi_yield_when_idle": "1"}
RANKS = 4

Fault = collections.namedtuple("Fault", "what file old new")

# What the tests take from MPICH's harness, and the rank at which a fault is planted.
HARNESS = """#include <mpi.h>
#include <stdio.h>
#include <unistd.h>
#define MTest_Init(words, word) MPI_Init(words, word)
#define MTestReturnValue(errors) ((errors) != 0)
static inline void MTest_Finalize(int errors) {
    printf(errors ? "%d errors\\n" : "no errors\\n", errors);
    MPI_Finalize();
}
"""
PLANTED = """#ifndef PLANTED_H
#define PLANTED_H
#include <mpi.h>
static inline int planted_at(int rank) {
    int mine;
    MPI_Comm_rank(MPI_COMM_WORLD, &mine);
    return mine == rank;
}
#endif
"""

FAULTS = {
    "nonblocking2": [
        Fault("another root at rank 2", None, "MPI_Ibcast(buf, COUNT, datatype, root,", "MPI_Ibcast(buf, COUNT, datatype, planted_at(2) ? 1 : root,"),
        Fault("another operation at rank 1", None, "MPI_Iscan(buf, recvbuf, COUNT, datatype, op_sum,", "MPI_Iscan(buf, recvbuf, COUNT, datatype, planted_at(1) ? MPI_MAX : op_sum,"),
        Fault("no barrier at rank 3", None, "        MPI_Ibarrier(MPI_COMM_WORLD, &req);", "        if (!planted_at(3)) MPI_Ibarrier(MPI_COMM_WORLD, &req);"),
    ],
    "nonblocking3": [
        Fault("one element fewer at rank 3", None, "MPI_Iexscan(buf, recvbuf, COUNT, MPI_INT,", "MPI_Iexscan(buf, recvbuf, COUNT - planted_at(3), MPI_INT,"),
        Fault("another type at rank 0", None, "MPI_Ireduce(buf, recvbuf, COUNT, MPI_INT, MPI_SUM, 0,", "MPI_Ireduce(buf, recvbuf, COUNT, planted_at(0) ? MPI_UNSIGNED : MPI_INT, MPI_SUM, 0,"),
        Fault("another communicator at rank 2", None, "            MPI_Ibarrier(comm, req);", "            MPI_Ibarrier(planted_at(2) ? MPI_COMM_WORLD : comm, req);"),
    ],
    "hpcc": [
        Fault("another root at rank 3", "src/io.c", "MPI_Bcast( &params->PTRANSns, 1, MPI_INT, 0, comm );", "MPI_Bcast( &params->PTRANSns, 1, MPI_INT, planted_at(3) ? 3 : 0, comm );"),
        Fault("another operation at rank 2", "PTRANS/pdtransdriver.c", "MPI_Allreduce( &AllocSuccessful, ierr, 1, MPI_INT, MPI_MIN,", "MPI_Allreduce( &AllocSuccessful, ierr, 1, MPI_INT, planted_at(2) ? MPI_MAX : MPI_MIN,"),
        Fault("no call at rank 1", "FFT/mpifft.c", "  MPI_Allreduce( &sAbort, &rAbort, 1,", "  if (!planted_at(1)) MPI_Allreduce( &sAbort, &rAbort, 1,"),
    ],
}


def call(*words, **more):
    subprocess.run(words, check=True, **more)


def read(path):
    with open(path, encoding="latin-1") as file:
        return file.read()


def write(path, text):
    with open(path, "w", encoding="latin-1") as file:
        file.write(text)


def fetch(folder):
    """The two source packages, by a list of sources of our own, so that the system's stays as it is."""
    if glob.glob(f"{folder}/mpich_*.orig.tar.*") and glob.glob(f"{folder}/hpcc_*.orig.tar.*"):
        return
    os.makedirs(f"{folder}/lists", exist_ok=True)
    write(f"{folder}/sources.list", "deb-src [signed-by=/usr/share/keyrings/debian-archive-keyring.gpg] http://deb.debian.org/debian bookworm main\n")
    options = [f"Dir::Etc::sourcelist={folder}/sources.list", "Dir::Etc::sourceparts=/dev/null", f"Dir::State::lists={folder}/lists", "APT::Sandbox::User=root"]
    options = [word for option in options for word in ("-o", option)]
    call("apt-get", *options, "-qq", "update", cwd=folder)
    for package in ("mpich", "hpcc"):
        # Of a package the upstream file is all that is wanted here.
        call("apt-get", *options, "-qq", "source", "--tar-only", package, cwd=folder)


def unpack(folder):
    for archive in glob.glob(f"{folder}/*.orig.tar.*"):
        call("tar", "xf", archive, "--wildcards", *(["*/test/mpi/coll/nonblocking*.c"] if "mpich" in archive else ["*"]), cwd=folder)
    write(f"{folder}/mpitest.h", HARNESS)
    write(f"{folder}/planted.h", PLANTED)


def plant(text, fault):
    if text.count(fault.old) < 1:
        sys.exit(f"the source has changed: it has no {fault.old!r}")
    return text.replace(fault.old, fault.new, 1)


def line_of(text, fault):
    return text[: text.index(fault.old) + len(fault.old) - len(fault.old.lstrip())].count("\n") + 1


def build_test(folder, name, library, fault):
    """A test of MPICH's. It has `int` for MPI_Datatype in two rows, which is no fault where handles are numbers."""
    source = read(glob.glob(f"{folder}/mpich-*/test/mpi/coll/{name}.c")[0])
    source = re.sub(r"\bint \*(sendtypes|recvtypes) = NULL", r"MPI_Datatype *\1 = NULL", source).replace("int *sendtypes;", "MPI_Datatype *sendtypes;").replace("int *recvtypes;", "MPI_Datatype *recvtypes;")
    source = source.replace("(100000)", "(500)").replace("(50000)", "(500)")
    line = line_of(source, fault) if fault else None
    write(f"{folder}/{name}.c", plant(source, fault) if fault else source)
    call(f"mpicc.{library}", "-g", "-O1", "-w", "-include", "planted.h", "-I.", f"{name}.c", "-o", f"{name}.{library}", cwd=folder)
    return f"{folder}/{name}.{library}", f"{name}.c:{line}"


def build_hpcc(folder, library, fault):
    source = glob.glob(f"{folder}/hpcc-*/hpl")[0][:-4]
    build = f"{folder}/hpcc.build.{library}"
    if not os.path.isdir(build):
        shutil.copytree(source, build)
        settings = read(f"{build}/hpl/setup/Make.Linux_ATHLON_CBLAS")
        for word, value in {"ARCH": "linux", "MPinc": "", "MPlib": "", "LAdir": "", "LAlib": "-lblas", "CC": f"mpicc.{library} -g -w -include {folder}/planted.h", "LINKER": f"mpicc.{library}"}.items():
            settings = re.sub(rf"(?m)^{word} +=.*$", f"{word} = {value}", settings)
        write(f"{build}/hpl/Make.linux", settings.replace("-O3 -funroll-loops -W -Wall", "-O1"))
        write(f"{build}/hpccinf.txt", read(f"{source}/_hpccinf.txt").replace("1000         Ns", "200          Ns").replace("80           NBs", "32           NBs"))
    line = None
    for file in {it.file for it in FAULTS["hpcc"]}:
        # What another fault changed is as it was again.
        text = read(f"{source}/{file}")
        if fault and file == fault.file:
            line, text = line_of(text, fault), plant(text, fault)
        if text != read(f"{build}/{file}"):
            write(f"{build}/{file}", text)
    with open(f"{folder}/hpcc.log", "w") as log:
        subprocess.run(["make", "arch=linux"], cwd=build, stdout=log, stderr=subprocess.STDOUT)
    if not os.path.exists(f"{build}/hpcc"):
        sys.exit(f"hpcc wasn't built: see {folder}/hpcc.log")
    return f"{build}/hpcc", f"{os.path.basename(fault.file)}:{line}" if fault else None


def record(program, library, folder, seconds):
    """How the run ended. A run that hangs is ended from outside, as its user would."""
    shutil.rmtree(folder, ignore_errors=True)
    command = [f"mpirun.{library}", *LIBRARIES[library], "-n", str(RANKS), "env", f"LD_PRELOAD={RECORDER}/out/{library}/librecord.so", f"RECORD_DIR={folder}", program]
    run = subprocess.Popen(command, stdout=subprocess.DEVNULL, stderr=subprocess.DEVNULL, env=dict(os.environ, **SETTINGS), cwd=os.path.dirname(program), start_new_session=True)
    try:
        return f"status {run.wait(seconds)}"
    except subprocess.TimeoutExpired:
        os.killpg(run.pid, signal.SIGKILL)
        run.wait()
        return f"not through in {seconds} seconds"


def judge(folder):
    """What is reported of a record, and how many collective calls it has."""
    run = subprocess.run([sys.executable, f"{RECORDER}/record/where.py", folder], capture_output=True, text=True)
    if run.returncode == 2:
        sys.exit(run.stderr)
    calls = re.search(r"(\d+) collective calls", run.stdout)
    return run.stdout.replace(folder, "record").strip(), int(calls[1]) if calls else 0


def report(folder, name, library, fault, seconds):
    program, line = build_hpcc(folder, library, fault) if name == "hpcc" else build_test(folder, name, library, fault)
    records = f"{folder}/record"
    end = record(program, library, records, seconds)
    words, calls = judge(records)
    right = line in words and "fault: " in words if fault else "no fault" in words and "fault: " not in words.replace("no fault: ", "")
    print(f"{'right' if right else 'WRONG'}: {name}, {library}, {fault.what + ' (' + line + ')' if fault else 'as it is'}: {end}; {calls} calls")
    print("    " + words.replace("\n", "\n    "), flush=True)
    return right


def main():
    if len(sys.argv) < 2 or not set(sys.argv[2:]) <= set(FAULTS):
        sys.exit(__doc__)
    folder = os.path.abspath(sys.argv[1])
    os.makedirs(folder, exist_ok=True)
    fetch(folder)
    unpack(folder)
    right = []
    for library in LIBRARIES:
        if not shutil.which(f"mpicc.{library}"):
            continue
        call("make", "-s", "-C", RECORDER, f"MPICC=mpicc.{library}", f"OUT=out/{library}")
        for name, faults in FAULTS.items():
            if sys.argv[2:] and name not in sys.argv[2:]:
                continue
            # hpcc calls functions that MPI 3.0 removed, and that Open MPI no longer has.
            if name == "hpcc" and library == "openmpi":
                continue
            for fault in [None, *faults]:
                right.append(report(folder, name, library, fault, 120 if not fault else 30))
    print(f"{sum(right)} of {len(right)} right")


if __name__ == "__main__":
    main()
