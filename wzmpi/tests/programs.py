#!/usr/bin/env python3
"""Builds programs of Debian's sources by wzcc and wzfort and by MPICH's compilers, runs both, and compares what they print and write:

    tests/programs.py FOLDER [--bin BIN] [--only WORD ..] [--keep FOLDER] [--strict] [--alone]

FOLDER has unpacked sources (apt-get source mpich netpipe pnetcdf hypre simgrid tachyon mrbayes; where there is no archive of a package, its
orig.tar is enough). Debian's packages mpich, gfortran and, for pnetcdf, autoconf, automake and libtool have the other tools. A set of
programs is built in copies of its sources, in a temporary folder or that of --keep, where what is built is taken as it is. --only takes sets
and programs whose names have one of the words; --strict runs ours under --strict --check, --alone ours without MPICH's. A program is alike where both end with one status
and print the same lines, in whatever order, but for words that are times, and leave the same file, and alone where it ends with status 0; it
is accused where wzrun says anything.
Ends with 0 where all are alike and none is accused.
"""

import argparse
import collections
import os
import pathlib
import re
import shutil
import subprocess
import sys
import tempfile

from program_sets import SETS

HERE = pathlib.Path(__file__).resolve().parent
LONGEST = 300  # seconds, of a run


class Tools:
    """The compilers of one library, and how it runs programs."""

    def __init__(self, name, compilers, run):
        self.name, self.compilers, self.run = name, compilers, run

    def built(self, it, sources, folder):
        """Where the programs of a set are; None where they can't be built, which is told."""
        if not (folder / "built").exists():
            shutil.rmtree(folder, ignore_errors=True)
            shutil.copytree(sources, folder, symlinks=True)
            for command in it.build:
                done = subprocess.run(["sh", "-c", command], cwd=folder, env={**os.environ, **self.compilers}, capture_output=True, text=True, errors="replace")
                if done.returncode != 0:
                    print(f"programs.py: {self.name}: {command}\n{(done.stdout + done.stderr)[-2000:]}", flush=True)
                    return None
            (folder / "built").touch()
        return folder

    def played(self, program, folder, times):
        """The status of a run, its lines in order, without times, the file that it leaves, and what wzrun says."""
        path = folder / program.name
        place = path.parent / f"run-{path.name}"
        shutil.rmtree(place, ignore_errors=True)
        place.mkdir()
        try:
            done = subprocess.run([*self.run, str(program.ranks), str(path), *program.words.split()], cwd=place, stdout=subprocess.PIPE, stderr=subprocess.STDOUT, input=program.reads,
                                  timeout=LONGEST, text=True, errors="replace")
        except subprocess.TimeoutExpired:
            return "hangs", [], None, []
        said = [line for line in done.stdout.splitlines() if "wzrun: " in line]
        lines = sorted(re.sub(times, "..", line).strip() for line in done.stdout.splitlines() if line not in said)
        left = place / program.file if program.file else None
        return done.returncode, lines, left.read_bytes() if left and left.exists() else None, said


def differences(ours, theirs):
    """What two runs have that isn't alike."""
    if ours[0] != theirs[0]:
        yield f"status {ours[0]}, and {theirs[0]} under MPICH"
    missing, more = (list((collections.Counter(one) - collections.Counter(other)).elements()) for one, other in ((theirs[1], ours[1]), (ours[1], theirs[1])))
    yield from (f"lacks: {it}" for it in missing[:3])
    yield from (f"has: {it}" for it in more[:3])
    if ours[2] != theirs[2]:
        yield "leaves another file"


def main():
    parser = argparse.ArgumentParser(description=__doc__, formatter_class=argparse.RawDescriptionHelpFormatter)
    parser.add_argument("folder", type=pathlib.Path)
    parser.add_argument("--bin", type=pathlib.Path, default=HERE.parent / "out/bin")
    parser.add_argument("--only", nargs="+", default=[""])
    parser.add_argument("--keep", type=pathlib.Path)
    parser.add_argument("--strict", action="store_true")
    parser.add_argument("--alone", action="store_true")
    options = parser.parse_args()
    binaries = options.bin.resolve()
    both = [Tools("wzrun", {"CC": str(binaries / "wzcc"), "FC": str(binaries / "wzfort")}, [str(binaries / "wzrun"), "-q", *(["--strict", "--check"] if options.strict else []), "-n"]),
            Tools("MPICH", {"CC": "mpicc.mpich", "FC": "mpifort.mpich"}, ["mpirun.mpich", "-n"])][: 1 if options.alone else 2]
    failed = tried = unbuilt = accused = 0
    with tempfile.TemporaryDirectory() as made:
        out = (options.keep or pathlib.Path(made)).resolve()
        for name, it in SETS.items():
            programs = [program for program in it.programs if any(word in name or word in program.name for word in options.only)]
            sources = sorted(options.folder.resolve().glob(it.folder))
            if not programs:
                continue
            if not sources:
                print(f"| {name} | no sources: {options.folder / it.folder} |")
                continue
            folders = [tools.built(it, sources[-1], out / f"{tools.name}-{name}") for tools in both]
            for program in programs if all(folders) else []:
                ours, *theirs = (tools.played(program, folder, it.times) for tools, folder in zip(both, folders))
                faults = list(differences(ours, theirs[0])) if theirs else [f"status {ours[0]}"] if ours[0] != 0 else []
                tried += 1
                failed += bool(faults)
                accused += bool(ours[3])
                print(f"| {name} | {pathlib.Path(program.name).name} {program.words} | {program.ranks} | {'; '.join(faults) or ('alike' if theirs else 'status 0')} | {' / '.join(ours[3][:3])} |", flush=True)
            unbuilt += not all(folders)
    print(f"{tried - failed} of {tried} programs end {'with status 0' if options.alone else 'as under MPICH'}; {accused} are accused" + (f"; {unbuilt} sets can't be built" if unbuilt else ""))
    return 1 if failed or unbuilt or accused else 0


if __name__ == "__main__":
    sys.exit(main())
