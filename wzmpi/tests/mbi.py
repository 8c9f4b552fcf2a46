#!/usr/bin/env python3
"""Runs the programs of the MPI Bugs Initiative over this library, and prints what is reported of each kind of them:

    tests/mbi.py FOLDER [--bin BIN] [--only WORD ..] [--every N] [--options WORDS] [--jobs N] [--list]

FOLDER has the generators of its programs, as teshsuite/smpi/MBI of SimGrid's sources (Debian has them: apt-get source simgrid), or programs that they
have made. Each program says in its head with how many ranks it runs, whether it has a mistake, of which kind, and
in which lines. It runs under WORDS, "--strict --check" where none are given. A right program is accused where wzrun says anything; a wrong one is reported
where wzrun ends the run, warned of where it says something else, and missed where it says nothing. --only takes programs whose name has one of the words,
--every each N-th. --list also has a line for each program that is accused, missed or not built. Ends with 1 where a right program is accused.
"""

import argparse
import collections
import concurrent.futures
import pathlib
import re
import shutil
import subprocess
import sys
import tempfile

HERE = pathlib.Path(__file__).resolve().parent
LONGEST = 120  # seconds
STOPPED = (2, 3)  # statuses with which wzrun ends a run
WORDS = ("as it should be", "accused", "reported", "warned of", "missed", "isn't built", "hangs")
# A run that a head asks for: its number of ranks, what is wrong with it (OK: nothing), and the lines of the source that are.
Run = collections.namedtuple("Run", "ranks label lines")


def made_by_generators(folder, out):
    """The programs that a folder has or that its generators make."""
    generators = sorted(folder.glob("*Generator.py"))
    if not generators:
        return sorted(folder.glob("*.c"))
    shutil.copytree(folder, out, dirs_exist_ok=True)
    for it in generators:
        subprocess.run([sys.executable, it.name], cwd=out, check=True, stdout=subprocess.DEVNULL)
    return sorted(out.glob("*.c"))


def runs_of(source):
    head = source.read_text().split("END_MBI_TESTS")[0]
    for ranks, label, why in re.findall(r"(?m)^  \$ mpirun -np (\d+) .*\n  \| (?:ERROR: )?(\w+)\n((?:  \|.*\n)*)", head):
        yield Run(int(ranks), label, set(re.findall(rf"{re.escape(source.name)}:(\d+)", why)))


def outcome(program, run, options):
    """One of WORDS, and what is said."""
    words = [str(options.bin / "wzrun"), "-n", str(run.ranks), *options.options.split(), str(program)]
    try:
        done = subprocess.run(words, capture_output=True, text=True, timeout=LONGEST, errors="replace", stdin=subprocess.DEVNULL)
    except subprocess.TimeoutExpired:
        return "hangs", ""
    says = "wzrun:" in done.stderr
    if run.label == "OK":
        return "accused" if says or done.returncode != 0 else "as it should be", done.stderr
    if not says:
        return "missed", f"status {done.returncode}"
    return "reported" if done.returncode in STOPPED else "warned of", done.stderr


def names_a_line(source, run, said):
    """Whether a line is named that is wrong by the program's head."""
    return bool(run.lines & set(re.findall(rf"{re.escape(source.name)}:(\d+)", said)))


def judged(source, options, out):
    """For each of a program's runs: the run, one of WORDS, what is said."""
    program = out / source.stem
    made = subprocess.run([str(options.bin / "wzcc"), "-w", str(source), "-o", str(program)], capture_output=True, text=True)
    for run in runs_of(source):
        yield (run, "isn't built", made.stderr) if made.returncode else (run, *outcome(program, run, options))
    program.unlink(missing_ok=True)


def main():
    parser = argparse.ArgumentParser(description=__doc__, formatter_class=argparse.RawDescriptionHelpFormatter)
    parser.add_argument("folder", type=pathlib.Path)
    parser.add_argument("--bin", type=pathlib.Path, default=HERE.parent / "out/bin")
    parser.add_argument("--only", nargs="+", default=[""])
    parser.add_argument("--every", type=int, default=1)
    parser.add_argument("--options", default="--strict --check")
    parser.add_argument("--jobs", type=int, default=1)
    parser.add_argument("--list", action="store_true")
    options = parser.parse_args()
    counts, named = collections.Counter(), collections.Counter()
    with tempfile.TemporaryDirectory() as folder:
        out = pathlib.Path(folder)
        sources = [it for it in made_by_generators(options.folder, out / "sources") if any(word in it.name for word in options.only)][:: options.every]
        if not sources:
            sys.exit(f"mbi.py: {options.folder} has neither such programs nor generators of them")
        with concurrent.futures.ThreadPoolExecutor(options.jobs) as pool:
            for source, found in zip(sources, pool.map(lambda it: list(judged(it, options, out)), sources)):
                for run, word, said in found:
                    counts[run.label, word] += 1
                    named[run.label] += names_a_line(source, run, said)
                    if options.list and word not in ("as it should be", "reported", "warned of"):
                        print(f"{source.name} ({run.label}): {word}: {' | '.join(said.strip().splitlines()[:3])}", flush=True)
    print(f"| What is wrong | runs | {' | '.join(WORDS)} | names a line that is wrong |")
    for label in sorted({it[0] for it in counts}, key=lambda it: (it == "OK", it)):
        cells = [counts[label, word] for word in WORDS]
        print(f"| {label} | {sum(cells)} | {' | '.join(map(str, cells))} | {named[label] if label != 'OK' else ''} |")
    return 1 if any(word == "accused" for _, word in counts) else 0


if __name__ == "__main__":
    sys.exit(main())
