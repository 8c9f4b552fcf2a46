#!/usr/bin/env python3
"""Compares what MPI libraries compute for job texts with what the texts mean by `colljob plain`:

    tests/fuzz/compare.py TEXT ...

It reports the first difference of each text, and at the end how often each kind of collective differed, with the shortest such text. Each
library is tried whose compiler is found, mpicc.openmpi or mpicc.mpich (Debian's libopenmpi-dev and libmpich-dev), and run_text is built
for it. The oracle is ./colljob at the top of the repository, or the program that --colljob or the variable COLLJOB names. (Where nothing
is proved, ./colljob takes a minute for each text.) Texts are played many in a run, and those that differ once more by themselves. One that
isn't through in some seconds, or ends its processes, is named and left. A text with a fault is named and not played. The status is 1 where
something differed.
"""

import argparse
import collections
import os
import selectors
import shutil
import signal
import subprocess
import sys

TOP = os.path.dirname(os.path.dirname(os.path.dirname(os.path.abspath(__file__))))
RECORDER = os.path.join(TOP, "recorder")
sys.path.insert(0, os.path.join(RECORDER, "record"))

import job_words  # noqa: E402

LIBRARIES = {"openmpi": ["--oversubscribe"], "mpich": []}
SETTINGS = {"OMPI_ALLOW_RUN_AS_ROOT": "1", "OMPI_ALLOW_RUN_AS_ROOT_CONFIRM": "1", "OMPI_MCA_mpi_yield_when_idle": "1"}

Difference = collections.namedtuple("Difference", "text what line")


def expected(colljob, path):
    """The lines that a text means, or None where it has a fault, which is reported."""
    run = subprocess.run([colljob, "plain", path], capture_output=True, text=True)
    if run.returncode:
        print(run.stderr.strip() or f"{path}: colljob ended with status {run.returncode}")
        return None
    return run.stdout.splitlines()


def ranks_of(path):
    """How many ranks a text without fault has."""
    with open(path) as file:
        return next(int(words[1]) for words in map(str.split, file) if words[:1] == ["ranks"])


class Batch:
    """One run of many texts. It ends where the library hangs or ends."""

    def __init__(self, library, program, paths, seconds):
        self.found, self.end, self.errors = {}, None, ""
        command = [f"mpirun.{library}", *LIBRARIES[library], "-n", str(max(map(ranks_of, paths))), program, *paths]
        # run_text doesn't write the name of a text that is alone.
        self.alone = paths[0] if len(paths) == 1 else None
        self.run = subprocess.Popen(command, stdout=subprocess.PIPE, stderr=subprocess.STDOUT, env=dict(os.environ, **SETTINGS), start_new_session=True)
        try:
            self.read(seconds)
        finally:
            if self.run.poll() is None:
                os.killpg(self.run.pid, signal.SIGKILL)
                self.run.wait()

    def read(self, seconds):
        current, rest = self.alone, b""
        if current:
            self.found[current] = []
        waiting = selectors.DefaultSelector()
        waiting.register(self.run.stdout, selectors.EVENT_READ)
        while waiting.select(timeout=seconds):
            piece = os.read(self.run.stdout.fileno(), 65536)
            if not piece:
                self.run.wait()
                self.end = None if self.run.returncode == 0 else f"ended with status {self.run.returncode}"
                return
            *lines, rest = (rest + piece).decode(errors="replace").split("\n")
            rest = rest.encode()
            for line in lines:
                if line.startswith("text "):
                    current = line[5:]
                    self.found[current] = []
                elif current and line.startswith("rank "):
                    self.found[current].append(line)
                else:
                    self.errors += line + "\n"
        self.end = f"nothing came in {seconds} seconds"


def play(library, program, paths, size, seconds):
    """Text -> its lines, or what became of it."""
    found, left = {}, list(paths)
    while left:
        batch = Batch(library, program, left[:size], seconds)
        begun = list(batch.found)
        if batch.end and not begun:
            sys.exit(f"{library}: run_text didn't begin: {batch.end}\n{batch.errors}")
        found.update(batch.found)
        if batch.end:
            found[begun[-1]] = f"{batch.end}: {last_words(batch.errors)}" if batch.errors else batch.end
        left = left[len(begun):]
    return found


def last_words(errors):
    """What the library says of its end, of the lines that it writes there the most telling one."""
    lines = [line.strip() for line in errors.splitlines() if line.strip()]
    return next((line for line in lines if "rror" in line and "Fatal" not in line), next((line for line in lines if "bort" in line), lines[0] if lines else ""))


def signature(path, line):
    """The post or init line that an output line belongs to."""
    words = line.split()
    rank, number, section, seen = words[1], int(words[3]), None, 0
    with open(path) as file:
        for words in map(str.split, file):
            if words[:1] == ["rank"]:
                section = words[1]
            elif section == rank and words[:1] in (["post"], ["init"]):
                if seen == number:
                    return words
                seen += 1
    return []


def kind_of(path, line):
    """What a difference is counted under: the form, the collective, its operation and type, and whether it was a later start."""
    words = signature(path, line)
    end = words.index(":") if ":" in words else len(words)
    later = ", a later start" if int(line.split()[5]) > 0 else ""
    rooted = words[2] in job_words.ROOTED
    return " ".join([words[0], words[2], *words[3 + rooted : end - 1]]) + later


def first_difference(path, want, got):
    if isinstance(got, str):
        end, _, reason = got.partition(": ")
        return Difference(path, end, reason or "nothing was said")
    for line, theirs in zip(want, got):
        if line != theirs:
            return Difference(path, kind_of(path, line), f"means {line!r}, got {theirs!r}")
    if len(want) != len(got):
        return Difference(path, "lines are missing", f"{len(got)} of {len(want)} lines")
    return None


def compare(library, program, wanted, words):
    found = play(library, program, list(wanted), words.batch, words.seconds)
    kinds = collections.defaultdict(list)
    for path, want in wanted.items():
        difference = first_difference(path, want, found[path])
        # What a text left in the library may be what the next one meets, so only what differs alone counts.
        if difference and words.batch > 1:
            difference = first_difference(path, want, play(library, program, [path], 1, words.seconds)[path])
        if difference:
            kinds[difference.what].append(path)
            if not words.short:
                print(f"{library}: {path}: {difference.what}: {difference.line}")
    differing = sum(map(len, kinds.values()))
    print(f"{library}: {len(wanted)} texts, {differing} differ")
    for kind, paths in sorted(kinds.items(), key=lambda item: -len(item[1])):
        print(f"{library}: {len(paths)} times {kind}; the shortest is {min(paths, key=os.path.getsize)}")
    return differing


def build(library):
    out = f"out/{library}"
    subprocess.run(["make", "-s", "-C", RECORDER, f"MPICC=mpicc.{library}", f"OUT={out}", f"{out}/run_text"], check=True)
    return os.path.join(RECORDER, out, "run_text")


def main():
    parser = argparse.ArgumentParser(description="Compares MPI libraries with `colljob plain`, text by text.")
    parser.add_argument("texts", nargs="+", metavar="TEXT")
    parser.add_argument("--library", choices=LIBRARIES, action="append", help="only this one")
    parser.add_argument("--colljob", default=os.environ.get("COLLJOB", os.path.join(TOP, "colljob")), metavar="PROGRAM")
    parser.add_argument("--batch", type=int, default=50, help="texts in one run (50)")
    parser.add_argument("--seconds", type=float, default=10, help="how long one text may take (10)")
    parser.add_argument("--short", action="store_true", help="only the counts")
    words = parser.parse_args()
    libraries = [library for library in words.library or LIBRARIES if shutil.which(f"mpicc.{library}")]
    if not libraries:
        sys.exit("no MPI library: there is neither mpicc.openmpi nor mpicc.mpich")
    missing = [path for path in words.texts if not os.path.isfile(path)]
    if missing:
        sys.exit(f"{missing[0]}: no such file")
    wanted = {path: lines for path in words.texts if (lines := expected(words.colljob, path)) is not None}
    if not wanted:
        sys.exit("no text without a fault")
    sys.exit(1 if sum([compare(library, build(library), wanted, words) for library in libraries]) else 0)


if __name__ == "__main__":
    main()
