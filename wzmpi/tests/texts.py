#!/usr/bin/env python3
"""Carries out random job texts over this library, by recorder/run/run_text.c, and compares what each request got with `colljob plain`:

    tests/texts.py BIN [COUNT [SEED]]    COUNT texts of 1 to 64 ranks, 200 where none is said, of numbers from SEED, 1 where none is said

COLLJOB names colljob; else PATH has it. Ends with 0 where all agree.
"""

import os
import pathlib
import random
import subprocess
import sys
import tempfile

HERE = pathlib.Path(__file__).resolve().parent
TOP = HERE.parent.parent
sys.path.insert(0, str(TOP / "tests" / "fuzz"))
import random_texts  # noqa: E402

RANKS = [1, 2, 3, 4, 5, 6, 7, 8, 8, 12, 16]
MANY_RANKS = [32, 33, 63, 64]
AT_ONCE = 25
LONGEST_TEXT = 1 << 20


class Writer(random_texts.Writer):
    """Texts of more ranks than that of tests/fuzz/random_texts.py."""

    def __init__(self, draw, extras):
        super().__init__(draw, extras)
        self.ranks = draw.choice(MANY_RANKS if draw.random() < 0.05 else RANKS)
        self.groups = [list(range(self.ranks))]
        for _ in range(draw.choice([0, 0, 1, 2])):
            self.groups.append(draw.sample(range(self.ranks), draw.randint(1, self.ranks)))
        self.lines = [[] for _ in range(self.ranks)]
        self.requests = [0] * self.ranks
        self.active = [set() for _ in range(self.ranks)]


def write_texts(folder, count, seed):
    """The texts' names, with their numbers of ranks."""
    for number in range(seed, seed + count):
        draw = random.Random(number)
        writer = Writer(draw, draw.choice([[], ["pairs"], ["counts"], ["pairs", "counts"]]))
        path, text = folder / f"{number:05}.job", writer.text()
        if len(text) < LONGEST_TEXT:
            path.write_text(text)
            yield path, writer.ranks


def outcomes(binaries, program, paths, ranks):
    """What run_text prints of each text."""
    words = [str(binaries / "wzrun"), "-n", str(ranks), str(program), *map(str, paths)]
    done = subprocess.run(words, capture_output=True, text=True, timeout=600)
    if done.returncode != 0:
        return {}, f"status {done.returncode}: {done.stderr[:2000]}"
    if len(paths) == 1:
        return {str(paths[0]): done.stdout}, ""
    parts = done.stdout.split("text ")
    return {it.split("\n", 1)[0]: it.split("\n", 1)[1] for it in parts if it}, ""


def main():
    if len(sys.argv) < 2:
        sys.exit(__doc__)
    binaries = pathlib.Path(sys.argv[1]).resolve()
    count = int(sys.argv[2]) if len(sys.argv) > 2 else 200
    seed = int(sys.argv[3]) if len(sys.argv) > 3 else 1
    colljob = os.environ.get("COLLJOB", "colljob")
    with tempfile.TemporaryDirectory() as made:
        folder = pathlib.Path(made)
        program = folder / "run_text"
        subprocess.run([str(binaries / "wzcc"), "-O2", str(TOP / "recorder/run/run_text.c"), "-o", str(program)], check=True)
        by_ranks = {}
        for path, ranks in write_texts(folder, count, seed):
            by_ranks.setdefault(ranks, []).append(path)
        equal, failed = 0, 0
        for ranks, paths in sorted(by_ranks.items()):
            for at in range(0, len(paths), AT_ONCE):
                some = paths[at : at + AT_ONCE]
                got, why = outcomes(binaries, program, some, ranks)
                for path in some:
                    plain = subprocess.run([colljob, "plain", str(path)], capture_output=True, text=True)
                    if plain.returncode != 0:
                        sys.exit(f"texts.py: {colljob} plain {path}: {plain.stderr}")
                    if got.get(str(path)) == plain.stdout:
                        equal += 1
                    else:
                        failed += 1
                        print(f"texts.py: {path.name}, {ranks} ranks: {why or 'other values'}")
        print(f"texts.py: {equal} of {equal + failed} texts, of {min(by_ranks)} to {max(by_ranks)} ranks, got what colljob plain says")
    return 1 if failed else 0


if __name__ == "__main__":
    sys.exit(main())
