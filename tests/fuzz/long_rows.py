#!/usr/bin/env python3
"""Runs random texts with long rows by `colljob run`, and holds each answer against that of `colljob plain`.

    tests/fuzz/long_rows.py [TEXTS [PROGRAM [SEED]]]    (300 texts, from seed 0 on, by default)

A text has 2 to 8 ranks and 4 collectives of all kinds, some persistent, with rows of up to 128 KiB: so long that they lie in segments,
that members of an allreduce share results, and that a bcast goes along a chain. It is run with 0 to 8 progress threads. Run it at the top of
the repository after the program is built (`./colljob run < examples/sum_of_three.job`), or name another program.
"""

import random
import sys

import run

COLLECTIVES = 4
# Blocks of a few bytes, of about 1 KiB, 4 KiB and 64 KiB, by types of one to eight bytes.
COUNTS = [0, 3, 130, 1_030, 4_100, 8_193, 16_385]
LONGEST_TEXT = 1_048_576


def text_of(seed):
    """The first random text of the seed that isn't too long."""
    dice = random.Random(seed)
    while True:
        text, _ = run.mixed(dice, dice.randint(2, 8), COLLECTIVES, COUNTS)
        if len(text) <= LONGEST_TEXT:
            return text


def main():
    texts = int(sys.argv[1]) if len(sys.argv) > 1 else 300
    if len(sys.argv) > 2:
        run.PROGRAM = sys.argv[2]
    first = int(sys.argv[3]) if len(sys.argv) > 3 else 0
    unlike = 0
    for seed in range(first, first + texts):
        text = text_of(seed)
        wanted, _ = run.answer(["plain"], text)
        told, _ = run.answer(["run", "--workers", str(seed % 9)], text)
        if told != wanted:
            unlike += 1
            print(f"seed {seed}: UNLIKE plain", flush=True)
    print(f"{texts} texts with long rows: {unlike} unlike plain")
    return 1 if unlike else 0


if __name__ == "__main__":
    sys.exit(main())
