#!/usr/bin/env python3
"""Compares `combine` with the same loops in C at -O3, over every operation and type: microseconds for 256 turns over two
rows of 64 KiB, the best of five runs each, and their ratio. Both have to give the same results, on rows of 1 MiB too.

Run it at the top of the repository after `rt run` in crates/coll_bench has built the program. It needs gcc.
"""

import os
import subprocess
import sys
import tempfile

HERE = os.path.dirname(os.path.abspath(__file__))
PROGRAM = os.path.join(HERE, "..", "crates", "coll_bench", "out", "coll_bench")

# What the kit compiles for, and signed sums that wrap.
FLAGS = ["-O3", "-march=x86-64-v2", "-fwrapv", "-fno-strict-aliasing"]


def rows(command):
    """(operation, type) -> (results, least microseconds) of five runs."""
    best = {}
    for _ in range(5):
        for line in output(command):
            op, ty, first, took, last = line.split()
            known = best.get((op, ty))
            if known and known[0] != (first, last):
                sys.exit(f"{op} {ty}: two runs differ")
            best[op, ty] = ((first, last), min(int(took), known[1]) if known else int(took))
    return best


def compare_long_rows(folder):
    """The checksums of one combination of rows of 1 MiB."""
    loops = os.path.join(folder, "long")
    subprocess.run(["gcc", *FLAGS, "-DBYTES=1048576", "-DTURNS=1", os.path.join(HERE, "combine.c"), "-o", loops], check=True)
    wanted = [" ".join(line.split()[:3]) for line in output([loops])]
    if output([PROGRAM, "reductions"]) != wanted:
        sys.exit("on rows of 1 MiB the results differ")


def output(command):
    return subprocess.run(command, check=True, capture_output=True, text=True).stdout.splitlines()


def main():
    if not os.path.exists(PROGRAM):
        sys.exit(f"{PROGRAM} isn't built: call `rt run` in crates/coll_bench first")
    with tempfile.TemporaryDirectory() as folder:
        loops = os.path.join(folder, "combine")
        subprocess.run(["gcc", *FLAGS, os.path.join(HERE, "combine.c"), "-o", loops], check=True)
        plain = rows([loops])
        compare_long_rows(folder)
    proved = rows([PROGRAM, "reductions", "times"])
    print(f"{'operation':10}{'type':6}{'C':>8}{'proved':>8}{'C/proved':>10}")
    for (op, ty), (results, took) in plain.items():
        mine, mine_took = proved[op, ty]
        if mine != results:
            sys.exit(f"{op} {ty}: the results differ")
        print(f"{op:10}{ty:6}{took:8}{mine_took:8}{took / max(mine_took, 1):10.2f}")


if __name__ == "__main__":
    main()
