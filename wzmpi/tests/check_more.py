#!/usr/bin/env python3
"""Runs the tests of windows, files and what else came later over the tools in a folder, as tests/check.py does those of the rest:

    tests/check_more.py BIN [--write] [--only WORD ..]

NAME.c has programs without a mistake, and NAME_wrong.c, where it is there, programs with one planted mistake each, of which NAME_wrong.want
says what is said.
--write writes what is said anew: read what changed. Ends with 0 where all is as it should be.
"""

import os
import pathlib
import sys
import tempfile

import check
import checking

HERE = checking.HERE
# The options of each wrong program that isn't run as `wzrun -n 3`, by source.
OPTIONS = {
    "windows_wrong": {"two_operations": "-n 3 --strict", "own_put_put": "-n 3 --strict", "put_store": "-n 3 --check", "store_put": "-n 3 --check", "get_store": "-n 3 --check",
                      "lock_between_fences": "-n 3 --strict", "changed_origin": "-n 3 --check", "changed_result": "-n 3 --check"},
}
# How many ranks the right programs of a source are run with.
RANKS = {"windows": [1, 2, 5], "files": [1, 2, 5], "more": [1, 2, 5]}
MODES = ([], ["--strict", "--check"], ["--seed", "7"])


def run(words, folder):
    """Status and what is said of a program that has its files in a folder."""
    return checking.run(words, env={**os.environ, "TMPDIR": str(folder)})


def wrong_blocks(binaries, program, source, only):
    """What is said of each wrong program, as its file of what is wanted has it."""
    for name in check.names_of(source)[1:]:
        if only and name not in only:
            continue
        options = OPTIONS.get(source.stem, {}).get(name, "-n 3")
        status, said = run([str(binaries / "wzrun"), *options.split(), str(program), name], program.parent)
        said = said.replace(f"{HERE}/", "tests/").replace(f"{program.parent}/", "")
        yield name, f"== wzrun {options} {source.stem} {name}: status {status}\n{said}"


def check_wrong(binaries, out, stem, only, write):
    source = HERE / f"{stem}_wrong.c"
    if not source.exists():
        return 0
    program = checking.compiled(binaries, source, out / source.stem)
    return check.compare(dict(wrong_blocks(binaries, program, source, only)), source.with_suffix(".want"), write, "reported")


def check_right(binaries, out, stem, only):
    source, failed, runs = HERE / f"{stem}.c", 0, 0
    program = checking.compiled(binaries, source, out / source.stem)
    for name in check.names_of(source)[1:]:
        for ranks, mode in ((ranks, mode) for ranks in RANKS[stem] for mode in MODES if not only or name in only):
            runs += 1
            status, said = run([str(binaries / "wzrun"), "-n", str(ranks), *mode, str(program), name], out)
            if status != 0 or said:
                failed += 1
                print(f"check_more.py: {stem} {name}, {ranks} ranks, {mode}: status {status}: {said}")
    print(f"check_more.py: {runs - failed} of {runs} runs of right programs with {stem} end well, with nothing said")
    return failed


def main():
    words = sys.argv[1:]
    write = "--write" in words
    only = words[words.index("--only") + 1 :] if "--only" in words else []
    binaries, failed = pathlib.Path(words[0]).resolve(), 0
    with tempfile.TemporaryDirectory() as folder:
        for stem in RANKS:
            failed += check_wrong(binaries, pathlib.Path(folder), stem, only, write)
            failed += 0 if write else check_right(binaries, pathlib.Path(folder), stem, only)
    print("check_more.py: all as it should be" if failed == 0 else f"check_more.py: {failed} failed")
    return min(failed, 1)


if __name__ == "__main__":
    sys.exit(main())
