#!/usr/bin/env python3
"""Runs the tests of tests/fortran over the tools in a folder, where gfortran is installed:

    tests/check_fortran.py BIN [--write]

old.f, modern.f90 and newest.f90 have programs without a mistake, by mpif.h, the module mpi and the module mpi_f08; wrong.f90 has programs
with one planted mistake each, and wrong.want what is said of them; signals.f90 is sent some. --write writes that anew. Ends with 0 where all is as it should be.
"""

import os
import pathlib
import re
import shutil
import subprocess
import sys
import tempfile

import checking

HERE = checking.HERE / "fortran"
RIGHT = ["old.f", "modern.f90", "newest.f90"]
MODES = ([], ["--strict", "--check"], ["--seed", "7"])
OPTIONS = {"changed": "-n 3 --check"}
ASKED = r"""wzrun: SIGQUIT: here the ranks stand:
  rank 0 computes, or waits outside of MPI, for \d+ s since its call at \S*signals\.f90:14
  rank 1 waits in MPI_Barrier at \S*signals\.f90:24
"""


def compiled(binaries, source, out):
    program = out / source.stem
    done = subprocess.run([str(binaries / "wzfort"), "-O1", "-fallow-argument-mismatch", "-w", str(source), "-o", str(program)], capture_output=True, text=True, cwd=out)
    if done.returncode != 0:
        sys.exit(f"check_fortran.py: {source}:\n{done.stderr}")
    return program


def names_of(source):
    return re.findall(r"(?:case \(|name \.eq\. )'(\w+)'", source.read_text())


def run(binaries, options, program, name):
    return checking.run([str(binaries / "wzrun"), *options, str(program), name], env={**os.environ, "TMPDIR": str(program.parent)})


def check_right(binaries, out):
    failed = runs = 0
    for source in (HERE / it for it in RIGHT):
        program = compiled(binaries, source, out)
        for name in names_of(source):
            for options in (["-n", str(ranks), *mode] for ranks in (1, 2, 5) for mode in MODES):
                runs += 1
                status, said = run(binaries, options, program, name)
                failed += checking.reported(status == 0 and not said, f"{source.name} {name}, {' '.join(options)}: status {status}: {said}")
    print(f"check_fortran.py: {runs - failed} of {runs} runs of right programs end well, with nothing said")
    return failed


def check_wrong(binaries, out, write):
    program, failed, blocks = compiled(binaries, HERE / "wrong.f90", out), 0, []
    for name in names_of(HERE / "wrong.f90"):
        options = OPTIONS.get(name, "-n 3")
        status, said = run(binaries, options.split(), program, name)
        blocks.append(f"== wzrun {options} wrong {name}: status {status}\n{said.replace(f'{HERE}/', 'tests/fortran/')}")
    if write:
        (HERE / "wrong.want").write_text("".join(blocks))
        return 0
    want = re.split(r"(?m)^(?=== )", (HERE / "wrong.want").read_text())[1:]
    for got, wanted in zip(blocks, want):
        failed += checking.reported(got == wanted, f"got\n{got}and not\n{wanted}")
    failed += checking.reported(len(blocks) == len(want), "wrong.want has other programs")
    print(f"check_fortran.py: {len(blocks) - failed} of {len(blocks)} programs with a mistake are reported as they should be")
    return failed


def check_asked(binaries, program, out):
    """SIGQUIT asks where the ranks stand, and the run goes on. Rank 0 reads its line once the answer has shown rank 1 at the barrier."""
    said = out / "signals.said"
    words = [str(binaries / "wzrun"), "-n", "2", str(program), "asked"]
    with said.open("w") as to:
        running = subprocess.Popen(words, stdin=subprocess.PIPE, stdout=to, stderr=to, preexec_fn=checking.with_signals)  # pylint: disable=subprocess-popen-preexec-fn
    has_begun = checking.comes_true(lambda: "reads\n" in said.read_text(), running)
    is_told = has_begun and checking.answered(running, lambda: re.search(ASKED, said.read_text()))
    try:
        with running.stdin as to:
            to.write(b"a line\n")
    except BrokenPipeError:
        pass
    status = checking.ended(running)
    return checking.reported(is_told and status == 0 and "and goes on\n" in said.read_text(), f"signals.f90 asked: status {status}: {said.read_text()[-3000:]}")


def check_signals(binaries, out):
    """SIGQUIT is answered, and a crash is reported beside libgfortran's backtrace."""
    program = compiled(binaries, HERE / "signals.f90", out)
    status, said = run(binaries, ["-n", "2"], program, "crash")
    is_so = status == 139 and "wzrun: rank 1 crashes: segmentation fault" in said and "Backtrace for this error" in said and "signals.f90:22" in said
    return check_asked(binaries, program, out) + checking.reported(is_so, f"signals.f90 crash: status {status}: {said}")


def main():
    binaries, write = pathlib.Path(sys.argv[1]).resolve(), "--write" in sys.argv
    if not (binaries / "wzfort").exists() or shutil.which((os.environ.get("WZ_FC") or "gfortran").split()[0]) is None:
        print("check_fortran.py: there is no gfortran, so Fortran isn't checked")
        return 0
    with tempfile.TemporaryDirectory() as folder:
        failed = check_wrong(binaries, pathlib.Path(folder), write)
        failed += 0 if write else check_right(binaries, pathlib.Path(folder)) + check_signals(binaries, pathlib.Path(folder))
    return min(failed, 1)


if __name__ == "__main__":
    sys.exit(main())
