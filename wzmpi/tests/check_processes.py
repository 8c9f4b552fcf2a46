"""What a rank has for itself as a process has it, of processes.c and its library, plugin and streams: for check.py."""

import ctypes
import os
import re
import subprocess

from checking import HERE, compiled, reported, run

CLONE_FS = 0x200  # of linux/sched.h
# What a process of its own prints: the C library's rand, srand(7) and rand, random; srand48(5), drand48 and lrand48.
DRAWN = "1804289383 1045618677 1863967299 0.524840 585950151"


def built(binaries, out):
    """The program, beside its library and its plugin."""
    compiled(binaries, HERE / "processes_library.c", out / "libkept.so", "-shared")
    compiled(binaries, HERE / "processes_plugin.c", out / "plugin.so", "-shared")
    return compiled(binaries, HERE / "processes.c", out / "processes", f"-L{out}", "-lkept", f"-Wl,-rpath,{out}")


def is_whole(said, ranks, lines, pattern):
    """Whether each rank's lines came whole, and in order."""
    came = {rank: [] for rank in range(ranks)}
    for match in re.finditer(pattern, said, re.MULTILINE):
        came[int(match[1])].append(int(match[2]))
    return all(numbers == list(range(lines)) for numbers in came.values())


def has_folders():
    """Whether a thread may have a working directory and a umask of its own here: some containers forbid it."""
    child = os.fork()
    if child == 0:
        os._exit(ctypes.CDLL(None).unshare(CLONE_FS) != 0)
    return os.waitpid(child, 0)[1] == 0


def wants(out):
    """What is wanted of each case under `wzrun -n 3`: of what is printed, whether it is so."""
    each = "".join
    return {
        "draws": lambda said: said == each(f"rank {rank}: {DRAWN}\n" for rank in range(3)),
        "tables": lambda said: sorted(said.splitlines()) == [f"rank {rank}: 94477528 1804289383" for rank in range(3)],
        "lines": lambda said: said.count("\n") == 6000 and is_whole(said, 3, 2000, r"^rank (\d) line (\d+) of two thousand$"),
        "unended": lambda said: said == "the line of rank 0\nthe end of rank 1",
        "reopened": lambda said: said == "" and [(out / f"rank.{rank}").read_text() for rank in range(3)] == [f"this is rank {rank}\n" for rank in range(3)],
        "input": lambda said: said == "rank 0 reads 1, 5\nrank 1 reads -1, -1\nrank 2 reads -1, -1\n",
        "folders": lambda said: said == "",
        "library": lambda said: said == "sum 45\n",
        "plugin": lambda said: said == "",
        "thread": lambda said: said == "",
    }


def check_cases(binaries, out, program):
    failed = 0
    wanted = wants(out)
    if not has_folders():
        print("check.py: threads can't have working directories of their own here, so those of ranks aren't checked")
        del wanted["folders"]
    for name, is_so in wanted.items():
        status, said = run([str(binaries / "wzrun"), "-n", "3", "--quiet", "--text", "kept.job", str(program), name], cwd=out, input="5 6\n")
        written = (out / "kept.job").exists()
        (out / "kept.job").unlink(missing_ok=True)
        failed += reported(status == 0 and is_so(said) and written, f"processes {name}: status {status}, text {written}:\n{said}")
    return failed


def check_streams(binaries, out):
    program = compiled(binaries, HERE / "processes_streams.cpp", out / "processes_streams")
    failed = 0
    for words in ([], ["race"]):
        status, said = run([str(binaries / "wzrun"), "-n", "3", str(program), *words], input="word\n")
        wanted = ["rank 0 reads word\n", "rank 1: 255 3.14159\n", "...1\n", *(f"rank {it} ends\n" for it in range(3))]
        right = all(it in said for it in wanted) and said.count("\n") == 15006
        failed += reported(status == 0 and right and is_whole(said, 3, 5000, r"^rank (\d) line (\d+)$"), f"processes_streams {words}: status {status}:\n{said[:2000]}")
    return failed


def check_told(binaries, out, program):
    """What stays common is told, once: where there are several ranks, and with the library that wzcc didn't link."""
    _, said = run([str(binaries / "wzrun"), "-n", "2", str(program), "common"], cwd=out)
    functions = re.findall(r"^wzrun: note: ranks are threads .*: (.*)$", said, re.MULTILINE)
    wanted = ["getpid", "setenv"] if has_folders() else ["chdir", "getpid", "setenv", "umask"]
    failed = reported([sorted(it.split(", ")) for it in functions] == [wanted], f"processes common: {said}")
    _, said = run([str(binaries / "wzrun"), "-n", "1", str(program), "common"], cwd=out)
    failed += reported(said == "", f"processes common of one rank: {said}")
    words = subprocess.run([str(binaries / "wzcc"), "--show", "-c", "x.c"], capture_output=True, text=True, check=True).stdout.split()
    include = next(word for word in words if word.startswith("-I"))
    library = ["cc", "-shared", "-fPIC", include, str(HERE / "processes_library.c"), "-o", str(out / "libkept.so")]
    subprocess.run(library, check=True)
    _, said = run([str(binaries / "wzrun"), "-n", "2", str(program), "draws"], cwd=out)
    return failed + reported("all ranks share the static variables of libkept.so:" in said, f"processes with a library of cc: {said}")


def check(binaries, out):
    folder = out / "processes.d"
    folder.mkdir()
    program = built(binaries, folder)
    failed = check_cases(binaries, folder, program) + check_streams(binaries, folder) + check_told(binaries, folder, program)
    print("check.py: ranks have for themselves what processes have" if failed == 0 else f"check.py: {failed} runs of processes.c failed")
    return failed
