#!/usr/bin/env python3
"""What the program does with the files and streams of the machine: streams.py PROGRAM

The cases that no test of the gate can make, since they need a process with streams of its own: the file that standard output or standard
error goes to is refused by whatever name, and keeps what it had; terminals and pipes get what is named in order; a full device and a folder are reported
in the system's words; and where the reader of a pipe has gone nothing is reported. Ends with 1 where something else is seen.
"""
import json
import os
import pathlib
import pty
import subprocess
import sys
import tempfile

TEXT = "ranks 2\nrank 0\npost 0 allreduce sum i32 1 : 1\nrank 1\npost 0 allreduce sum i32 1 : 2\n"
STALL = "ranks 2\ncomm 0 1\nrank 0\npost 0 barrier\nwait 0\npost 1 barrier\nrank 1\npost 1 barrier\nwait 0\npost 0 barrier\n"
LINES = "rank 0 req 0 start 0 : 3\nrank 1 req 0 start 0 : 3\n"
OUTPUT_GOES = "standard output goes to this file, so name another one\n"
NEVER = "never stalls, in any run, with any MPI library (proved)\n"
ERRORS_GO = "standard error goes to this file, so name another one\n"


class Tries:
    def __init__(self, program):
        self.program = os.path.abspath(program)
        self.failed = 0
        self.count = 0

    def shell(self, words):
        """The status of a shell line in which P stands for the program, and what went to its standard error."""
        done = subprocess.run(["bash", "-c", words.replace("P ", f"{self.program} ")], capture_output=True, text=True)
        return done.returncode, done.stdout, done.stderr

    def to_nobody(self, words):
        """The same where nobody reads standard output any more."""
        read, write = os.pipe()
        os.close(read)
        done = subprocess.run([self.program, *words.split()], stdout=write, stderr=subprocess.PIPE, text=True)
        os.close(write)
        return done.returncode, done.stderr

    def want(self, what, seen, wanted):
        self.count += 1
        if seen != wanted:
            self.failed += 1
            print(f"{what}:\n  seen   {seen!r}\n  wanted {wanted!r}")


def own_streams(tries):
    for option in ["--stats", "--trace", "--out", "--picture", "--timeline", "--html"]:
        for name in ["/dev/stdout", "/proc/self/fd/1", "own.txt"]:
            seen = tries.shell(f"P run {option} {name} sum.job >own.txt; s=$?; cat own.txt; exit $s")
            tries.want(f"{option} {name} >own.txt", seen, (1, "", f"{name}: {OUTPUT_GOES}"))
    seen = tries.shell("echo old >all.txt; P run --stats /dev/stdout sum.job >>all.txt; s=$?; cat all.txt; exit $s")
    tries.want("what >> had stays", seen, (1, "old\n", f"/dev/stdout: {OUTPUT_GOES}"))
    seen = tries.shell("ln -f all.txt other.txt; P run --out other.txt sum.job >>all.txt; s=$?; cat all.txt; exit $s")
    tries.want("by another hard link", seen, (1, "old\n", f"other.txt: {OUTPUT_GOES}"))
    seen = tries.shell("P run --trace /dev/stderr sum.job 2>errors.txt; s=$?; cat errors.txt; exit $s")
    tries.want("standard error", seen, (1, f"/dev/stderr: {ERRORS_GO}", ""))
    seen = tries.shell("P draw barrier --members 2 --out /dev/stdout >own.txt; s=$?; cat own.txt; exit $s")
    tries.want("draw --out", seen, (1, "", f"/dev/stdout: {OUTPUT_GOES}"))
    seen = tries.shell("P run --explain /dev/stdout stall.job >own.txt; s=$?; cat own.txt; exit $s")
    tries.want("run --explain", seen, (1, "", f"stall.job: stalled\n/dev/stdout: {OUTPUT_GOES}"))
    seen = tries.shell("P run --html /dev/stdout stall.job >own.txt; s=$?; cat own.txt; exit $s")
    tries.want("run --html of a deadlock", seen, (1, "", f"stall.job: stalled\n/dev/stdout: {OUTPUT_GOES}"))
    seen = tries.shell("P explain --html /dev/stdout stall.job >own.txt; s=$?; cat own.txt; exit $s")
    tries.want("explain --html", seen, (1, "", f"/dev/stdout: {OUTPUT_GOES}"))
    seen = tries.shell("P run --out /dev/stdout sum.job | cat")
    tries.want("a pipe gets both in order", seen, (0, LINES + LINES, ""))
    seen = tries.shell("P run --out /dev/null sum.job >/dev/null")
    tries.want("devices", seen, (0, "", ""))


def on_a_terminal(tries):
    child, terminal = pty.fork()
    if child == 0:
        os.execv(tries.program, [tries.program, "run", "--out", "/dev/stdout", "sum.job"])
    seen = b""
    try:
        while part := os.read(terminal, 65536):
            seen += part
    except OSError:
        pass
    _, status = os.waitpid(child, 0)
    tries.want("a terminal gets both in order", (status, seen.decode().replace("\r", "")), (0, LINES + LINES))


def faults(tries):
    full = "write fault: No space left on device (os error 28)\n"
    for words in ["run sum.job", "plain sum.job", "explain sum.job", "draw barrier --members 2", "--help", "check --format json sum.job"]:
        tries.want(f"{words} >/dev/full", tries.shell(f"P {words} >/dev/full"), (1, "", full))
        tries.want(f"{words} | true", tries.to_nobody(words), (1, ""))
    full_file = "/dev/full: No space left on device (os error 28)\n"
    for words in ["run --html /dev/full sum.job", "explain --html /dev/full stall.job"]:
        tries.want(words, tries.shell(f"P {words}"), (1, "", full_file))
    folder = "read fault: Is a directory (os error 21)\n"
    tries.want("a folder as standard input", tries.shell("P plain <."), (1, "", folder))
    closed = "read fault: Bad file descriptor (os error 9)\n"
    tries.want("standard input closed", tries.shell("P plain <&-"), (1, "", closed))


def kept(tries):
    pathlib.Path("kept.txt").write_text("old\n")
    os.chmod("kept.txt", 0o640)
    tries.want("the mode stays", tries.shell("P run --out kept.txt sum.job >/dev/null; stat -c %a kept.txt; cat kept.txt"), (0, "640\n" + LINES, ""))
    pathlib.Path("locked.txt").write_text("old\n")
    os.chmod("locked.txt", 0o444)
    told = "locked.txt: permission denied\n"
    tries.want("a read-only file", tries.shell("P run --out locked.txt sum.job; s=$?; stat -c %a locked.txt; cat locked.txt; exit $s"), (1, "444\nold\n", told))
    os.symlink("locked.txt", "link.txt")
    told = "link.txt: permission denied\n"
    tries.want("a link to it", tries.shell("P run --out link.txt sum.job; s=$?; cat locked.txt; exit $s"), (1, "old\n", told))
    os.symlink("nowhere.txt", "hanging.txt")
    tries.want("a link to nothing", tries.shell("P run --out hanging.txt sum.job >/dev/null; cat nowhere.txt; readlink hanging.txt"), (0, LINES + "nowhere.txt\n", ""))
    tries.want("the other hard links keep the old bytes", tries.shell("ln kept.txt twin.txt; echo changed >kept.txt; P run --out kept.txt sum.job >/dev/null; cat twin.txt kept.txt"), (0, "changed\n" + LINES, ""))
    tries.want("nothing is left beside it", tries.shell("ls | grep part"), (1, "", ""))


def apart(tries):
    """Of a text that isn't all of its program no verdict is given without saying so."""
    pathlib.Path("apart.job").write_text("ranks 1\n# by themselves: 4 messages aren't here\nrank 0\n")
    pathlib.Path("whole.job").write_text("ranks 1\n# it stands here # by themselves: \nrank 0\n")
    note = "apart.job: note: more of the program isn't in this text: what follows is said of its collectives by themselves\n"
    tries.want("check of a text with messages", tries.shell("P check apart.job"), (0, "", f"apart.job: no fault\n{note}{NEVER}"))
    tries.want("check of one without", tries.shell("P check whole.job"), (0, "", f"whole.job: no fault\n{NEVER}"))
    tries.want("explain of a text with messages", tries.shell("P explain apart.job"), (0, NEVER, note))
    tries.want("explain of one without", tries.shell("P explain whole.job"), (0, NEVER, ""))
    status, lines, told = tries.shell("P check --format json apart.job")
    tries.want("check as JSON", (status, [json.loads(line)["reason"] for line in lines.splitlines()], told), (0, ["checked", "note", "explained"], ""))


def main():
    tries = Tries(sys.argv[1])
    with tempfile.TemporaryDirectory() as folder:
        os.chdir(folder)
        pathlib.Path("sum.job").write_text(TEXT)
        pathlib.Path("stall.job").write_text(STALL)
        own_streams(tries)
        on_a_terminal(tries)
        faults(tries)
        kept(tries)
        apart(tries)
        os.chdir("/")
    print(f"{tries.count - tries.failed} of {tries.count} as wanted")
    sys.exit(tries.failed > 0)


main()
