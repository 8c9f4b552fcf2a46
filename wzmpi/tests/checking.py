"""What the tests of this folder have in common: compiling, running and reporting."""

import os
import pathlib
import signal
import subprocess
import sys
import time

HERE = pathlib.Path(__file__).resolve().parent
LONGEST = 900  # seconds: no run takes more than some on an idle machine
PAUSE = 0.2  # seconds, from one look to the next


def compiled(binaries, source, program, *words):
    compiler = "wzc++" if source.suffix == ".cpp" else "wzcc"
    handed_down = {**os.environ, "CC": str(binaries / "wzcc"), "CXX": str(binaries / "wzc++")}  # as `make CC=wzcc` does
    command = [str(binaries / compiler), "-O1", "-g", "-Wall", "-Wextra", str(source), *words, "-o", str(program)]
    done = subprocess.run(command, capture_output=True, text=True, timeout=LONGEST, env=handed_down)
    if done.returncode != 0 or done.stderr:
        sys.exit(f"check.py: {source}:\n{done.stderr}")
    return program


def run(words, **more):
    """Status and what is said."""
    try:
        done = subprocess.run(words, stdout=subprocess.PIPE, stderr=subprocess.STDOUT, text=True, timeout=LONGEST, errors="replace", **more)
    except subprocess.TimeoutExpired:
        return "none: it hangs", ""
    return done.returncode if done.returncode >= 0 else 128 - done.returncode, done.stdout


def reported(is_so, what):
    """1 where it isn't so, which is told."""
    if not is_so:
        print(f"check.py: {what}")
    return 0 if is_so else 1


def with_signals():
    """A shell gives programs in its background SIGINT and SIGQUIT as ignored."""
    signal.signal(signal.SIGINT, signal.SIG_DFL)
    signal.signal(signal.SIGQUIT, signal.SIG_DFL)


def comes_true(is_so, running):
    """Whether it is so while the process runs, or as it has ended. It is looked for until then, since a busy machine takes its time."""
    ends = time.monotonic() + LONGEST
    while running.poll() is None and time.monotonic() < ends:
        if is_so():
            return True
        time.sleep(PAUSE)
    return is_so()


def answered(running, is_so):
    """Whether the answers to SIGQUIT come to be so: the run is asked again until they are. Before it takes SIGQUIT, that would end it."""

    def asked():
        running.send_signal(signal.SIGQUIT)
        return is_so()

    return comes_true(lambda: catches(running.pid, signal.SIGQUIT), running) and comes_true(asked, running)


def catches(process, number):
    """Whether a process has a handler for a signal."""
    try:
        lines = pathlib.Path(f"/proc/{process}/status").read_text().splitlines()
    except OSError:
        return False
    return any(line.startswith("SigCgt:") and int(line.split()[1], 16) >> (number - 1) & 1 for line in lines)


def ended(running):
    """Waits for the end of a run that was asked to end, and gives its status."""
    try:
        return running.wait(timeout=LONGEST)
    except subprocess.TimeoutExpired:
        running.kill()
        return running.wait()
