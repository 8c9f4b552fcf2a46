#!/usr/bin/env python3
"""limits.py COLLJOB: texts of the greatest length and one byte more, each option that names a file by itself, a run whose threads can't be
started, and output that goes to a pipe. The last line is `N passed, N failed`; the status is 0 where none failed, else 1."""
import json
import os
import resource
import subprocess
import sys
import tempfile
import threading

MOST_TEXT = 1 << 20
SECONDS = 900
SOME_SECONDS = 300
# The first number of a user who is nobody's account; the process's own number is added.
SOMEBODY = 1_000_000
SUM = "ranks 3\n" + "".join(f"rank {rank}\npost 0 allreduce sum i32 1 : {rank + 1}\n" for rank in range(3))
SUMMED = "".join(f"rank {rank} req 0 start 0 : 6\n" for rank in range(3))
# One rank, so that a run does each thing in one order.
LONE = "ranks 1\nrank 0\npost 0 allreduce sum i32 2 : 4 5\ninit 0 barrier\nstart 1\nwait 1\nfree 1\nwait 0\n"
# Two ranks enter two barriers in opposite orders.
CROSSED = "ranks 2\ncomm 0 1\n" + "rank 0\npost 0 barrier\nwait 0\npost 1 barrier\nrank 1\npost 1 barrier\nwait 0\npost 0 barrier\n"
# A gather's other member waits for nobody here, and may wait with another library.
AHEAD = "# Rank 1 gives to a gather and goes on: its part is done, but a library may let it wait for rank 0.\nranks 2\ncomm 1 0\nrank 0\npost 1 barrier\nwait 0\npost 0 gather 0 u8 1 : 1\nrank 1\npost 0 gather 0 u8 1 : 2\nwait 0\npost 1 barrier\n"
FILES = ("--trace", "--stats", "--picture", "--timeline", "--html", "--out")


class Checks:
    def __init__(self):
        self.passed = self.failed = 0

    def one(self, name, is_passed, told=""):
        self.passed += bool(is_passed)
        self.failed += not is_passed
        print(f"passed: {name}" if is_passed else f"FAILED: {name}: {str(told)[:400]}", flush=True)


def colljob(program, words, text="", **how):
    how.setdefault("timeout", SECONDS)
    ran = subprocess.run([program, *words], input=text, capture_output=True, text=True, check=False, **how)
    return ran.returncode, ran.stdout, ran.stderr


def of_length(text, length):
    """The text at the end of that many bytes: a reader that stops early finds no job."""
    comment = "#" * 63 + "\n"
    more = length - len(text)
    return comment * (more // 64) + ("#" * (more % 64 - 1) + "\n") * (more % 64 > 0) + text


def check_lengths(program, checks):
    whole, longer = of_length(SUM, MOST_TEXT), of_length(SUM, MOST_TEXT + 1)
    with tempfile.TemporaryDirectory(prefix="colljob-") as folder:
        place = os.path.join(folder, "long.job")
        for length, text in ((81_000, of_length(SUM, 81_000)), (MOST_TEXT, whole)):
            with open(place, "w", encoding="utf-8") as file:
                file.write(text)
            for words in (["plain"], ["run", "--quiet"], ["plain", place], ["run", "--quiet", place]):
                said = colljob(program, words, "" if place in words else text)
                checks.one(f"{words[0]} of {length} bytes, {'a file' if place in words else 'standard input'}", said == (0, SUMMED, ""), said)
            for words in (["check", place], ["explain", place]):
                status, said, errors = colljob(program, words)
                is_free = status == 0 and "never stalls" in said + errors
                checks.one(f"{words[0]} of a file of {length} bytes", is_free, (status, said, errors))
        with open(place, "w", encoding="utf-8") as file:
            file.write(longer)
        for words in (["plain"], ["run", "--quiet"], ["plain", place], ["run", "--quiet", place]):
            said = colljob(program, words, "" if place in words else longer)
            is_refused = said[0] == 2 and not said[1] and "text too long" in said[2]
            checks.one(f"{words[0]} of one byte more, {'a file' if place in words else 'standard input'}", is_refused, said)


def untimed(text):
    """A timeline without its times."""
    events = json.loads(text)["traceEvents"]
    return [{key: value for key, value in event.items() if key not in ("ts", "dur")} for event in events]


def check_options(program, checks):
    """Each option that names a file writes that file when it is there alone, the same as beside all others, and no other file."""
    with tempfile.TemporaryDirectory(prefix="colljob-") as folder:
        together, texts = {}, {}
        for option in FILES:
            together[option] = os.path.join(folder, option.strip("-"))
        said = colljob(program, ["run", "--quiet", *(f"{option}={at}" for option, at in together.items())], LONE)
        printed = "rank 0 req 0 start 0 : 4 5\nrank 0 req 1 start 0 :\n"
        checks.one("all files together", said == (0, printed, ""), said)
        for option, at in together.items():
            with open(at, encoding="utf-8") as file:
                texts[option] = file.read()
        checks.one("--out has what standard output would", texts["--out"] == printed, texts["--out"])
        for option in FILES:
            alone = os.path.join(folder, "alone")
            os.mkdir(alone)
            said = colljob(program, ["run", "--quiet", option, "file"], LONE, cwd=alone)
            there = os.listdir(alone)
            text = ""
            if there == ["file"]:
                with open(os.path.join(alone, "file"), encoding="utf-8") as file:
                    text = file.read()
            same = {"--timeline": untimed, "--html": untimed_page}.get(option, str)
            is_same = bool(text) and same(text) == same(texts[option])
            is_right = there == ["file"] and is_same and said == (0, printed, "")
            checks.one(f"{option} alone", is_right, (said, there, text[:200]))
            for name in there:
                os.remove(os.path.join(alone, name))
            os.rmdir(alone)


def untimed_page(text):
    """A page with the events of its timeline as `untimed` has them."""
    begin, _, rest = text.partition('id="data">')
    data, _, end = rest.partition("</script>")
    values = json.loads(data)
    return begin, {**values, "timeline": untimed(values["timeline"])}, end


def check_words(program, checks):
    """What further words change, each by itself."""
    said = colljob(program, ["run", "--quiet", "--workers=8"], SUM)
    checks.one("run --quiet --workers=8", said == (0, SUMMED, ""), said)
    with tempfile.TemporaryDirectory(prefix="colljob-") as folder:
        told = colljob(program, ["explain"], CROSSED)
        said = colljob(program, ["run", "--quiet", "--explain", "why", "--trace", "trace"], CROSSED, cwd=folder)
        there = os.listdir(folder)
        text = ""
        if there == ["why"]:
            with open(os.path.join(folder, "why"), encoding="utf-8") as file:
                text = file.read()
        is_right = said[0] == 3 and not said[1] and text == told[1]
        checks.one("run --explain alone, of a job that stalls, has what explain prints", is_right, (said, there, text[:200], told))
        said = colljob(program, ["run", "--quiet", "--explain", "other"], SUM, cwd=folder)
        checks.one("run --explain of another job writes none", said == (0, SUMMED, "") and os.listdir(folder) == there, said)
    loose, strict = colljob(program, ["explain"], AHEAD), colljob(program, ["explain", "--strict"], AHEAD)
    checks.one("explain --strict", (loose[0], strict[0]) == (0, 6) and loose[1:] == strict[1:], (loose, strict))
    objects = [json.loads(line) for line in colljob(program, ["check", "--format=json"], CROSSED)[1].splitlines()]
    checks.one("check --format=json", objects and objects[-1].get("status") == 3, objects)


def few_threads(most):
    """What makes a child process that of a user who has no other, and may have at most that many threads beside the first."""
    somebody = SOMEBODY + os.getpid()

    def limit():
        os.setgid(somebody)
        os.setuid(somebody)
        resource.setrlimit(resource.RLIMIT_NPROC, (1 + most, 1 + most))

    return limit


def is_limited():
    """Whether a process of another user can be made here that can't start a thread: some containers have no other user, or no such limit."""
    child = os.fork()
    if child == 0:
        status = 1
        try:
            few_threads(0)()
            threading.Thread(target=int).start()
        except OSError:
            status = 2
        except RuntimeError:
            status = 0
        os._exit(status)
    return os.WEXITSTATUS(os.waitpid(child, 0)[1]) == 0


def check_threads(program, checks):
    """Where a thread can't be started, those that were started before are let go, and the run says so. Root starts threads whatever its
    limit is, so the program runs as another user."""
    if os.getuid() != 0 or not is_limited():
        print("skipped: a thread that can't be started: another user can't be taken, or has no limit of threads")
        return
    with tempfile.TemporaryDirectory(prefix="colljob-") as folder:
        os.chmod(folder, 0o755)
        place = os.path.join(folder, "colljob")
        with open(program, "rb") as file, open(place, "wb") as to:
            to.write(file.read())
        os.chmod(place, 0o755)
        for workers, most in ((0, 0), (0, 2), (0, 3), (2, 0), (2, 3), (2, 4), (2, 5)):
            wanted = (0, SUMMED, "") if most == 3 + workers else (5, "", "no thread\n")
            try:
                said = colljob(place, ["run", "--quiet", f"--workers={workers}"], SUM, preexec_fn=few_threads(most), timeout=SOME_SECONDS)
            except subprocess.TimeoutExpired:
                said = f"no end after {SOME_SECONDS} seconds"
            checks.one(f"{most} threads can be started, of 3 ranks and {workers} progress threads", said == wanted, said)


def check_pipe(program, checks):
    """What was written has left the program when it ends, to a pipe, to a file, and where nobody reads."""
    many = f"ranks 1\nrank 0\npost 0 bcast 0 u8 60000 :{' 7' * 60000}\n"
    status, said, errors = colljob(program, ["run", "--quiet"], many)
    wanted = f"rank 0 req 0 start 0 :{' 7' * 60000}\n"
    checks.one("120 kB through a pipe", (status, errors) == (0, "") and said == wanted, (status, len(said), errors))
    with tempfile.TemporaryFile() as file:
        ran = subprocess.run([program, "run", "--quiet"], input=many.encode(), stdout=file, timeout=SECONDS, check=False)
        file.seek(0)
        checks.one("120 kB to a file", ran.returncode == 0 and file.read() == wanted.encode())
    with open("/dev/full", "wb") as full:
        ran = subprocess.run([program, "run", "--quiet"], input=SUM.encode(), stdout=full, stderr=subprocess.PIPE, timeout=SECONDS, check=False)
        checks.one("a full device", ran.returncode == 1 and ran.stderr.startswith(b"write fault"), (ran.returncode, ran.stderr))


def main():
    program, checks = os.path.abspath(sys.argv[1]), Checks()
    for check in (check_lengths, check_options, check_words, check_threads, check_pipe):
        check(program, checks)
    print(f"{checks.passed} passed, {checks.failed} failed")
    return int(checks.failed > 0)


if __name__ == "__main__":
    sys.exit(main())
