"""The command `colljob`: finds the program that answers, and has an unproved one built where there is none.

The proved program answers where it is built and no source is newer. Else an unproved program of the same sources does: it is built once, without
proof, and kept. Modules that only some calls need are loaded where they need them, so that a call that finds its program starts at once.
"""

import errno
import os
import signal
import sys

import kit as kits
from kept import Kept

# The status where there is no answer of the program, which never gives it.
NO_ANSWER = 70

# The status where a file can't be opened or written.
UNOPENED = 1

# The numbers of standard output and standard error.
OUTPUT, ERRORS = 1, 2

# The options of `run` that the minimal program knows.
OF_FIRST = {"workers", "quiet"}


def main(top, words):
    """Answers, as the program that the words go to, or in its place."""
    if words[:1] == ["prove"]:
        script = os.path.join(top, "tools", "prove")
        become(script, [script, *words[1:]])
    whole = Kept(top)
    proved = whole.proved()
    if proved:
        become(proved, ["colljob", *words])
    kit, missing = found_kit()
    found = whole.ready(kit)
    if found:
        become(found, ["colljob", *words])
    answer_without(top, whole, kit, missing, words)


def answer_without(top, whole, kit, missing, words):
    """Answers where the whole program isn't there."""
    task = asked_for(top, words)
    small = whole.sibling("first") if is_for_first(task) else None
    found = small.ready(kit) if small else None
    if found:
        become(found, ["colljob", *words_of_first(task)])

    import unbuilt

    unbuilt.check_files(task)
    found = unbuilt.build_small(small, kit, missing, words) if small else None
    if found:
        become(found, ["colljob", *words_of_first(task)])
    become(unbuilt.build_whole(whole, kit, missing, words), ["colljob", *words])


def found_kit():
    """The kit, or why there is none."""
    try:
        kit = kits.find()
        kit.short_id()
        return kit, None
    except (kits.NoKit, kits.OtherKit) as error:
        return None, error


def become(found, words, environment=None):
    """Goes on as another program, which starts with the signals as they are for others: Python ignores two."""
    for number in (signal.SIGPIPE, signal.SIGXFSZ):
        signal.signal(number, signal.SIG_DFL)
    try:
        os.execve(found, words, environment or os.environ)
    except OSError as error:
        fail(f"{found}: {error.strerror}")


def asked_for(top, words):
    """The task of the words, or None where only the program knows. What the program says of them is told here."""
    import usage

    try:
        return usage.Words(os.path.join(top, "crates", "colljob_examples", "data", "words")).task_of(words)
    except usage.Unsure:
        return None
    except usage.Told as told:
        if told.status:
            write(ERRORS, told.text)
        else:
            show(told.text)
        sys.exit(told.status)


def show(text):
    """Shows what was asked for. Where whoever read it has gone nothing is told."""
    fault = write(OUTPUT, text)
    if fault:
        if fault.errno != errno.EPIPE:
            write(ERRORS, f"write fault: {os.strerror(fault.errno)} (os error {fault.errno})\n")
        os._exit(UNOPENED)


def is_for_first(task):
    """Whether the minimal program does the task."""
    return task is not None and task.way in (("run",), ("plain",)) and set(task.options) <= OF_FIRST


def words_of_first(task):
    """The words that the minimal program takes."""
    workers = int(task.options.get("workers", "2"))
    shown = "quiet" if "quiet" in task.options else "shown"
    file = [] if task.file in (None, "-") else [task.file]
    return [task.way[0], str(workers), shown, *file]


def say(text):
    write(ERRORS, f"colljob: {text}\n")


def fail(text):
    say(text)
    sys.exit(NO_ANSWER)


def write(number, text):
    """Writes to a stream of this process, by its number. Gives the error where that fails."""
    left = text.encode("utf-8", "surrogateescape")
    try:
        while left:
            left = left[os.write(number, left):]
        return None
    except OSError as error:
        return error
