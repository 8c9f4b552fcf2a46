"""What the command `colljob` does where a program has to be built first: mistakes are told before, with the program's words and status."""

import errno
import os
import stat
import sys

import answering
import building
import first
import front_end
import kit as kits
import making

# What is built, and how long that takes on four processors, as it is told.
BUILT = {"first": "the part for run and plain, in about a minute", "whole": "the whole program, in about two minutes"}

# The options of the tasks that name files which are written where all goes well, in the order in which the program writes them.
WRITTEN = ["trace", "stats", "timeline", "picture", "out"]


def build_small(small, kit, missing, words):
    """Builds the minimal program; None where the sources have become others than those that it is cut out of."""
    try:
        return built(small, kit, missing, words)
    except (first.OtherShape, front_end.Refused) as error:
        why = str(error).splitlines()[0] if str(error) else "no reason is given"
        answering.say(f"the minimal program can't be cut out of these sources ({why}), so the whole one is built")
        return None


def build_whole(whole, kit, missing, words):
    """Builds the whole program."""
    try:
        return built(whole, kit, missing, words)
    except front_end.Refused as error:
        answering.write(answering.ERRORS, str(error))
        answering.fail("the kit's front end refuses the sources")


def built(wanted, kit, missing, words):
    """A program, which is built now. Where this kit can't, `rt try` answers the words."""
    if isinstance(missing, kits.NoKit):
        answering.fail(str(missing))
    more = f", {BUILT[wanted.kind]}; './colljob prove' proves the program"
    progress = building.Progress("colljob", "builds once, without proof", more)
    try:
        if missing:
            raise missing
        return making.build(wanted, kit, progress)
    except kits.OtherKit as error:
        progress.clear()
        try_once(wanted.top, f"this kit builds no unproved program ({error})", words)
    except OSError as error:
        progress.clear()
        answering.fail(building.told(error, wanted.folder))
    finally:
        progress.clear()


def try_once(top, why, words):
    script = os.path.join(top, "tools", "unproved_build", "try_once")
    answering.become(script, [script, *words], {**os.environ, "COLLJOB_WHY": why})


def check_files(task):
    """Tells of files of a task that can't be opened or written. Where only the program knows the task, it tells of them itself."""
    if task is None:
        return
    fault = read_fault(task.file) if task.file not in (None, "-") else None
    for option in WRITTEN:
        if not fault and task.options.get(option) is not None:
            fault = write_fault(task.options[option])
    if fault:
        answering.write(answering.ERRORS, fault + "\n")
        sys.exit(answering.UNOPENED)


def read_fault(name):
    """What the program says of a text's file that it can't open. A pipe or a device is left alone: to open it is to take from it."""
    try:
        found = os.stat(name)
        if stat.S_ISDIR(found.st_mode):
            return f"{name}: is a directory"
        if stat.S_ISREG(found.st_mode):
            os.close(os.open(name, os.O_RDONLY | os.O_CLOEXEC))
    except OSError as error:
        return f"{name}: {told_of(error.errno)}"
    return None


def write_fault(name):
    """What the program says of a file that it can't write: it makes another one beside it, and gives that the name."""
    folder = os.path.dirname(name) or "."
    try:
        found = os.stat(folder)
    except OSError as error:
        return f"{name}: {told_of(error.errno)}"
    number = None
    if os.path.isdir(name) and not os.path.islink(name):
        number = errno.EISDIR
    elif not stat.S_ISDIR(found.st_mode):
        number = errno.ENOTDIR
    elif not os.path.exists(name) and not os.access(folder, os.W_OK | os.X_OK):
        number = errno.EROFS if os.statvfs(folder).f_flag & os.ST_RDONLY else errno.EACCES
    return f"{name}: {told_of(number)}" if number else None


def told_of(number):
    return f"{os.strerror(number)} (os error {number})"
