"""What is built once and kept: under a lock, told while it goes on, and whole or not at all."""

import contextlib
import fcntl
import os
import shutil
import signal
import sys
import tempfile
import time

# How often the seconds are told anew.
TICK = 0.25


class Progress:
    """Tells how far a build is: on a terminal in one line that shows the seconds, elsewhere by one line at the beginning."""

    def __init__(self, name, what, more="", stream=sys.stderr):
        self.name, self.what, self.stream, self.begun = name, what, stream, time.monotonic()
        self.step, self.is_watched, self.shown = "", stream.isatty(), 0
        if not self.is_watched:
            self.write(f"{name}: {what}{more}\n")

    def write(self, text):
        with contextlib.suppress(OSError, ValueError):
            self.stream.write(text)
            self.stream.flush()

    def enter(self, step):
        """Another step of the build begins."""
        self.step = step
        self.show()

    def show(self):
        if self.is_watched:
            line = f"{self.name}: {self.what}: {int(time.monotonic() - self.begun)} s, {self.step}"
            width = shutil.get_terminal_size().columns - 1
            self.write("\r" + line[:width].ljust(self.shown))
            self.shown = min(len(line), width)

    def clear(self):
        if self.is_watched and self.shown:
            self.write("\r" + " " * self.shown + "\r")
            self.shown = 0

    def wait(self, process, is_done=lambda: False):
        """Waits until a process has ended, or what it was started for is done."""
        while process.poll() is None and not is_done():
            self.show()
            time.sleep(TICK if self.is_watched else TICK / 5)


@contextlib.contextmanager
def locked(path, told):
    """Holds the lock of a build. `told` is called once where another one has it."""
    os.makedirs(os.path.dirname(path), exist_ok=True)
    with open(path, "a", encoding="utf-8") as file:
        try:
            fcntl.flock(file, fcntl.LOCK_EX | fcntl.LOCK_NB)
        except BlockingIOError:
            told()
            fcntl.flock(file, fcntl.LOCK_EX)
        yield


@contextlib.contextmanager
def scratch_folder(name):
    """A folder that is removed at the end, also where a signal ends the build."""
    def stop(number, _frame):
        sys.exit(128 + number)

    before = {number: signal.signal(number, stop) for number in (signal.SIGINT, signal.SIGTERM, signal.SIGHUP)}
    try:
        with tempfile.TemporaryDirectory(prefix=f"{name}-") as folder:
            yield folder
    finally:
        for number, handler in before.items():
            signal.signal(number, handler)


def keep(made, path):
    """Gives a file its name when it is whole: what has the name was built to its end."""
    part = f"{path}.part"
    shutil.copyfile(made, part)
    shutil.copymode(made, part)
    os.replace(part, path)


def told(error, place):
    """What is reported of an error of the system: of a copy that fails it names the file that was written, and where it names none the place."""
    return f"{error.filename2 or error.filename or place}: {error.strerror}"


def drop(path):
    """Removes a file where it is there."""
    with contextlib.suppress(OSError):
        os.remove(path)
