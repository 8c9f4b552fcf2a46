"""Watches a program that is being recorded: what its ranks do now, since when none of them has come on, and whether they wait for one
another."""

import os
import re
import signal
import subprocess
import sys
import time

from records import Unreadable, rank_words
from report import FAULT, Report
from standing import STANDS, Now, had_turn

# How often is looked, and how long a launcher may take to end its ranks.
PAUSE, PATIENCE = 0.25, 10

# While the same ranks stand, the records are judged again after twice the time.
BACKOFF = 2


class Ranks:
    """What the ranks do at one moment."""

    def __init__(self, folder):
        names = [name for name in os.listdir(folder) if re.fullmatch(r"now\.\d+", name)]
        nows = {int(name[4:]): Now(os.path.join(folder, name), None) for name in names}
        self.nows = {rank: now for rank, now in sorted(nows.items()) if now.there}
        self.size = max((now.size for now in self.nows.values()), default=0)

    def calls(self):
        return sum(thread.calls for now in self.nows.values() for thread in now.threads)

    def standing(self):
        """The ranks that stand in a call with all their threads, each with the times since when they do."""
        return {rank: tuple(thread.since for thread in now.threads) for rank, now in self.nows.items() if not now.finalized and is_standing(now)}

    def all_stand(self):
        return 0 < self.size == sum(now.finalized or is_standing(now) for now in self.nows.values())

    def words(self, ranks):
        """`rank 2 in MPI_Recv`, those alike together."""
        alike = {}
        for rank in ranks:
            alike.setdefault(self.nows[rank].threads[0].name, []).append(rank)
        return "; ".join(f"{rank_words(those)} in {name}" for name, those in alike.items())


def is_standing(now):
    return bool(now.threads) and all(thread.inside and had_turn(thread) for thread in now.threads)


class Stood:
    """Since when ranks stand where they stand."""

    def __init__(self):
        self.since = {}

    def look(self, standing):
        self.since = {rank: (what, self.since[rank][1] if rank in self.since and self.since[rank][0] == what else time.monotonic()) for rank, what in standing.items()}

    def longest(self, seconds):
        """The ranks that have stood so long."""
        return [rank for rank, (_, begun) in self.since.items() if time.monotonic() - begun >= seconds]


class Teller:
    """Says on standard error what goes on. A terminal has one line for it, which each word overwrites."""

    def __init__(self, is_quiet):
        self.is_quiet, self.is_terminal, self.is_open = is_quiet, sys.stderr.isatty() and os.environ.get("TERM") != "dumb", False

    def tell(self, words):
        self.clear()
        print(f"wzrecord: {words}", file=sys.stderr, flush=True)

    def progress(self, words):
        if self.is_terminal and not self.is_quiet:
            print(f"\r\033[Kwzrecord: {words}", end="", file=sys.stderr, flush=True)
            self.is_open = True

    def clear(self):
        if self.is_open:
            print("\r\033[K", end="", file=sys.stderr, flush=True)
        self.is_open = False


class Ended(Exception):
    """That the run is to be ended, and why. REPORT is what was found of it, or None."""

    def __init__(self, why, report=None):
        super().__init__(why)
        self.why, self.report = why, report


class Watch:
    """Watches one run until it ends, or until it is to be ended."""

    def __init__(self, run, folder, hang, timeout, colljob, teller):
        self.run, self.folder, self.hang, self.timeout, self.colljob, self.teller = run, folder, hang, timeout, colljob, teller
        self.shown = min(os.path.relpath(folder), folder, key=len)
        self.begun, self.stood, self.judged, self.pause, self.has_told = time.monotonic(), Stood(), None, hang, False

    def wait(self):
        """Waits for the run's end. Raises Ended where it is to be ended."""
        while True:
            try:
                self.run.wait(PAUSE)
                return
            except subprocess.TimeoutExpired:
                self.look()

    def look(self):
        passed = time.monotonic() - self.begun
        if self.timeout and passed >= self.timeout:
            raise Ended(f"not through after {self.timeout:g} seconds, so the run was ended")
        ranks = Ranks(self.folder)
        self.stood.look(ranks.standing())
        self.show(ranks, passed)
        if self.hang and self.stood.longest(self.hang):
            self.judge(ranks)

    def show(self, ranks, passed):
        standing = self.stood.longest(max(1, self.hang / 2 if not self.teller.is_terminal else 1))
        words = f"; {ranks.words(standing)} for some seconds" if standing else ""
        self.teller.progress(f"{passed:.0f} s, {len(ranks.nows)} ranks, {ranks.calls()} calls{words}")
        if standing and self.hang and not self.has_told and not self.teller.is_terminal and not self.teller.is_quiet:
            self.has_told = True
            self.teller.tell(f"{ranks.words(standing)} for {max(1, self.hang / 2):g} s; watches on")

    def judge(self, ranks):
        """Judges ranks that have stood long, and raises Ended where they surely wait for one another, or where all ranks stand and the records
        have a fault."""
        those = tuple(sorted((rank, self.stood.since[rank][0]) for rank in self.stood.longest(self.hang)))
        if self.judged and self.judged[0] == those and time.monotonic() < self.judged[1]:
            return
        self.pause = self.pause * BACKOFF if self.judged and self.judged[0] == those else self.hang
        self.judged = those, time.monotonic() + self.pause
        try:
            report = Report(self.shown, self.colljob)
        except Unreadable:
            return
        if report.status == FAULT and (report.has_cycle or Ranks(self.folder).all_stand()):
            raise Ended(f"{ranks.words(self.stood.longest(self.hang))} for {self.hang:g} seconds and can't go on, so the run was ended", report)


def end(run, number=signal.SIGTERM):
    """Ends what was started: the launcher ends its ranks."""
    for signal_number in (number, signal.SIGTERM, signal.SIGKILL):
        if run.poll() is not None:
            break
        run.send_signal(signal_number)
        try:
            run.wait(PATIENCE)
        except subprocess.TimeoutExpired:
            pass
    if os.getpgid(0) != run.pid and run.own_group:
        try:
            os.killpg(run.pid, signal.SIGKILL)
        except ProcessLookupError:
            pass


def start(command, environment):
    """Starts a launcher. It has a group of its own, but where a terminal is its input, whose foreground group alone may read."""
    own_group = not (sys.stdin and sys.stdin.isatty())
    run = subprocess.Popen(command, env=environment, start_new_session=own_group)
    run.own_group = own_group
    return run
