"""When the calls of each rank began and ended, as now.c keeps the first and the last of them; and what they waited for."""

import collections
import os
import struct

from standing import COLLECTIVE, OF_REQUEST, RECEIVE, SEND, Awaited, Now

HEAD, CALL, AWAITED = struct.Struct("=4I2Q"), struct.Struct("=2Q4i32s"), struct.Struct("=4iq2i")
VERSION, FIRST, LAST, SHOWN = 1, 1024, 3072, 6

# RANK's call: nanoseconds, the place's number, and what it posted or waited for; ANY says that one of these was enough. IS_OVER is false of one
# that is under way.
Timed = collections.namedtuple("Timed", "rank begun ended name place awaited any is_over")


def timed_calls(folder, records):
    """The calls of all ranks whose times are kept, and how many there were."""
    calls, total = [], 0
    for rank, record in records.items():
        found, number = calls_of(os.path.join(folder, f"times.{rank}"), rank, record.run)
        now = Now(os.path.join(folder, f"now.{rank}"), record.run)
        for thread in now.threads if not now.finalized else []:
            if thread.inside and now.beat > thread.since:
                found.append(Timed(rank, thread.since, now.beat, thread.name, thread.place, thread.awaited[:SHOWN], thread.any, False))
        calls += found
        total += max(number, len(found))
    return calls, total


def calls_of(path, rank, run):
    try:
        with open(path, "rb") as file:
            data = file.read()
    except OSError:
        return [], 0
    size = CALL.size + SHOWN * AWAITED.size
    if len(data) < HEAD.size + (FIRST + LAST) * size:
        return [], 0
    version, _, _, _, its_run, number = HEAD.unpack_from(data)
    if version != VERSION or its_run != run:
        return [], 0
    return [it for place in range(FIRST + LAST) for it in [call_at(data, HEAD.size + place * size, rank)] if it], number


def call_at(data, at, rank):
    begun, ended, place, _, awaited, any_, name = CALL.unpack_from(data, at)
    if not ended:
        return None
    shown = [Awaited(*AWAITED.unpack_from(data, at + CALL.size + number * AWAITED.size)) for number in range(awaited)]
    return Timed(rank, begun, ended, name.split(b"\0")[0].decode(errors="replace"), place, shown, bool(any_), True)


class Meetings:
    """Which calls meet: the members of each collective, and the messages with their receives, as far as their times are kept."""

    def __init__(self, calls, records):
        self.records = records
        self.posted = collections.defaultdict(dict)  # of a collective or message each rank's call that posts it
        self.last = collections.defaultdict(dict)  # and the last one that waits for it or tests it
        for call in calls:
            for awaited in call.awaited:
                key = self.key(call.rank, awaited)
                if key and not awaited.form & OF_REQUEST:
                    self.posted[key].setdefault((call.rank, awaited.kind), call)
                if key and (awaited.form & OF_REQUEST or self.is_blocking(call)):
                    known = self.last[key].get((call.rank, awaited.kind), call)
                    self.last[key][call.rank, awaited.kind] = max(known, call, key=lambda it: it.begun)

    def ends(self):
        """What was waited for or tested, by which call last, and as what."""
        return ((key, call, kind) for key, last in self.last.items() for (_, kind), call in last.items())

    @staticmethod
    def is_blocking(call):
        return not call.name.startswith(("MPI_I", "MPI_Test")) and not call.name.endswith("_init")

    @staticmethod
    def waits_for(call, awaited):
        """Whether a call lasts until something is complete. Which of several it was isn't known of a wait for any; a send may be copied."""
        of_request = awaited.form & OF_REQUEST and not call.name.startswith("MPI_Test") and not (call.any and len(call.awaited) > 1)
        return (of_request or Meetings.is_blocking(call)) and not (awaited.kind == SEND and call.is_over)

    def key(self, rank, awaited):
        """What a call has to do with, in the same words at all ranks; None where these aren't known."""
        context = self.records[rank].contexts.get(awaited.context)
        if not context or awaited.index < 0:
            return None
        if awaited.kind == COLLECTIVE:
            return "collective", context.key, awaited.index
        if awaited.kind in (SEND, RECEIVE) and awaited.rank >= 0 and awaited.tag >= 0:
            sender, receiver = (rank, awaited.rank) if awaited.kind == SEND else (awaited.rank, rank)
            return "message", context.key, sender, receiver, awaited.tag, awaited.index
        return None

    def members(self, key):
        """How many post it."""
        if key[0] == "message":
            return 2
        return next((len(it.members) for record in self.records.values() for it in record.contexts.values() if it.key == key[1]), 0)

    def last_of(self, key, kind):
        """Whom a call waits for by one thing: the call that comes last of those that it needs, or None where that isn't kept."""
        posted = self.posted[key]
        if key[0] == "message":
            return posted.get((key[2], SEND) if kind == RECEIVE else (key[3], RECEIVE))
        if len(posted) < self.members(key):
            return None
        return max(posted.values(), key=lambda it: it.begun)

    def waits(self, call):
        """Until when a call waited, at most for its end, and the call that it waited for; its begin and None where it didn't or that isn't known."""
        found = None
        for awaited in call.awaited:
            key = self.key(call.rank, awaited)
            if key and self.waits_for(call, awaited):
                last = self.last_of(key, awaited.kind)
                if last and last.rank != call.rank and last.begun > call.begun and (not found or last.begun > found.begun):
                    found = last
        if found:
            return min(found.begun, call.ended), found
        return (call.ended, None) if not call.is_over else (call.begun, None)
