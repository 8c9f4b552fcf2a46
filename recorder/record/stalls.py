"""Whether the collective calls of the records let ranks wait for one another where a library's collectives wait for all their members: MPI
lets a program rely on nothing better. Over all calls, with none of the limits of a job text.

A call only adds to what others wait for, so one order of the ranks' steps decides for all orders.

Of some calls this says less: libraries return early from MPI_Comm_free, from file calls, from calls without data and from initialisations, they
needn't wait for members that aren't neighbours, and what a program does after a test depends on what the test gave. A second run, in which
these wait too, says whether anything hangs on them."""

import bisect
import collections
import itertools
from array import array

from agreement import call_name, call_words, is_empty
from job_text import UNEVEN, WAITED
from job_words import KINDS
from records import rank_words
from text_places import NOT_JUDGED

# The remark of a wait that the program didn't call: a library completed the request, and another one may complete another.
COMPLETED = "# the call above completed this persistent request"

UNDECIDED = "where these calls too wait for all their members, or a program asks until these tests are true, ranks wait for one another"
DOUBT = NOT_JUDGED + "where calls wait from which a library may return early, or a program asks until tests are true, ranks wait for one another"

# The words of messages, which aren't in a run of collectives alone.
MESSAGES = ("message", "message wait")

# What a rank at the end of its record has come to: what it never came to isn't known, and what it left out is reported as such.
ALL = 1 << 62


def waits_there(call, wide):
    """Whether a call may wait until all members have called it; WIDE counts those too from which libraries return early."""
    if wide:
        return call.form in "bp"
    return call.form == "b" and not is_empty(call) and (call.name in KINDS or call.name in UNEVEN or call.name == "Reduce_scatter" or call.name in WAITED)


def is_followed(call, wide):
    """Whether a wait for a call's request lasts until all members have called it: a library waits for neighbours alone, and where there are no
    data may wait for nobody."""
    return wide or not (call.name.startswith("Neighbor_") or is_empty(call))


class Lane:
    """The calls of a context, or the starts of one persistent call: how many each member has come to, and how many all of them have."""

    __slots__ = ("key", "index", "counts", "level", "sleepers")

    def __init__(self, key, index, members):
        self.key, self.index, self.counts, self.level, self.sleepers = key, index, members, min(members.values()), set()

    def arrive(self, rank):
        """One more of a rank. Says whether all have come further."""
        count = self.counts[rank]
        self.counts[rank] = count + 1
        return count == self.level and self.rise()

    def rise(self):
        before, self.level = self.level, min(self.counts.values())
        return self.level > before


class Rank:
    """One rank at a step of its record."""

    def __init__(self, record, steps, last):
        self.record, self.step, self.steps, self.last, self.has_arrived = record, 0, steps, last, False
        self.starts, self.active, self.codes = collections.Counter(), set(), record.commands.codes


class Stalls:
    """A run of all records. STUCK has the command at which each rank stands that can't go on, and the events that it waits for. In a WIDE run
    those calls wait too from which libraries return early, and a test that completed a request waits for it."""

    def __init__(self, records, contexts, wide=False):
        self.records, self.contexts, self.wide, self.lanes = records, contexts, wide, {}
        self.ranks = {rank: Rank(record, self.steps_of(record), self.last_of(record)) for rank, record in records.items()}
        self.skip_alike()
        for rank, it in self.ranks.items():
            if it.step >= it.last:
                self.finish(rank)
        self.ready = collections.deque(self.ranks)
        while self.ready:
            self.go(self.ready.popleft())
        left = {rank: it for rank, it in self.ranks.items() if it.step < it.last}
        self.stuck = {rank: (it.record.commands[it.step], self.lacking_events(rank, it)) for rank, it in left.items()}

    def steps_of(self, record):
        """What a command of each kind does: its word, the lane of a call, whether it waits there, and what it names."""
        found = []
        for kind in record.commands.kinds:
            if kind.call:
                found.append(("call", self.lane(kind.key), waits_there(kind.call, self.wide), kind))
            elif kind.word in ("wait", "waitall") and COMPLETED in kind.remarks:
                found.append(("completed", None, False, kind))
            elif kind.word in ("wait", "waitall", "waitany", "waitsome", "start") or kind.word == "test" and kind.is_done and self.wide:
                found.append((kind.word, None, True, kind))
            else:
                found.append((None, None, False, kind))
        return found

    def lane(self, key, index=None):
        """The lane of a context's calls, or of the starts of the persistent one at an index."""
        found = self.lanes.get((key, index))
        if found is None:
            members = {rank: 0 if rank in self.records and (rank not in self.ranks_at_end()) else ALL for rank in self.contexts.members(key)}
            found = self.lanes[key, index] = Lane(key, index, members)
        return found

    def ranks_at_end(self):
        return {rank for rank, it in getattr(self, "ranks", {}).items() if it.step >= it.last}

    def last_of(self, record):
        """Where the run of a rank ends."""
        return len(record.commands)

    # Where all ranks do the same

    def skip_alike(self):
        """Skips what all ranks do alike from the begin on. None of them can wait there for ever: the one that is last finds all others where it
        stands, or further on. A context is alike where it is that of one call, in whose parts all ranks are."""
        if len(self.records) < next(iter(self.records.values())).size or len(self.records) < 2:
            return
        numbers = {}
        rows = [self.alike_row(record, numbers) for record in self.records.values()]
        most = common_length(rows, min(len(row) for row in rows))
        for rank, it in self.ranks.items():
            self.jump(rank, it, step_of(it.record, most))
        for lane in self.lanes.values():
            lane.rise()

    def alike_row(self, record, numbers):
        """A number for each command but messages: equal ones do the same. Starts are left to the run."""
        of_kind = []
        for kind in record.commands.kinds:
            if kind.word in ("start", "free") or kind.call and kind.call.form == "p":
                word = (record.rank, len(of_kind))
            elif kind.call:
                word = ("call", self.maker_of(kind.key, record), kind.call.form, kind.call.name)
            elif kind.word in MESSAGES:
                of_kind.append(0)
                continue
            else:
                word = (kind.word, kind.relative)
            of_kind.append(numbers.setdefault(word, len(numbers) + 1))
        return array("I", filter(None, map(of_kind.__getitem__, record.commands.codes)))

    def maker_of(self, key, record):
        """What stands for a context: where one call has made parts of all ranks, that call."""
        if len(self.contexts.members(key)) == record.size:
            return key
        path, _, last = key.rpartition("/")
        number = last.partition(".")[0]
        return (path, number) if path and number.isdigit() or number == "self" else (record.rank, key)

    def jump(self, rank, it, step):
        it.step = step
        for key, calls in it.record.calls.items():
            self.lane(key).counts[rank] = bisect.bisect_left(calls.positions, step)

    # A run

    def finish(self, rank):
        """A rank is at the end of its record."""
        for lane in self.lanes.values():
            if rank in lane.counts:
                lane.counts[rank] = ALL
                if lane.rise():
                    self.wake(lane)

    def wake(self, lane):
        if lane.sleepers:
            self.ready.extend(lane.sleepers)
            lane.sleepers = set()

    def go(self, rank):
        """Lets a rank go on as far as it can."""
        it = self.ranks[rank]
        codes, steps, extra, last = it.codes, it.steps, it.record.commands.extra, it.last
        if it.step >= last:
            return
        while it.step < last:
            word, lane, waits, kind = steps[codes[it.step]]
            if word == "call" or word == "message":
                if not it.has_arrived and lane.arrive(rank):
                    self.wake(lane)
                awaited = lane if word == "call" else waits
                if waits and awaited.level <= extra[it.step]:
                    it.has_arrived = True
                    awaited.sleepers.add(rank)
                    return
                it.has_arrived = False
            elif word and not self.take(rank, it, word, kind):
                return
            it.step += 1
        self.finish(rank)

    def take(self, rank, it, word, kind):
        """Takes a step of what is done with requests, or says that it must wait."""
        numbers = kind.numbers(it.record.commands.extra[it.step])
        if word == "message wait":
            return self.passes(rank, self.message_events(it, numbers), all)
        if word == "start":
            made = it.record.requests[numbers[0]]
            it.starts[numbers[0]] += 1
            it.active.add(numbers[0])
            lane = self.lane(made.key, made.index)
            if lane.arrive(rank):
                self.wake(lane)
        elif word == "completed":
            it.active.difference_update(numbers)
        elif word in ("wait", "waitall", "test"):
            if not self.passes(rank, self.events(it, numbers), all):
                return False
            if word != "test":
                it.active.difference_update(numbers)
        else:
            return self.passes(rank, [event for event in self.events(it, numbers) if event], any)
        return True

    def events(self, it, numbers):
        """What completes requests: a lane and how far all members must come there; None for one that is inactive."""
        commands, found = it.record.commands, []
        for number in numbers:
            position = commands.requests[number]
            kind = commands.kinds[commands.codes[position]]
            call = kind.call
            if call is None or not is_followed(call, self.wide) or call.form == "p" and number not in it.active:
                found.append(None)
            elif call.form == "p":
                found.append((self.lane(kind.key, commands.extra[position]), it.starts[number] - 1))
            else:
                found.append((self.lane(kind.key), commands.extra[position]))
        return found

    def message_events(self, it, numbers):
        raise NotImplementedError  # a run of collectives alone has none

    def passes(self, rank, events, how):
        """Whether a wait for all or any of some events ends now; else the rank is woken by those that lack."""
        lacking = [event for event in events if event and event[0].level <= event[1]]
        if not lacking or (how is any and len(lacking) < len(events)):
            return True
        for lane, _ in lacking if how is any else lacking[:1]:
            lane.sleepers.add(rank)
        return False

    def lacking_events(self, rank, it):
        word, lane, waits, kind = it.steps[it.codes[it.step]]
        extra = it.record.commands.extra[it.step]
        if lane:
            events = [(waits if word == "message" else lane, extra)]
        else:
            events = (self.message_events if word == "message wait" else self.events)(it, kind.numbers(extra))
        return [event for event in events if event and event[0].level <= event[1]]

    # What is reported

    def lines(self, places):
        """Each rank that can't go on, and for whom it waits."""
        return [self.line(rank, command, events, places) for rank, (command, events) in sorted(self.stuck.items())]

    def waits(self):
        """For whom each rank waits that can't go on."""
        return {rank: [it for it, count in lane.counts.items() if count <= place and it != rank] for rank, (_, ((lane, place), *_)) in sorted(self.stuck.items())}

    def line(self, rank, command, events, places):
        record, (lane, place) = self.records[rank], events[0]
        index = place if lane.index is None else lane.index
        call = record.calls[lane.key][index]
        words = call_words(call.call, lambda op: self.contexts.operation_words(record, op))
        head = words if command.call else f"{self.waiting_name(command)} for {call_name(call.call.form, call.call.name)}, {places.name(record, call.place) or 'place unknown'}"
        lacking = [it for it, count in lane.counts.items() if count <= place]
        return f"  rank {rank}: {head}, {places.name(record, command.place) or 'place unknown'}: call {index + 1} on {self.contexts.name(lane.key)} waits for {rank_words(lacking)}"

    @staticmethod
    def waiting_name(command):
        return "MPI_" + command.word[0].upper() + command.word[1:]


def step_of(record, count):
    """The position of a command of which COUNT stand before it that are no messages."""
    messages = {code for code, kind in enumerate(record.commands.kinds) if kind.word in MESSAGES}
    if not messages:
        return count
    others = (position for position, code in enumerate(record.commands.codes) if code not in messages)
    return next(itertools.islice(others, count, None), len(record.commands))


def common_length(rows, most):
    """How long rows are equal from the begin on."""
    low, high = 0, most
    while low < high:
        middle = (low + high + 1) // 2
        low, high = (middle, high) if all(row[low:middle] == rows[0][low:middle] for row in rows[1:]) else (low, middle - 1)
    return low


def find_stalls(records, contexts):
    """A run, and a wide one. Where nobody waits for ever in the wide one, it serves for both."""
    wide = Stalls(records, contexts, True)
    stalls = Stalls(records, contexts) if wide.stuck else wide
    return stalls, (stalls if stalls.stuck else wide)


def doubts(records, contexts):
    """A note for a text whose stalls hang on what MPI leaves open."""
    stalls, wide = find_stalls(records, contexts)
    return [DOUBT] if not stalls.stuck and wide.stuck else []
