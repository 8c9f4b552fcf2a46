"""Where each rank stands: the MPI call under way, as now.c keeps it, what it waits for, and which ranks wait for one another."""

import collections
import functools
import os
import re
import struct

from agreement import amount, call_name, is_empty
from job_text import MULTIPLE, WAITED
from job_words import COMBINING, KINDS, NEEDS
from records import rank_words

THREADS, SHOWN, MESSAGES, VERSION = 64, 24, 4096, 1
HEAD, THREAD, AWAITED, MESSAGE = struct.Struct("=4I2Q2I"), struct.Struct("=2Q4i2Q40s"), struct.Struct("=4iq2i"), struct.Struct("=4iq")
COLLECTIVE, RECEIVE, SEND, OTHER, RANK = 1, 2, 3, 4, 5
OF_REQUEST, BUFFERED = 1, 2
UNSEEN, LOST, UNSHOWN, ELSEWHERE, CALLBACKS = 1, 2, 4, 8, 16
ANY = -1
SECOND = 1e9

# Ranks are said to wait for one another where all of them have stood in their calls for STANDS seconds at once. On a machine with more to do
# than processors a thread that has had no turn doesn't stand: it must have used some of a processor's time in its call, a millisecond, where a
# short message or collective takes one or two microseconds, or have slept there.
STANDS, RAN, ASLEEP = 0.5, 1e6, 3

Awaited = collections.namedtuple("Awaited", "kind context rank tag index place form")
Thread = collections.namedtuple("Thread", "number since calls inside place count any ran asleep name awaited")

# Collectives that no job text has, by those that need the same members.
LIKE = {"Gatherv": "Gather", "Scatterv": "Scatter", "Alltoallv": "Alltoall", "Alltoallw": "Alltoall", "Reduce_scatter": "Reduce_scatter_block",
        "Comm_split": "Barrier", "Comm_dup": "Barrier"}

def givers(call, member, size):
    """The members without whose call a collective can't be complete at one of SIZE members, whatever the library: those that give it something."""
    every, name = range(size), LIKE.get(call.name, call.name)
    needs, kind = NEEDS.get(name), KINDS.get(name)
    if needs is None or needs == "root all" and member != call.root:
        return []
    if kind == "barrier":
        return every
    if needs == "root":
        return [call.root] if amount(call.sent if kind == "bcast" else call.got, 0) and call.root in every else []
    if kind not in COMBINING:
        return [it for it in every if amount(call.got, it)]
    if not amount(call.sent, member if call.name == "Reduce_scatter" else 0):
        return []
    return every if needs == "all" or needs == "root all" else range(member)


def moves_nothing(call):
    """Whether a call moves no data, so that it lasts only where it waits for members that haven't called it."""
    return call.name in WAITED or is_empty(call)


class Now:
    """The file of one rank: of the run RUN, or of any for None."""

    def __init__(self, path, run):
        self.there = self.lost = self.unshown = self.elsewhere = self.callbacks = False
        self.threads, self.counts, self.beat, self.size, self.counted, self.finalized, self.unseen = [], b"", 0, 0, False, False, False
        try:
            with open(path, "rb") as file:
                data = file.read()
        except OSError:
            return
        if len(data) < HEAD.size + THREADS * (THREAD.size + SHOWN * AWAITED.size) + MESSAGES * MESSAGE.size:
            return
        version, _, size, finalized, its_run, beat, uncounted, unseen = HEAD.unpack_from(data)
        if version != VERSION or run not in (None, its_run):
            return
        self.there, self.size, self.beat, self.counted, self.finalized = True, size, beat, not uncounted and not unseen & (UNSEEN | LOST), bool(finalized)
        self.unseen, self.lost, self.unshown, self.elsewhere, self.callbacks = (bool(unseen & flag) for flag in (UNSEEN, LOST, UNSHOWN, ELSEWHERE, CALLBACKS))
        at = HEAD.size
        for number in range(THREADS):
            since, calls, inside, place, count, any_, ran, asleep, name = THREAD.unpack_from(data, at)
            at += THREAD.size
            if calls:
                awaited = [Awaited(*AWAITED.unpack_from(data, at + place_ * AWAITED.size)) for place_ in range(min(count, SHOWN))]
                self.threads.append(Thread(number, since, calls, bool(inside), place, count, bool(any_), ran, asleep, name.split(b"\0")[0].decode(), awaited))
            at += SHOWN * AWAITED.size
        self.counts = data[at:at + MESSAGES * MESSAGE.size]

    @functools.cached_property
    def messages(self):
        """How many messages alike the rank has called, by their kind, context, rank and tag."""
        return {(kind, context, rank, tag): calls for kind, context, rank, tag, calls in MESSAGE.iter_unpack(self.counts) if kind}


def calls_under_way(folder):
    """What each rank of a folder has under way: for each of its threads how many calls it has entered, and since when it is in the last one."""
    names = [name for name in os.listdir(folder) if re.fullmatch(r"now\.\d+", name)] if os.path.isdir(folder) else []
    return {int(name[4:]): [(it.calls, it.since) for it in Now(os.path.join(folder, name), None).threads] for name in names}


def read_nows(folder, records):
    """The file of each rank. One that stands in MPI_Finalize may yet call MPI in a callback, past the recorder."""
    nows = {rank: Now(os.path.join(folder, f"now.{rank}"), record.run) for rank, record in records.items()}
    for rank, now in nows.items():
        now.unseen = now.unseen or records[rank].ended and now.callbacks and not now.finalized
    return nows


def ranks_unseen(nows):
    """The ranks that called MPI past the recorder, or may yet do so."""
    return [rank for rank, now in nows.items() if now.unseen]


def limits_of(records, nows):
    """What a text of the records can't show, in words."""
    ranks = {
        "made collective calls that the library refused": [rank for rank, record in records.items() if record.refused],
        "called MPI_Finalize with collectives that no call was seen to complete": [rank for rank, record in records.items() if record.opened],
    }
    ranks["called MPI_Finalize and didn't come out of it"] = [rank for rank, record in records.items() if record.ended and nows[rank].there and not nows[rank].finalized]
    messages = sum(calls for now in nows.values() for (kind, *_), calls in now.messages.items() if kind == SEND)
    elsewhere = messages or any(now.messages or now.elsewhere or not now.there for now in nows.values())
    words = f"the program's {messages} messages aren't in the text" if messages else "what the ranks wait for beside collectives isn't in the text"
    notes = [f"incomplete: {rank_words(those)} {words}" for words, those in ranks.items() if those]
    return notes + ([f"by themselves: {words}, so that it never stalls isn't said of the program"] if elsewhere else [])


class Standings:
    """Where the ranks stand that didn't come to their ends. NOWS has the files that say so. BEFORE has what was under way before the records were read: the program may still
    run, and a rank that has gone on meanwhile waits for none."""

    def __init__(self, nows, records, contexts, places, judge, before):
        self.now, self.records, self.contexts, self.places, self.judge, self.before = nows, records, contexts, places, judge, before
        self.lost = [rank for rank, now in self.now.items() if now.lost]
        self.open = [rank for rank, record in records.items() if not record.ended and rank not in self.lost]
        self.ending = [rank for rank, record in records.items() if record.ended and self.now[rank].there and not self.now[rank].finalized]
        self.unknown = [rank for rank, now in self.now.items() if not now.there]
        self.unshown = [rank for rank, now in self.now.items() if now.unshown]

    def limits(self):
        return limits_of(self.records, self.now)

    def waits_elsewhere(self):
        """Whether ranks wait for one another also by what isn't a collective."""
        return any(now.messages or now.elsewhere or not now.there for now in self.now.values())

    def calls_elsewhere(self):
        """Whether they do so by what is neither a collective nor a message."""
        return any(now.elsewhere or not now.there for now in self.now.values())

    def unseen(self):
        return ranks_unseen(self.now)

    # What a rank waits for

    def key(self, rank, number):
        context = self.records[rank].contexts.get(number)
        return context.key if context else None

    def is_sure(self, rank, awaited):
        """Whether what is awaited is in a context, and at a place of it, that means the same at all ranks."""
        key = self.key(rank, awaited.context)
        return bool(key) and self.judge.is_sure(key, awaited.index if awaited.kind == COLLECTIVE else -1)

    def lacking(self, rank, awaited):
        """The members that haven't made a collective call, and of whom a record is there."""
        key = self.key(rank, awaited.context)
        if not key:
            return []
        return [it for it in self.contexts.members(key) if it in self.records and it not in self.lost and len(self.records[it].calls.get(key, ())) <= awaited.index]

    def command(self, rank, awaited):
        calls = self.records[rank].calls.get(self.key(rank, awaited.context), ())
        return calls[awaited.index] if awaited.index < len(calls) else None

    def collective_options(self, rank, awaited, alone):
        """The same as `options`, of a collective. One that moves data between members that have called it may just take long, and so may one
        that calls back the program or has to do with a disk."""
        command, members = self.command(rank, awaited), self.contexts.members(self.key(rank, awaited.context))
        if not command or command.call.name.startswith("Neighbor_"):
            return None  # which members are neighbours isn't recorded
        lacking = set(self.lacking(rank, awaited))
        needed = lacking & {members[it] for it in givers(command.call, members.index(rank), len(members))}
        if needed:
            return "all", needed
        if not lacking or not alone or any(it not in self.records or it in self.lost for it in members):
            return None
        call, is_first = command.call, lacking == set(members) - {rank}
        waits = moves_nothing(call) or is_first and bool(call.sent or call.got or call.name == "Win_fence")
        return ("any", lacking) if waits else None

    def messages(self, rank, kind, key, peer, tag):
        """How many messages alike a rank has called, or None where that isn't known."""
        now = self.now.get(rank)
        number = next((number for number, context in self.records[rank].contexts.items() if context.key == key), None) if rank in self.records else None
        if not now or not now.counted or number is None:
            return None
        return now.messages.get((kind, number, peer, tag), 0)

    def sent(self, rank, awaited):
        """How many messages the peer of a receive has sent that it may receive, or None."""
        key = self.key(rank, awaited.context)
        if awaited.rank < 0 or awaited.tag < 0 or not key:
            return None
        return self.messages(awaited.rank, SEND, key, rank, awaited.tag)

    def numbers(self, key, peer):
        """The number of a context at a member, or at each for any, or None where a member's messages weren't counted."""
        found = {}
        for member in self.contexts.members(key) if peer == ANY else [peer]:
            if member not in self.now or not self.now[member].counted:
                return None
            found[member] = next((number for number, context in self.records[member].contexts.items() if context.key == key), None)
        return found

    def classes(self, rank, awaited):
        """How many messages of each rank and tag were sent that a receive may have, or None."""
        key = self.key(rank, awaited.context)
        numbers = self.numbers(key, awaited.rank) if key else None
        if numbers is None:
            return None
        found = {}
        for member, number in numbers.items():
            for (kind, context, peer, tag), calls in self.now[member].messages.items():
                if (kind, context, peer) == (SEND, number, rank) and awaited.tag in (-1, tag):
                    found[member, tag] = calls
        return found

    def nothing_left(self, rank, awaited):
        """Whether each message that a receive may have was surely received by one before it. Receives for just one rank and tag come first to
        their own; of those that are alike, each that was called before takes one of what is left."""
        sent = self.classes(rank, awaited)
        if sent is None or awaited.index < 0 or not self.now[rank].counted:
            return False
        mine, first = self.now[rank].messages, not awaited.form & OF_REQUEST and ANY in (awaited.rank, awaited.tag)
        own = {it: mine.get((RECEIVE, awaited.context, *it), 0) if first else 0 for it in sent}
        over = sum(max(0, calls - own[it]) for it, calls in sent.items())
        within = sum(calls for it, calls in sent.items() if calls <= own[it])
        return over <= max(0, awaited.index - within)

    def receives(self, rank, awaited):
        """How many receives the peer of a send has called that may take it, or None."""
        key = self.key(rank, awaited.context)
        if awaited.rank < 0 or not key or not self.now[rank].counted:
            return None
        found = [self.messages(awaited.rank, RECEIVE, key, peer, tag) for peer in (rank, ANY) for tag in (awaited.tag, -1)]
        return None if None in found else sum(found)

    def options(self, rank, awaited, alone):
        """Whom a rank surely waits for by one thing: ("all", ranks) where it wants each of them, ("any", ranks) where one is enough, or
        None where it isn't sure that it waits. ALONE says that its call names nothing else."""
        if not self.is_sure(rank, awaited):
            return None
        if awaited.kind == COLLECTIVE:
            return self.collective_options(rank, awaited, alone)
        if awaited.kind == RECEIVE and awaited.rank >= 0:
            return ("all", {awaited.rank}) if self.nothing_left(rank, awaited) else None
        if awaited.kind == RECEIVE and awaited.rank == ANY and alone:
            others = set(self.contexts.members(self.key(rank, awaited.context))) - {rank}
            return ("any", others) if others and self.nothing_left(rank, awaited) else None
        if awaited.kind == SEND and awaited.rank >= 0 and alone and not awaited.form & BUFFERED:
            called = self.receives(rank, awaited)
            return ("all", {awaited.rank}) if called is not None and called <= awaited.index else None
        return None

    def waits(self, rank):
        """The call under way of a rank with one thread, and whom it waits for by each thing; None where it stands in none, or isn't sure."""
        threads = self.now[rank].threads
        if rank not in self.open or len(threads) != 1 or not threads[0].inside or threads[0].count > SHOWN:
            return None
        thread = threads[0]
        if thread.name.startswith("MPI_Test") or self.before.get(rank) != [(thread.calls, thread.since)]:
            return None
        found = [self.options(rank, it, len(thread.awaited) == 1) for it in thread.awaited]
        return (thread, found) if any(found) and not (thread.any and None in found) else None

    def blocked(self):
        """The ranks that wait for one another or for ranks that came to their ends, so that none of them can go on."""
        if self.unseen():
            return {}
        stuck = {rank: self.waits(rank) for rank in self.open}
        stuck = {rank: it for rank, it in stuck.items() if it}
        while True:
            never = set(stuck) | {rank for rank, record in self.records.items() if record.ended}
            free = [rank for rank, (thread, found) in stuck.items() if not self.holds(thread, found, never)]
            if not free:
                break
            for rank in free:
                del stuck[rank]
        if not stuck or not self.at_once(stuck):
            return {}
        return {rank: self.holding(found, set(stuck) | {it for it, record in self.records.items() if record.ended}) for rank, (_, found) in stuck.items()}

    @staticmethod
    def holds(thread, found, never):
        held = [bool(option) and (bool(option[1] & never) if option[0] == "all" else option[1] <= never) for option in found]
        return all(held) if thread.any else any(held)

    @staticmethod
    def holding(found, never):
        """The ranks for whom a blocked rank waits."""
        for option in found:
            if option and (option[1] & never if option[0] == "all" else option[1] <= never):
                return sorted(option[1] & never)
        return []

    def at_once(self, stuck):
        since = max(thread.since for thread, _ in stuck.values())
        return all(self.now[rank].beat >= since + STANDS * SECOND and had_turn(thread) for rank, (thread, _) in stuck.items())

    def may_have_threads(self, ranks):
        """Those of some ranks of which a thread that hasn't called MPI yet may call it."""
        return [rank for rank in ranks if self.records[rank].thread_level >= MULTIPLE and not self.records[rank].ended]

    # What is reported

    def place(self, rank, number):
        return self.places.name(self.records[rank], number) or "place unknown"

    def seconds(self, rank, thread):
        beat = self.now[rank].beat
        return f", for {(beat - thread.since) / SECOND:.1f} s" if beat > thread.since else ""

    def message_words(self, rank, awaited):
        receive = awaited.kind == RECEIVE
        peer = {ANY: "any rank", -2: "MPI_PROC_NULL", -3: "a rank that isn't known"}.get(awaited.rank, f"rank {awaited.rank}")
        tag = "any tag" if awaited.tag < 0 else f"tag {awaited.tag}"
        key = self.key(rank, awaited.context)
        where = "" if key == "world" else f", on {self.contexts.name(key)}" if key else ", on a communicator that isn't known"
        return f"{'from' if receive else 'to'} {peer}, {tag}{where}" + self.message_note(rank, awaited)

    def message_note(self, rank, awaited):
        """What the counts of messages say of one that is waited for."""
        if not self.is_sure(rank, awaited):
            return ""
        if awaited.kind == RECEIVE and awaited.index >= 0:
            sent = self.sent(rank, awaited)
            if sent is not None and sent <= awaited.index:
                before = f" such, and rank {rank} has called {awaited.index} such receives before" if awaited.index else " such"
                return f" (rank {awaited.rank} has sent {sent or 'none'}{before}{self.other_tags(rank, awaited)})"
        if awaited.kind == SEND and not awaited.form:
            called = self.receives(rank, awaited)
            if called is not None and called <= awaited.index:
                return f" (rank {awaited.rank} has called {called or 'no'} receive{'s' if called > 1 else ''} for it)"
        return ""

    def other_tags(self, rank, awaited):
        """What the awaited rank has sent with other tags and nobody receives: the tag may be the mistake."""
        key = self.key(rank, awaited.context)
        numbers = self.numbers(key, awaited.rank)
        if not numbers or not self.now[rank].counted:
            return ""
        sent = {tag: calls for (kind, context, peer, tag), calls in self.now[awaited.rank].messages.items() if (kind, context, peer) == (SEND, numbers[awaited.rank], rank)}
        took = {tag: [self.messages(rank, RECEIVE, key, peer, it) or 0 for peer in (awaited.rank, ANY) for it in (tag, -1)] for tag in sent}
        free = [(tag, calls - sum(took[tag])) for tag, calls in sorted(sent.items()) if tag != awaited.tag and calls > sum(took[tag])]
        return "".join(f"; it has sent {calls} with tag {tag} that nobody receives" for tag, calls in free[:2])

    def collective_words(self, rank, awaited, itself):
        key, command = self.key(rank, awaited.context), self.command(rank, awaited)
        if not key or not command:
            return "a call on a communicator that isn't known"
        words = "" if itself else f"{call_name(command.call.form, command.call.name)}, {self.place(rank, command.place)}, "
        if not self.is_sure(rank, awaited):
            return f"{words}call {awaited.index + 1} on {self.contexts.name(key)}" + (", where the calls differ" if self.judge.differ.get(key) == awaited.index else "")
        lacking = self.lacking(rank, awaited)
        absent = [it for it in self.contexts.members(key) if it not in self.records or it in self.lost]
        there = f": {rank_words(lacking)} {'has' if len(lacking) == 1 else 'have'} not called it" if lacking else "" if absent else ", which all its members have called"
        return f"{words}call {awaited.index + 1} on {self.contexts.name(key)}{there}"

    def awaited_words(self, rank, awaited):
        """One of the things that a completion call waits for."""
        if awaited.kind == COLLECTIVE:
            return self.collective_words(rank, awaited, False)
        if awaited.kind in (RECEIVE, SEND):
            return f"a {'receive' if awaited.kind == RECEIVE else 'send'}, {self.place(rank, awaited.place)}, {self.message_words(rank, awaited)}"
        return "a request that isn't followed"

    def thread_words(self, rank, thread):
        where = f"{thread.name}, {self.place(rank, thread.place)}"
        if not thread.inside:
            return f"in no MPI call that is followed{self.seconds(rank, thread)}; the last was {where}" + self.tested_words(rank, thread)
        words = f"in {where}" + self.seconds(rank, thread)
        shown = thread.awaited
        if not shown:
            return words
        if shown[0].kind == RANK:
            return f"{words}: of rank {shown[0].rank}"
        if not shown[0].form & OF_REQUEST and shown[0].kind != OTHER:
            parts = [self.collective_words(rank, it, True) if it.kind == COLLECTIVE else self.message_words(rank, it) for it in shown]
            return f"{words}: {'; '.join(parts)}"
        parts = [self.awaited_words(rank, it) for it in shown[:4]]
        more = thread.count - len(parts)
        head = "for one of " if thread.any and thread.count > 1 else "for "
        return f"{words}: {head}{'; '.join(parts)}" + (f"; and {more} more" if more else "")

    def tested_words(self, rank, thread):
        """What a rank last asked for that is in no call: it may ask again and again."""
        if not thread.name.startswith("MPI_Test") or not thread.awaited:
            return ""
        return f", which asked for {self.awaited_words(rank, thread.awaited[0])}"

    def rank_lines(self, rank):
        record, now = self.records[rank], self.now[rank]
        if record.abort:
            return [f"called MPI_Abort with {record.abort[0]}, {self.place(rank, record.abort[1])}"]
        if not now.threads:
            last = next((command for command in reversed(record.commands) if command.word), None)
            return [f"its last recorded call is at {self.place(rank, last.place)}" if last else "no call of it was recorded"]
        return self.thread_lines(rank)

    def thread_lines(self, rank):
        now = self.now[rank]
        lines = [self.thread_words(rank, thread) for thread in now.threads]
        return [f"thread {thread.number}: {words}" for thread, words in zip(now.threads, lines)] if len(lines) > 1 else lines

    def lines(self, ranks):
        """Where each of these ranks stands, those alike together, with the shortest of their times."""
        alike = collections.defaultdict(list)
        for rank in ranks:
            for words in self.rank_lines(rank):
                alike[without_seconds(words)].append((seconds_of(words), rank, words))
        return [f"{rank_words([rank for _, rank, _ in those])}: {min(those)[2]}" for those in alike.values()]

    def cycle_lines(self, blocked):
        """The ranks of a cycle, or what ends at ranks that came to MPI_Finalize."""
        rank, seen = min(blocked), []
        while rank in blocked and rank not in seen:
            seen.append(rank)
            following = blocked[rank]
            rank = next((it for it in following if it in blocked), following[0] if following else None)
        if rank in seen:
            cycle = seen[seen.index(rank):]
            words = [f"rank {it} waits for rank {after}" for it, after in zip(cycle, cycle[1:] + cycle[:1])]
            head = "a cycle" if len(cycle) > 1 else "a wait for itself"
            return [f"{head}: {', '.join(words)}"] + [f"  rank {it}: {line}" for it in cycle for line in self.rank_lines(it)], cycle
        words = [f"rank {it} waits for rank {after}" for it, after in zip(seen, seen[1:] + [rank])]
        return [f"a wait without end: {', '.join(words)}, which has called MPI_Finalize"] + [f"  rank {it}: {line}" for it in seen for line in self.rank_lines(it)], seen

    def waited_for(self):
        """The ranks that others have waited for some time, and that wait for none themselves, as far as that is sure."""
        waits = {rank: self.waits(rank) for rank in self.open}
        waits = {rank: it for rank, it in waits.items() if it and self.now[rank].beat >= it[0].since + STANDS * SECOND and had_turn(it[0])}
        wanted = set().union(*(option[1] for it in waits.values() for option in it[1] if option))
        return sorted(rank for rank in wanted if rank in self.records and rank not in waits)


def had_turn(thread):
    return thread.ran >= RAN or thread.asleep >= ASLEEP


SECONDS = re.compile(r", for (\d+\.\d) s(?=[:;]|$)")


def without_seconds(words):
    """The words of a call without the time that it has lasted."""
    return SECONDS.sub("", words, count=1)


def seconds_of(words):
    found = SECONDS.search(words)
    return float(found[1]) if found else 0.0
