"""What is judged of messages: their types, those that nobody receives, those that no call completes, and whether ranks wait for one another
where a send waits for its receive, as MPI lets a library do."""

import collections
import itertools

from agreement import DIFFERENT, SAME, classed, data_words, repeated
from records import rank_words
from stalls import ALL, MESSAGES, Lane, Stalls

# How many notes of messages a text has.
MOST_NOTED = 6

# Of a long record the run with messages takes this many commands; what a rank would do after them is taken as done.
MOST_STEPS = 400_000

STALLS = "warning: a library whose sends wait for their receives, as for longer rows, and whose collectives for all their members, stalls:"

# These meet any type (MPI 4.1, 3.3.1), or are often meant to.
ANY_TYPE = {"MPI_PACKED", "MPI_BYTE"}


def compare_message(sent, sent_count, got, got_count):
    """How well a message fits its receive: as many elements as are sent must be there, each of the same type (MPI 4.1, 3.3.1)."""
    if got.bytes * got_count < sent.bytes * sent_count:
        return DIFFERENT
    names = {run.name for run in sent.runs + got.runs}
    if names & ANY_TYPE or not sent.whole or not got.whole:
        return SAME
    runs, room = repeated(sent.runs, sent_count), repeated(got.runs, got_count)
    if runs is None or room is None or is_prefix(runs, room):
        return SAME
    return SAME if is_prefix(classed(runs), classed(room)) else DIFFERENT


def is_prefix(runs, room):
    """Whether elements are the first ones of others. A run's last part says how often it stands in a row, and what stands before that what it is."""
    if len(runs) > len(room):
        return False
    for place, (run, there) in enumerate(zip(runs, room)):
        is_last = place == len(runs) - 1
        if run[:-1] != there[:-1] or run[-1] > there[-1] or run[-1] < there[-1] and not is_last:
            return False
    return True


class Messages:
    """The messages of all ranks. WHY says why they can't be judged, or is None."""

    def __init__(self, records, contexts, places, nows):
        self.records, self.contexts, self.places = records, contexts, places
        self.sends, self.receives = {}, collections.defaultdict(list)
        self.one, self.any = {}, collections.defaultdict(list)  # receives for one rank and tag, and for any
        for rank, record in records.items():
            for row in record.rows.values():
                if row.kind == "s":
                    self.sends[row.key, rank, row.rank, row.tag] = row
                    continue
                self.receives[row.key, rank].append(row)
                if row.is_any():
                    self.any[row.key, rank].append(row)
                else:
                    self.one[row.key, rank, row.rank, row.tag] = row
        self.known_lost = {}
        self.sent_to = collections.defaultdict(dict)  # to each rank how many of each sender and tag
        for (key, sender, receiver, tag), row in self.sends.items():
            self.sent_to[key, receiver][sender, tag] = row.count
        uncounted = [rank for rank, now in nows.items() if not now.there or not now.counted]
        self.why = f"{rank_words(uncounted)} cancelled one, or had an error of one" if uncounted else None

    def any_there(self):
        return bool(self.sends or self.receives)

    def takers(self, key, sender, receiver, tag):
        """The receives that may have a message."""
        one = self.one.get((key, receiver, sender, tag))
        return ([one] if one else []) + [row for row in self.any[key, receiver] if row.rank in (sender, -1) and row.tag in (tag, -1)]

    def pair(self, key, sender, receiver, tag):
        """The one row of receives that has the messages of a row of sends, in their order; None where others may have some of them."""
        takers = self.takers(key, sender, receiver, tag)
        return takers[0] if len(takers) == 1 and not takers[0].is_any() else None

    def has_any(self):
        """The ranks that receive from any rank or with any tag."""
        return sorted({rank for (_, rank), rows in self.receives.items() if any(row.is_any() and row.count for row in rows)})

    def are_over(self, *ranks):
        return all(rank in self.records and self.records[rank].ended for rank in ranks)

    def place(self, rank, place):
        return self.places.name(self.records[rank], place) or "place unknown"

    def place_of(self, rank, row, number):
        """Where a rank calls a message of a row."""
        commands = self.records[rank].commands
        kinds = {code for code, kind in enumerate(commands.kinds) if kind.row is row}
        position = next((it for it, code in enumerate(commands.codes) if code in kinds and commands.extra[it] == number), None)
        return "place unknown" if position is None else self.place(rank, commands.kinds[commands.codes[position]].place)

    def on(self, key):
        return "" if key == "world" else f" on {self.contexts.name(key)}"

    # Types

    def type_faults(self):
        """Of each row the first message that doesn't fit its receive: its words, and the lines of both."""
        if self.why:
            return
        for (key, sender, receiver, tag), sent in sorted(self.sends.items()):
            got = self.pair(key, sender, receiver, tag)
            found = self.first_misfit(sent, got) if got else self.sure_misfit(key, sender, receiver, tag, sent)
            if found:
                number, (*what, place), (*wanted, wanting) = found
                head = f"fault: message {number + 1} of rank {sender} to rank {receiver} with tag {tag}{self.on(key)}"
                lines = [
                    f"  rank {sender}: sends {data_words(*what)}, {self.place(sender, place)}",
                    f"  rank {receiver}: receives {data_words(*wanted)}, {self.place(receiver, wanting)}",
                ]
                yield f"{head}: what is sent and what is received differ", lines, [sender, receiver]

    @staticmethod
    def first_misfit(sent, got):
        """The first message of a row of sends that doesn't fit the receive of its number."""
        most = min(sent.count, got.count)
        for number in sorted({it[0] for it in sent.says + got.says if it[0] < most}):
            mine, theirs = (next((it[1:] for it in reversed(row.says) if it[0] <= number), None) for row in (sent, got))
            if mine and theirs and mine[0].runs and theirs[0].runs and compare_message(*mine[:2], *theirs[:2]) == DIFFERENT:
                return number, mine, theirs
        return None

    def sure_misfit(self, key, sender, receiver, tag, sent):
        """The same where several rows of receives may have a message, none of which fits it, and all messages to the rank were received."""
        takers = self.takers(key, sender, receiver, tag)
        if not takers or self.why or not self.are_over(sender, receiver) or self.lost_at(key, receiver):
            return None
        for number, *says in sent.says:
            room = [it[1:] for row in takers for it in row.says]
            if room and says[0].runs and all(it[0].runs and compare_message(*says[:2], *it[:2]) == DIFFERENT for it in room):
                return number, says, room[0]
        return None

    # Messages that nobody receives

    def lost_at(self, key, receiver):
        if (key, receiver) not in self.known_lost:
            self.known_lost[key, receiver] = self.find_lost(key, receiver)
        return self.known_lost[key, receiver]

    def find_lost(self, key, receiver):
        """How many messages to a rank more were sent than it has received, by sender and tag, as far as that is sure. Receives for one rank and tag
        have theirs first; where some for any have nothing left, which of them had which isn't known."""
        left, spare = dict(self.sent_to.get((key, receiver), {})), False
        for row in self.receives[key, receiver]:
            if not row.is_any() and (row.rank, row.tag) in left:
                left[row.rank, row.tag] -= min(row.count, left[row.rank, row.tag])
        for row in sorted(self.any[key, receiver], key=lambda it: (it.rank < 0) + (it.tag < 0)):
            room = row.count
            for sender, tag in left:
                taken = min(room, left[sender, tag]) if row.rank in (sender, -1) and row.tag in (tag, -1) else 0
                left[sender, tag] -= taken
                room -= taken
            spare = spare or room > 0
        return {} if spare else {it: number for it, number in left.items() if number}

    def lost(self):
        """Messages that nobody receives: words, lines, and ranks."""
        if self.why:
            return
        for key, receiver in sorted({(key, to) for key, _, to, _ in self.sends}):
            lost = self.lost_at(key, receiver) if self.are_over(*(rank for rank in self.contexts.members(key))) else {}
            for (sender, tag), number in lost.items():
                row = self.sends[key, sender, receiver, tag]
                what = f"{number} messages" if number > 1 else "a message"
                head = f"warning: rank {sender} sent {what} with tag {tag} to rank {receiver}{self.on(key)} that nobody received"
                # Of messages that receives for any may have had it isn't known which of them are left.
                first = "" if self.is_among_any(key, receiver, sender, tag) else f", {self.place_of(sender, row, row.count - number)}"
                yield head + first, self.near_misses(key, sender, receiver, tag), [sender, receiver]

    def is_among_any(self, key, receiver, sender, tag):
        return any(row.is_any() for row in self.takers(key, sender, receiver, tag))

    def near_misses(self, key, sender, receiver, tag):
        """Receives of the same rank that weren't complete: the tag may be the mistake."""
        rows = [kind.row for kind in self.left_kinds(receiver) if kind.row.kind == "r" and kind.row.key == key]
        near = [row for row in rows if row.rank in (sender, -1) and row.tag not in (tag, -1)]
        return [f"  = rank {receiver} awaited one with tag {row.tag} from rank {sender} that never came" for row in near[:1]]

    def left_kinds(self, rank):
        commands = self.records[rank].commands
        return [commands.kinds[commands.codes[it]] for it in self.records[rank].left]

    def left(self):
        """Messages that no call was seen to complete before MPI_Finalize: words, lines, and ranks, those alike together."""
        for rank, record in self.records.items():
            kinds = self.left_kinds(rank)
            for kind in [] if record.unsure else kinds[:1]:
                row, more = kind.row, f", and {len(kinds) - 1} more" if len(kinds) > 1 else ""
                what = f"a {row_words(row)}{self.on(row.key)}, {self.place(rank, kind.place)}{more}"
                words = f"warning: rank {rank} called MPI_Finalize, and no call was seen to complete {what}"
                yield words, ["  = MPI wants it complete before (MPI 4.1, 11.2.2)"], [rank]


    def notes(self):
        """What a text of the records can't show, each in a line: faults and warnings of messages, and a stall where sends wait."""
        found = itertools.islice(itertools.chain(self.type_faults(), self.lost(), self.left()), MOST_NOTED)
        notes = ["; ".join([words, *(line.strip() for line in lines)]) for words, lines, _ in found]
        run = MessageStalls(self.records, self.contexts, self) if self.any_there() and not self.why else None
        if run and run.stuck:
            notes.append(f"{STALLS} " + "; ".join(line.strip() for line in run.lines(self.places)))
        return notes


def row_words(row):
    peer = "any rank" if row.rank < 0 else f"rank {row.rank}"
    tag = "any tag" if row.tag < 0 else f"tag {row.tag}"
    return f"{'send to' if row.kind == 's' else 'receive from'} {peer}, {tag}"


class MessageStalls(Stalls):
    """A run in which each send but a buffered one waits for its receive. Where a rank receives from any rank or with any tag, messages to it wait
    for nothing, since which of them meet is open."""

    def __init__(self, records, contexts, messages):
        self.messages, self.total = messages, sum(len(record.commands) for record in records.values())
        super().__init__(records, contexts)

    def skip_alike(self):
        pass

    def last_of(self, record):
        return len(record.commands) if self.total <= MOST_STEPS else min(len(record.commands), MOST_STEPS // len(self.records))

    def is_cut(self):
        return self.total > MOST_STEPS

    def steps_of(self, record):
        steps = super().steps_of(record)
        for code, kind in enumerate(record.commands.kinds):
            if kind.word == "message":
                own, other = self.lanes_of(record.rank, kind.row)
                steps[code] = "message", own, other if kind.form in "SR" else None, kind
            elif kind.word == "message wait":
                steps[code] = kind.word, None, True, kind
        return steps

    def lanes_of(self, rank, row):
        """The lane of a row of messages, and of what it waits for, or None."""
        own = self.message_lane(rank, rank, row)
        if row.is_any():
            return own, None
        sender, receiver = (rank, row.rank) if row.kind == "s" else (row.rank, rank)
        pair = self.messages.pair(row.key, sender, receiver, row.tag)
        if row.kind == "s":
            return own, self.message_lane(receiver, receiver, pair) if pair else None
        sent = self.messages.sends.get((row.key, sender, receiver, row.tag))
        return own, self.message_lane(sender, sender, sent) if pair is row and sent else None

    def message_lane(self, rank, owner, row):
        key = owner, id(row)
        if key not in self.lanes:
            self.lanes[key] = Lane(row, None, {rank: 0 if rank in self.records else ALL})
        return self.lanes[key]

    def message_events(self, it, numbers):
        found = []
        for number in numbers:
            position = it.record.commands.messages[number]
            kind = it.record.commands.kinds[it.codes[position]]
            _, other = self.lanes_of(it.record.rank, kind.row)
            if other and kind.form in "sr":
                found.append((other, it.record.commands.extra[position]))
        return found

    def line(self, rank, command, events, places):
        if command.word not in MESSAGES:
            return super().line(rank, command, events, places)
        record, (lane, place) = self.records[rank], events[0]
        kind = self.waited_kind(record, command, lane, place)
        at = places.name(record, kind.place) or "place unknown"
        waits = f"a wait, {places.name(record, command.place) or 'place unknown'}, for " if command.word == "message wait" else ""
        return f"  rank {rank}: {waits}a {row_words(kind.row)}, {at}: waits for {rank_words(list(lane.counts))}"

    def waited_kind(self, record, command, lane, place):
        """The message that a rank waits for, by what completes it."""
        commands = record.commands
        positions = [commands.messages[it] for it in command.numbers] if command.word == "message wait" else [command.position]
        kinds = {it: commands.kinds[commands.codes[it]] for it in positions}
        return next(kind for it, kind in kinds.items() if self.lanes_of(record.rank, kind.row)[1] is lane and commands.extra[it] == place)
