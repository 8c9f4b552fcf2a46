"""The commands of one rank, in columns of numbers. A program repeats itself, so a column has the number of each command's kind, and others what
differs among commands of one kind; a command is made of these when it is asked for."""

import bisect
import os
from array import array


class Kind:
    """What commands alike have in common. RELATIVE names requests: N > 0 is the Nth of those made last, N < 0 the persistent one of number -N - 1."""

    __slots__ = ("place", "thread", "remarks", "word", "call", "key", "relative", "is_done", "done_code", "form", "row")

    def __init__(self, place, thread, remarks, word, call=None, key=None, relative=()):
        self.place, self.thread, self.remarks, self.word, self.call, self.key, self.relative = place, thread, remarks, word, call, key, relative
        self.is_done, self.done_code = False, None
        self.form, self.row = None, None  # of a message

    def numbers(self, made):
        """The requests' numbers, where MADE ones were made before."""
        return [made - it if it > 0 else -it - 1 for it in self.relative]


class Command:
    """One command of a record: a collective call, or what is done with requests."""

    __slots__ = ("place", "thread", "remarks", "word", "numbers", "call", "key", "index", "request", "refused", "done", "position", "commands")

    def __init__(self, commands, position):
        kind, extra = commands.kinds[commands.codes[position]], commands.extra[position]
        self.commands, self.position = commands, position
        self.place, self.thread, self.remarks, self.word, self.call, self.key = kind.place, kind.thread, kind.remarks, kind.word, kind.call, kind.key
        self.index = extra if kind.call else None
        self.numbers = [] if kind.call else kind.numbers(extra)
        self.request = commands.request_at(position) if kind.call else None
        self.refused, self.done = commands.refused.get(position), kind.is_done

    @property
    def gift(self):
        """What the rank gave, in words: `:` and values, or `~` and how many blocks."""
        return self.commands.gift(self.position)


class Commands:
    """All commands of a rank, in their order."""

    def __init__(self, path):
        self.path, self.file, self.kinds = path, None, []
        self.codes, self.offsets = array("I"), array(self.offset_type())
        # Of a call its place in the order of its context, of a message its place among those alike, of another command how many requests were
        # made before it.
        self.extra = array("I")
        self.requests = array("I")  # the positions of the commands that made requests of collectives
        self.messages = array("I")  # and of messages
        self.refused = {}  # the errors of the calls that the library refused, by their positions

    def offset_type(self):
        """Of four bytes, where these suffice, also if the program still writes."""
        try:
            return "I" if os.path.getsize(self.path) < 1 << 31 else "Q"
        except OSError:
            return "Q"  # whoever opens it says why it can't be read

    def __len__(self):
        return len(self.codes)

    def __getitem__(self, position):
        return Command(self, range(len(self.codes))[position])

    def add_kind(self, kind):
        self.kinds.append(kind)
        return len(self.kinds) - 1

    def add(self, code, extra, offset):
        self.codes.append(code)
        self.extra.append(extra)
        self.offsets.append(offset)

    def request_at(self, position):
        """The number of the request that a command made, or None."""
        number = bisect.bisect_left(self.requests, position)
        return number if number < len(self.requests) and self.requests[number] == position else None

    def gift(self, position):
        if self.file is None:
            self.file = open(self.path, "rb")
        self.file.seek(self.offsets[position])
        line = self.file.readline().decode(errors="replace").rstrip("\n")
        if self.kinds[self.codes[position]].word == "start":
            return line.split(" ")[2:]
        at = max(line.find(" : "), line.find(" ~ "))
        return line[at + 1:].split(" ") if at >= 0 else []

    def words(self):
        """The words of all commands."""
        return {kind.word for kind in self.kinds}


class Calls:
    """The calls of a context, in their order: the positions of their commands, and for each a number of what it says, one for all ranks."""

    def __init__(self, commands):
        self.commands, self.positions, self.ids = commands, array("I"), array("I")

    def __len__(self):
        return len(self.positions)

    def __getitem__(self, index):
        if isinstance(index, slice):
            return [self.commands[it] for it in self.positions[index]]
        return self.commands[self.positions[index]]

    def append(self, position, call_id):
        self.positions.append(position)
        self.ids.append(call_id)

    def pop(self):
        self.positions.pop()
        self.ids.pop()


class Row:
    """Messages of a rank that are alike but for their types and counts: KIND is s or r, RANK and TAG -1 for any."""

    def __init__(self, kind, key, rank, tag):
        self.kind, self.key, self.rank, self.tag = kind, key, rank, tag
        self.count = 0
        # From which message on they have which type, number of elements, and place.
        self.says = []

    def is_any(self):
        return self.rank < 0 or self.tag < 0


class Requests:
    """The commands that made requests, by the requests' numbers."""

    def __init__(self, commands):
        self.commands = commands

    def __len__(self):
        return len(self.commands.requests)

    def __getitem__(self, number):
        return self.commands[self.commands.requests[number]]


class Shared:
    """What the calls of all ranks say, each alike once and with one number."""

    def __init__(self):
        self.numbers, self.calls = {}, []

    def number(self, call):
        number = self.numbers.setdefault(call, len(self.calls))
        if number == len(self.calls):
            self.calls.append(call)
        return number
