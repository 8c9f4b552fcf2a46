"""What the recorder wrote: a file of calls for each rank, rank.R, as log.c, calls.c and types.c write them."""

import collections
import itertools
import os
import re

from commands import Calls, Commands, Kind, Requests, Row, Shared
from repeats import add_steps, repeated_step, times_repeated


class Unreadable(Exception):
    """A folder or file that holds no record to be judged."""


# A basic type of a signature, and how often it stands in a row.
Run = collections.namedtuple("Run", "name bytes times")
# WORD, EACH and EXACT say how it stands in a job text; WHOLE is false where the signature isn't known to its end.
Type = collections.namedtuple("Type", "word each exact bytes runs whole")
# NAME is that of MPI, `user` or `?`. The others are of a user's operation.
Operation = collections.namedtuple("Operation", "name order commutes offset module")
# One side of a call: one type and count, or one of each for each member.
Side = collections.namedtuple("Side", "types counts each")
# FORM is b for blocking, n for nonblocking, p for persistent, i for a nonblocking one whose request isn't followed.
Call = collections.namedtuple("Call", "form name root op sent got")
Context = collections.namedtuple("Context", "kind key maker members place")

FORMS = ("b", "n", "p", "i")

NO_TYPE = Type("byte", 0, False, 0, (), True)

NEWLINE, AT, PERCENT, HASH, PLUS, EQUALS, MINUS = b"\n@%#+=-"

# After how many lines a step of a loop is looked for, which repeats itself.
AT_ONCE = 1 << 11

# How many of the calls that the library refused are kept with their words.
MOST_REFUSED = 16


class Record:
    """What one rank wrote."""

    def __init__(self, path, shared):
        self.path, self.shared, self.commands = path, shared, Commands(path)
        self.contexts, self.places, self.types, self.operations = {}, {}, {}, {}
        self.ended = False
        self.unsure = False  # whether a wait may have been for another request than the one that is written
        self.opened = []  # the numbers of collective requests that weren't complete as it came to MPI_Finalize
        self.rows = {}  # the messages alike, by their number
        self.left = []  # the positions of messages that weren't complete as it came to MPI_Finalize
        self.refused = []  # the first commands that the library refused
        self.operation_places = {}  # where the program made its operations, by their order
        self.abort = None
        self.unknown = collections.Counter()
        self.calls = {}  # of each context the commands, in their order
        self.requests = Requests(self.commands)
        self.persistent = set()  # the numbers of the persistent ones
        self.starts = collections.Counter()  # how often each was started
        self.threads = collections.defaultdict(set)  # of each context the threads that called on it
        self.callers = set()  # all threads of the commands
        self.tests = {}  # of each request that isn't complete the position of the last test
        self.thread_level = 0
        self.seen = {}  # the kinds of commands, by place, thread and what their lines say
        self.line = 1
        try:
            with open(path, "rb") as file:
                self.read_head(file.readline().rstrip(b"\0").decode(errors="replace"))
                self.read(file)
        except OSError as why:
            raise Unreadable(f"{path}: {why.strerror}") from why
        except (ValueError, KeyError, IndexError) as why:
            raise Unreadable(f"{path}: line {self.line}: not a line of a record") from why

    def read_head(self, line):
        head = re.fullmatch(r"record 2 rank (\d+) of (\d+) run (\d+) library (\w+)\n", line)
        if not head:
            old = line.startswith("record 1 ")
            raise Unreadable(f"{self.path}: " + ("written by an older recorder: record anew" if old else "not a record, or one that was cut in its first line"))
        self.rank, self.size, self.run = map(int, head.groups()[:3])
        self.library = head[4]

    def read(self, file):
        """Reads all lines. The file of a program that was killed has zeros after its last line, or a part of a line."""
        offset, state = file.tell(), (None, 0, [], self.kinds_at(None, 0), {})
        while state:
            before = offset
            offset, state = self.read_some(itertools.islice(file, AT_ONCE), offset, *state)
            state = state if offset > before else None
            step = repeated_step(file, offset) if state and not state[2] else None
            if step:
                times = times_repeated(file, offset, step.text)
                add_steps(self, step, times)
                self.line += times * step.lines
                offset = file.seek(offset + times * len(step.text))
        self.seen.clear()

    def read_some(self, lines, offset, place, thread, remarks, known, spots):
        """Reads some lines. Gives where they end, and what the next ones need, or None behind the last line."""
        made, persistent = self.commands.requests, self.persistent
        for self.line, line in enumerate(lines, self.line + 1):
            first = line[0]
            if first == AT and line in spots:
                place, known = spots[line]
            elif line[-1] != NEWLINE or not first:
                return offset, None
            elif line.startswith(b"call "):
                body = line.partition(b" : ")[0]
                kind = known.get(body) if not remarks else None
                self.take_call(kind or self.call_kind(body, place, thread, remarks, known), offset)
                remarks = []
            elif first == PLUS:
                kind = known.get(line)
                self.take_message(kind or self.message_kind(line, place, thread, known), place, offset)
            elif line.startswith(b"wait "):
                # Most wait for a request that was made that many calls ago.
                number = int(line[5:])
                code = known.get(len(made) - number) if not remarks and number not in persistent else None
                if code is None:
                    code = self.wait_code(line.split(), place, thread, remarks, known)
                    if not remarks and number not in persistent:
                        known[len(made) - number] = code
                self.commands.add(code, len(made), offset)
                remarks = []
            elif first == AT:
                place = int(line[1:])
                known = self.kinds_at(place, thread)
                spots[line] = place, known
            elif first == PERCENT:
                thread = int(line[1:])
                known, spots = self.kinds_at(place, thread), {}
            else:
                remarks = self.read_rare(line, place, thread, remarks, known, offset)
            offset += len(line)
        return offset, (place, thread, remarks, known, spots)

    def read_rare(self, line, place, thread, remarks, known, offset):
        """A line of another kind; returns the remarks that wait for the next command."""
        if line[0] == HASH:
            return remarks + [line[:-1].decode(errors="replace")]
        if line[0] == EQUALS:
            code, most = known.get(line) or self.message_wait_kind(line, place, thread, known)
            if most > len(self.commands.messages):
                raise ValueError
            self.commands.add(code, len(self.commands.messages), offset)
        elif line.startswith(b"wait"):
            self.commands.add(self.wait_code(line.split(), place, thread, remarks, known), len(self.commands.requests), offset)
            return []
        elif line[0] != MINUS:
            return self.read_other(line[:-1].decode(errors="replace").split(" "), place, thread, remarks, offset)
        # (What a `-` completed another library may complete later.)
        return remarks

    def message_wait_kind(self, line, place, thread, known):
        """The kind of a wait for messages: its number, and how many must have been made before."""
        relative = tuple(map(int, line[1:].split()))
        if min(relative) < 1:
            raise ValueError
        self.callers.add(thread)
        known[line] = self.commands.add_kind(Kind(place, thread, (), "message wait", relative=relative)), max(relative)
        return known[line]

    def kinds_at(self, place, thread):
        return self.seen.setdefault((place, thread), {})

    def take_call(self, kind, offset):
        code, calls, call_id, has_request = kind
        commands = self.commands
        position = len(commands.codes)
        commands.codes.append(code)
        commands.extra.append(len(calls.positions))
        commands.offsets.append(offset)
        calls.positions.append(position)
        calls.ids.append(call_id)
        if has_request:
            self.take_request(position, has_request)

    def take_request(self, position, form):
        if form == "p":
            self.persistent.add(len(self.commands.requests))
        self.commands.requests.append(position)

    def call_kind(self, body, place, thread, remarks, known):
        """The kind of a call that has stood nowhere before: its number, the calls of its context, what it says, and its form if it makes a request."""
        words = body.decode(errors="replace").rstrip("\n").partition(" ~ ")[0].split(" ")[1:]
        number, call = self.parse(words)
        key = self.contexts[number].key
        call_id = self.shared.number(call)
        calls = self.calls.setdefault(key, Calls(self.commands))
        self.threads[key].add(thread)
        self.callers.add(thread)
        code = self.commands.add_kind(Kind(place, thread, tuple(remarks), "call", self.shared.calls[call_id], key))
        kind = code, calls, call_id, call.form if call.form in "np" else None
        if not remarks:
            known[body] = kind
        return kind

    def message_kind(self, line, place, thread, known):
        """The kind of a message's line: its number, its row, whether it makes a request, and its type and number of elements where it says them."""
        words = line[1:].decode().split()
        row = self.rows[int(words[1])]
        says = words[2].split("*") if words[2:] else None
        kind = Kind(place, thread, (), "message", key=row.key)
        kind.form, kind.row = words[0], row
        self.callers.add(thread)
        known[line] = self.commands.add_kind(kind), row, words[0].islower(), (self.type(says[0]), int(says[1])) if says else None
        return known[line]

    def take_message(self, kind, place, offset):
        code, row, makes_request, says = kind
        if makes_request:
            self.commands.messages.append(len(self.commands))
        self.commands.add(code, row.count, offset)
        if says:
            row.says.append((row.count, *says, place))
        row.count += 1

    def wait_code(self, words, place, thread, remarks, known):
        """The kind of a command that names requests."""
        made, persistent = len(self.commands.requests), self.persistent
        numbers = [int(it) for it in words[1:]]
        if numbers and not 0 <= min(numbers) <= max(numbers) < made:
            raise ValueError
        relative = tuple([-it - 1 if it in persistent else made - it for it in numbers])
        line = words[0], relative, tuple(remarks)
        code = known.get(line)
        if code is None:
            self.callers.add(thread)
            code = known[line] = self.commands.add_kind(Kind(place, thread, tuple(remarks), words[0].decode(), relative=relative))
        return code

    def parse(self, words):
        """The number of the context, and the call."""
        root = op = sent = got = None
        if words[1] not in FORMS:
            raise ValueError
        for word in words[3:]:
            rest = word[1:]
            if word[0] == "r":
                root = int(rest)
            elif word[0] == "o":
                op = self.operations[int(rest)]
            elif word[0] == "s":
                sent = self.side(rest)
            elif word[0] == "g":
                got = self.side(rest)
        return int(words[0]), Call(words[1], words[2], root, op, sent, got)

    def side(self, word):
        if word.endswith(";"):
            parts = [part.split("*") for part in word[:-1].split(";")]
            return Side(tuple(self.type(number) for number, _ in parts), tuple(int(count) for _, count in parts), True)
        number, counts = word.split("*")
        each = counts.endswith(",")
        return Side((self.type(number),), tuple(map(int, counts.rstrip(",").split(","))), each)

    def type(self, number):
        return self.types[int(number)] if int(number) >= 0 else NO_TYPE

    def read_other(self, words, place, thread, remarks, offset):
        """A line that isn't a collective call; returns the remarks that wait for the next one."""
        word = words[0]
        if word == "place":
            module = " ".join(words[4:])
            self.places[int(words[1])] = ("python", " ".join(words[3:])) if words[2] == "python" else (module, int(words[2], 16), int(words[3], 16))
        elif word == "context":
            self.contexts[int(words[1])] = Context(words[2], words[3], words[4], [int(it) for it in words[5:]], place)
        elif word == "type":
            runs = tuple(self.type_run(it) for it in words[6:] if it != "?")
            self.types[int(words[1])] = Type(words[2], int(words[3]), words[4] == "1", int(words[5]), runs, words[-1] != "?")
        elif word == "op":
            self.operations[int(words[1])] = self.operation(words[2:])
        elif word == "threads":
            self.thread_level = int(words[1])
        elif word == "unknown":
            self.unknown[words[1]] += 1
            self.keep(["# LEFT OUT: " + words[1] + " on a communicator whose maker isn't recorded"], place, thread)
        elif word == "refused":
            self.refuse(place, thread, words[1], words[2:] == ["unmade"])
        elif word == "tested":
            self.note_done(self.tests.pop(int(words[1])))
        elif word == "unsure":
            self.unsure = True
        elif word == "class":
            self.rows[int(words[1])] = Row(words[2], self.contexts[int(words[3])].key, int(words[4]), int(words[5]))
        elif word == "left":
            self.left.append(self.commands.messages[len(self.commands.messages) - int(words[1])])
        elif word == "open":
            self.opened.append(int(words[1]))
        elif word == "abort":
            self.abort = (int(words[1]), place)
        elif word == "end":
            self.ended = True
            self.keep(remarks, place, thread)
            return []
        elif word in ("start", "test", "free"):
            self.read_command(words, place, thread, remarks, offset)
            return []
        return remarks

    def read_command(self, words, place, thread, remarks, offset):
        number = int(words[1])
        line = [words[0].encode(), words[1].encode()]
        if words[0] == "start":
            self.starts[number] += 1
        elif words[0] == "test":
            self.tests[number] = len(self.commands)
        code = self.wait_code(line, place, thread, remarks, self.kinds_at(place, thread))
        self.commands.add(code, len(self.commands.requests), offset)

    def note_done(self, position):
        """Says of a test that it completed its request."""
        commands = self.commands
        kind = commands.kinds[commands.codes[position]]
        if kind.done_code is None:
            done = Kind(kind.place, kind.thread, kind.remarks, kind.word, relative=kind.relative)
            done.is_done = True
            kind.done_code = done.done_code = commands.add_kind(done)
        commands.codes[position] = kind.done_code

    def refuse(self, place, thread, error, is_unmade):
        """The library gave back an error of the last collective that a thread has called at a place. One that is unmade took no place in the
        order of its context, and stands in a text as a remark."""
        commands = self.commands
        for position in range(len(commands) - 1, -1, -1):
            kind = commands.kinds[commands.codes[position]]
            if kind.call and (kind.place, kind.thread) == (place, thread):
                commands.refused[position] = error
                if len(self.refused) < MOST_REFUSED:
                    self.refused.append(commands[position])
                calls = self.calls[kind.key]
                if is_unmade and calls.positions[-1] == position:
                    calls.pop()
                    remark = f"# the library refused MPI_{kind.call.name} for its arguments here"
                    commands.codes[position] = commands.add_kind(Kind(place, thread, kind.remarks + (remark,), None))
                return

    def keep(self, remarks, place, thread):
        """Remarks after which no command stands."""
        if remarks:
            self.commands.add(self.commands.add_kind(Kind(place, thread, tuple(remarks), None)), len(self.commands.requests), 0)

    @staticmethod
    def type_run(word):
        name, _, numbers = word.rpartition("/")
        size, times = numbers.split("*")
        return Run(name, int(size), int(times))

    def operation(self, words):
        if words[0] != "user":
            return Operation(words[0], None, None, None, None)
        module = " ".join(words[5:])
        self.operation_places[int(words[1])] = int(words[3])
        return Operation("user", int(words[1]), words[2] != "0", int(words[4], 16), module if module != "?" else None)


def silent(words):
    """Shows no progress."""


def read_records(folder, progress=silent):
    """The records of a folder, by rank. PROGRESS is told what is read."""
    if not os.path.isdir(folder):
        raise Unreadable(f"{folder}: no such folder")
    names = [name for name in os.listdir(folder) if re.fullmatch(r"rank\.\d+", name)]
    if not names:
        raise Unreadable(f"{folder}: no records here: was the program started with the recorder, and with RECORD_DIR={folder}?")
    shared = Shared()
    records = {}
    for number, name in enumerate(sorted(names, key=lambda it: int(it[5:]))):
        path = os.path.join(folder, name)
        progress(f"reads {path}, {number + 1} of {len(names)}")
        record = Record(path, shared)
        records[record.rank] = record
    newest = max(record.run for record in records.values())
    for record in records.values():
        if record.run != newest:
            raise Unreadable(f"{record.path}: of another run than the others: empty the folder before each run")
    return dict(sorted(records.items()))


def listed(ranks):
    """Ranks in words: `0, 2-5`."""
    ranks, parts = sorted(ranks), []
    while ranks:
        last = 0
        while last + 1 < len(ranks) and ranks[last + 1] == ranks[0] + last + 1:
            last += 1
        last = last if last > 1 else 0
        parts.append(f"{ranks[0]}-{ranks[last]}" if last else str(ranks[0]))
        ranks = ranks[last + 1:]
    return ", ".join(parts)


def rank_words(ranks):
    """`rank 3` or `ranks 0, 2-5`."""
    return ("rank " if len(ranks) == 1 else "ranks ") + listed(ranks)
