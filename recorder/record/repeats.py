"""A loop of a program writes the same lines in each of its steps. What these add to a record is added for many steps at once."""

import collections
import os
from array import array

# How far back a step is looked for, by the last bytes of a record: few of them find it sooner, more tell it from what only ends so.
FARTHEST, ENDS = 1 << 16, (48, 1 << 10, 1 << 13)

# How many bytes are compared at once, and how many steps are added at once.
WINDOW, AT_ONCE = 1 << 20, 1 << 14


class Step:
    """What was read last: TEXT has its lines, which make that many COMMANDS."""

    def __init__(self, text, commands):
        self.text, self.commands, self.lines = text, commands, text.count(b"\n")


def repeated_step(file, offset):
    """The step that ends at an offset and is alike to the one before it, or None. It has only calls, messages and waits for these. So it began
    at the place and in the thread in which it ends, and adds the same each time."""
    size = min(FARTHEST, offset)
    tail = os.pread(file.fileno(), size, offset - size)
    for length in ENDS:
        at = tail.rfind(tail[-length:], 0, -1)
        period = len(tail) - at - length
        if at >= 0 and tail[-period:] == tail[-2 * period:-period]:
            commands = commands_of(tail[-period:])
            return Step(tail[-period:], commands) if commands else None
    return None


def commands_of(text):
    """How many commands lines make; 0 if there are some that say more than that a call was made again."""
    count = 0
    for line in text.splitlines():
        first, words = line[:1], line.split(b" ", 3)
        if first == b"+" and len(words) == 2 or first == b"=" or words[0] == b"call" and words[2] != b"p":
            count += 1
        elif first not in (b"@", b"%", b"-"):
            return 0
    return count


def times_repeated(file, offset, text):
    """How often a text stands in a row from an offset on."""
    block, found = text * max(1, WINDOW // len(text)), 0
    while True:
        part = os.pread(file.fileno(), len(block), offset + found)
        if part != block:
            low, high = 0, len(part) // len(text)
            while low < high:
                middle = (low + high + 1) // 2
                low, high = (middle, high) if part[:middle * len(text)] == block[:middle * len(text)] else (low, middle - 1)
            return found // len(text) + low
        found += len(block)


def add_steps(record, step, times):
    """Adds to a record what that many more of its last step add."""
    while times:
        part = min(times, AT_ONCE)
        add_at_once(record, step, part)
        times -= part


def add_at_once(record, step, times):
    commands, many = record.commands, step.commands
    last = commands.codes[-many:]
    kinds = [commands.kinds[code] for code in last]
    calls = collections.Counter(kind.key for kind in kinds if kind.call)
    rows = collections.Counter(kind.row for kind in kinds if kind.word == "message")
    messages = sum(kind.word == "message" and kind.form.islower() for kind in kinds)
    requests = sum(kind.call is not None and kind.call.form == "n" for kind in kinds)
    repeat(commands.extra, [calls[kind.key] if kind.call else rows[kind.row] if kind.row else messages for kind in kinds], times)
    repeat(commands.offsets, [len(step.text)] * many, times)
    commands.codes.extend(last * times)
    repeat(commands.messages, [many] * messages, times)
    repeat(commands.requests, [many] * requests, times)
    for key, count in calls.items():
        own = record.calls[key]
        repeat(own.positions, [many] * count, times)
        own.ids.extend(own.ids[-count:] * times)
    for row, count in rows.items():
        row.count += count * times


def repeat(values, rises, times):
    """Adds the last values TIMES times, each higher by its rise than before."""
    many = len(rises)
    if not many:
        return
    added = array(values.typecode, bytes(values.itemsize * many * times))
    for place, (first, rise) in enumerate(zip(values[-many:], rises)):
        rising = range(first + rise, first + rise * (times + 1), rise) if rise else [first] * times
        added[place::many] = array(values.typecode, rising)
    values.extend(added)
