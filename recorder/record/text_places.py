"""What colljob says of a job text, with the places in the program that stand in the text's comments."""

import collections
import re
import subprocess

import run_lines
from records import Unreadable

# The comment that says where a call stands.
PLACE = re.compile(r"# (\S+:\d+|\S+ 0x[0-9a-f]+(, in .*)?|place unknown)")

# The first and the last line of a text that was made of records.
MADE, LAST = "# made of records, whole where its last line says so", "# the end of the text"

CUT = "incomplete: the text was cut"

# How a text's note begins if it isn't known whether its lines let ranks wait for one another.
NOT_JUDGED = "incomplete: stalls aren't judged: "

# The notes at the head of such a text.
NOTE = re.compile(r"# (incomplete: .*|left out: .*|fault: .*|warning: .*|by themselves: .*|rank \d+ has no record)")

# How `colljob explain` begins where it doesn't know.
UNKNOWN = re.compile(r"(warning: )?(may stall|.* may stall$)", re.M)

# A line of `colljob explain` that shows a line of the text.
SHOWN = re.compile(r" *(\d+) \| \S.*")

Call = collections.namedtuple("Call", "line rank words where communicator place request")
Verdict = collections.namedtuple("Verdict", "fault stalls unknown lines")


class Text:
    """The lines of a text, and the place in the program that the comment above each has."""

    def __init__(self, path):
        self.path, self.calls, self.ranks, self.members, self.notes, self.none = path, [], 0, [], [], None
        try:
            with open(path) as file:
                self.read(file)
        except (OSError, ValueError, IndexError) as why:
            raise Unreadable(f"{path}: {why.strerror if isinstance(why, OSError) else 'not a job text'}") from why

    def read(self, file):
        rank, where, next_request, next_place = None, None, collections.Counter(), collections.Counter()
        made, last = False, ""
        for number, line in enumerate(file, 1):
            made, last = made or line.strip() == MADE, line.strip()
            words = line.split()
            if line.startswith("# no text: "):
                self.none = line[11:].strip()
            elif line.startswith("#"):
                self.notes += [line[2:].strip()] if NOTE.fullmatch(line.strip()) else []
                # Other comments explain. The wait of a blocking call has no place of its own.
                where = line[2:].strip() if PLACE.fullmatch(line.strip()) else where
            elif not self.ranks and words and words[:1] != ["ranks"]:
                return  # a job text begins with its ranks
            elif words[:1] == ["ranks"]:
                self.ranks = int(words[1])
                self.members.append(list(range(self.ranks)))
            elif words[:1] == ["comm"]:
                self.members.append([int(word) for word in words[1:]])
            elif words[:1] == ["rank"]:
                rank, where = int(words[1]), None
            elif words:
                communicator = place = request = None
                if words[0] in ("post", "init") and len(words) > 1 and words[1].isdigit():
                    communicator, request = int(words[1]), next_request[rank]
                    place = next_place[rank, communicator]
                    next_request[rank] += 1
                    next_place[rank, communicator] += 1
                self.calls.append(Call(number, rank, words, where, communicator, place, request))
        if made and last != LAST:
            self.notes.append(CUT)

    def at(self, number):
        return next((call for call in self.calls if call.line == number), None)

    def posts(self):
        return [call for call in self.calls if call.request is not None]


def shown(call, head=""):
    return f"  {head}rank {call.rank}, {call.where or 'place unknown'}: {' '.join(signature(call))}"


def signature(call):
    return call.words[: call.words.index(":")] if ":" in call.words else call.words


def mismatch_lines(text, call):
    there = [it for it in text.posts() if (it.communicator, it.place) == (call.communicator, call.place)]
    differing = [it for it in there if signature(it) == signature(call)]
    return [shown(call), shown(there[0], "doesn't agree with ")] + ([f"  {len(differing)} ranks call the former, so the latter may be the wrong one"] if len(differing) > 1 else [])


def missing_lines(text):
    """The first place of a communicator that some members lack."""
    made = collections.defaultdict(dict)
    for call in text.posts():
        made[call.communicator, call.place][call.rank] = call
    for (communicator, place), calls in sorted(made.items()):
        lacking = [rank for rank in text.members[communicator] if rank not in calls]
        if lacking:
            return [f"  communicator {communicator}: rank {', '.join(map(str, lacking))} made {place} calls, and others made more; the next is", shown(next(iter(calls.values())))]
    return []


def start_lines(text):
    """The first place where members have started different numbers of times."""
    starts = collections.Counter((call.rank, int(call.words[1])) for call in text.calls if call.words[0] == "start")
    for call in text.posts():
        numbers = {it.rank: starts[it.rank, it.request] for it in text.posts() if (it.communicator, it.place) == (call.communicator, call.place)}
        if call.words[0] == "init" and len(set(numbers.values())) > 1:
            return [shown(call), "  its starts: " + ", ".join(f"rank {rank} {count}" for rank, count in sorted(numbers.items()))]
    return []


def fault_lines(text, line, cause):
    call = text.at(line)
    if cause == "place mismatch" and call:
        return mismatch_lines(text, call)
    if cause == "place missing":
        return missing_lines(text)
    if cause == "start missing":
        return start_lines(text)
    return [shown(call)] if call else []


def ask(program, *words):
    try:
        return subprocess.run([program, *words], capture_output=True, text=True)
    except OSError as why:
        raise Unreadable(f"{program}: {why.strerror}: name colljob by --colljob or the variable COLLJOB") from why


def judge(path, program, text=None):
    """The fault of a text, or whether its ranks may wait for one another, with the places in the program."""
    text = text or Text(path)
    run = ask(program, "plain", path)
    fault = re.search(r"line (\d+): (.*)", run.stderr)
    if run.returncode and not fault:
        raise Unreadable(run.stderr.strip() or f"{program} ended with status {run.returncode}")
    if fault:
        return Verdict(run.stderr.strip(), False, False, fault_lines(text, int(fault[1]), fault[2]))
    run = ask(program, "explain", "--strict", path)
    if run.returncode not in (0, 3, 6):
        raise Unreadable(run.stderr.strip() or f"{program} ended with status {run.returncode}")
    lines = []
    for line in run.stdout.splitlines():
        number = SHOWN.fullmatch(line)
        call = text.at(int(number[1])) if number else None
        place = call.where if call else run_lines.places(text, line)
        lines.append(f"{line}    # {place}" if place else line)
    unknown = bool(UNKNOWN.match(run.stdout))
    return Verdict(None, run.returncode != 0 and not unknown, unknown, lines)


def tell(path, program):
    """What is reported of a text alone, in lines, and the status of where.py."""
    text = Text(path)
    if text.none:
        raise Unreadable(f"{path}: no text to judge: {text.none}")
    if not text.ranks:
        raise Unreadable(f"{path}: not a job text, or one that was cut: its first command isn't `ranks N`")
    lines = [f"{path}: {note}" for note in text.notes]
    if any(note.startswith("fault: ") for note in text.notes):
        return lines, 1
    if CUT in text.notes:
        return lines + [f"{path}: not judged: what was cut off isn't known"], 3
    if any(note.startswith(NOT_JUDGED) for note in text.notes):
        return lines + [f"{path}: no fault in what is there"], 3
    verdict = judge(path, program, text)
    if verdict.fault or verdict.stalls:
        return lines + [verdict.fault or f"{path}: no fault in what is there", *verdict.lines], 1
    apart = any(note.startswith("by themselves: ") for note in text.notes)
    whole = len(text.notes) == apart and not verdict.unknown
    lines.append(f"{path}: no fault" + (" of its collectives by themselves" if whole and apart else "" if whole else " in what is there"))
    if verdict.unknown or whole and not apart:
        lines += verdict.lines
    return lines, 0 if whole else 3
