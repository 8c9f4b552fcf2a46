"""What is reported of a folder of records: findings in their order, as lines for a reader or as JSON."""

import collections
import itertools
import json
import os
import tempfile

import text_places
from agreement import call_name, call_words
from differences import Contexts, Judge, difference_calls, difference_lines
from job_text import MOST_RANKS, Job, why_not_judged
from messages import MOST_STEPS, STALLS, Messages, MessageStalls
from program_places import Places
from records import Unreadable, rank_words, read_records, silent
from stalls import DOUBT, UNDECIDED, find_stalls
from standing import Standings, calls_under_way, ranks_unseen, read_nows

# How many faults are reported whole, and how many calls before a fault its text has.
MOST_SHOWN, ROUND = 3, 8

# What the statuses mean.
CLEAN, FAULT, OPEN = 0, 1, 3

# The sentence of a difference that only warns.
BY_LETTER = "  = these are alike here, though MPI lets only the same types meet (MPI 4.1, 3.3.1)"
OF_ALL = "  = MPI wants it of all members"


class Finding:
    """One thing that is reported: its KIND, a line of words, and the lines beneath. FIELDS has what JSON says further."""

    def __init__(self, kind, words, lines=(), **fields):
        self.kind, self.words, self.lines, self.fields = kind, words, list(lines), fields

    def text(self):
        return "\n".join([self.words, *self.lines])

    def as_json(self):
        return {"kind": self.kind, "words": self.words, "lines": self.lines, **self.fields}


class Report:
    """What is reported of a folder of records. PROGRAM is colljob."""

    def __init__(self, folder, program, progress=silent):
        self.folder, self.program, self.progress = folder, program, progress
        before = calls_under_way(folder)
        self.records = read_records(folder, progress)
        progress("compares the calls of the ranks")
        self.places = Places(self.records)
        self.contexts = Contexts(self.records, self.places)
        nows = read_nows(folder, self.records)
        self.judge = Judge(self.records, self.contexts, ranks_unseen(nows))
        self.standings = Standings(nows, self.records, self.contexts, self.places, self.judge, before)
        self.messages, self.run = Messages(self.records, self.contexts, self.places, nows), None
        self.size = next(iter(self.records.values())).size
        self.findings, self.missing, self.text_path, self.has_cycle = [], False, None, False
        self.status = self.find()

    def text(self):
        return "".join(f"{finding.text()}\n" for finding in self.findings)

    def json_lines(self):
        """An object in each line: one for each finding, and a last one for the status."""
        objects = [finding.as_json() for finding in self.findings]
        objects.append({"kind": "status", "status": self.status, "folder": self.folder, "ranks": self.size, "calls": self.calls(), "text": self.text_path})
        return "".join(json.dumps(it, ensure_ascii=False) + "\n" for it in objects)

    def say(self, kind, words, lines=(), **fields):
        self.findings.append(Finding(kind, words, lines, **fields))

    def lack(self, words, lines=(), kind="open", **fields):
        """Says what keeps the record from being judged to its end."""
        self.missing = True
        self.say(kind, words, lines, **fields)

    def calls(self):
        return sum(len(it) for record in self.records.values() for it in record.calls.values())

    def find(self):
        """Finds all that is reported, and gives the status."""
        self.find_what_is_there()
        faults = self.find_differences()
        self.progress("looks for ranks that wait for one another")
        misfits = self.find_misfits()
        if self.find_cycle() or faults or misfits:
            return FAULT
        self.find_lost()
        not_judged = why_not_judged(self.records, self.judge.unseen)
        if not_judged:
            self.say("verdict", f"no fault found in what is there; stalls aren't judged: {not_judged}")
            return OPEN
        return self.find_stalls()

    # What is there

    def find_what_is_there(self):
        self.say("record", f"{self.folder}: {self.size} rank{'s' if self.size > 1 else ''}, {self.calls()} collective calls")
        absent = [rank for rank in range(self.size) if rank not in self.records]
        if absent:
            self.lack(f"no record of {rank_words(absent)}: what these called isn't known", ranks=absent)
        standings = self.standings
        if standings.lost:
            self.lack(f"the record of {rank_words(standings.lost)} couldn't be written to its end: what was called after that isn't known", ranks=standings.lost)
        if standings.open:
            self.lack(f"{rank_words(standings.open)} didn't come to MPI_Finalize, so what follows is judged by what is there:", self.standing_lines(standings.open), "standing", ranks=standings.open)
        if standings.ending:
            self.lack(f"{rank_words(standings.ending)} called MPI_Finalize and didn't come out of it:", self.standing_lines(standings.ending), "standing", ranks=standings.ending)
        self.find_what_is_not_followed()

    def standing_lines(self, ranks):
        return [f"  {line}" for line in self.standings.lines(ranks)]

    def find_what_is_not_followed(self):
        unknown = [rank for rank in self.standings.unknown if self.records[rank].ended]
        if unknown:
            self.lack(f"whether {rank_words(unknown)} came out of MPI_Finalize isn't recorded", ranks=unknown)
        if self.standings.unshown:
            self.lack(f"more threads of {rank_words(self.standings.unshown)} called MPI than are followed: where the later ones stand isn't known", ranks=self.standings.unshown)
        unknown = sum(sum(record.unknown.values()) for record in self.records.values())
        if unknown:
            self.lack(f"not judged: {unknown} calls on communicators, windows or files whose makers aren't recorded, or between two groups")
        started = sorted(name for name in os.listdir(self.folder) if name.startswith("started."))
        if started:
            self.lack(f"not judged: what it started by MPI_Comm_spawn has records of its own: {', '.join(os.path.join(self.folder, name) for name in started)}")

    # Differences

    def find_differences(self):
        """Reports the differences, and gives those that are surely faults."""
        faults = self.judge.faults()
        for fault in faults[:MOST_SHOWN]:
            self.say_difference(fault, "fault")
        if len(faults) > MOST_SHOWN:
            self.say("fault", f"{len(faults) - MOST_SHOWN} further communicators, windows or files have faults")
        for why, number in self.judge.skipped.items():
            self.say("note", f"not judged: {number} communicators, windows or files that were {why}")
        for warning in self.judge.warnings()[:MOST_SHOWN]:
            self.say_difference(warning, "warning")
        self.find_open()
        self.find_refused()
        sure = [fault for fault in faults if not self.judge.doubt(fault)]
        self.write_round(sure)
        return sure

    def say_difference(self, found, kind):
        doubt = self.judge.doubt(found)
        self.missing = self.missing or bool(doubt and kind == "fault")
        first, *lines = difference_lines(found, self.contexts, self.records, self.places)
        lines += [] if kind == "fault" else [OF_ALL if found.lacking else BY_LETTER]
        calls = difference_calls(found, self.contexts, self.records, self.places)
        fields = {"what": found.what, "communicator": self.contexts.name(found.key), "call": found.index + 1, "lacking": found.lacking, "calls": calls}
        self.say("not sure" if doubt else kind, (f"not sure: {doubt}: " if doubt else f"{kind}: ") + first, lines, **fields)

    def find_open(self):
        """Nonblocking collectives that no call was seen to complete before MPI_Finalize, of ranks whose completions all are."""
        for rank, record in self.records.items():
            for number in [] if record.unsure or rank in self.judge.unseen else record.opened[:1]:
                made = record.requests[number]
                more = f", and {len(record.opened) - 1} more" if len(record.opened) > 1 else ""
                head = "a start of " if made.call.form == "p" else ""
                call = f"{head}{call_name(made.call.form, made.call.name)}, {self.places.name(record, made.place) or 'place unknown'}"
                self.lack(f"warning: rank {rank} called MPI_Finalize, and no call was seen to complete {call}{more}", ["  = MPI wants it complete before (MPI 4.1, 11.2.2)"], "warning", ranks=[rank])

    def find_refused(self):
        """Calls of which the library gave back an error. The first of each rank, those alike together."""
        alike = collections.defaultdict(list)
        for rank, record in self.records.items():
            for command in record.refused[:1]:
                words = call_words(command.call, lambda op, record=record: self.contexts.operation_words(record, op))
                alike[f"{words}, {self.places.name(record, command.place) or 'place unknown'}"].append(rank)
        for words, ranks in alike.items():
            self.lack(f"warning: the library refused a call of {rank_words(ranks)}: {words}", (), "warning", ranks=ranks)

    def write_round(self, faults):
        """A text of the calls round the first fault, for colljob."""
        if not faults or self.size > MOST_RANKS:
            return
        fault = faults[0]
        job = Job(self.records, self.contexts, self.places, self.judge, fault.key, notes=self.standings.limits())
        lines = job.fitting_text(max(0, fault.index - ROUND), fault.index + 1)
        if lines:
            self.write_text(job, lines)
            self.say("text", f"a text of the calls round it: {self.text_path}")

    def write_text(self, job, lines):
        """Writes a text to the folder, or elsewhere where it can't be written."""
        text = "\n".join(job.whole_lines(lines)) + "\n"
        for folder in (self.folder, tempfile.gettempdir()):
            path = os.path.join(folder, "job.text")
            try:
                with open(path, "w") as file:
                    file.write(text)
                self.text_path = path
                return
            except OSError as why:
                last = why
        raise Unreadable(f"{path}: {last.strerror}")

    # Messages

    def find_misfits(self):
        """Whether messages don't fit their receives."""
        found = list(itertools.islice(self.messages.type_faults(), MOST_SHOWN))
        for words, lines, ranks in found:
            self.say("fault", words, lines, ranks=ranks)
        return bool(found)

    def find_lost(self):
        """Messages that nobody receives, and such that no call completes."""
        for words, lines, ranks in itertools.islice(itertools.chain(self.messages.lost(), self.messages.left()), 2 * MOST_SHOWN):
            self.lack(words, lines, "warning", ranks=ranks)

    # Ranks that wait for one another

    def find_cycle(self):
        """Whether ranks surely wait for one another."""
        blocked = self.standings.blocked()
        if blocked:
            lines, ranks = self.standings.cycle_lines(blocked)
            silent = self.standings.may_have_threads(ranks)
            waits = {str(rank): those for rank, those in blocked.items()}
            self.has_cycle = not silent
            if silent:
                words = f"not sure: with MPI_THREAD_MULTIPLE a thread of {rank_words(silent)} that hasn't called MPI yet may end this:"
                self.lack(words, [f"  {line}" for line in lines], "not sure", ranks=ranks, waits=waits)
            else:
                self.say("cycle", lines[0], lines[1:], ranks=ranks, waits=waits)
            return not silent
        waited = self.standings.waited_for()
        if waited:
            self.say("note", f"others wait for {rank_words(waited)}, which {'waits' if len(waited) == 1 else 'wait'} for none as far as is known", ranks=waited)
        return False

    # Stalls

    def find_stalls(self):
        """Whether the collective calls let ranks wait for one another, in the words of colljob where a text of them shows it."""
        stalls, wide = find_stalls(self.records, self.contexts)
        notes = [] if stalls.stuck or not wide.stuck else [DOUBT]
        job = Job(self.records, self.contexts, self.places, self.judge, notes=self.standings.limits() + notes)
        lines = job.fitting_text(0)
        whole = lines is not None and job.next is None and not any(note.startswith("left out") for note in job.notes)
        verdict = self.ask(job, lines)
        if whole and verdict and verdict.fault:
            self.say("fault", f"fault: {verdict.fault}", verdict.lines)
            return FAULT
        if stalls.stuck:
            self.say_stall(stalls, verdict, whole)
            return FAULT
        if self.find_unsafe():
            return FAULT
        chosen = any(record.commands.words() & {"waitany", "waitsome"} for record in self.records.values())
        if chosen and not (whole and verdict and not verdict.unknown):
            self.lack("which of several requests a library completes first is its choice: whether another choice lets ranks wait for one another isn't known")
        if wide.stuck:
            self.lack(f"not sure: {UNDECIDED}:", wide.lines(self.places), "not sure")
        elif whole and verdict and verdict.stalls:
            self.lack(f"not sure: {self.text_path} lets a library stall, by colljob explain --strict, but only one that doesn't complete the same requests as this one: what the program would call then isn't known", verdict.lines, "not sure")
        return self.say_no_fault()

    def find_unsafe(self):
        """Whether ranks wait for one another where sends wait for their receives."""
        if self.messages.why or not self.messages.any_there():
            return False
        self.run = MessageStalls(self.records, self.contexts, self.messages)
        if self.run.stuck:
            self.say("stall", STALLS, self.run.lines(self.places), waits={str(rank): those for rank, those in self.run.waits().items()})
        return bool(self.run.stuck)

    def where_stuck(self, rank):
        """Where a rank can't go on in a run that stalls, in short."""
        command = self.run.stuck[rank][0] if self.run and rank in self.run.stuck else None
        return self.places.name(self.records[rank], command.place) or "" if command else ""

    def ask(self, job, lines):
        """What colljob says of a text, or None where there is none or no colljob."""
        if lines is None:
            return None
        self.write_text(job, lines)
        try:
            return text_places.judge(self.text_path, self.program)
        except Unreadable as why:
            self.say("note", f"{why}: what lets runs stall is found without it")
            return None

    def say_stall(self, stalls, verdict, whole):
        waits, self.run = {str(rank): those for rank, those in stalls.waits().items()}, stalls
        added = "with what these ranks never reached added as it must be if all agree, " if self.standings.open else ""
        if whole and verdict and verdict.stalls:
            self.say("stall", f"{added}colljob explain says of {self.text_path}:", verdict.lines, waits=waits)
        else:
            self.say("stall", f"warning: {added}a library whose collectives wait for all their members stalls:", stalls.lines(self.places), waits=waits)

    def say_no_fault(self):
        if self.missing:
            self.say("verdict", "no fault found in what is there")
            return OPEN
        head = "no fault beside what is warned of" if self.judge.warnings() else "no fault"
        limit = self.limit_of_messages()
        if limit:
            self.say("verdict", f"{head}: the collective calls agree, and by themselves let no run stall; {limit} for that")
        elif self.messages.any_there():
            self.say("verdict", f"{head}: the collective calls and the messages agree, and let no run stall, also where sends wait for their receives")
        else:
            self.say("verdict", f"{head}: the collective calls agree, and let no run stall")
        return CLEAN

    def limit_of_messages(self):
        """Why the whole isn't judged for stalls, or None."""
        if not self.standings.waits_elsewhere():
            return None
        if self.messages.why:
            return f"messages aren't judged, since {self.messages.why},"
        if self.standings.calls_elsewhere() or not self.messages.any_there():
            return "what else the ranks wait for isn't judged"
        if self.messages.has_any():
            return f"messages that {rank_words(self.messages.has_any())} may receive from any rank or with any tag aren't judged"
        return f"messages after the first {MOST_STEPS} calls aren't judged" if self.run.is_cut() else None
