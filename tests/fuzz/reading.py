"""What a job text without a fault of a line says, read here by itself: the requests of each rank, and what the completions name."""
import collections
import os
import sys

sys.path.insert(0, os.path.join(os.path.dirname(os.path.realpath(__file__)), "..", "..", "recorder", "record"))

import job_words  # noqa: E402

NEEDS = {job_words.KINDS[name]: needs for name, needs in job_words.NEEDS.items()}
COMPLETIONS = ("wait", "waitany", "waitsome", "waitall")


class Request:
    """A rank's post or initialisation in a line, and the lines in which it is started; a post's own line is its only start."""

    def __init__(self, rank, line, command, comm, place, words):
        self.rank, self.line, self.command, self.comm, self.place = rank, line, command, comm, place
        self.starts = [line] if command == "post" else []
        self.kind, *rest = words[:words.index(":")] if ":" in words else words
        self.root = int(rest.pop(0)) if self.kind in job_words.ROOTED else None
        self.operation = rest.pop(0) if self.kind in job_words.COMBINING else None
        self.type = rest.pop(0) if rest else None
        self.counts = [int(it) for it in rest]

    def field(self, name):
        """What a field of a mismatch is called after."""
        if name in ("count", "counts"):
            return self.counts
        return {"kind": self.kind, "mode": self.command, "root": self.root, "operation": self.operation, "type": self.type}[name]

    def is_like(self, other):
        return all(self.field(name) == other.field(name) for name in ("kind", "mode", "root", "operation", "type", "count"))

    def needed(self, group):
        """The ranks without whose contributions there is no value here, of a collective with blocks that aren't empty."""
        needs = NEEDS[self.kind]
        if needs == "root":
            return [group[self.root]]
        if needs == "root all" and self.rank != group[self.root]:
            return []
        return group[:group.index(self.rank)] if needs.startswith("lower") else group


class Reading:
    def __init__(self, text):
        self.lines = text.split("\n")
        self.groups, self.requests, self.named = [], collections.defaultdict(list), {}
        places, rank = collections.Counter(), None
        for at, line in enumerate(self.lines, 1):
            word, *words = line.split() or ["#"]
            own = self.requests[rank]
            if word == "ranks":
                self.groups.append(list(range(int(words[0]))))
            elif word == "comm":
                self.groups.append([int(it) for it in words])
            elif word == "rank":
                rank = int(words[0])
            elif word in ("post", "init"):
                comm = int(words[0])
                own.append(Request(rank, at, word, comm, places[rank, comm], words[1:]))
                places[rank, comm] += 1
            elif word == "start":
                own[int(words[0])].starts.append(at)
            elif word in COMPLETIONS:
                self.named[at] = [int(it) for it in words] or list(range(len(own)))

    def on(self, comm):
        """The requests on a communicator, of each member in the group's order."""
        return {rank: [it for it in self.requests[rank] if it.comm == comm] for rank in self.groups[comm]}

    def at(self, comm, place):
        """The requests at a place, the earliest line first."""
        return sorted((own[place] for own in self.on(comm).values() if len(own) > place), key=lambda it: it.line)

    def awaited(self, rank, line, waits):
        """What a rank needs that waits in a line, where others wait in `waits`: its requests with their starts, and who hasn't given to them."""
        own, found = self.requests[rank], []
        for number in self.named[line] if line else range(len(own)):
            begun = [it for it in own[number].starts if line is None or it < line]
            if not begun:
                continue
            there = {it.rank: it.starts for it in self.at(own[number].comm, own[number].place)}
            lines = {it: there[it][len(begun) - 1] for it in own[number].needed(self.groups[own[number].comm])}
            lacks = {it: at for it, at in lines.items() if waits.get(it) and at > waits[it]}
            if lacks:
                found.append((number, len(begun) - 1, lacks))
        return found
