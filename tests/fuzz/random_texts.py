#!/usr/bin/env python3
"""Writes random job texts without faults, whose ranks don't wait for one another in a cycle:

    tests/fuzz/random_texts.py FOLDER [COUNT [SEED]]    COUNT texts (1000 by default), with numbers from SEED (1 by default) on
    tests/fuzz/random_texts.py FOLDER COUNT SEED pairs    some of them over the type 2int
    tests/fuzz/random_texts.py FOLDER COUNT SEED counts   some of them allgathervs, with a count for each member

All ranks post and start in one common order, so each wait ends: among the requests that ranks wait for, all members of the first one have
come to it, or can go on. Starts that follow one another without a wait between them change places now and then.
"""

import os
import random
import sys

sys.path.insert(0, os.path.join(os.path.dirname(os.path.realpath(__file__)), "..", "..", "recorder", "record"))

import job_words  # noqa: E402

KINDS = [kind for kind in job_words.GIVEN if kind != "allgatherv"]
COUNTS = [0, 1, 1, 2, 3, 5, 8, 17, 40]


class Collective:
    """A signature on a communicator, and the number of the request at each member."""

    def __init__(self, draw, communicator, members, persistent, extras):
        self.communicator, self.members, self.persistent = communicator, members, persistent
        self.kind = draw.choice([*KINDS, *(["allgatherv"] if "counts" in extras else [])])
        self.root = draw.randrange(len(members)) if self.kind in job_words.ROOTED else None
        self.type = draw.choice([*job_words.INTEGERS, "byte", *(["2int"] if "pairs" in extras else [])])
        self.operation = None
        if self.kind in job_words.COMBINING:
            self.operation = draw.choice(job_words.OPERATIONS_ON[self.type])
        self.count = draw.choice(COUNTS)
        self.counts = [draw.choice(COUNTS) for _ in members] if self.kind == "allgatherv" else None
        self.numbers = {}

    def words(self):
        words = [self.kind]
        if self.root is not None:
            words.append(str(self.root))
        if self.operation:
            words.append(self.operation)
        return words if self.kind == "barrier" else [*words, self.type, *map(str, self.counts or [self.count])]

    def given(self, draw, rank):
        """The words of what a rank gives."""
        member = self.members.index(rank)
        count = (self.counts[member] if self.counts else self.count) * job_words.blocks_given(self.kind, member == self.root, len(self.members))
        return [":", *(str(self.value(draw)) for _ in range(count))] if count else []

    def value(self, draw):
        if self.type == "2int":
            return f"{draw.randint(-3, 3)},{draw.randint(0, 9)}"
        least, most = job_words.INTEGERS.get(self.type, (0, 255))
        return draw.choice([0, 1, least, most, draw.randint(least, most), draw.randint(max(least, -3), min(most, 9))])


class Writer:
    """The sections of a text under way. ACTIVE has the requests of a rank that may be under way, WAITED what it still has to wait for
    before a start."""

    def __init__(self, draw, extras):
        self.draw, self.extras = draw, extras
        self.ranks = draw.choice([1, 2, 2, 3, 3, 3, 4, 4])
        self.groups = [list(range(self.ranks))]
        for _ in range(draw.choice([0, 0, 1, 2])):
            self.groups.append(draw.sample(range(self.ranks), draw.randint(1, self.ranks)))
        self.lines = [[] for _ in range(self.ranks)]
        self.requests = [0] * self.ranks
        self.active = [set() for _ in range(self.ranks)]
        self.free = []

    def add(self, rank, *words):
        self.lines[rank].append(" ".join(map(str, words)))

    def make(self, persistent):
        group = self.draw.randrange(len(self.groups))
        it = Collective(self.draw, group, self.groups[group], persistent, self.extras)
        for rank in it.members:
            it.numbers[rank] = self.requests[rank]
            self.requests[rank] += 1
            self.add(rank, "init" if persistent else "post", group, *it.words(), *([] if persistent else it.given(self.draw, rank)))
            if not persistent:
                self.active[rank].add(it.numbers[rank])
        if persistent:
            self.free.append(it)

    def start(self, these):
        """Starts persistent requests, each rank in an order of its own: a wait for one stands after the starts of all."""
        for rank in range(self.ranks):
            mine = [it for it in these if rank in it.members]
            for it in mine:
                if it.numbers[rank] in self.active[rank]:
                    self.add(rank, "wait", it.numbers[rank])
                    self.active[rank].discard(it.numbers[rank])
            self.draw.shuffle(mine)
            for it in mine:
                self.add(rank, "start", it.numbers[rank], *it.given(self.draw, rank))
                self.active[rank].add(it.numbers[rank])

    def complete(self, rank):
        """One completion of some of what is under way. Only a wait for all that it names ends that for sure."""
        if not self.active[rank]:
            return
        some = self.draw.sample(sorted(self.active[rank]), self.draw.randint(1, min(4, len(self.active[rank]))))
        word = self.draw.choice(["wait", "test", "waitany", "waitsome", "waitall"])
        self.add(rank, word, *(some[:1] if word in ("wait", "test") else some))
        if word in ("wait", "waitall"):
            self.active[rank] -= set(some[:1] if word == "wait" else some)

    def release(self):
        """All members free a request that is surely inactive."""
        ready = [it for it in self.free if all(it.numbers[rank] not in self.active[rank] for rank in it.members)]
        if ready:
            it = self.draw.choice(ready)
            self.free.remove(it)
            for rank in it.members:
                self.add(rank, "free", it.numbers[rank])

    def text(self):
        for _ in range(self.draw.randint(3, 14)):
            step = self.draw.random()
            if step < 0.3:
                self.make(persistent=False)
            elif step < 0.5 or not self.free:
                self.make(persistent=True)
            elif step < 0.95:
                self.start(self.draw.sample(self.free, self.draw.randint(1, min(3, len(self.free)))))
            else:
                self.release()
            for rank in range(self.ranks):
                if self.draw.random() < 0.4:
                    self.complete(rank)
        head = [f"ranks {self.ranks}", *(" ".join(["comm", *map(str, group)]) for group in self.groups[1:])]
        for rank, lines in enumerate(self.lines):
            head += [f"rank {rank}", *lines]
        return "\n".join(head) + "\n"


def main():
    if len(sys.argv) < 2:
        sys.exit(__doc__)
    folder = sys.argv[1]
    count = int(sys.argv[2]) if len(sys.argv) > 2 else 1000
    seed = int(sys.argv[3]) if len(sys.argv) > 3 else 1
    os.makedirs(folder, exist_ok=True)
    for number in range(seed, seed + count):
        with open(os.path.join(folder, f"{number:05}.job"), "w") as file:
            file.write(Writer(random.Random(number), sys.argv[4:]).text())


if __name__ == "__main__":
    main()
