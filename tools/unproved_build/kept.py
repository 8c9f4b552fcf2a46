"""What was built without proof and is kept: the program, the minimal program for `run` and `plain`, and the C library.

Each is kept under a name with the kit's id and a checksum of its sources, so that none is ever taken for a build of other sources. A call that
finds a kept program loads no module that only a build needs, and reads no source: it compares what the system says of each file (time, size)
with what it said when the checksum was taken.
"""

import os
import time

import sources

TOOLS = os.path.dirname(os.path.abspath(__file__))

# The crate that each kind is built of.
ROOTS = {"first": "colljob", "whole": "colljob", "library": "worzsunab"}

# What decides how something is built beside its sources.
RECIPE = ["compiling.py", "first.py", "first_main.txt", "front_end.py", "library.py", "making.py", "modules.py"]

# How many of one kind are kept: those of a few branches.
MOST = 4

# A file that was changed so shortly before it was looked at might be changed again unseen, since clocks tick.
SETTLED = 0.1


class Kept:
    """What is kept of one kind of [`ROOTS`] for the repository at `top`."""

    def __init__(self, top, kind="whole"):
        self.top, self.kind, self.root = top, kind, ROOTS[kind]
        self.folder = os.path.join(top, "crates", self.root, "out", "unproved")
        self.uses = sources.read_crates(top)
        self.crates = sources.crates_below(self.uses, [self.root])
        self.seen = None

    def sibling(self, kind):
        """What is kept of another kind that is made of the same crate."""
        other = Kept(self.top, kind)
        other.seen = self.seen
        return other

    def paths(self):
        """All files that it is made of, below the top but for the tools."""
        return ["crates.txt", *sources.source_files(self.top, self.crates)]

    def glance(self):
        """What the system says of the files, a line each, and when the last of them was changed: as this call found them first. If one is
        changed later, what the system says of it has changed for good, so that the next call sees it."""
        if self.seen is None:
            self.seen = self.look()
        return self.seen

    def look(self):
        lines, last = [], 0.0
        for path in [*(os.path.join(self.top, it) for it in self.paths()), *(os.path.join(TOOLS, it) for it in RECIPE)]:
            found = os.stat(path)
            lines.append(f"{found.st_size} {found.st_mtime_ns} {found.st_ctime_ns} {found.st_ino} {path}\n")
            last = max(last, found.st_ctime)
        return "".join(lines), last

    def proved(self):
        """What was proved and built of the same crate, where nothing that it stands on is newer, or None."""
        found = os.path.join(self.top, "crates", self.root, "out", "libworzsunab.a" if self.kind == "library" else self.root)
        try:
            return None if self.is_newer(os.stat(found).st_mtime_ns) else found
        except OSError:
            return None

    def is_newer(self, moment):
        """Whether a source, a definition, or what a folder of them has was changed since."""
        paths = ["crates.txt"]
        for name in self.crates:
            for part in ("src", "specs"):
                for folder, _, files in os.walk(os.path.join(self.top, "crates", name, part)):
                    paths += [folder, *(os.path.join(folder, file) for file in files)]
        return any(os.stat(os.path.join(self.top, path)).st_mtime_ns > moment for path in paths)

    def sum(self):
        """The sum over the sources' names and bytes."""
        parts = [" ".join([name, *self.uses[name]]) for name in self.crates]
        for path in self.paths()[1:]:
            parts += [path, read(os.path.join(self.top, path))]
        return sources.sum_of([*parts, *(read(os.path.join(TOOLS, it)) for it in RECIPE)])

    def stamp(self):
        return os.path.join(self.folder, f"{self.kind}.stamp")

    def place(self, kit_id, total):
        return os.path.join(self.folder, f"{self.kind}-{kit_id}-{total}")

    def ready(self, kit):
        """What is kept of these sources, or None. Without a kit that of any kit will do."""
        kit_id = kit.short_id() if kit else None
        glance, last = self.glance()
        stamped = self.read_stamp(glance)
        if stamped and kit_id in (stamped[0], None):
            found = self.place(*stamped)
            if os.path.exists(found):
                return found
        return self.ready_by_content(kit_id, glance, last)

    def read_stamp(self, glance):
        """The kit's id and the sum that were noted for what the system says of the files, or None."""
        try:
            with open(self.stamp(), encoding="utf-8", errors="surrogateescape") as file:
                head, _, noted = file.read().partition("\n")
        except OSError:
            return None
        words = head.split()
        return words if noted == glance and len(words) == 2 else None

    def ready_by_content(self, kit_id, glance, last):
        """The same where what the system says of the files has changed, or is looked at for the first time."""
        names = self.names()
        total = self.sum() if names else None
        for name in names:
            kept_id, kept_total = name[len(self.kind) + 1:].rsplit("-", 1)
            if kept_id == (kit_id or kept_id) and kept_total == total:
                self.write_stamp(kept_id, total, glance, last)
                return os.path.join(self.folder, name)
        return None

    def write_stamp(self, kit_id, total, glance, last):
        """Notes what the system says of files with that sum. Where that fails, the next call takes the sum again."""
        if time.time() - last < SETTLED:
            return
        part = f"{self.stamp()}.{os.getpid()}.part"
        try:
            with open(part, "w", encoding="utf-8", errors="surrogateescape") as file:
                file.write(f"{kit_id} {total}\n{glance}")
            os.replace(part, self.stamp())
        except OSError:
            pass

    def names(self):
        """The names of what is kept of this kind, the newest first."""
        try:
            found = [it for it in os.listdir(self.folder) if it.startswith(f"{self.kind}-") and not it.endswith(".part")]
        except OSError:
            return []
        return sorted(found, key=self.age)

    def age(self, name):
        """For how long something has been kept."""
        try:
            return time.time() - os.stat(os.path.join(self.folder, name)).st_mtime
        except OSError:
            return float("inf")


def read(path):
    with open(path, "rb") as file:
        return file.read()
