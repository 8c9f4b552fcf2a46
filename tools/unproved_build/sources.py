"""The sources that a program or a library stands on: its crate, the crates below it, and its line of crates.txt and theirs."""

import os


def read_crates(top):
    """What each crate of the repository stands on, by crates.txt."""
    uses = {}
    with open(os.path.join(top, "crates.txt"), encoding="utf-8") as file:
        for line in file:
            head, colon, libraries = line.split("#")[0].partition(":")
            if colon and head.split():
                uses[head.split()[0]] = libraries.split()
    return uses


def crates_below(uses, roots):
    """The crates that are reached from some crates, those among them first, each once."""
    found = list(roots)
    for name in found:
        found += [used for used in dict.fromkeys(uses[name]) if used in uses and used not in found]
    return found


def source_files(top, crates):
    """The paths of all sources of some crates below the top, in order. The front end reads neither specs nor proofs."""
    paths = []
    for name in crates:
        root = os.path.join("crates", name, "src")
        for folder, folders, files in os.walk(os.path.join(top, root)):
            folders.sort()
            inner = os.path.relpath(folder, top)
            paths += [os.path.join(inner, file) for file in sorted(files) if file.endswith(".rt")]
    return paths


def sum_of(parts):
    """A sum over names and bytes, each with its length, so that no two lists of them have one sum by being cut elsewhere."""
    import hashlib  # which takes longer to load than all else that a call needs where the program is built

    total = hashlib.sha256()
    for part in parts:
        data = part if isinstance(part, bytes) else part.encode("utf-8", "surrogateescape")
        total.update(b"%d:" % len(data))
        total.update(data)
    return total.hexdigest()[:16]
