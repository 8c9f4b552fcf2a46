"""Whether calls of several ranks agree as MPI asks for it, and a call in words."""

import functools
import math

from job_words import COMBINING, KINDS

# Basic types that are alike in all but their names, beside their size.
ALIKE = {
    "signed": "INT LONG LONG_LONG LONG_LONG_INT SHORT SIGNED_CHAR INT8_T INT16_T INT32_T INT64_T AINT OFFSET COUNT INTEGER INTEGER1 INTEGER2 INTEGER4 INTEGER8",
    "unsigned": "UNSIGNED UNSIGNED_LONG UNSIGNED_LONG_LONG UNSIGNED_SHORT UNSIGNED_CHAR UINT8_T UINT16_T UINT32_T UINT64_T",
    "floating": "FLOAT DOUBLE LONG_DOUBLE REAL REAL2 REAL4 REAL8 REAL16 DOUBLE_PRECISION",
    "complex": "C_COMPLEX C_FLOAT_COMPLEX C_DOUBLE_COMPLEX C_LONG_DOUBLE_COMPLEX COMPLEX COMPLEX4 COMPLEX8 COMPLEX16 COMPLEX32 DOUBLE_COMPLEX CXX_FLOAT_COMPLEX CXX_DOUBLE_COMPLEX CXX_LONG_DOUBLE_COMPLEX",
    "character": "CHAR CHARACTER",
    "truth": "C_BOOL CXX_BOOL LOGICAL",
}
CLASS = {"MPI_" + name: kind for kind, names in ALIKE.items() for name in names.split()}

# Pairs are as structures of two types (MPI 4.1, 6.9.4).
PAIRS = {"MPI_2INT": "INT INT", "MPI_FLOAT_INT": "FLOAT INT", "MPI_DOUBLE_INT": "DOUBLE INT", "MPI_LONG_INT": "LONG INT", "MPI_SHORT_INT": "SHORT INT",
         "MPI_LONG_DOUBLE_INT": "LONG_DOUBLE INT", "MPI_2INTEGER": "INTEGER INTEGER", "MPI_2REAL": "REAL REAL", "MPI_2DOUBLE_PRECISION": "DOUBLE_PRECISION DOUBLE_PRECISION"}
INT_BYTES = 4

# Libraries through which interpreted programs make operations.
INTERPRETED = ("mpi4py", "libjulia", "Rmpi")

# How well two things agree.
SAME, BY_LETTER, DIFFERENT = 0, 1, 2

# Only the kind of a call is compared where its arguments may differ, or aren't recorded.
EQUAL = {name for name, kind in KINDS.items() if kind == "bcast" or kind in COMBINING}
MOST_RUNS = 4096

# How many of a type's runs are shown where they suffice.
FEW_RUNS = 4


def repeated(runs, count):
    """Runs, each a name, its bytes and how often it stands in a row, COUNT times, equal neighbours together; None where they are too many."""
    if len(runs) == 1:
        return ((runs[0][0], runs[0][1], runs[0][2] * count),)
    if len(runs) * count > MOST_RUNS:
        return None
    found = []
    for name, size, times in list(runs) * count:
        if found and found[-1][0] == name:
            found[-1] = (name, size, found[-1][2] + times)
        else:
            found.append((name, size, times))
    return tuple(found)


def parts_of_pairs(runs):
    """Runs with each pair as its two parts; None where they are too many."""
    found = []
    for name, size, times in runs:
        parts = ["MPI_" + word for word in PAIRS.get(name, "").split()]
        second = INT_BYTES if parts and parts[1] == "MPI_INT" else size // 2
        both = repeated([(parts[0], size - second, 1), (parts[1], second, 1)], times) if parts else [(name, size, times)]
        if both is None:
            return None
        found += both
    return repeated(found, 1)


def are_parted(runs_a, count_a, runs_b, count_b):
    """Whether the parts of pairs make two rows alike. What both repeat is left out: as powers of one row two are equal where their roots are."""
    parts_a, parts_b, common = parts_of_pairs(runs_a), parts_of_pairs(runs_b), math.gcd(count_a, count_b)
    if parts_a is None or parts_b is None:
        return True
    all_a, all_b = repeated(parts_a, count_a // common), repeated(parts_b, count_b // common)
    return all_a is None or all_b is None or all_a == all_b


@functools.lru_cache(maxsize=1 << 17)
def compare_data(type_a, count_a, type_b, count_b):
    """How well COUNT elements of one type agree with those of another: by their signatures (MPI 4.1, 3.3.1)."""
    if (type_a is type_b or type_a == type_b) and count_a == count_b:
        return SAME
    names = {run.name for run in type_a.runs + type_b.runs}
    if "MPI_PACKED" in names:
        return SAME
    if type_a.bytes * count_a != type_b.bytes * count_b:
        return DIFFERENT
    if not type_a.whole or not type_b.whole or type_a.bytes * count_a == 0:
        return SAME
    runs_a, runs_b = repeated(type_a.runs, count_a), repeated(type_b.runs, count_b)
    if runs_a is None or runs_b is None or runs_a == runs_b:
        return SAME
    if names & PAIRS.keys() and are_parted(type_a.runs, count_a, type_b.runs, count_b):
        return SAME
    plain_a, plain_b = classed(runs_a), classed(runs_b)
    return BY_LETTER if plain_a == plain_b else DIFFERENT


def classed(runs):
    """The runs with classes in place of names, equal neighbours together."""
    found = []
    for name, size, times in runs:
        word = (CLASS.get(name, name), size)
        if found and found[-1][0] == word:
            found[-1] = (word, found[-1][1] + times)
        else:
            found.append((word, times))
    return found


def compare_operations(a, b):
    """A user's operation is known by its function where both ranks run one program. Where they don't, or where one function of an interpreter's
    library stands for what an interpreted program does, two operations can't be distinguished: each rank may make its own in any order."""
    if a == b or "?" in (a.name, b.name):
        return SAME
    if a.name != b.name:
        return DIFFERENT
    if not a.module or a.module != b.module or any(name in a.module for name in INTERPRETED):
        return SAME
    return SAME if (a.offset, a.commutes) == (b.offset, b.commutes) else DIFFERENT


def part(side, member):
    """What stands on a side for a member: a type and a count."""
    return side.types[member if len(side.types) > 1 else 0], side.counts[member if side.each else 0]


def amount(side, member):
    """The bytes of a side's part of a member."""
    if not side:
        return 0
    kind, count = part(side, member)
    return kind.bytes * count


@functools.lru_cache(maxsize=1 << 12)
def is_empty(call):
    """Whether a call says of its data that there are none: a library needn't wait there."""
    sides = [side for side in (call.sent, call.got) if side]
    return bool(sides) and not any(amount(side, member) for side in sides for member in range(len(side.counts)))


def data_pairs(name, calls, root):
    """Whom a call has send what to whom: (sender, what it sends, receiver, what it receives), members by number, for those that called."""
    if name in ("Gather", "Gatherv") and root in calls and calls[root].got:
        return [(member, part(call.sent, 0), root, part(calls[root].got, member)) for member, call in calls.items() if call.sent]
    if name in ("Scatter", "Scatterv") and root in calls and calls[root].sent:
        return [(root, part(calls[root].sent, member), member, part(call.got, 0)) for member, call in calls.items() if call.got]
    if name in ("Allgather", "Allgatherv"):
        return [(a, part(mine.sent or mine.got, a if not mine.sent else 0), b, part(theirs.got, a)) for a, mine in calls.items() for b, theirs in calls.items()]
    if name in ("Alltoall", "Alltoallv", "Alltoallw"):
        return [(a, part(mine.sent or mine.got, b), b, part(theirs.got, a)) for a, mine in calls.items() for b, theirs in calls.items()]
    return []


class Disagreement:
    """That calls don't agree: WHAT differs, how badly, and the members that it concerns, or None for all."""

    def __init__(self, what, how=DIFFERENT, members=None):
        self.what, self.how, self.members = what, how, members


def compare(calls):
    """The first disagreement among the calls of some members at one place, or None. CALLS has them by the members' numbers."""
    first = next(iter(calls.values()))
    if all(call is first for call in calls.values()) and first.name not in ("Allgather", "Allgatherv", "Alltoall", "Alltoallv", "Alltoallw", "Gather", "Gatherv", "Scatter", "Scatterv"):
        return None
    forms = {(call.form.replace("i", "n"), call.name) for call in calls.values()}
    if len(forms) > 1:
        return Disagreement(differing_forms(forms))
    if len({call.root for call in calls.values()}) > 1:
        return Disagreement("the roots differ")
    operations = [call.op for call in calls.values() if call.op]
    if any(compare_operations(operations[0], it) for it in operations):
        return Disagreement("the operations differ")
    if first.name in EQUAL or first.name == "Reduce_scatter":
        return compare_equal(first, calls)
    return compare_pairs(data_pairs(first.name, calls, first.root))


def differing_forms(forms):
    if len({name for _, name in forms}) > 1:
        return "the calls differ"
    words = {"b": "a blocking", "n": "a nonblocking", "p": "a persistent"}
    return " and ".join(words[form] for form, _ in sorted(forms)) + " call never match"


def compare_equal(first, calls):
    worst = SAME
    for call in calls.values():
        for member in range(max(len(first.sent.counts), len(call.sent.counts))):
            if len(first.sent.counts) != len(call.sent.counts):
                return Disagreement("the counts differ")
            mine, theirs = part(first.sent, member), part(call.sent, member)
            how = compare_data(*mine, *theirs)
            if how == DIFFERENT:
                return Disagreement("the types differ" if mine[0].bytes * mine[1] == theirs[0].bytes * theirs[1] or mine[1] == theirs[1] else "the counts differ")
            worst = max(worst, how)
    return Disagreement("the types have different names", BY_LETTER) if worst else None


def compare_pairs(pairs):
    letter = None
    for sender, sent, receiver, got in pairs:
        how = compare_data(*sent, *got)
        if how == DIFFERENT:
            return Disagreement(f"what is sent and what is received differ: %{sender} sends {data_words(*sent)} to %{receiver}, which receives {data_words(*got)}", DIFFERENT, [sender, receiver])
        if how and not letter:
            letter = Disagreement(f"the types have different names: %{sender} sends {data_words(*sent)} to %{receiver}, which receives {data_words(*got)}", BY_LETTER, [sender, receiver])
    return letter


# A call in words


def call_name(form, name):
    """The name of a call in MPI."""
    if form == "p":
        return f"MPI_{name}_init"
    if form in "ni":
        first, rest = ("File_", name[5:]) if name.startswith("File_") else ("Comm_", name[5:]) if name == "Comm_dup" else ("", name)
        return f"MPI_{first}{'i' if first else 'I'}{rest[0].lower()}{rest[1:]}"
    return f"MPI_{name}"


def data_words(kind, count, most_runs=FEW_RUNS):
    """`10 MPI_INT`."""
    if len(kind.runs) == 1 and kind.whole:
        return f"{count * kind.runs[0].times} {kind.runs[0].name}"
    if not kind.runs:
        return f"{count * kind.bytes} bytes"
    shown = ", ".join(f"{run.times} {run.name}" for run in kind.runs[:most_runs]) + (", .." if len(kind.runs) > most_runs or not kind.whole else "")
    return f"{count} of ({shown})"


def side_words(side, most_runs=FEW_RUNS):
    if not side.each:
        return data_words(*part(side, 0), most_runs)
    if len(side.types) == 1 and len(side.types[0].runs) == 1:
        run = side.types[0].runs[0]
        counts = [str(count * run.times) for count in side.counts]
        return f"{', '.join(counts[:2 * most_runs])}{', ..' if len(counts) > 2 * most_runs else ''} {run.name}"
    shown = (data_words(*part(side, member), most_runs) for member in range(min(most_runs, len(side.counts))))
    return ", ".join(shown) + (", .." if len(side.counts) > most_runs else "")


def call_words(call, operation, most_runs=FEW_RUNS):
    """A call in words: `MPI_Reduce(1 MPI_INT, MPI_SUM, root 0)`. OPERATION gives those of an operation."""
    words = []
    if call.name in EQUAL or call.name == "Reduce_scatter":
        words.append(side_words(call.sent, most_runs))
    else:
        words += [f"sends {side_words(call.sent, most_runs)}"] if call.sent else ["in place"] if call.got and call.name[:3] in ("All", "Gat") else []
        words += [f"receives {side_words(call.got, most_runs)}"] if call.got else []
    if call.op:
        words.append(operation(call.op))
    if call.root is not None:
        words.append(f"root {call.root}")
    return call_name(call.form, call.name) + (f"({', '.join(words)})" if words else "")
