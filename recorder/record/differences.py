"""Finds, straight from the records and over all calls, where the ranks' calls of a context differ."""

import collections

from agreement import BY_LETTER, FEW_RUNS, INTERPRETED, MOST_RUNS, Disagreement, compare, call_words
from records import rank_words

# What makes contexts, each numbered among those of its parent.
MAKERS = {"Comm_dup", "Comm_dup_with_info", "Comm_split", "Comm_split_type", "Comm_create", "Comm_create_group", "Cart_create", "Cart_sub", "Graph_create", "Dist_graph_create",
          "Dist_graph_create_adjacent", "Win_create", "Win_allocate", "Win_allocate_shared", "Win_create_dynamic", "File_open"}

# What a rank that came to its end may have left out without harm.
FREES = {"Comm_free"}

# Why a context isn't judged.
DIFFERED = "made after their parent's calls began to differ"
THREADS = "made of one on which several threads of a rank call, so that it isn't known which of them is which"

# Comparisons are remembered, since a program repeats itself; that of a program that doesn't isn't to fill the memory.
MOST_REMEMBERED = 1 << 16


class Difference:
    """A place of a context at which the calls differ, or one lacks."""

    def __init__(self, key, index, what, calls, how, lacking=(), of=0):
        self.key, self.index, self.what, self.calls, self.how, self.lacking, self.of = key, index, what, calls, how, list(lacking), of

    def is_fault(self):
        return self.how > BY_LETTER


class Contexts:
    """The contexts of all ranks, by their keys."""

    def __init__(self, records, places):
        self.records, self.places, self.known = records, places, {}
        for rank, record in records.items():
            for context in record.contexts.values():
                if context.key not in self.known or not self.known[context.key][1].place:
                    self.known[context.key] = (rank, context)

    def members(self, key):
        return self.known[key][1].members

    def name(self, key):
        """A context in words."""
        rank, context = self.known[key]
        if context.maker in ("MPI_COMM_WORLD", "MPI_COMM_SELF"):
            return context.maker
        where = self.places.name(self.records[rank], context.place)
        kind = {"c": "communicator", "w": "window", "f": "file", "g": "group"}[context.kind]
        members = rank_words(context.members) if len(context.members) < len(self.known["world"][1].members) else "all ranks"
        return f"the {kind} of {context.maker}{', ' + where if where else ''} ({members})"

    def in_order(self):
        """Parents before what was made of them, and in the order of their making."""
        return sorted(self.known, key=lambda key: [[int(it) if it.isdigit() else 0 for it in part.split(".")] for part in key.split("/")])

    def operation_words(self, record, operation):
        if operation.name not in ("user", "?"):
            return operation.name
        is_named = operation.module and not any(name in operation.module for name in INTERPRETED)
        function = self.places.function(operation.module, operation.offset) if is_named else None
        made = self.places.name(record, record.operation_places.get(operation.order))
        words = [f"the program's {function}" if function else "an operation of the program"]
        words += [f"made at {made}"] if made else []
        words += ["not commutative"] if operation.commutes is False else []
        return " ".join(words[:1] + [f"({', '.join(words[1:])})"] if words[1:] else words)


class Judge:
    """Compares all calls of all contexts. UNSEEN are the ranks that made calls which weren't recorded."""

    def __init__(self, records, contexts, unseen=()):
        self.records, self.contexts, self.unseen, self.compared = records, contexts, set(unseen), {}
        self.shared = next(iter(records.values())).shared
        self.names = [call.name for call in self.shared.calls]
        self.differ = {}  # of each context the first place at which calls differ
        self.unsure = {}  # what may be another one at each rank, or has no order, with why: DIFFERED or THREADS
        self.skipped, self.found = collections.Counter(), []
        for key in contexts.in_order():
            self.judge_context(key)

    def faults(self):
        return [it for it in self.found if it.is_fault()]

    def warnings(self):
        return [it for it in self.found if not it.is_fault()]

    def doubt(self, found):
        """Why a difference may be none, or None."""
        if not self.has_order(found.key):
            return "several threads of a rank call on it, and the order that was recorded is one of many"
        if self.unseen.intersection(self.contexts.members(found.key)):
            return "calls that weren't recorded may explain this"
        return None

    def has_order(self, key):
        """False where several threads of a rank call on a context: what was recorded is one order of several."""
        return all(len(record.threads.get(key, ())) < 2 for record in self.records.values())

    def judge_context(self, key):
        why = self.why_another(key)
        if why:
            self.unsure[key] = why
            self.skipped[why] += 1
            return
        if not self.has_order(key):
            self.unsure[key] = THREADS
        for difference in self.judge(key):
            self.found.append(difference)
            if difference.is_fault() and not difference.lacking:
                self.differ[key] = difference.index

    def why_another(self, key):
        """Why a context may be another one at each rank: when it was made, the calls of what it was made of, or of what that was made of, had begun to
        differ, or have no order. None where it is one."""
        parent, _, last = key.rpartition("/")
        number = last.split(".")[0]
        if not parent or parent in self.unsure or not number.isdigit():
            return self.unsure.get(parent)
        if parent not in self.differ:
            return None
        ids = [record.calls[parent].ids[: self.differ[parent]] for record in self.records.values() if parent in record.calls]
        return DIFFERED if min(sum(self.names[it] in MAKERS for it in row) for row in ids) <= int(number) else None

    def is_sure(self, key, index):
        """Whether the calls at a place of a context are known to be meant for one another."""
        return key not in self.unsure and index < self.differ.get(key, index + 1)

    def judge(self, key):
        """The first fault of a context, and before it a warning."""
        members = self.contexts.members(key)
        calls = {rank: self.records[rank].calls[key] for rank in members if rank in self.records and key in self.records[rank].calls}
        absent = [rank for rank in members if rank in self.records and rank not in calls]
        most = max((len(it) for it in calls.values()), default=0)
        found, begin = [], 0
        if len(members) < 2:
            members = members[:1]
        for end in sorted({len(it) for it in calls.values()} - {0}):
            here = {rank: it for rank, it in calls.items() if len(it) >= end}
            lacking = [rank for rank in members if (rank in calls or rank in absent) and rank not in here and self.records[rank].ended]
            # A rank that came to its end lacks the first of these, so what follows isn't judged.
            found += self.compare_places(key, members, (begin, begin + 1 if lacking else end), here, most, not found)
            if found and (found[-1].is_fault() or found[-1].lacking):
                return found
            if lacking:
                missing = self.lack(key, begin, here, lacking, most)
                return found + ([missing] if missing.is_fault() or not found else [])
            begin = end
        return found + self.judge_starts(key, calls, most)

    def compare_places(self, key, members, span, here, most, is_first):
        """The first fault of the places in SPAN, where the ranks in HERE have calls, and before it a warning if it IS_FIRST."""
        rows = [it.ids[span[0]:span[1]] for it in here.values()]
        alike = all(row == rows[0] for row in rows)
        kinds = {(it,) * len(rows) for it in set(rows[0])} if alike else set(zip(*rows))
        ranks = list(here)
        worse = {kind: it for kind in kinds for it in [self.compare_kind(members, ranks, kind)] if it}
        found = []
        if not worse:
            return found
        for index, kind in enumerate(zip(*rows), span[0]):
            disagreement = worse.get(kind)
            if disagreement and (disagreement.how > BY_LETTER or is_first and not found):
                found.append(self.difference(key, members, index, {rank: it[index] for rank, it in here.items()}, disagreement, most))
                if disagreement.how > BY_LETTER:
                    break
        return found

    def compare_kind(self, members, ranks, kind):
        """How the calls of some ranks disagree, each by the number of what it says; None where they agree."""
        by_rank = dict(zip(ranks, kind))
        known = tuple(by_rank.get(rank) for rank in members)
        if known not in self.compared:
            if len(self.compared) > MOST_REMEMBERED:
                self.compared.clear()
            self.compared[known] = compare({member: self.shared.calls[it] for member, it in enumerate(known) if it is not None})
        return self.compared[known]

    def difference(self, key, members, index, here, found, most):
        what, concerned = found.what, found.members
        for member in concerned or ():
            what = what.replace(f"%{member} ", f"rank {members[member]} ").replace(f"%{member},", f"rank {members[member]},")
        calls = {rank: command for rank, command in here.items() if concerned is None or members.index(rank) in concerned}
        return Difference(key, index, what, calls, found.how, of=most)

    def lack(self, key, index, here, lacking, most):
        """That ranks which came to their ends have no call there."""
        calls = {rank: it[index] for rank, it in here.items()}
        harmless = all(command.call.name in FREES for command in calls.values())
        what = f"{rank_words(lacking)} {'comes' if len(lacking) == 1 else 'come'} to MPI_Finalize without it"
        return Difference(key, index, what, calls, BY_LETTER if harmless else 2, lacking, most)

    def judge_starts(self, key, calls, most):
        """The first persistent call that a rank which came to its end has started fewer times than another."""
        inits = {number for number, call in enumerate(self.shared.calls) if call.form == "p"}
        places = sorted({index for it in calls.values() if inits.intersection(it.ids) for index, number in enumerate(it.ids) if number in inits})
        for index in places:
            here = {rank: it[index] for rank, it in calls.items() if index < len(it) and it.ids[index] in inits}
            numbers = {rank: self.records[rank].starts[command.request] for rank, command in here.items()}
            if any(self.records[rank].ended and count < max(numbers.values()) for rank, count in numbers.items()):
                shown = ", ".join(f"rank {rank} {count}" for rank, count in numbers.items())
                return [Difference(key, index, f"the numbers of starts differ: {shown}", here, 2, of=most)]
        return []


def alike_calls(difference, contexts, records, places):
    """The calls of a difference in words with their places, and their ranks, those alike together. Where few parts of their types don't show
    what differs, they are shown with all."""
    for most_runs in (FEW_RUNS, MOST_RUNS):
        alike = collections.defaultdict(list)
        for rank, command in difference.calls.items():
            record = records[rank]
            words = call_words(command.call, lambda op, record=record: contexts.operation_words(record, op), most_runs)
            refused = "; the library refused it" if command.refused else ""
            alike[words, (places.name(record, command.place) or "place unknown") + refused].append(rank)
        if len({words for words, _ in alike}) > 1 or difference.lacking:
            break
    return alike


def difference_lines(difference, contexts, records, places):
    """A difference in words: what differs, and the calls of the ranks, those alike together."""
    lines = [f"call {difference.index + 1} on {contexts.name(difference.key)}: {difference.what}"]
    for (words, place), ranks in alike_calls(difference, contexts, records, places).items():
        lines.append(f"  {rank_words(ranks)}: {words}, {place}")
    for rank in difference.lacking:
        made = records[rank].calls.get(difference.key, [])
        last = f", the last at {places.name(records[rank], made[-1].place) or 'place unknown'}" if made else ""
        lines.append(f"  rank {rank}: made {len(made)} calls on it{last}")
    return lines


def difference_calls(difference, contexts, records, places):
    """The same calls for JSON."""
    return [{"ranks": ranks, "call": words, "place": place} for (words, place), ranks in alike_calls(difference, contexts, records, places).items()]
