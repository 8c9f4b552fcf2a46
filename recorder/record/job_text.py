"""The job text of a record: what colljob judges. What the profile doesn't have is said by what it has, with zeros for values."""

import collections

from agreement import SAME, call_name, compare_data, part
from differences import difference_lines
from job_words import KINDS, OPERATIONS, WIDTHS, blocks_given
from records import rank_words
from text_places import LAST, MADE, NOT_JUDGED

MOST_RANKS, MOST_COMMUNICATORS, MOST_REQUESTS, MOST_TEXT = 64, 16, 4096, 1048576
MOST_COUNT, MOST_BYTES = 65536, 16777216
# Values of longer rows aren't in a record. Where a text becomes too long, shorter rows lose theirs too.
LONGEST = [4096, 1024, 256, 64, 16, 4]
ENDLESS = 1 << 60
# The words that complete all requests that they name.
COMPLETING = ("wait", "waitall")
# Where any thread may call MPI, one that hasn't called it yet may do what others wait for.
MULTIPLE = 3
# How many faults stand in the head of a text, which may not show them.
MOST_NOTED = 3

# Those with a count for each member stand with no bytes, so only root and kind are there.
UNEVEN = {"Gatherv": "gather", "Scatterv": "scatter", "Alltoallv": "alltoall", "Alltoallw": "alltoall"}
# Calls that make something of all members wait for all of them; what other calls do, MPI leaves open, so no wait stands for it.
WAITED = {"Comm_dup", "Comm_dup_with_info", "Comm_split", "Comm_split_type", "Comm_create", "Comm_create_group", "Cart_create", "Cart_sub", "Graph_create", "Dist_graph_create",
          "Dist_graph_create_adjacent", "Intercomm_create", "Win_create", "Win_allocate", "Win_allocate_shared", "Win_create_dynamic", "Win_free", "File_open"}

# A call in the words of the profile: COUNTS has one for each member of an allgatherv, none of a barrier; EXACT says whether values may
# stand; WAITS whether a blocking call waits there.
Signature = collections.namedtuple("Signature", "kind root operation word counts exact waits why")


def signature_of(call, member, size):
    """How a call of a member stands in a text."""
    waits = call.form == "b"
    if call.name not in KINDS and call.name not in UNEVEN and call.name != "Reduce_scatter":
        return Signature("barrier", None, None, None, [], False, waits and call.name in WAITED, f"{call_name(call.form, call.name)} stands as a barrier" + ("" if call.name in WAITED else " without a wait"))
    if call.name == "Barrier":
        return Signature("barrier", None, None, None, [], True, waits, None)
    if call.name in UNEVEN:
        return Signature(UNEVEN[call.name], call.root, None, "byte", [0], False, waits, f"{call_name(call.form, call.name)} stands without its counts")
    if call.name == "Reduce_scatter":
        return combined(call, "rsblock", call.sent.types[0], sum(call.sent.counts), waits, "the counts of MPI_Reduce_scatter stand as their sum, with zeros")
    kind, count = own_data(call, member)
    if wrong_by_itself(call, member):
        amount = sum(side_bytes(side, member) for side in (call.sent, call.got) if side)
        why = "WRONG: what this call sends and what it receives differ; both together stand as bytes"
        counts = [amount if it == member else side_bytes(call.got, it) for it in range(size)] if call.name == "Allgatherv" else [amount]
        return Signature(KINDS[call.name], call.root, None, "byte", counts, False, waits, why)
    if call.op:
        return combined(call, KINDS[call.name], kind, count, waits, None)
    counts = [part(call.got, it)[1] * kind_of(call.got, it).each for it in range(size)] if call.name == "Allgatherv" else [count * kind.each]
    return Signature(KINDS[call.name], call.root, None, kind.word, counts, kind.exact, waits, None if kind.exact else "a type that isn't in the profile stands as integers of its size, with zeros")


def kind_of(side, member):
    return part(side, member)[0]


def side_bytes(side, member):
    kind, count = part(side, member)
    return kind.bytes * count


def own_data(call, member):
    """The type and count by which a member gives or takes its part."""
    return part(call.sent or call.got, 0 if call.sent else member)


def wrong_by_itself(call, member):
    if not call.sent or not call.got or call.name in ("Reduce_scatter",):
        return False
    return compare_data(*part(call.sent, 0), *part(call.got, member)) != SAME


def combined(call, kind, element, count, waits, why):
    """An operation that the stand-in of a type can have: one of a place is one of a number there, and a user's is `lastnz`."""
    word = OPERATIONS.get(call.op.name)
    pairs, places = element.word == "2int", word in ("maxloc", "minloc")
    exact = element.exact
    if not word:
        why, word = "an operation that isn't in the profile stands as lastnz, with zeros", "lastnz"
        exact = False
    elif places and not pairs:
        why, word = "MPI_MAXLOC or MPI_MINLOC over another type than MPI_2INT stands as max or min, with zeros", word[:3]
        exact = False
    elif not pairs or places:
        exact = exact and not why and not (element.word == "byte" and word not in ("band", "bor", "bxor"))
        if element.word != "byte" or word in ("band", "bor", "bxor"):
            return Signature(kind, call.root, word, element.word, [count * element.each], exact, waits, why or (None if exact else "a type that isn't in the profile stands as integers of its size, with zeros"))
    if pairs:
        return Signature(kind, call.root, word, "u64", [count * element.each], False, waits, why or "pairs under this operation stand as u64, with zeros")
    if element.word == "byte":
        return Signature(kind, call.root, word, "u8", [count * element.each], False, waits, why or "bytes under this operation stand as u8, with zeros")
    return Signature(kind, call.root, word, element.word, [count * element.each], exact, waits, why)


class Job:
    """The text of all records, or of one context alone. What a rank without an end never reached, and what isn't recorded of
    a rank, is added, as it must be if the ranks agree."""

    def __init__(self, records, contexts, places, judge, only=None, notes=()):
        self.records, self.contexts, self.places, self.judge = records, contexts, places, judge
        self.size = next(iter(records.values())).size
        self.shared = next(iter(records.values())).shared
        self.notes, self.signatures, self.chosen = list(notes), {}, {}
        self.differ = {fault.key: fault.index for fault in judge.faults()}
        self.choose_communicators(only)
        self.added = self.never_reached()
        self.known_kinds = None
        self.used = {count for signature, _ in self.kinds() for count in signature.counts}
        self.lengths = [(begin, end) for key in filter(None, self.number) for _, _, begin, end in self.spans(key)]

    def choose_communicators(self, only):
        """The contexts that are used have numbers, in the order of their first use; those past the sixteenth have none."""
        self.number, unnumbered = {"world": 0}, collections.Counter()
        if only:
            # The first number is that of all ranks, who may make no call of the text.
            self.number = {only: 0} if only == "world" else {None: 0, only: 1}
            return
        for record in self.records.values():
            used = {key: calls for key, calls in record.calls.items() if len(calls) and key not in self.number}
            for key, calls in sorted(used.items(), key=lambda it: it[1].positions[0]):
                if key not in unnumbered and len(self.number) < MOST_COMMUNICATORS:
                    self.number[key] = len(self.number)
                else:
                    unnumbered[key] += len(calls)
        if unnumbered:
            self.notes.append(f"left out: all {sum(unnumbered.values())} calls on {len(unnumbered)} of the communicators, windows and files: a text has {MOST_COMMUNICATORS}")
        left = sum(sum(record.unknown.values()) for record in self.records.values())
        if left:
            self.notes.append(f"left out: {left} calls on communicators whose makers aren't recorded, or between two groups")

    def never_reached(self):
        """Of each rank without an end, or without a record, the calls that others have made and it hasn't: the key, the first place, and another
        rank with its calls."""
        added = collections.defaultdict(list)
        for key in filter(None, self.number):
            made = {rank: self.records[rank].calls.get(key, []) if rank in self.records else [] for rank in self.contexts.members(key)}
            longest = max(made.values(), key=len, default=[])
            for rank, own in made.items():
                if len(own) < len(longest) and (rank not in self.records or not self.records[rank].ended):
                    added[rank].append((key, len(own), longest))
        return added

    def first_calls(self, key, begin, end):
        """Of the places in a span those parts of it where one member is the first that has a call: its rank and calls, and the part's end."""
        while begin < end:
            of = ((rank, self.records[rank].calls.get(key, ())) for rank in self.contexts.members(key) if rank in self.records)
            rank, calls = next(((rank, it) for rank, it in of if len(it) > begin), (None, None))
            if calls is None:
                return
            yield rank, calls, begin, min(end, len(calls))
            begin = len(calls)

    def own_signature(self, rank, key, call):
        members = self.contexts.members(key)
        known = call, members.index(rank), len(members)
        if known not in self.signatures:
            self.signatures[known] = signature_of(*known)
        return self.signatures[known]

    def signature(self, rank, command):
        """Calls that agree stand alike, as that of the first member: MPI lets them agree by other types too."""
        key, index = command.key, command.index
        first, calls, _, _ = next(self.first_calls(key, index, index + 1), (rank, None, 0, 0))
        if first == rank or index >= self.differ.get(key, ENDLESS):
            return self.own_signature(rank, key, command.call)
        return self.signature_by(rank, key, command.call, first, self.shared.calls[calls.ids[index]])

    def signature_by(self, rank, key, call, first, first_call):
        """The signature of a rank's call, where the first member's call agrees with it."""
        own, theirs = self.own_signature(rank, key, call), self.own_signature(first, key, first_call)
        if own[:5] == theirs[:5]:
            return own
        return theirs._replace(exact=False, waits=own.waits, why=f"stands as rank {first} calls it, with zeros: MPI lets both agree")

    def own_count(self, rank, command):
        signature = self.signature(rank, command)
        if not signature.counts:
            return 0
        member = self.contexts.members(command.key).index(rank)
        return signature.counts[member if len(signature.counts) > 1 else 0]

    def choose_counts(self, longest):
        """Each count that is too long stands for itself by a small one that the program doesn't have."""
        long = {count for kind in self.kinds() for count in long_counts(*kind, longest)}
        self.stand_ins, free = {}, 1
        for count in sorted(long):
            while free in self.used:
                free += 1
            self.stand_ins[count] = free
            free += 1

    def kinds(self):
        """The signatures that there are, with their numbers of members: few beside the calls."""
        if self.known_kinds is None:
            kinds = {}
            for key in filter(None, self.number):
                for rank, calls, begin, end in self.spans(key):
                    for signature in self.span_signatures(rank, key, calls, begin, end):
                        kinds[repr(signature)] = signature, len(self.contexts.members(key))
            self.known_kinds = list(kinds.values())
        return self.known_kinds

    def spans(self, key):
        """The calls of each rank on a context, and those that are added: the rank, whose calls, and from where to where."""
        for rank, record in self.records.items():
            if key in record.calls:
                yield rank, record.calls[key], 0, len(record.calls[key])
        for rank, added in self.added.items():
            yield from ((rank, longest, begin, len(longest)) for its_key, begin, longest in added if its_key == key)

    def span_signatures(self, rank, key, calls, begin, end):
        """The signatures of calls in a span: few beside the calls."""
        differ = self.differ.get(key, ENDLESS)
        found = [self.own_signature(rank, key, self.shared.calls[it]) for it in set(calls.ids[max(begin, differ):end])]
        for first, firsts, low, high in self.first_calls(key, begin, min(end, differ)):
            if first == rank:
                found += [self.own_signature(rank, key, self.shared.calls[it]) for it in set(calls.ids[low:high])]
                continue
            for own, theirs in set(zip(calls.ids[low:high], firsts.ids[low:high])):
                found.append(self.signature_by(rank, key, self.shared.calls[own], first, self.shared.calls[theirs]))
        return found

    def values(self, rank, command, gift):
        """What stands after the signature or the request's number, with zeros for what isn't known."""
        signature, count = self.signature(rank, command), self.own_count(rank, command)
        members = self.contexts.members(command.key)
        blocks = blocks_given(signature.kind, members.index(rank) == signature.root, len(members))
        count_there = self.stand_ins.get(count, count)
        if gift[:1] == [":"] and signature.exact and count not in self.stand_ins:
            return gift
        zero = "0,0" if signature.word == "2int" else "0"
        return [":"] + [zero] * (blocks * count_there) if blocks * count_there else []

    def head(self, word, rank, command):
        """`post C SIGNATURE`."""
        signature = self.signature(rank, command)
        words = [word, str(self.number[command.key]), signature.kind]
        words += [str(signature.root)] if signature.root is not None else []
        words += [signature.operation] if signature.operation else []
        words += [signature.word] if signature.word else []
        return words + [str(self.stand_ins.get(count, count)) for count in signature.counts]

    def remarks(self, rank, command):
        signature = self.signature(rank, command)
        lines = [f"# {signature.why}"] if signature.why else []
        return lines + [f"# the count {count} stands as {self.stand_ins[count]}, with zeros" for count in sorted(set(signature.counts)) if count in self.stand_ins]

    # The lines of a rank

    def lines(self, rank, command, window, starts):
        """The lines of a command, without its place, or none where it is left out."""
        if command.call:
            return self.call_lines(rank, command, window)
        if command.word == "start":
            request = command.numbers[0]
            self.started[request] += 1
            if request not in self.renumbered or self.started[request] > starts:
                return []
            return [" ".join(["start", str(self.renumbered[request]), *self.values(rank, self.records[rank].requests[request], command.gift)])]
        kept = [it for it in command.numbers if it in self.renumbered and (command.word == "free" or waits_for_all(self.records[rank].requests[it].call))]
        if command.word in ("waitany", "waitsome") and len(kept) < len(command.numbers):
            return []
        return [" ".join([command.word, *(str(self.renumbered[it]) for it in kept)])] if kept else []

    def call_lines(self, rank, command, window):
        if not self.is_kept(command, window):
            return []
        number = self.written
        self.written += 1
        if command.request is not None:
            self.renumbered[command.request] = number
        if command.call.form == "p":
            return self.remarks(rank, command) + [" ".join(self.head("init", rank, command))]
        post = " ".join(self.head("post", rank, command) + self.values(rank, command, command.gift))
        return self.remarks(rank, command) + [post] + ([f"wait {number}"] if self.signature(rank, command).waits else [])

    def is_kept(self, command, window):
        return command.key in self.number and window[0] <= command.index < window[1]

    def section(self, rank, window, starts):
        self.renumbered, self.started, self.written, self.most_kept = {}, collections.Counter(), 0, starts
        if rank not in self.records:
            return [f"rank {rank}", "# there is no record of this rank", *self.added_lines(rank, window)]
        record, lines = self.records[rank], [f"rank {rank}"]
        for position in self.positions(rank, window):
            command = record.commands[position]
            own = self.lines(rank, command, window, starts)
            if not own and (command.word or not command.remarks):
                continue
            lines.append(f"# {self.places.name(record, command.place) or 'place unknown'}")
            lines += [*command.remarks, *own]
        if not record.ended:
            lines.append(f"# the record of rank {rank} ends here, without MPI_Finalize")
            lines += self.added_lines(rank, window)
        return lines

    def positions(self, rank, window):
        """Where the commands stand that may have lines in a window: its calls, what is done with their requests, and remarks."""
        if (rank, window) in self.chosen:
            return self.chosen[rank, window]
        record = self.records[rank]
        commands, kinds = record.commands, record.commands.kinds
        calls = sorted(it for key in self.number if key in record.calls for it in record.calls[key].positions[window[0]:window[1]])
        requests = {commands.request_at(it) for it in calls} - {None}
        alone = {code for code, kind in enumerate(kinds) if kind.word is None}
        found = calls + ([it for it, code in enumerate(commands.codes) if code in alone] if alone else [])
        naming = {code: kind for code, kind in enumerate(kinds) if kind.relative and kind.word != "message wait"}
        waited = requests - record.persistent
        for it in range(calls[0] if requests else len(commands), len(commands)):
            kind = naming.get(commands.codes[it])
            numbers = requests.intersection(kind.numbers(commands.extra[it])) if kind else None
            if numbers:
                found.append(it)
                waited -= numbers if kind.word in COMPLETING else set()
                if not waited and requests.isdisjoint(record.persistent) and it > calls[-1]:
                    break  # what follows names none of them
        self.chosen = {(rank_, window_): it for (rank_, window_), it in self.chosen.items() if window_ == window}
        self.chosen[rank, window] = sorted(found)
        return self.chosen[rank, window]

    def added_lines(self, rank, window):
        """What a rank never reached: starts of its persistent requests, and calls."""
        lines, why = [], f"never reached by rank {rank}" if rank in self.records else f"not recorded of rank {rank}"
        for request in sorted(self.records[rank].persistent) if rank in self.records else []:
            if request in self.renumbered:
                lines += self.added_starts(rank, request, self.records[rank].requests[request])
        for key, begin, longest in self.added[rank]:
            for index in range(max(begin, window[0]), min(len(longest), window[1])):
                command = longest[index]
                lines += ["# place unknown", f"# {why}: added as it must be if the ranks agree"] + self.remarks(rank, command)
                persistent = command.call.form == "p"
                lines.append(" ".join(self.head("init" if persistent else "post", rank, command) + ([] if persistent else self.values(rank, command, []))))
                if persistent:
                    self.renumbered[None] = self.written
                    lines += [it for _ in range(self.most_started(command.key, index)) for it in self.start_lines(rank, None, command)]
                self.written += 1
        return lines

    def added_starts(self, rank, request, command):
        """The starts that others have made of a persistent request and this rank hasn't. A start wants a wait for the one before."""
        lacking = self.most_started(command.key, command.index) - self.started[request]
        lines = ["# place unknown", f"# starts never reached by rank {rank}: added as they must be if the ranks agree"] if lacking > 0 else []
        return lines + [it for _ in range(lacking) for it in self.start_lines(rank, request, command)]

    def start_lines(self, rank, request, command):
        number = str(self.renumbered[request])
        return [f"wait {number}", " ".join(["start", number, *self.values(rank, command, [])])]

    def most_started(self, key, index):
        """How often a persistent call was started at the rank that has started it most."""
        made = {rank: record.calls[key][index] for rank, record in self.records.items() if index < len(record.calls.get(key, ()))}
        return min(self.most_kept, max((self.records[rank].starts[command.request] for rank, command in made.items()), default=0))

    def text(self, window, starts, longest):
        self.choose_counts(longest)
        lines = [f"ranks {self.size}"]
        for key in list(self.number)[1:]:
            rank, context = self.contexts.known[key]
            where = self.places.name(self.records[rank], context.place)
            lines.append(f"# communicator {self.number[key]}: {context.maker}" + (f", {where}" if where else ""))
            lines.append(" ".join(["comm", *map(str, context.members)]))
        for rank in range(self.size):
            lines += self.section(rank, window, starts)
        return lines

    # What fits

    def posts_before(self, place):
        """How many posts stand before a place, over all communicators and ranks."""
        return sum(min(end, place) - min(begin, place) for begin, end in self.lengths)

    def most_places(self):
        return max((end for _, end in self.lengths), default=0)

    def most_starts(self):
        return max((number for record in self.records.values() for number in record.starts.values()), default=0)

    def last_place(self, first, last):
        """The greatest end of a window whose posts a text can have."""
        most, low = self.posts_before(min(first, last)) + MOST_REQUESTS, first
        while low < last:
            middle = (low + last + 1) // 2
            low, last = (middle, last) if self.posts_before(middle) <= most else (low, middle - 1)
        return max(first + 1, low)

    def fitting_text(self, first, before=ENDLESS):
        """The text from place FIRST on, with as little left out as its limits ask for, in this order: values, starts after some number,
        places."""
        if self.size > MOST_RANKS:
            self.notes.append(f"left out: all: a program of {self.size} ranks, and a text has at most {MOST_RANKS}")
            return None
        last, starts = self.last_place(first, min(self.most_places(), before)), ENDLESS
        lines = self.shorter_text(first, last, starts)
        while size_of(lines) > MOST_TEXT - 4096 and (starts > 1 or last > first + 1):
            starts, last = (max(1, min(starts, self.most_starts()) // 4), last) if starts > 1 and self.most_starts() > 1 else (1, first + (last - first + 1) // 2)
            lines = self.shorter_text(first, last, starts)
        if starts < self.most_starts():
            self.notes.append(f"left out: of each persistent request, the starts after its first {starts}")
        if last < self.most_places():
            self.notes.append(f"left out: what stands at place {last} or after it on its communicator: see --from {last}")
        if first:
            self.notes.append(f"left out: what stands before place {first} on its communicator")
        self.next = last if last < self.most_places() else None
        if size_of(lines) > MOST_TEXT:
            self.notes.append(f"left out: all: a text of {size_of(lines)} bytes would be too long, even with one place of each communicator")
            return None
        return lines

    def shorter_text(self, first, last, starts):
        """The text with as many of its values as fit."""
        for longest in LONGEST:
            lines = self.text((first, last), starts, longest)
            if size_of(lines) <= MOST_TEXT - 4096:
                break
        return lines

    def incomplete(self):
        """What isn't there of the ranks, and what a text can't show, in words."""
        notes = [f"rank {rank} has no record" for rank in range(self.size) if rank not in self.records]
        open_ends = [rank for rank, record in self.records.items() if not record.ended]
        notes += [f"incomplete: no MPI_Finalize at {rank_words(open_ends)}"] if open_ends else []
        not_judged = why_not_judged(self.records, self.judge.unseen)
        notes += [NOT_JUDGED + not_judged] if not_judged else []
        found = [it for it in self.judge.faults() + self.judge.warnings() if not self.judge.doubt(it)]
        lines = [(it, difference_lines(it, self.contexts, self.records, self.places)) for it in found[:MOST_NOTED]]
        return notes + [("fault: " if it.is_fault() else "warning: ") + "; ".join(line.strip() for line in lines_of) for it, lines_of in lines]

    def whole_lines(self, lines):
        """A text with its notes, and a last line by which one that was cut is known."""
        return [MADE] + [f"# {note}" for note in self.incomplete() + self.notes] + lines + [LAST]


def why_not_judged(records, unseen):
    """Why it can't be known whether the calls let ranks wait for one another, or None. UNSEEN are the ranks that made calls past the recorder."""
    unsure = [rank for rank, record in records.items() if record.unsure]
    silent = [rank for rank, record in records.items() if record.thread_level >= MULTIPLE and not record.ended]
    if any(len(record.callers) > 1 for record in records.values()):
        return "several threads of a rank make collective calls, and the order that was recorded is one of many"
    if unseen:
        return f"{rank_words(unseen)} called MPI by names that begin with PMPI, or call or may call it in callbacks of MPI_Finalize, which isn't recorded"
    if silent:
        return f"with MPI_THREAD_MULTIPLE a thread of {rank_words(silent)} that hasn't called MPI yet may call it"
    return f"the library gave {rank_words(unsure)} one handle for several requests, and for which of them it waited isn't known" if unsure else None


def waits_for_all(call):
    """Whether a wait for a call's request may last until all members have called it: among neighbours a library waits for these alone. (Without a
    wait a text's persistent request couldn't be started again.)"""
    return call.form == "p" or not call.name.startswith("Neighbor_")


def size_of(lines):
    return sum(len(line.encode()) + 1 for line in lines)


def long_counts(signature, members, longest):
    """Those of the counts that are too long, or too long together."""
    blocks = 1 if signature.kind == "allgatherv" else members
    too_much = sum(signature.counts) * blocks * WIDTHS.get(signature.word, 1) > MOST_BYTES
    return [count for count in signature.counts if count > min(longest, MOST_COUNT) or (too_much and count > 0)]
