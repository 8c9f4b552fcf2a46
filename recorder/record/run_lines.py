"""The lines of a run that `colljob explain` shows, with the program's places, and as the steps of a picture with a column for each rank."""

import re

# A stretch of lines names this many calls; of more it names the first and the last.
MOST_NAMED = 4

CARRIED = re.compile(r" +rank (\d+) carries out (?:line (\d+)|lines (\d+) to (\d+)|its lines from (\d+) on)\b(?:.* completes (.*))?")
ENDS = re.compile(r"a run that ends: rank (\d+)'s line (\d+) completes (.*)")

STEP = re.compile(r" +rank (\d+) carries out (.*?)(?:    # (.*))?")
STUCK = re.compile(r" +--> .*: rank (\d+)")
SHOWN = re.compile(r" *\d+ \| (.*?)(?:    # (.*))?")


def places(text, line):
    """What a line of a run names in the program, or None; `text` is a text_places.Text."""
    ends, carried = ENDS.fullmatch(line), CARRIED.match(line)
    if ends or carried and carried[6]:
        rank, number, completes = (ends[1], ends[2], ends[3]) if ends else (carried[1], carried[2], carried[6])
        return completed(text, int(rank), int(number), completes)
    if not carried:
        return None
    first = int(carried[2] or carried[3] or carried[5])
    last = int(carried[2] or carried[4] or max((it.line for it in text.calls if it.rank == int(carried[1])), default=first))
    return stretch([it for it in text.calls if first <= it.line <= last])


def completed(text, rank, number, completes):
    call = text.at(number)
    made = {it.request: it.where or "place unknown" for it in text.posts() if it.rank == rank}
    names = [made.get(int(it), "a request") for it in re.findall(r"\d+", completes)]
    return f"{call.where}, completes {' and '.join(names) or 'nothing'}" if call and call.where else None


def stretch(calls):
    """The places of consecutive lines; those of a blocking call have one."""
    named = []
    for call in calls:
        if call.where and named[-1:] != [call.where]:
            named.append(call.where)
    return f"{named[0]}, to {named[-1]}" if len(named) > MOST_NAMED else "; ".join(named) or None


def steps(lines):
    """The steps of a run among lines that have places, in the run's order, and where its ranks wait: `rank`, `kind` and `words` of each."""
    found, rank, shown = [], None, ""
    for line in lines:
        step, stuck, own = STEP.fullmatch(line), STUCK.fullmatch(line), SHOWN.fullmatch(line)
        if step:
            chooses = " completes " in step[2]
            found.append({"rank": int(step[1]), "kind": "chooses" if chooses else "", "words": shorter(step[3] or step[2])})
        elif stuck:
            rank = int(stuck[1])
        elif own:
            shown = own[2] or own[1]
        elif rank is not None and re.match(r" +\| \^", line):
            found.append({"rank": rank, "kind": "stuck", "words": f"waits: {shorter(shown)}"})
            rank = None
    return found if any(it["kind"] != "stuck" for it in found) else []


def shorter(words):
    """Places without their folders."""
    return re.sub(r"(?<![^\s(])/?(?:[^\s/]+/)+(?=[^\s/]+:\d)", "", words)
