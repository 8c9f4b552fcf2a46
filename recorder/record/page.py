"""The page of a report: one file that opens without a network, with what was found, who waits for whom, a timeline and tables. Its fixed part is
page.html; the data are made here of records, or of the files that wzrun and colljob write."""

import collections
import json
import os
import re

import run_lines
from agreement import call_words
from records import Unreadable
from standing import COLLECTIVE, RECEIVE, SEND
from times import Meetings, timed_calls

HERE = os.path.dirname(os.path.abspath(__file__))

TONES = {0: "good", 1: "bad", 3: "open"}
BAD, OPEN = {"fault", "cycle", "stall"}, {"standing", "open", "not sure", "warning"}

# How many rows the tables have.
MOST_ROWS = 15


def page(data):
    """The whole page."""
    with open(os.path.join(HERE, "page.html"), encoding="utf-8") as file:
        fixed = file.read()
    text = json.dumps(data, ensure_ascii=False, separators=(",", ":"))
    # In a script no text may end it.
    return fixed.replace("@DATA@", text.replace("</", "<\\/").replace("<!", "<\\u0021"))


def tone_of(kind):
    return "bad" if kind in BAD else "open" if kind in OPEN else ""


def empty_page(title, about, verdict, tone):
    parts = {name: [] for name in ("findings", "waiting", "waits", "run", "bars", "arrows", "tables")}
    return {"title": title, "about": about, "verdict": verdict, "tone": tone, **parts}


def numbered(micros):
    """Microseconds as milliseconds for a table."""
    return f"{micros / 1000:,.3f}"


# Of records


def page_of_report(report):
    """The page of a folder of records."""
    verdict = next((it.words for it in reversed(report.findings) if it.kind in BAD | {"verdict"}), "")
    about = f"{report.size} ranks, {report.calls():,} collective calls"
    data = empty_page(f"wzrecord: {report.folder}", about, verdict, TONES[report.status])
    data["findings"] = [{"words": it.words, "lines": it.lines, "tone": tone_of(it.kind)} for it in report.findings if it.kind != "record"]
    add_waits(data, report)
    data["run"] = next(filter(None, (run_lines.steps(it.lines) for it in report.findings)), [])
    add_times(data, report)
    return page(data)


def add_waits(data, report):
    """Who waits for whom: of the first finding that says it."""
    waits = next((it.fields["waits"] for it in report.findings if it.fields.get("waits")), {})
    edges = [(int(rank), other) for rank, others in waits.items() for other in others]
    for rank in sorted({it for edge in edges for it in edge}):
        over = rank in report.records and report.records[rank].ended and str(rank) not in waits
        data["waiting"].append({"rank": rank, "words": "came to MPI_Finalize" if over else stands(report, rank), "over": over})
    data["waits"] = edges


def stands(report, rank):
    """Where a rank waits, in short: now, or in the run of a library that stalls."""
    if rank not in report.standings.open:
        return report.where_stuck(rank)
    words = report.standings.rank_lines(rank)[0].split(", for ")[0].split(": ")[0]
    return re.sub(r"^in ", "", words)


def place_of(report, call):
    return report.places.name(report.records[call.rank], call.place) or "place unknown"


def whom(report, call):
    return f"rank {call.rank}: {call.name}, {place_of(report, call)}"


def add_times(data, report):
    calls, total = timed_calls(report.folder, report.records)
    if not calls:
        return
    if total > len(calls):
        data["about"] += f"; times are kept of the first and the last calls of each rank, {len(calls):,} of {total:,}"
    meetings = Meetings(calls, report.records)
    first = min(it.begun for it in calls)
    lost = collections.defaultdict(lambda: [0, 0, 0, 0])
    waited = {}
    for call in calls:
        until, last = meetings.waits(call)
        waited[id(call)] = until, last
        begun, ended, waited_to = (micros(it - first) for it in (call.begun, call.ended, until))
        kind, words = "call" if call.is_over else "stuck", words_of(report, call, last)
        data["bars"].append([call.rank, 0, begun, ended, kind, call.name, place_of(report, call), words, waited_to])
        row = lost[call.name, place_of(report, call)]
        row[0] += 1
        row[1] += call.ended - call.begun
        row[2] += until - call.begun
        row[3] = max(row[3], until - call.begun)
    add_arrows(data, meetings, waited, calls, first)
    add_tables(data, report, calls, waited, lost)


def micros(nanoseconds):
    return round(nanoseconds / 1000, 1)


def words_of(report, call, last):
    """What a call made or waited for, and whom it waited for."""
    found = []
    for awaited in call.awaited:
        command = report.standings.command(call.rank, awaited) if awaited.kind == COLLECTIVE else None
        if command:
            record = report.records[call.rank]
            words = call_words(command.call, lambda op, record=record: report.contexts.operation_words(record, op))
            found.append(f"{words}: call {awaited.index + 1} on {report.contexts.name(command.key)}")
        elif awaited.kind in (RECEIVE, SEND):
            found.append(("a receive " if awaited.kind == RECEIVE else "a send ") + report.standings.message_words(call.rank, awaited))
    if last:
        found.append(f"waited for {whom(report, last)}")
    return "\n".join(found)


def add_arrows(data, meetings, waited, calls, first):
    """A message's arrow goes from its send to the end of the call that received it, a collective's from its last member to those that waited for
    it."""
    for key, call, kind in meetings.ends():
        if key[0] == "message" and kind == RECEIVE:
            sent = meetings.posted[key].get((key[2], SEND))
            if sent and call.is_over:
                ended = max(call.ended, sent.begun)
                data["arrows"].append([key[2], micros(sent.begun - first), key[3], micros(ended - first), "message"])
        elif key[0] == "collective":
            until, last = waited[id(call)]
            if last and last is meetings.last_of(key, kind):
                data["arrows"].append([last.rank, micros(last.begun - first), call.rank, micros(until - first), "meet"])


def add_table(data, title, note, head, rows):
    data["tables"].append({"title": title, "note": note, "head": head, "rows": rows})


def add_tables(data, report, calls, waited, lost):
    note = "Milliseconds of the calls whose times are kept."
    add_table(data, "By rank", note, ["rank", "calls", "in calls", "of it waiting", "elsewhere"], rows_of_ranks(calls, waited))
    longest = [(until - call.begun, call, last) for call in calls for until, last in [waited[id(call)]] if until > call.begun]
    rows = []
    for nanoseconds, call, last in sorted(longest, key=lambda it: -it[0])[:MOST_ROWS]:
        what = whom(report, last) if last else "what never came"
        rows.append([str(call.rank), call.name, place_of(report, call), numbered(nanoseconds / 1000), what])
    if rows:
        add_table(data, "Longest waits", "", ["rank", "call", "place", "ms", "for"], rows)
    most = sorted(lost.items(), key=lambda it: -it[1][1])[:MOST_ROWS]
    rows = [[name, place, f"{row[0]:,}", *(numbered(it / 1000) for it in row[1:])] for (name, place), row in most]
    add_table(data, "By place", "", ["call", "place", "times", "ms", "of it waiting", "longest wait"], rows)


def rows_of_ranks(calls, waited):
    rows = []
    for rank in sorted({call.rank for call in calls}):
        own = [call for call in calls if call.rank == rank]
        inside = sum(call.ended - call.begun for call in own)
        waits = sum(waited[id(call)][0] - call.begun for call in own)
        elsewhere = max(call.ended for call in own) - min(call.begun for call in own) - inside
        rows.append([str(rank), f"{len(own):,}", *(numbered(max(0, it) / 1000) for it in (inside, waits, elsewhere))])
    return rows


# Of the files of wzrun and colljob


def read(path):
    try:
        with open(path, encoding="utf-8", errors="replace") as file:
            return file.read()
    except OSError as why:
        raise Unreadable(f"{path}: {why.strerror}") from why


def page_of_files(title, timeline=None, tables=None, words=None, explained=None, status=None):
    """The page of what a program wrote: trace events, tables in lines, what it said, and the lines of `colljob explain --format json`."""
    verdict = title if status is None else f"ended with status {status}"
    data = empty_page(title, "", verdict, "good" if not status else "bad")
    said = read(words) if words else ""
    if said.strip():
        add_said(data, said, status)
    # The page itself makes bars, arrows and tables of these texts, since colljob writes the same into its pages.
    if explained:
        data["explained"] = checked_explained(read(explained), explained)
    if timeline:
        data["timeline"] = checked_timeline(read(timeline), timeline)
    if tables:
        data["stats"] = read(tables)
    return page(data)


def add_said(data, said, status):
    """The sentences of wzrun, each with the lines beneath it; `a -> b` of a stall as a picture."""
    for line in said.rstrip("\n").split("\n"):
        if not line.startswith(" ") or not data["findings"]:
            is_warning = "warning" in line
            data["findings"].append({"words": line, "lines": [], "tone": "open" if is_warning else "bad" if status else ""})
        else:
            data["findings"][-1]["lines"].append(line)
    data["verdict"] = next((it["words"] for it in data["findings"] if it["tone"] == "bad"), data["findings"][0]["words"])
    if data["tone"] == "good" and any(it["tone"] == "open" for it in data["findings"]):
        data["tone"] = "open"
    data["run"] = run_lines.steps(said.splitlines())
    cycle = re.search(r"wait for one another: ([\d >-]+)", said)
    ranks = [int(it) for it in cycle[1].split("->")] if cycle else []
    where = {rank: words for those, words in re.findall(r"ranks? ([\d, to and-]+) waits? in (.*)", said) for rank in numbers_of(those)}
    data["waiting"] = [{"rank": rank, "words": shorter(where.get(str(rank), "")), "over": False} for rank in dict.fromkeys(ranks)]
    data["waits"] = list(zip(ranks, ranks[1:]))


def numbers_of(words):
    """The ranks of `0, 2 and 4 to 6`, each as a word."""
    found = []
    for it in re.finditer(r"(\d+)(?:(?: to |-)(\d+))?", words):
        found += [str(rank) for rank in range(int(it[1]), int(it[2] or it[1]) + 1)]
    return found


def shorter(words):
    """A place without its folder."""
    return re.sub(r" at (?:\S*/)?([^/\s]+)$", r", \1", words)


def checked_explained(text, path):
    try:
        objects = [json.loads(line) for line in text.splitlines() if line.strip()]
    except ValueError as why:
        raise Unreadable(f"{path}: not lines of JSON") from why
    if not any(isinstance(it, dict) and it.get("reason") == "explained" for it in objects):
        raise Unreadable(f"{path}: not what `colljob explain --format json` writes")
    return text


def checked_timeline(text, path):
    try:
        if not isinstance(json.loads(text)["traceEvents"], list):
            raise ValueError
    except (ValueError, KeyError, TypeError) as why:
        raise Unreadable(f"{path}: not a timeline, as --timeline writes it") from why
    return text
