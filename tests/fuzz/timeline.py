#!/usr/bin/env python3
"""timeline.py FILE [TRACE]: checks a file that `colljob run --timeline` wrote against the JSON object format of trace events, as its
document gives it: an object with `traceEvents`, a list; each event has `ph`, `pid`, `tid` and `name`; a complete event (`X`) has `ts`
and `dur`, which are microseconds; a metadata event (`M`) has `args`. Besides: complete events of one thread don't overlap, since
viewers nest or drop such; and with the file of `--trace` of the same run: each post and start has its bar, on its rank's track, with
the lines of the calls that began and ended it. Ends with status 1 at the first fault."""
import json
import re
import sys


def fail(why):
    sys.exit(f"{sys.argv[1]}: {why}")


def is_number(value):
    return isinstance(value, (int, float)) and not isinstance(value, bool) and value >= 0


def check_event(event):
    for field in ("ph", "pid", "tid", "name"):
        if field not in event:
            fail(f"no {field}: {event}")
    if not isinstance(event["ph"], str) or not isinstance(event["name"], str):
        fail(f"no text: {event}")
    if not isinstance(event["pid"], int) or not isinstance(event["tid"], int):
        fail(f"no process or thread: {event}")
    if event["ph"] == "X":
        if not is_number(event.get("ts")) or not is_number(event.get("dur")):
            fail(f"no time: {event}")
    elif event["ph"] == "M":
        if not isinstance(event.get("args"), dict):
            fail(f"no args: {event}")
    else:
        fail(f"another phase: {event}")


def check_lanes(bars):
    lanes = {}
    for bar in bars:
        lanes.setdefault((bar["pid"], bar["tid"]), []).append((bar["ts"], bar["ts"] + bar["dur"]))
    for lane, times in lanes.items():
        times.sort()
        for (_, end), (begin, _) in zip(times, times[1:]):
            if begin < end - 0.0015:
                fail(f"bars overlap in {lane}")


def bars_of(trace):
    """(rank, request, start, its line, the line of its completion), as the trace has them; 0 for an unwritten line."""
    begun, bars, starts = {}, set(), {}
    for line in trace:
        head, _, told = line.rstrip("\n").rpartition("  # ")
        at = 0 if told == "end" else int(told.removeprefix("line "))
        rank, did, number = re.match(r"rank (\d+) (\w+) +req (\d+) ", head + " ").groups()
        key = int(rank), int(number)
        if did in ("posted", "started"):
            begun[key] = at
        elif did == "completed":
            start = starts.get(key, 0)
            bars.add((*key, start, begun.pop(key), at))
            starts[key] = start + 1
    return bars


def main():
    with open(sys.argv[1]) as file:
        whole = json.load(file)
    if not isinstance(whole, dict) or not isinstance(whole.get("traceEvents"), list):
        fail("no object with traceEvents")
    for event in whole["traceEvents"]:
        check_event(event)
    bars = [event for event in whole["traceEvents"] if event["ph"] == "X"]
    check_lanes(bars)
    if len(sys.argv) > 2:
        with open(sys.argv[2]) as file:
            wanted = bars_of(file)
        shown = {(bar["pid"], *(bar["args"][field] for field in ("req", "start", "line", "completed_in_line"))) for bar in bars}
        if shown != wanted or len(bars) != len(wanted):
            fail(f"not the bars of the trace: {sorted(shown ^ wanted)}")
    print(f"{sys.argv[1]}: {len(bars)} bars, {len(whole['traceEvents']) - len(bars)} names")


main()
