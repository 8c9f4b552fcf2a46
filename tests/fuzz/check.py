#!/usr/bin/env python3
"""Mistakes in job texts, reported by `colljob check`: check.py PROGRAM [TEXTS [SEED]]

Each text is an example with a few words or lines changed at random. Compared are: the first fault with that of `plain`; the status; and each
change that is proposed with `plain` on the changed text, which must have no fault up to the line for which it is proposed; and what is reported
of a place that members differ at or lack, if that is the first fault: its ranks, lines, fields and counts are the text's. Ends with 1 where
something differs, and shows the text.
"""
import json
import pathlib
import random
import re
import subprocess
import sys

import reading

EXAMPLES = pathlib.Path(__file__).resolve().parents[2] / "examples"

WORDS = ["0", "1", "2", "7", "-1", "256", "65537", "x", ":", "#", "sum", "max", "i32", "u8", "int", "byte", "barrier", "bcast", "allreduce",
         "post", "init", "start", "wait", "test", "free", "waitall", "waitany", "rank", "ranks", "comm", "Sum", "0x1f", "+1", "2int", "7,2"]


def changed(rng, text):
    """The text with one to four changes."""
    lines = text.split("\n")
    for _ in range(rng.randint(1, 4)):
        at = rng.randrange(len(lines))
        words = lines[at].split(" ")
        word = rng.randrange(len(words))
        match rng.randrange(8):
            case 0:
                words[word] = rng.choice(WORDS)
            case 1:
                del words[word]
            case 2:
                words.insert(word, rng.choice(WORDS))
            case 3:
                words.append(rng.choice(WORDS))
            case 4:
                words[word] = words[word][:-1]
            case 5:
                words[word] = words[word].upper()
            case 6:
                other = rng.randrange(len(lines))
                lines[at], lines[other] = lines[other], lines[at]
                continue
            case 7:
                lines.insert(rng.randrange(len(lines)), lines[at])
                continue
        lines[at] = " ".join(words)
    return "\n".join(lines)


def answer(program, words, text):
    return subprocess.run([program, *words], input=text.encode(), capture_output=True)


def plain_fault(program, text):
    """The line and the cause of the text's fault; None where it has none."""
    ended = answer(program, ["plain"], text)
    if ended.returncode != 2:
        return None
    line, cause = re.fullmatch(r"line (\d+): (.*)\n", ended.stderr.decode()).groups()
    return int(line), cause


def replaced(text, replacements):
    """The text with lines in place of others, and the number of the line after the last of them."""
    lines = text.removesuffix("\n").split("\n")
    for it in sorted(replacements, key=lambda it: -it["line"]):
        lines[it["line"] - 1:it["line"]] = it["by"]
    return "\n".join(lines) + "\n"


def is_line_of(shown, request, lines):
    """Whether a line that is shown is that of the request."""
    return (shown["rank"], shown["line"], shown["text"].split()) == (request.rank, request.line, lines[request.line - 1].split())


def objection_to_mismatch(fault, there):
    first, *others = there.at(fault["comm"], fault["place"])
    other = next((it for it in others if it.line == fault["line"]), None)
    if other is None or not is_line_of(fault["first"], first, there.lines) or not is_line_of(fault["differs"], other, there.lines):
        return "other lines"
    if first.is_like(other) or any(it.line < other.line and not it.is_like(first) for it in others):
        return "another line differs first"
    names = ["kind", "mode"]
    if first.kind == other.kind:
        names += ["root", "operation", "type", "counts" if first.kind == "allgatherv" else "count"]
    differing = {name for name in names if first.field(name) != other.field(name)}
    reported = set(fault["differs"]["in"])
    if reported != differing and (first.kind == other.kind or not differing <= reported):
        return f"differs in {sorted(differing)}"
    members = {it["rank"]: (it["line"], it["agrees"]) for it in fault["members"]}
    wanted = {it.rank: (it.line, it.is_like(first)) for it in (first, *others)}
    return "" if members == wanted and len(fault["members"]) == len(wanted) else f"members {wanted}"


def objection_to_missing_place(fault, there):
    counts = {rank: len(own) for rank, own in there.on(fault["comm"]).items()}
    first = there.at(fault["comm"], fault["place"])[0]
    lacking = {rank: count for rank, count in counts.items() if count <= fault["place"]}
    if not lacking or fault["place"] != min(counts.values()):
        return f"places {counts}"
    if not is_line_of(fault["first"], first, there.lines):
        return "another first line"
    return "" if {it["rank"]: it["has"] for it in fault["lacking"]} == lacking else f"lacking {lacking}"


def objection_to_missing_start(fault, there):
    wanted = {it.rank: (it.line, it.starts) for it in there.at(fault["comm"], fault["place"])}
    if len({len(starts) for _, starts in wanted.values()}) == 1:
        return "as many starts of all"
    return "" if {it["rank"]: (it["line"], it["starts"]) for it in fault["members"]} == wanted else f"members {wanted}"


WHOLES = {"place mismatch": objection_to_mismatch, "place missing": objection_to_missing_place, "start missing": objection_to_missing_start}


def objection(program, text):
    """What is wrong with what is reported of a text; None where nothing is."""
    fault = plain_fault(program, text)
    ended = answer(program, ["check", "--format", "json"], text)
    if ended.stderr:
        return ended.stderr.decode()
    reported = [json.loads(line) for line in ended.stdout.decode().splitlines()]
    found = [it for it in reported if it["reason"] == "fault"]
    checked = [it for it in reported if it["reason"] == "checked"]
    if len(checked) != 1 or checked[0]["faults"] != len(found):
        return "the number of faults"
    if fault is None:
        return "a fault where there is none" if found or ended.returncode == 2 else None
    if ended.returncode != 2:
        return f"status {ended.returncode}"
    if (found[0]["line"], found[0]["cause"]) != fault:
        return f"first {found[0]}"
    if found[0]["cause"] not in WHOLES and found[0].get("label") is None and found[0]["cause"] != "text too long":
        return f"nothing is known of {found[0]}"
    if found[0]["cause"] in WHOLES:
        why = WHOLES[found[0]["cause"]](found[0], reading.Reading(text))
        if why:
            return f"{why}, but {found[0]}"
    if found[0].get("replace"):
        left = plain_fault(program, replaced(text, found[0]["replace"]))
        added = sum(len(it["by"]) - 1 for it in found[0]["replace"] if it["line"] <= fault[0])
        if left is not None and left[1] not in WHOLES and left[0] <= fault[0] + added:
            return f"{found[0]['help']} leaves {left}"
    lines = [it["line"] for it in found if it["cause"] not in WHOLES]
    if lines != sorted(set(lines)):
        return f"lines {lines}"
    return None


def main():
    program = sys.argv[1]
    texts = int(sys.argv[2]) if len(sys.argv) > 2 else 2000
    rng = random.Random(int(sys.argv[3]) if len(sys.argv) > 3 else 1)
    examples = [it.read_text() for it in sorted(EXAMPLES.rglob("*.job")) if "mistakes" not in it.parts]
    faulty = helped = reported = 0
    for _ in range(texts):
        text = changed(rng, rng.choice(examples))
        why = objection(program, text)
        if why is not None:
            print(f"{why}\n--\n{text}")
            return 1
        ended = answer(program, ["check", "--format", "json"], text).stdout.decode()
        faulty += '"reason":"fault"' in ended
        reported += ended.count('"reason":"fault"')
        helped += ended.count('"help":["')
    print(f"{texts} texts, {faulty} with a fault, {reported} faults, {helped} with a change that was tried")
    return 0


sys.exit(main())
