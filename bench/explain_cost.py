#!/usr/bin/env python3
"""How long `colljob explain` and `colljob check` take beside `plain`: explain_cost.py PROGRAM [ROUNDS]

Three texts: one of almost 1 MiB on 4 ranks; one of 64 ranks with 4,096 requests and their waits; and the first with 200 wrong words, of which
`check` reports the faults up to its limit. It prints medians of the rounds, in which the commands take turns.
"""
import random
import statistics
import subprocess
import sys
import time


def long_text():
    lines = ["ranks 4"]
    for rank in range(4):
        lines.append(f"rank {rank}")
        for number in range(990):
            values = " ".join(str((rank * 31 + number * 7 + it) % 1000) for it in range(60))
            lines.append(f"post 0 allreduce sum i32 60 : {values}")
    return "\n".join(lines) + "\n"


def wide_text():
    lines = ["ranks 64"]
    for rank in range(64):
        lines.append(f"rank {rank}")
        for number in range(64):
            lines += [f"post 0 allreduce sum i32 1 : {rank}", f"wait {number}"]
    return "\n".join(lines) + "\n"


def faulty_text(text):
    lines = text.split("\n")
    for at in random.Random(1).sample([at for at, line in enumerate(lines) if line.startswith("post")], 200):
        lines[at] = lines[at].replace("sum", "summ")
    return "\n".join(lines)


def seconds(program, word, text):
    begin = time.perf_counter()
    subprocess.run([program, word], input=text.encode(), capture_output=True)
    return time.perf_counter() - begin


def main():
    program = sys.argv[1]
    rounds = int(sys.argv[2]) if len(sys.argv) > 2 else 3
    texts = {"1 MiB": long_text(), "64 ranks, 4,096 requests": wide_text(), "1 MiB with 200 faults": faulty_text(long_text())}
    for name, text in texts.items():
        taken = {word: [] for word in ("plain", "explain", "check")}
        for _ in range(rounds):
            for word, all_taken in taken.items():
                all_taken.append(seconds(program, word, text))
        plain = statistics.median(taken["plain"])
        told = [f"{word} {1000 * statistics.median(it):.1f} ms ({statistics.median(it) / plain:.1f})" for word, it in taken.items()]
        print(f"{name} ({len(text)} bytes): {', '.join(told)}")


main()
