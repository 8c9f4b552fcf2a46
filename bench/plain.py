#!/usr/bin/env python3
"""Times `colljob plain` on large texts: seconds, peak memory and MB/s of text and output.

Run it at the top of the repository after the program is built (`./colljob plain < examples/sum_of_three.job`).
"""

import os
import resource
import subprocess
import sys
import time

PROGRAM = os.path.join(os.path.dirname(__file__), "..", "crates", "colljob", "out", "colljob")


def many_posts():
    """4,096 posts over 64 ranks, near the limit of 1,048,576 bytes."""
    lines = ["ranks 64"]
    values = " ".join("-1%02d" % (i % 28) for i in range(45))
    for rank in range(64):
        lines.append(f"rank {rank}")
        lines += [f"post 0 allreduce sum i8 45 : {values}"] * 64
    return "\n".join(lines) + "\n"


def many_communicators():
    """4,096 requests over 64 ranks and 16 communicators of all ranks, every second one persistent and started twice."""
    lines = ["ranks 64"] + ["comm " + " ".join(str((rank + comm) % 64) for rank in range(64)) for comm in range(1, 16)]
    values = " ".join(str(i % 10) for i in range(60))
    for rank in range(64):
        lines.append(f"rank {rank}")
        for request in range(64):
            comm = request % 16
            if request % 2:
                lines.append(f"init {comm} scan sum i8 20")
                start = f"start {request} : {values[:39]}"
                lines += [start, "waitall", start]
            else:
                lines.append(f"post {comm} allreduce max i8 60 : {values}")
    return "\n".join(lines) + "\n"


def one_post_each(ranks, collective, elements):
    """Each rank posts the same collective, with that many elements of its own."""
    lines = [f"ranks {ranks}"]
    for rank in range(ranks):
        values = " ".join(str((i + rank) % 10) for i in range(elements))
        lines += [f"rank {rank}", f"post 0 {collective} : {values}"]
    return "\n".join(lines) + "\n"


def wide_posts():
    """One allreduce of 65,500 elements over 8 ranks; 65,536 would pass the limit of a text."""
    return one_post_each(8, "allreduce sum i8 65500", 65500)


def few_members():
    """One allreduce of 64,000 elements over 8 ranks: 512,000 elements are given and got."""
    return one_post_each(8, "allreduce sum i8 64000", 64000)


def many_members():
    """As many elements in all, over 64 ranks of 8,000 each: the time depends on the elements, not on the members."""
    return one_post_each(64, "allreduce sum i8 8000", 8000)


def one_allgather():
    """An allgather of 8,000 elements over 64 ranks: 64 rows of 512,000 elements come out."""
    return one_post_each(64, "allgather u8 8000", 8000)


def one_rsblock():
    """A reduce-scatter of 510 elements a block over 32 ranks."""
    return one_post_each(32, "rsblock sum i64 510", 32 * 510)


def many_waits():
    """104,000 lines that wait for one of some requests, near the limit of a text."""
    lines = ["ranks 1", "rank 0", "post 0 barrier", "post 0 barrier"] + ["waitany 0"] * 104_000
    return "\n".join(lines) + "\n"


TEXTS = [
    ("4,096 posts over 64 ranks", many_posts),
    ("4,096 requests over 64 ranks and 16 communicators", many_communicators),
    ("allreduce of 65,500 elements over 8 ranks", wide_posts),
    ("allreduce of 64,000 elements over 8 ranks", few_members),
    ("allreduce of 8,000 elements over 64 ranks", many_members),
    ("allgather of 8,000 elements over 64 ranks", one_allgather),
    ("rsblock of 510 elements over 32 ranks", one_rsblock),
    ("104,000 waits of one rank", many_waits),
]


def timed(name, text):
    data = text.encode()
    start = time.monotonic()
    child = subprocess.Popen([PROGRAM, "plain"], stdin=subprocess.PIPE, stdout=subprocess.PIPE)
    out, _ = child.communicate(data)
    seconds = time.monotonic() - start
    peak = resource.getrusage(resource.RUSAGE_CHILDREN).ru_maxrss / 1024
    moved = (len(data) + len(out)) / 1e6
    print(
        f"{name}: status {child.returncode}, {len(data)} bytes in, {len(out)} bytes out, "
        f"{seconds:.3f} s, {peak:.1f} MiB, {moved / seconds:.1f} MB/s"
    )
    return child.returncode


if __name__ == "__main__":
    if not os.access(PROGRAM, os.X_OK):
        sys.exit("plain.py: the program isn't built; build it by ./colljob plain < examples/sum_of_three.job")
    if len(sys.argv) > 1:
        name, text = TEXTS[int(sys.argv[1])]
        sys.exit(timed(name, text()))
    # Each text in a process of its own, whose one child's memory is then the program's.
    sys.exit(max([subprocess.call([sys.executable, __file__, str(i)]) for i in range(len(TEXTS))]))
