"""What --strict and --check see beside collectives that differ, of thorough_wrong.c: for check.py."""

import re

import check
from checking import HERE, compiled, run

# How each is run that isn't run as `wzrun --strict -n 3`.
PLAIN = ["near_tag", "near_source", "near_communicator", "near_receive", "same_line", "many_pending", "taken", "other_periods", "other_sizes", "other_graph", "structures", "static_operations"]
ALONE = ["sendrecv", "sendrecv_columns", "no_memory"]
CHECKED = ["two_receives", "receive_into_sent", "send_what_comes", "collective_into_pending", "two_collectives", "started_into_pending", "unmapped", "freed"]
OPTIONS = {**{it: "-n 3" for it in PLAIN}, **{it: "-n 1" for it in ALONE}, **{it: "--check -n 1" for it in CHECKED}, "elements_on_themselves": "--strict -n 2"}
# Those in which any of several ranks may be the first to see it.
ANY_RANK = ["other_periods", "other_sizes", "other_graph"]


def blocks(binaries, program, only):
    source = HERE / "thorough_wrong.c"
    for name in check.names_of(source)[1:]:
        if only and name not in only:
            continue
        options = OPTIONS.get(name, "--strict -n 3")
        status, said = run([str(binaries / "wzrun"), "-q", *options.split(), str(program), name])
        said = re.sub(r"memory at 0x[0-9a-f]+", "memory at 0x..", said.replace(f"{HERE}/", "tests/"))
        if name in ANY_RANK:
            said = re.sub(r"rank \d", "rank R", said)
        yield name, f"== wzrun {options} wrong {name}: status {status}\n{said}"


def check_said(binaries, out, only=(), write=False):
    program = compiled(binaries, HERE / "thorough_wrong.c", out / "thorough_wrong")
    return check.compare(dict(blocks(binaries, program, only)), HERE / "thorough_wrong.want", write, "seen by --strict and --check")
