"""The tables of documents."""
import textwrap

from .table import WHOLE, has

GIVEN = {"none": "0", "own": "B", "all": "nB", "root": "root B, others 0", "root all": "root nB, others 0", "later": "B; at 0 nothing (own)",
         "counted": "C(r) elements", "all counted": "C(0) + .. + C(n-1) elements"}
NEEDS = {"root all": "root: all, others r", "lower": "0 to r-1", "lower own": "0 to r"}
ELEMENTS = {"signed": "signed integers", "unsigned": "unsigned integers", "bits": "`byte`", "pair": "`2int`"}
# What a rank's line of a job text has, by what it gives.
VALUES = {"none": "nothing", "root": "the root COUNT values, others none", "root all": "the root COUNT values for each rank, others none",
          "own": "COUNT values", "all": "COUNT values for each rank", "counted": "as many values as its own count says; every member lists all counts"}


def table_lines(head, rows):
    return ["", *(f"| {' | '.join(cells)} |" for cells in (head, ["---"] * len(head), *rows)), ""]


def range_of(row):
    if row.element not in WHOLE:
        return f"{row.width} byte{'s' * (row.width != '1')}: {row.note}"
    bits = 8 * int(row.width)
    return f"-2^{bits - 1} to 2^{bits - 1} - 1" if row.element == "signed" else f"0 to 2^{bits} - 1"


def types(table):
    return table_lines(["Type", "MPI type", "Value"], [[f"`{row.word}`", f"`{row.mpi}`", range_of(row)] for row in table["type"]])


def elements_of(row):
    words = row.elements.split()
    whole = ["integers"] if set(WHOLE) <= set(words) else [ELEMENTS[word] for word in words if word in WHOLE]
    return ", ".join([*whole, *(ELEMENTS[word] for word in words if word not in WHOLE)])


def operations(table):
    rows = [[f"`{row.word}`", f"`{row.mpi}`" if row.mpi else "(own)", elements_of(row), row.result] for row in table["operation"]]
    return table_lines(["Word", "MPI's name", "Elements", "Result"], rows)


def kinds(table):
    rows = [[f"`{row.word}`", GIVEN[row.gives], GIVEN[row.gets], row.value, NEEDS.get(row.needs, row.needs)] for row in table["kind"]]
    return table_lines(["Kind", "r gives", "r gets", "Value at r", "r needs"], rows)


def signature_of(kind):
    words = [kind.word, *(["ROOT"] if has(kind, "root") else []), *(["OP"] if has(kind, "operation") else [])]
    words += [] if kind.gives == "none" else ["TYPE", "C0 .. C(n-1)" if has(kind, "counts") else "COUNT"]
    return f"`{' '.join(words)}`"


def signatures(table):
    """What stands after `post` or `init`, and what each rank gives."""
    by_gift = {}
    for kind in table["kind"]:
        by_gift.setdefault(VALUES[kind.gives], []).append(signature_of(kind))
    lines = []
    for gift, found in by_gift.items():
        # (a signature isn't broken between two lines)
        text = f"{', '.join(found)}: {gift}".replace("`, `", "`,\0`")
        parts = [part.replace(" ", "\1") if part.startswith("`") else part for part in text.replace("`: ", "`:\0").split("\0")]
        wrapped = textwrap.wrap(" ".join(parts), 98, break_long_words=False, break_on_hyphens=False)
        lines += [("- " if place == 0 else "  ") + line.replace("\1", " ") for place, line in enumerate(wrapped)]
    return ["", *lines, ""]
