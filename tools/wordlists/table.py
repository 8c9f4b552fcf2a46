"""The rows of tools/words.txt, and how lines of several languages are laid out."""
import collections
import pathlib
import re

TOP = pathlib.Path(__file__).resolve().parents[2]
Kind = collections.namedtuple("Kind", "word mpi c rust gives gets needs has value does example")
Operation = collections.namedtuple("Operation", "word mpi c rust elements statement example result")
Type = collections.namedtuple("Type", "word mpi c rust width element ctype note")
SHAPES = {"kind": Kind, "operation": Operation, "type": Type}
# Elements that are whole numbers.
WHOLE = ("signed", "unsigned")
# The operation, type and root of the kinds' examples.
EXAMPLE_OPERATION, EXAMPLE_TYPE, EXAMPLE_ROOT = "sum", "u8", 1


def read_table():
    """The rows of tools/words.txt by what they are of."""
    table = {name: [] for name in SHAPES}
    for line in (TOP / "tools" / "words.txt").read_text(encoding="utf-8").splitlines():
        if line and not line.startswith("#"):
            name, fields = line.split(" ", 1)
            table[name].append(SHAPES[name](*(field.strip() for field in re.split(r" \|(?: |$)", fields))))
    return table


def named(rows, word):
    return next(row for row in rows if row.word == word)


def has(kind, word):
    return word in kind.has.split()


def combinations(table):
    """Each operation with each type that it is for, in their order."""
    return [(operation, kind) for operation in table["operation"] for kind in table["type"] if kind.element in operation.elements.split()]


def example_of_kind(kind):
    """What each member gives, and what it gets, as lists of words."""
    return [[member.split() for member in side.split("/")] for side in kind.example.split("=")]


def example_of_operation(operation):
    """The type's word, what each member gives, and what all get."""
    word, example = operation.example.split(":")
    given, got = example.split("=")
    return word, given.split(), got.strip()


def bytes_of(kind, words):
    """The little-endian bytes of elements, of which a pair has two numbers."""
    numbers = [int(number) for word in words for number in word.split(",")]
    width = int(kind.width) // (2 if kind.element == "pair" else 1)
    return b"".join((number % (1 << 8 * width)).to_bytes(width, "little") for number in numbers)


def aligned(rows):
    """Cells in columns, the last one as it is."""
    widths = [max(len(row[column]) for row in rows) for column in range(len(rows[0]) - 1)]
    return [" ".join(cell.ljust(width) for cell, width in zip(row, widths)) + f" {row[-1]}" for row in rows]


def filled(head, cells, tail, width=118):
    """`head`, the cells with commas between them, and `tail`, in lines of at most that many columns."""
    lines, line = [], head
    for place, cell in enumerate(cells):
        cell += tail if place + 1 == len(cells) else ","
        if len(line) + 1 + len(cell) > width:
            lines.append(line)
            line = " " * len(head) + cell
        else:
            line = line + ("" if line == head else " ") + cell
    return [*lines, line]


def noted(mpi, note):
    return ": ".join(part for part in (mpi, note) if part)
