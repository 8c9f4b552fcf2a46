"""What the tests in Rattle read of the table, laid out as `rt fmt` does."""
from .table import EXAMPLE_OPERATION, EXAMPLE_ROOT, EXAMPLE_TYPE, bytes_of, combinations, example_of_kind, example_of_operation, has, named

# What is between brackets stands in one line where it has no more columns than these.
WIDTH = 60


def bracketed(opening, cells, closing, indent):
    """Cells between brackets, each a list of lines: in one line, or with lines of its own for each cell."""
    inside = ", ".join(cell[0] for cell in cells)
    if all(len(cell) == 1 for cell in cells) and len(inside) <= WIDTH:
        return [f"{indent}{opening}{inside}{closing}"]
    lines = [f"{indent}{opening}"]
    for *first, last in cells:
        lines += [f"{indent}    {line}" for line in [*first, f"{last},"]]
    return [*lines, f"{indent}{closing}"]


def row_lines(cells):
    """A tuple in an array."""
    *first, last = bracketed("(", cells, ")", "    ")
    return [*first, f"{last},"]


def rows_of_bytes(kind, members):
    return bracketed("&[", [["&[" + ", ".join(map(str, bytes_of(kind, words))) + "]"] for words in members], "]", "")


def examples(table):
    """What is computed, what each member gives, and what each gets."""
    ty = named(table["type"], EXAMPLE_TYPE)
    for kind in table["kind"]:
        op = f"Some(Op::{named(table['operation'], EXAMPLE_OPERATION).rust})" if has(kind, "operation") else "None"
        what = f"(Kind::{kind.word.capitalize()}, {EXAMPLE_ROOT if has(kind, 'root') else 0}, {op}, Datatype::{ty.rust})"
        yield [what], *(rows_of_bytes(ty, side) for side in example_of_kind(kind))
    for operation in table["operation"]:
        word, given, got = example_of_operation(operation)
        ty = named(table["type"], word)
        what = f"(Kind::Allreduce, 0, Some(Op::{operation.rust}), Datatype::{ty.rust})"
        yield [what], rows_of_bytes(ty, [[it] for it in given]), rows_of_bytes(ty, [[got]] * len(given))


def file_lines(table):
    pairs, rows = combinations(table), list(examples(table))
    lines = ["//! What operations and types go together, and what small collectives give; `tools/words` makes this file.", "",
             "use coll_kinds::{Datatype, Kind, Op};", "",
             "/// Each operation with each type that it is for.", f"pub const COMBINATIONS: [(Op, Datatype); {len(pairs)}] = ["]
    lines += [line for operation, kind in pairs for line in row_lines([[f"Op::{operation.rust}"], [f"Datatype::{kind.rust}"]])]
    lines += ["];", "", "/// A kind with its root, operation and type.", "pub type What = (Kind, u8, Option<Op>, Datatype);", "",
              "/// What is computed of blocks of one element, what each member gives, and what each gets.",
              "pub type Example = (What, &'static [&'static [u8]], &'static [&'static [u8]]);", "",
              "/// An example of each kind, and of each operation.", f"pub const EXAMPLES: [Example; {len(rows)}] = ["]
    return [*lines, *(line for row in rows for line in row_lines(row)), "];"]
