"""What the Rust crate has of the table."""
from .table import (EXAMPLE_OPERATION, EXAMPLE_ROOT, EXAMPLE_TYPE, WHOLE, bytes_of, example_of_kind, example_of_operation, filled, has,
                    named, noted)


def enum_lines(name, about, rows, first, numbers):
    """An enum of the Rust crate, and its variants in the order of C's numbers, with their words in job texts."""
    lines = [f"/// {about}", "#[derive(Clone, Copy, Debug, PartialEq, Eq, Hash)]", "#[repr(u8)]", f"pub enum {name} {{"]
    for place, (row, note) in enumerate(rows):
        lines += [f"    /// {note}", f"    {row.rust}" + (f" = {first}" if first and not place else "") + ","]
    lines += ["}", "", f"impl {name} {{", f"    /// By their numbers in C{numbers}, with their words in job texts.",
              f"    const ALL: [({name}, &'static str); {len(rows)}] = ["]
    return [*lines, *(f'        ({name}::{row.rust}, "{row.word}"),' for row, _ in rows), "    ];", "}"]


def note_of(mpi, note):
    return noted(f"`{mpi}`", note) if mpi else note[:1].upper() + note[1:]


def kinds(table):
    notes = [(row, f"`MPI_I{row.mpi.lower()}`" + (", whose members' counts stand beside the call" if has(row, "counts") else "")) for row in table["kind"]]
    rooted = " | ".join(f"Kind::{row.rust}" for row in table["kind"] if has(row, "root"))
    lines = enum_lines("Kind", "A collective (MPI 4.1, 6.12).", notes, 0, "")
    return [*lines[:-1], "", "    fn has_root(self) -> bool {", f"        matches!(self, {rooted})", "    }", "}"]


def operations(table):
    rows = [(row, note_of(row.mpi, row.result)) for row in table["operation"]]
    return enum_lines("Op", "An operation on a lower member's element a and a higher one's b (MPI 4.1, 6.9.2 and 6.9.4).", rows, 1, " from 1 on")


def types(table):
    rows = [(row, note_of(row.mpi, row.note)) for row in table["type"]]
    return enum_lines("Type", "The type of an element; numbers are little-endian.", rows, 0, "")


def calls(table):
    """The functions that make calls. An allgatherv has posts of its own."""
    lines = []
    for kind in table["kind"]:
        if has(kind, "counts"):
            continue
        parts = [("root: u8", "root") if has(kind, "root") else (None, "0"), ("op: Op", "op as u8") if has(kind, "operation") else (None, "NO_OPERATION")]
        parts += [(None, "Type::Byte"), (None, "0")] if kind.gives == "none" else [("ty: Type", "ty"), ("count: u32", "count")]
        (_, root), (_, op), (_, ty), (_, count) = parts
        lines += ["", f"    /// {kind.does}", f"    pub fn {kind.mpi.lower()}({', '.join(name for name, _ in parts if name)}) -> Call {{",
                  f"        Call::new(Kind::{kind.rust}, {op}, {ty}, {root}, {count})", "    }"]
    return lines[1:]


def elements(table):
    """The numbers of Rust that are elements: those that are called as their type is."""
    numbers = [row for row in table["type"] if row.element in WHOLE and row.word == f"{row.element[0].replace('s', 'i')}{8 * int(row.width)}"]
    return filled("elements!(", [f"{row.word} is {row.rust}" for row in numbers], ");")


def rows(members):
    return f"vec![{', '.join(f'&[{member}]' for member in members)}]"


def examples(table):
    """A call of each kind and of each operation, with what members give and get."""
    op, ty = named(table["operation"], EXAMPLE_OPERATION), named(table["type"], EXAMPLE_TYPE)
    lines = []
    for kind in table["kind"]:
        if has(kind, "counts"):
            continue
        words = [str(EXAMPLE_ROOT)] if has(kind, "root") else []
        words += [f"Op::{op.rust}"] if has(kind, "operation") else []
        words += [] if kind.gives == "none" else [f"Type::{ty.rust}", "1"]
        given, got = ([", ".join(member) for member in side] for side in example_of_kind(kind))
        lines.append(f"        (Call::{kind.mpi.lower()}({', '.join(words)}), {rows(given)}, {rows(got)}),")
    for operation in table["operation"]:
        word, given, got = example_of_operation(operation)
        element = named(table["type"], word)
        given, got = ([", ".join(map(str, bytes_of(element, [it]))) for it in side] for side in (given, [got] * len(given)))
        lines.append(f"        (Call::allreduce(Op::{operation.rust}, Type::{element.rust}, 1), {rows(given)}, {rows(got)}),")
    return lines
