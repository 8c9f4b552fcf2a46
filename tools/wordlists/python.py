"""What Python scripts read of the table."""
from .table import WHOLE, combinations, filled, has

BLOCKS_GIVEN = '''

def blocks_given(kind, is_root, members):
    """How many blocks a member gives; one, of its own count, where members have counts."""
    rule = GIVEN[kind].split()
    if rule == ["none"] or "root" in rule and not is_root:
        return 0
    return members if "all" in rule else 1
'''


def dict_lines(name, pairs):
    return filled(f"{name} = {{", [f'"{key}": {value}' for key, value in pairs], "}", 150)


def list_lines(name, words):
    return filled(f"{name} = [", [f'"{word}"' for word in words], "]", 150)


def limits(row):
    bits = 8 * int(row.width)
    return f"(-(1 << {bits - 1}), (1 << {bits - 1}) - 1)" if row.element == "signed" else f"(0, (1 << {bits}) - 1)"


def file_lines(table):
    kinds, operations, types = table["kind"], table["operation"], table["type"]
    lines = ['"""Kinds, operations and types in job texts; `tools/words` makes this file."""', "",
             "# By MPI's call, without MPI_ and the I of nonblocking ones."]
    lines += dict_lines("KINDS", [(row.mpi, f'"{row.word}"') for row in kinds])
    lines += ["# What a member gives, in blocks: none, its own, all members' blocks, or as many elements as its count says; `root`: the root alone."]
    lines += dict_lines("GIVEN", [(row.word, f'"{row.gives}"') for row in kinds])
    lines += ["# Whom a member's value needs: all, the root, `root all`: the root needs all and others nobody else, or lower members, with it or without."]
    lines += dict_lines("NEEDS", [(row.mpi, f'"{row.needs}"') for row in kinds])
    for name, word in (("ROOTED", "root"), ("COMBINING", "operation")):
        lines += list_lines(name, [row.word for row in kinds if has(row, word)])
    lines += ["# By MPI's names."] + dict_lines("OPERATIONS", [(row.mpi, f'"{row.word}"') for row in operations if row.mpi])
    lines += ["# Those that are for each type."]
    on = {row.word: [] for row in types}
    for operation, kind in combinations(table):
        on[kind.word].append(f'"{operation.word}"')
    lines += dict_lines("OPERATIONS_ON", [(word, f"[{', '.join(found)}]") for word, found in on.items()])
    lines += ["# The bytes of an element, and the least and the greatest whole number."]
    lines += dict_lines("WIDTHS", [(row.word, row.width) for row in types])
    lines += dict_lines("INTEGERS", [(row.word, limits(row)) for row in types if row.element in WHOLE])
    return [*lines, *BLOCKS_GIVEN.splitlines()]
