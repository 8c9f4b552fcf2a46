"""What the C library's headers and sources have of the table."""
from .table import aligned, filled, has, noted

# What a member gives and gets, in the header's words.
IN_WORDS = {"none": "0", "own": "a block", "all": "n blocks", "root": "root a block, others 0", "root all": "root n blocks, others 0",
            "later": "a block, member 0 gets 0", "counted": "counts[r] elements", "all counted": "what all give, in order"}
# How many blocks that is; counts say it of the others.
BLOCKS = {"none": "0", "own": "1", "all": "members", "root": "is_root ? 1 : 0", "root all": "is_root ? members : 0", "later": "member > 0 ? 1 : 0"}


def enum_lines(rows, last, first=0, none=None):
    """An enum of the C header: its constants with a comment each, and how many numbers name one."""
    constants = [*([none] if none else []), *((f"WZ_{row.c}", note) for row, note in rows), (last, "the first number that names none")]
    cells = [(f"    {name} = {number}" + ("" if name == last else ","), f"/* {note} */") for number, (name, note) in enumerate(constants, first)]
    return ["enum {", *aligned(cells), "};"]


def header_kinds(table):
    kinds = table["kind"]
    columns = [(f"MPI_I{kind.mpi.lower()}", f"gives {IN_WORDS[kind.gives]}", f"gets {IN_WORDS[kind.gets]}") for kind in kinds]
    return enum_lines(list(zip(kinds, aligned(columns))), "WZ_KINDS")


def header_operations(table):
    rows = [(row, noted(row.mpi, row.result)) for row in table["operation"]]
    return enum_lines(rows, "WZ_OPERATIONS", none=("WZ_NO_OPERATION", "of the kinds that have none"))


def header_types(table):
    return enum_lines([(row, f"{row.mpi}, {row.width}" + (f"; {row.note}" if row.note else "")) for row in table["type"]], "WZ_TYPES")


def words(table):
    lines = []
    for name, argument, limit, row_words in (
        ("wz_kind_word", "kind", "WZ_KINDS", [row.word for row in table["kind"]]),
        ("wz_operation_word", "op", "WZ_OPERATIONS", ["no operation", *(row.word for row in table["operation"])]),
        ("wz_type_word", "type", "WZ_TYPES", [row.word for row in table["type"]]),
    ):
        lines += ["", f"const char *{name}(uint8_t {argument}) {{"]
        lines += filled("    static const char *const words[] = { ", [f'"{word}"' for word in row_words], " };")
        lines += [f"    return {argument} < {limit} ? words[{argument}] : \"?\";", "}"]
    for word in ("operation", "root"):
        lines += ["", f"bool wz_has_{word}(uint8_t kind) {{", f"    static const bool has_{word}[WZ_KINDS] = {{"]
        lines += filled("        ", [f"[WZ_{kind.c}] = true" for kind in table["kind"] if has(kind, word)], "")
        lines += ["    };", f"    return kind < WZ_KINDS && has_{word}[kind];", "}"]
    return lines[1:]


def blocks(table):
    """The two functions that say how many blocks a member gives and gets."""
    lines = []
    for name, column in (("wz_blocks_given", "gives"), ("wz_blocks_got", "gets")):
        cases = {}
        for kind in table["kind"]:
            cases.setdefault(BLOCKS.get(getattr(kind, column), "0"), []).append(f"    case WZ_{kind.c}:")
        lines += ["", f"size_t {name}(uint8_t kind, uint32_t member, uint32_t root, size_t members) {{"]
        lines += ["    bool is_root = member == root;", "    switch (kind) {"]
        for value, labels in cases.items():
            lines += [*labels[:-1], f"{labels[-1]} return {value};"]
        lines += ["    default: return 0;", "    }", "}"]
    return lines[1:]


def widths(table):
    return ["    static const uint8_t bytes[] = { " + ", ".join(row.width for row in table["type"]) + " };"]


# ---- MPI's calls

def buffers_of(kind):
    """The parameters between communicator and root, and what is given and where the outcome goes."""
    if kind.gives == "none":
        return [], "NULL, NULL"
    if kind.gives == "root":
        return ["void *buffer", "uint32_t count", "uint8_t type"], "buffer, buffer"
    count = "const uint32_t *counts" if has(kind, "counts") else "uint32_t count"
    operation = ["uint8_t op"] if has(kind, "operation") else []
    return ["const void *send", "void *receive", count, "uint8_t type", *operation], "send, receive"


def call_head(kind, is_persistent, tail, width):
    name = f"wz_{kind.mpi.lower()}_init" if is_persistent else f"wz_i{kind.mpi.lower()}"
    root = ["uint8_t root"] if has(kind, "root") else []
    parameters = ["wz_shared *shared", "uint8_t rank", "uint32_t comm", *buffers_of(kind)[0], *root, "wz_request *request"]
    return filled(f"int32_t {name}(", parameters, tail, width)


def call_body(kind, is_persistent):
    buffers = buffers_of(kind)[1]
    operation, root = "op" if has(kind, "operation") else "WZ_NO_OPERATION", "root" if has(kind, "root") else "0"
    kind_type, count = ("WZ_BYTE", "0") if kind.gives == "none" else ("type", "count")
    call = f"WZ_{kind.c}, {operation}, {kind_type}, {root}, {count}"
    made = f"make_counted(caller, type, counts, (struct memory){{ {buffers} }})" if has(kind, "counts") else \
        f"make(caller, (wz_call){{ {call} }}, (struct memory){{ {buffers} }})"
    return [f"    struct caller caller = {{ shared, rank, comm, {str(is_persistent).lower()}, request }};", f"    return {made};", "}"]


def declared(is_persistent):
    return lambda table: [line for kind in table["kind"] for line in call_head(kind, is_persistent, ");", 120)]


def defined(is_persistent):
    return lambda table: [line for kind in table["kind"]
                          for line in ("", *call_head(kind, is_persistent, ") {", 120), *call_body(kind, is_persistent))][1:]
