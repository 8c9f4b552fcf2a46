"""Rows for C sources that aren't of the library: recorder, runner, measurements and tests. They stand over MPI's header or none."""
from .table import EXAMPLE_OPERATION, EXAMPLE_ROOT, EXAMPLE_TYPE, bytes_of, example_of_kind, example_of_operation, has, named

# How many elements a member gives or gets, by the names that EACH_KIND's comment has.
ELEMENTS = {"none": "0", "own": "count", "all": "members * count", "root": "is_root ? count : 0", "root all": "is_root ? members * count : 0",
            "later": "is_first ? 0 : count", "counted": "count", "all counted": "total"}

KIND_COLUMNS = """X(constant, word, MPI's call without MPI_, and after MPI_I, whether it has a root, whether it has an operation, its buffers in MPI's
   call, ROOT or NO_ROOT, the elements that a member gives, and gets). Whoever reads the rows defines NO_BUFFER, BUFFER, MOVED, COMBINED,
   COUNTED, ROOT, NO_ROOT, count, members, is_root, is_first, which is member 0, and total, the sum of all members' counts."""


def each(name, about, rows, more=""):
    return ["", f"/* {about} */", f"#define {name}(X{more}) \\",
            *(f"    {row}{'' if place + 1 == len(rows) else ' ' + chr(92)}" for place, row in enumerate(rows))]


def buffers_of(kind):
    if kind.gives == "none":
        return "NO_BUFFER"
    return "BUFFER" if kind.gives == "root" else "COUNTED" if has(kind, "counts") else "COMBINED" if has(kind, "operation") else "MOVED"


def kind_row(kind):
    root, operation = (str(has(kind, word)).lower() for word in ("root", "operation"))
    return (f'X({kind.c}, "{kind.word}", {kind.mpi}, {kind.mpi.lower()}, {root}, {operation}, {buffers_of(kind)}, '
            f'{"ROOT" if has(kind, "root") else "NO_ROOT"}, {ELEMENTS[kind.gives]}, {ELEMENTS[kind.gets]})')


def file_lines(table):
    kinds, operations, types = table["kind"], table["operation"], table["type"]
    lines = ["/* Kinds, operations and types in job texts; `tools/words` makes this file. */"]
    lines += each("EACH_KIND", KIND_COLUMNS, list(map(kind_row, kinds)))
    lines += each("EACH_MPI_OPERATION", "X(word, MPI's name), of those that MPI has", [f'X("{row.word}", {row.mpi})' for row in operations if row.mpi])
    lines += each("EACH_OWN_OPERATION", "X(word, EACH_ of its elements, the statement that makes `a` the result of a and b), of the others",
                  [f"X({row.word}, {types_of(row)}, {row.statement})" for row in operations if not row.mpi])
    lines += each("EACH_OPERATION", "X(word, constant, EACH_ of its elements, the statement that makes `a` the result of a and b)",
                  [f"X({row.word}, {row.c}, {types_of(row)}, {row.statement})" for row in operations])
    lines += each("EACH_TYPE", "X(word, MPI's name, bytes of an element, whether it has a sign)", [
        f'X("{row.word}", {row.mpi}, {row.width}, {str(row.element in ("signed", "pair")).lower()})' for row in types])
    classes = list(dict.fromkeys(row.element for row in types))
    for element in classes:
        lines += each(f"EACH_{element.upper()}", f"X(word, constant, MPI's name, the type in C, what else is given), of elements: {element}",
                      [f"X({row.word}, {row.c}, {row.mpi}, {row.ctype}, __VA_ARGS__)" for row in types if row.element == element], ", ...")
    for name, elements in sorted({types_of(row): row.elements.split() for row in operations}.items()):
        if len(elements) > 1:
            lines += each(name, "The same of several.", [f"EACH_{element.upper()}(X, __VA_ARGS__)" for element in classes if element in elements], ", ...")
    return [*lines, "", "/* An element of 2int. */", "#define PAIR struct pair { int32_t value, index; }"]


def types_of(operation):
    return f"EACH_{'_OR_'.join(word.upper() for word in operation.elements.split())}"


# ---- examples and calls, for tests in C

def bytes_in_c(kind, words):
    return "{ " + ", ".join(map(str, bytes_of(kind, words) or [0])) + " }"


def kind_example(table, kind):
    element = named(table["type"], EXAMPLE_TYPE)
    given, got = example_of_kind(kind)
    operation = f"WZ_{named(table['operation'], EXAMPLE_OPERATION).c}" if has(kind, "operation") else "WZ_NO_OPERATION"
    root, count = EXAMPLE_ROOT if has(kind, "root") else 0, int(kind.gives not in ("none", "counted"))
    sides = []
    for side in (given, got):
        sides.append(f"{{ {', '.join(str(len(words)) for words in side)} }}")
        sides.append(f"{{ {', '.join(bytes_in_c(element, words) for words in side)} }}")
    return f"    {{ {{ WZ_{kind.c}, {operation}, WZ_{element.c}, {root}, {count} }}, {', '.join(sides)} }},"


def operation_example(table, operation):
    word, given, got = example_of_operation(operation)
    element = named(table["type"], word)
    return f"    {{ WZ_{operation.c}, WZ_{element.c}, {len(given)}, {bytes_in_c(element, given)}, {bytes_in_c(element, [got])} }},"


def examples(table):
    lines = ["/* What three members give and get: how many bytes, and which. */", "static const struct kind_example {", "    wz_call call;",
             "    uint32_t gives[3];", "    uint8_t given[3][8];", "    uint32_t gets[3];", "    uint8_t got[3][8];", "} kind_examples[] = {"]
    lines += [kind_example(table, kind) for kind in table["kind"]]
    lines += ["};", "", "/* What members give, an element each, and what an allreduce gives to all. */", "static const struct operation_example {",
              "    uint8_t op, type, members;", "    uint8_t given[32], got[8];", "} operation_examples[] = {"]
    return [*lines, *(operation_example(table, operation) for operation in table["operation"]), "};"]


def call_of(kind, name):
    """The call of a kind in MPI's order, of the members of an example."""
    words = {"NO_BUFFER": [], "BUFFER": ["receive", "call->count", "call->type"],
             "MOVED": ["send", "receive", "call->count", "call->type"],
             "COMBINED": ["send", "receive", "call->count", "call->type", "call->op"],
             "COUNTED": ["send", "receive", "it->gives", "call->type"]}
    root = ["call->root"] if has(kind, "root") else []
    return f"{name}({', '.join(['shared', 'rank', '0', *words[buffers_of(kind)], *root, 'request'])})"


def calls(table):
    """A function that makes the call of an example, nonblocking or persistent."""
    lines = ["static int32_t call_in_order(wz_shared *shared, uint8_t rank, const struct kind_example *it, bool persistent, void *send, void *receive,",
             "                             wz_request *request) {", "    const wz_call *call = &it->call;", "    switch (call->kind) {"]
    for kind in table["kind"]:
        lines += [f"    case WZ_{kind.c}:", f"        return persistent ? {call_of(kind, f'wz_{kind.mpi.lower()}_init')}",
                  f"                          : {call_of(kind, f'wz_i{kind.mpi.lower()}')};"]
    return [*lines, "    default: return WZ_BAD_NUMBER;", "    }", "}"]
