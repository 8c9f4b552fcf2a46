#!/usr/bin/env python3
"""Writes from calls.txt what each call of mpi.h needs:

    make_calls.py calls.txt FOLDER

    FOLDER/mpi_calls.h    the calls, also under their PMPI names
    FOLDER/mpi_lines.h    a macro for each call, which notes where it stands in the program
    FOLDER/counted.h      the functions counted_Name that calls with COUNT are carried out by
    FOLDER/forms.c        the collectives in all their forms, and the calls with COUNT
    FOLDER/names.c        the names of the collectives' forms
    FOLDER/bodies.h       the sources here define body_MPI_Name where they say MPI_Name
    FOLDER/entered.c      each MPI_Name, which enters its rank (threads.c), calls its body and leaves
    FOLDER/pmpi.ld        words for the linker: MPI_Name by its second name PMPI_Name
"""

import pathlib
import re
import sys

# Which field of struct arguments (collectives.h) a collective's parameter fills.
FIELDS = {
    "sendbuf": "give", "recvbuf": "get", "sendcount": "give_count", "recvcount": "get_count", "count": "give_count",
    "sendcounts": "give_counts", "recvcounts": "get_counts", "sdispls": "give_places", "rdispls": "get_places",
    "sendtype": "give_type", "recvtype": "get_type", "datatype": "give_type", "sendtypes": "give_types", "recvtypes": "get_types",
    "op": "operation", "root": "root",
}
SPECIAL = {
    ("Bcast", "buffer"): ".give = buffer, .get = buffer",
    ("Scatterv", "displs"): ".give_places = {PLACES}",
    ("Reduce_scatter_block", "recvcount"): ".give_count = recvcount",
    ("Reduce_scatter", "recvcounts"): ".give_counts = {COUNTS}",
}


class Call:
    """A line of calls.txt."""

    def __init__(self, line, section):
        match = re.fullmatch(r"(.*?)(\w+)\((.*)\)", line)
        self.result, self.name, self.section = match[1], match[2], section
        self.parameters = [] if match[3] == "void" else re.split(r", ", match[3])
        self.counted = any(word in match[3] for word in ("COUNT", "PLACES"))

    def declared(self, wide, extra=()):
        count, place = ("MPI_Count", "const MPI_Aint") if wide else ("int", "const int")
        parameters = [re.sub(r"\bCOUNTS\b", f"const {count}", it) for it in [*self.parameters, *extra]]
        parameters = [re.sub(r"\bPLACES\b", place, re.sub(r"\bCOUNT\b", count, it)) for it in parameters]
        return ", ".join(parameters) or "void"

    def forms(self):
        """The names of a collective with what each adds to the parameters."""
        lower = self.name[0].lower() + self.name[1:]
        return [
            (self.name, "", (), "BLOCKING", "NULL"),
            (f"I{lower}", "", ("MPI_Request *request",), "NONBLOCKING", "request"),
            (f"{self.name}_init", "", ("MPI_Info info", "MPI_Request *request"), "PERSISTENT", "request"),
        ]


def read(path):
    calls, section = [], None
    for line in path.read_text().splitlines():
        if line.startswith("["):
            section = line.strip("[]")
        elif line and not line.startswith("#"):
            calls.append(Call(line, section))
    return calls


def name_of(parameter):
    return re.search(r"(\w+)(\[\])*(\[3\])?$", parameter)[1]


def all_declarations(calls):
    """Result, name and parameters of each function."""
    for call in calls:
        for wide in (False, True) if call.counted else (False,):
            end = "_c" if wide else ""
            forms = call.forms() if call.section == "collectives" else [(call.name, "", (), "", "")]
            for name, _, extra, *_ in forms:
                yield call.result, name + end, call.declared(wide, extra), call.section


def field(call, parameter, wide):
    """How struct arguments gets a parameter."""
    name = name_of(parameter)
    array = f"{{ {name}, {'true' if wide else 'false'} }}"
    at_wide = wide or "MPI_Aint" in parameter
    places = f"{{ {name}, {'true' if at_wide else 'false'} }}"
    if (call.name, name) in SPECIAL:
        return SPECIAL[call.name, name].replace("{PLACES}", places).replace("{COUNTS}", array)
    if name == "displs":
        return f".get_places = {places}"
    value = places if name in ("sdispls", "rdispls") else array if "COUNTS" in parameter else name
    return f".{FIELDS[name]} = {value}"


def collective(call):
    upper = call.name.upper()
    for wide in (False, True) if call.counted else (False,):
        for name, _, extra, form, request in call.forms():
            fields = [f".function = {upper}", f".form = {form}"]
            fields += [field(call, it, wide) for it in call.parameters if name_of(it) != "comm"]
            unused = "    (void)info;\n" if form == "PERSISTENT" else ""
            yield (f"int MPI_{name}{'_c' if wide else ''}({call.declared(wide, extra)}) {{\n{unused}"
                   f"    return carry_out(comm, &(struct arguments){{ {', '.join(fields)} }}, {request});\n}}\n")


def counted(call):
    words = ", ".join(name_of(it) for it in call.parameters)
    for wide in (False, True):
        yield f"int MPI_{call.name}{'_c' if wide else ''}({call.declared(wide)}) {{\n    return counted_{call.name}({words});\n}}\n"


def entered(result, name, words, section):
    """A call that the program makes: but for the quick ones it is of one thread of its rank at a time, or as the thread level says."""
    if section == "quick":
        return ""
    given = ", ".join(name_of(it) for it in re.split(r", ", words)) if words != "void" else ""
    return (f"{result}body_MPI_{name}({words});\n{result}MPI_{name}({words}) {{\n    enter_call(\"MPI_{name}\", __builtin_return_address(0));\n"
            f"    {result}code = body_MPI_{name}({given});\n    leave_call();\n    return code;\n}}\n")


def names(calls):
    lines = ["/* Written by make_calls.py: the names of the collectives. */", '#include "collectives.h"', "",
             "const char *const collective_names[COLLECTIVES][FORMS] = {"]
    for call in calls:
        forms = ", ".join(f'"MPI_{it[0]}"' for it in call.forms())
        lines.append(f"    [{call.name.upper()}] = {{ {forms} }},")
    for upper, blocking, nonblocking in [("COMM_DUP", "MPI_Comm_dup", "MPI_Comm_idup"), ("COMM_SPLIT", "MPI_Comm_split", ""), ("COMM_CREATE", "MPI_Comm_create", ""),
                                         ("EXCHANGE", "a call that makes a communicator", "")]:
        lines.append(f'    [{upper}] = {{ "{blocking}", "{nonblocking}", "" }},')
    return "\n".join([*lines, "};", ""])


def main():
    source, folder = pathlib.Path(sys.argv[1]), pathlib.Path(sys.argv[2])
    calls = read(source)
    collectives = [it for it in calls if it.section == "collectives"]
    plain = [it for it in calls if it.counted and it.section == "calls"]
    head = "/* Written by make_calls.py from calls.txt. */\n"
    declared = list(all_declarations(calls))
    lines = [head] + [f"{result}{prefix}MPI_{name}({words});\n" for result, name, words, _ in declared for prefix in ("", "P")]
    (folder / "mpi_calls.h").write_text("".join(lines))
    pragma = "#ifdef __GNUC__\n#pragma GCC system_header /* macros with any number of arguments, also under -std=c89 -pedantic */\n#endif\n"
    lines = [head, pragma, "#define WZ_WORD2_(line) #line\n#define WZ_WORD_(line) WZ_WORD2_(line)\n", '#define WZ_HERE_ __FILE__ ":" WZ_WORD_(__LINE__)\n']
    lines += [f"#define MPI_{name}(...) (wz_note_line_(WZ_HERE_), MPI_{name}(__VA_ARGS__))\n" for _, name, _, section in declared if section != "quick"]
    (folder / "mpi_lines.h").write_text("".join(lines))
    (folder / "counted.h").write_text(head + "#include <mpi.h>\n" + "".join(f"int counted_{it.name}({it.declared(True)});\n" for it in plain))
    lines = [head, '#include "collectives.h"\n#include "counted.h"\n\n']
    lines += ["".join(collective(it)) for it in collectives] + ["".join(counted(it)) for it in plain]
    (folder / "forms.c").write_text("".join(lines))
    (folder / "names.c").write_text(names(collectives))
    (folder / "bodies.h").write_text(head + "".join(f"#define MPI_{name} body_MPI_{name}\n" for _, name, _, section in declared if section != "quick"))
    (folder / "entered.c").write_text(head + '#include "threads.h"\n\n' + "".join(entered(*it) for it in declared))
    (folder / "pmpi.ld").write_text("".join(f"--defsym=PMPI_{name}=MPI_{name}\n" for _, name, _, _ in declared))


if __name__ == "__main__":
    main()
