#!/usr/bin/env python3
"""Writes from calls.txt and mpi.h what Fortran programs need (MPI 4.1, 19.1):

    make_fortran.py calls.txt mpi.h FOLDER

    FOLDER/fortran.c       mpi_send_ and so on, which call MPI_Send
    FOLDER/fortran.ld      words for the linker: pmpi_send_ by its second name
    FOLDER/mpif.h          the constants
    FOLDER/mpi.f90         module mpi
    FOLDER/mpi_f08.f90     module mpi_f08

A call in Fortran has a line of its own in SPECIAL where its arguments aren't those of C. Those that src/fortran_calls.c has are OWN.
"""

import pathlib
import re
import sys

import make_calls

HANDLES = {"MPI_Comm": "COMM", "MPI_Group": "GROUP", "MPI_Op": "OP", "MPI_Request": "REQUEST", "MPI_Info": "INFO", "MPI_Errhandler": "ERRHANDLER", "MPI_Message": "TAKEN",
           "MPI_Win": "WINDOW", "MPI_File": "FILE_", "MPI_Session": "SESSION"}
KINDS = {"MPI_Aint": 8, "MPI_Offset": 8, "MPI_Count": 8, "MPI_Fint": 4, "int": 4, "COUNT": 4, "COUNTS": 4, "PLACES": 4}
LOGICAL = {"flag", "commute", "reorder", "high", "periods", "remain", "weighted"}
WEIGHTS = {"sourceweights", "destweights", "weights"}
ADDRESSES = {"baseptr"}
# What is written by hand: src/fortran_calls.c has the calls; here are the parameters that a module declares.
OWN = {
    "Init": "", "Info_create_env": "MPI_Info info", "Info_get_string": "MPI_Info info; character key; integer buflen; character value; logical flag",
    "Grequest_start": "external query; external free_; external cancel; integer8 extra; MPI_Request request", "Init_thread": "integer required; integer provided", "Pcontrol": "integer level",
    "Buffer_detach": "choice buffer; integer size",
    "Comm_create_keyval": "external copy; external delete_; integer keyval; integer8 extra", "Win_create_keyval": "external copy; external delete_; integer keyval; integer8 extra",
    "Type_create_keyval": "external copy; external delete_; integer keyval; integer8 extra",
    "Type_set_attr": "MPI_Datatype datatype; integer keyval; integer8 value", "Type_get_attr": "MPI_Datatype datatype; integer keyval; integer8 value; logical flag",
    "Keyval_create": "external copy; external delete_; integer keyval; integer extra",
    "Comm_set_attr": "MPI_Comm comm; integer keyval; integer8 value", "Comm_get_attr": "MPI_Comm comm; integer keyval; integer8 value; logical flag",
    "Win_set_attr": "MPI_Win win; integer keyval; integer8 value", "Win_get_attr": "MPI_Win win; integer keyval; integer8 value; logical flag",
    "Attr_put": "MPI_Comm comm; integer keyval; integer value", "Attr_get": "MPI_Comm comm; integer keyval; integer value; logical flag",
    "Errhandler_create": "external function; MPI_Errhandler errhandler", "Comm_create_errhandler": "external function; MPI_Errhandler errhandler", "Win_create_errhandler": "external function; MPI_Errhandler errhandler",
    "File_create_errhandler": "external function; MPI_Errhandler errhandler", "Session_create_errhandler": "external function; MPI_Errhandler errhandler",
    "Comm_spawn": "character command; choice argv; integer maxprocs; MPI_Info info; integer root; MPI_Comm comm; MPI_Comm intercomm; choice array_of_errcodes",
    "Comm_spawn_multiple": "integer count; choice array_of_commands; choice array_of_argv; choice array_of_maxprocs; choice array_of_info; integer root; MPI_Comm comm; MPI_Comm intercomm; "
                           "choice array_of_errcodes",
}
# Calls of MPI 1 whose addresses are default integers in Fortran.
OLD = {"Address", "Type_extent", "Type_lb", "Type_ub", "Type_hvector", "Type_hindexed", "Type_struct"}
SKIPPED = {"Register_datarep", "Op_create_c", "Get_count_c", "Win_shared_query_c"}
FUNCTIONS = {"Wtime": "double precision", "Wtick": "double precision", "Aint_add": "integer(8)", "Aint_diff": "integer(8)"}


class Parameter:
    """One of a call in C."""

    def __init__(self, text):
        self.text, self.name = text, make_calls.name_of(text)
        self.base = re.match(r"(?:const )?(\w+)", text)[1]
        self.constant = text.startswith("const ")
        self.array = "[" in text
        self.pointer = "*" in text or self.array


def calls_of(path):
    """Name and parameters of each call that Fortran has."""
    calls = make_calls.read(path)
    for call in calls:
        forms = call.forms() if call.section == "collectives" else [(call.name, "", (), "", "")]
        for name, _, extra, *_ in forms:
            if name in OWN:
                yield call, name, []
            elif name not in SKIPPED and not re.search(r"^T_|_(f2c|c2f|f2f08|c2f08|f082c|f082f)$", name):  # the tool information interface is C's alone
                yield call, name, [Parameter(it) for it in [*call.parameters, *extra]]


# ---- the functions in C


def converted_old(name, parameter, first):
    """The same of an address that is a default integer."""
    if parameter.array:
        return f"int *{name}", [f"MPI_Aint *c_{name} = in_addresses({name}, *{first});"], f"c_{name}", [f"free(c_{name});"]
    if parameter.pointer:
        return f"int *{name}", [f"MPI_Aint c_{name} = 0;"], f"&c_{name}", [f"*{name} = (int)c_{name};"]
    return f"int *{name}", [], f"*{name}", []


def converted(call, parameter, first):
    """How a parameter is declared, what is done before the call, what the call gets, and what is done after it; FIRST: the first parameter's name, which counts an array."""
    name, base = parameter.name, parameter.base
    if call in OLD and base == "MPI_Aint":
        return converted_old(name, parameter, first)
    if "function" in parameter.text and parameter.pointer and base.endswith("function"):
        return f"void (*{name})(void)", [], f"({base} *){name}", []
    if base == "char" and parameter.constant:
        return f"const char *{name}", [f"char *c_{name} = in_string({name}, {name}_length);"], f"c_{name}", [f"free(c_{name});"]
    if base == "char":
        return f"char *{name}", [f"char c_{name}[MPI_MAX_ERROR_STRING + 1] = UNWRITTEN;"], f"c_{name}", [f"out_string({name}, {name}_length, c_{name});"]
    if base == "MPI_Status":
        return f"int *{name}", [], f"in_status({name})", []
    if base == "MPI_Datatype":
        return f"int *{name}", [], name if parameter.pointer else f"*{name}", []
    if base in HANDLES and parameter.array:
        before = [f"{base} *c_{name} = in_requests({name}, *{first});"]
        return f"int *{name}", before, f"c_{name}", [f"out_requests({name}, c_{name}, *{first});"]
    if base in HANDLES and parameter.pointer:
        before = [f"{base} c_{name} = ({base})from_fortran({HANDLES[base]}, *{name});"]
        return f"int *{name}", before, f"&c_{name}", [f"*{name} = to_fortran(c_{name});"]
    if base in HANDLES:
        return f"int *{name}", [], f"({base})from_fortran({HANDLES[base]}, *{name})", []
    if base == "void":
        return f"void *{name}", [], name if name in ADDRESSES else f"in_buffer({name})", []
    kind = base if base.startswith("MPI_") else "int"
    if name in WEIGHTS:
        return f"int *{name}", [], f"in_weights({name})", []
    if name in ("index", "indices") and not parameter.constant:
        if parameter.array and name == "index":
            return f"int *{name}", [], name, []
        after = [f"if (*{name} >= 0) ++*{name};"] if name == "index" else [f"for (int i = 0; i < *outcount; i++) {name}[i]++;"]
        return f"int *{name}", [], name, after
    if "[3]" in parameter.text:
        return f"int *{name}", [], f"(int(*)[3]){name}", []
    return f"{kind} *{name}", [], name if parameter.pointer else f"*{name}", []


def wrapper(name, parameters, result):
    first = parameters[0].name if parameters else ""
    parts = [(it, *converted(name, it, first)) for it in parameters]
    declared = [it[1] for it in parts]
    strings = [f"size_t {it[0].name}_length" for it in parts if it[0].base == "char"]
    arguments = ", ".join(it[3] for it in parts)
    if result != "int":
        yield f"{result} mpi_{name.lower()}_({', '.join(declared) or 'void'}) {{\n    return MPI_{name}({arguments});\n}}\n"
        return
    yield f"void mpi_{name.lower()}_({', '.join([*declared, 'int *ierror', *strings])}) {{\n    note_fortran_line(__builtin_return_address(0));\n"
    for part in parts:
        yield from (f"    {line}\n" for line in part[2])
    yield f"    int code = MPI_{name}({arguments});\n"
    for part in parts:
        yield from (f"    {line}\n" for line in part[4])
    yield "    if (ierror != NULL) *ierror = code;\n}\n"


# ---- constants, as mpi.h has them


def constants(header):
    """Name, kind of handle or None, and value of each."""
    text = re.sub(r"/\*.*?\*/", "", header, flags=re.S)
    known = {}
    for name, value in re.findall(r"(?m)^#define (MPI_\w+) (.+)$", text):
        handle = re.fullmatch(r"WZ_HANDLE_\((\w+), \d+, (\d+)\)", value)
        number = re.fullmatch(r"\(?(-?(?:0x[0-9a-f]+|\d+))\)?", value.strip())
        if handle:
            known[name] = (handle[1], int(handle[2]))
        elif number:
            known[name] = ("MPI_Datatype" if number[1].startswith("0x3c") else None, int(number[1], 0))
        elif value in known:
            known[name] = known[value]
    for body in re.findall(r"enum \{(.*?)\}", text, flags=re.S):
        at = 0
        for word in filter(None, (it.strip() for it in body.split(","))):
            name, _, said = word.partition("=")
            at = int(said) if said else at
            known[name.strip()] = (None, at)
            at += 1
    known["MPI_STATUS_SIZE"] = (None, 6)
    for name, at in [("MPI_SOURCE", 1), ("MPI_TAG", 2), ("MPI_ERROR", 3)]:
        known[name] = (None, at)
    for name in ("ADDRESS", "OFFSET", "COUNT"):
        known[f"MPI_{name}_KIND"] = (None, 8)
    known["MPI_INTEGER_KIND"] = (None, 4)
    return {name: it for name, it in known.items() if not name.endswith("_") and not name.startswith("MPI_T_")}


# Words at addresses that the library knows (MPI 4.1, 2.5.4): common blocks, one in each rank's program.
PLACES = [("MPI_BOTTOM", "bottom", ""), ("MPI_IN_PLACE", "in_place", ""), ("MPI_STATUS_IGNORE", "status_ignore", "(6)"), ("MPI_STATUSES_IGNORE", "statuses_ignore", "(6,1)"),
          ("MPI_ERRCODES_IGNORE", "errcodes_ignore", "(1)"), ("MPI_UNWEIGHTED", "unweighted", "(1)"), ("MPI_WEIGHTS_EMPTY", "weights_empty", "(1)")]
EXTERNALS = ["MPI_COMM_NULL_COPY_FN", "MPI_COMM_NULL_DELETE_FN", "MPI_COMM_DUP_FN", "MPI_WIN_NULL_COPY_FN", "MPI_WIN_NULL_DELETE_FN", "MPI_WIN_DUP_FN", "MPI_TYPE_NULL_COPY_FN", "MPI_TYPE_NULL_DELETE_FN",
             "MPI_TYPE_DUP_FN", "MPI_NULL_COPY_FN",
             "MPI_NULL_DELETE_FN", "MPI_DUP_FN", "MPI_CONVERSION_FN_NULL"]
LOGICALS = ["MPI_SUBARRAYS_SUPPORTED", "MPI_ASYNC_PROTECTS_NONBLOCKING"]


def mpif(known):
    """Lines that both forms of sources read."""
    lines = ["! Written by make_fortran.py: the constants of MPI 4.1 for Fortran."]
    for name, (_, value) in known.items():
        lines += [f"      INTEGER {name}", f"      PARAMETER ({name}={value})"]
    lines.append("      INTEGER(8) MPI_DISPLACEMENT_CURRENT")
    lines.append("      PARAMETER (MPI_DISPLACEMENT_CURRENT=-54278278_8)")
    for name in LOGICALS:
        lines += [f"      LOGICAL {name}", f"      PARAMETER ({name}=.FALSE.)"]
    for name, block, shape in PLACES:
        lines += [f"      INTEGER {name}{shape}", f"      COMMON /mpi_wz_{block}/ {name}"]
    lines += ["      CHARACTER*1 MPI_ARGV_NULL(1)", "      COMMON /mpi_wz_argv_null/ MPI_ARGV_NULL", "      CHARACTER*1 MPI_ARGVS_NULL(1,1)", "      COMMON /mpi_wz_argvs_null/ MPI_ARGVS_NULL"]
    return lines


def mpif_functions():
    lines = [f"      EXTERNAL {it}" for it in EXTERNALS]
    for name, result in ((it, of) for it, of in FUNCTIONS.items() if of == "double precision"):  # programs declare the others, as with MPICH
        lines += [f"      {result.upper()} MPI_{name.upper()}", f"      EXTERNAL MPI_{name.upper()}", f"      {result.upper()} PMPI_{name.upper()}", f"      EXTERNAL PMPI_{name.upper()}"]
    return lines


# ---- interfaces


def declared(call, parameter, f08):
    """How a module declares a parameter of a call."""
    name, base = parameter.name, "int" if call in OLD and parameter.base == "MPI_Aint" else parameter.base
    name_in = name.rstrip("_")
    if parameter.pointer and base.endswith("function"):
        return [f"external :: {name_in}"]
    if base == "char":
        return [f"character(len=*) :: {name_in}"]
    if base == "MPI_Status":
        many = parameter.array
        return [f"type(MPI_Status) :: {name_in}{'(*)' if many else ''}"] if f08 else [f"integer :: {name_in}({'6,*' if many else '6'})"]
    shape = "(3,*)" if "[3]" in parameter.text else "(*)" if parameter.array else ""
    if base in HANDLES or base == "MPI_Datatype":
        return [f"type({base}) :: {name_in}{shape}" if f08 else f"integer :: {name_in}{shape}"]
    if base == "void":
        return [f"!GCC$ ATTRIBUTES NO_ARG_CHECK :: {name_in}", f"type(*), dimension(*) :: {name_in}"]
    if name in LOGICAL:
        return [f"logical :: {name_in}{shape}"]
    return [f"integer({KINDS[base]}) :: {name_in}{shape}"]


def is_list(parameter):
    """Counts, displacements and types of each rank, in whose place programs write 0 where they don't matter."""
    return parameter.array and parameter.base in ("COUNTS", "PLACES", "MPI_Datatype", "MPI_Aint")


def unchecked(parameter):
    return [f"!GCC$ ATTRIBUTES NO_ARG_CHECK :: {parameter.name}", f"type(*), dimension(*) :: {parameter.name}"]


def own_declared(text, f08):
    """Names and declarations of a call that OWN has."""
    for word in filter(None, text.split("; ")):
        kind, name = word.split()
        name = name.rstrip("_")
        lines = {"integer": [f"integer :: {name}"], "integer8": [f"integer(8) :: {name}"], "logical": [f"logical :: {name}"], "external": [f"external :: {name}"], "character": [f"character(len=*) :: {name}"],
                 "choice": [f"!GCC$ ATTRIBUTES NO_ARG_CHECK :: {name}", f"type(*), dimension(*) :: {name}"]}
        yield name, lines.get(kind) or [f"type({kind}) :: {name}" if f08 else f"integer :: {name}"]


def broken(line):
    """A statement in lines of at most 120 characters."""
    lines = []
    while len(line) > 120:
        at = line.rindex(", ", 0, 118) + 1
        lines.append(line[:at] + " &")
        line = "      " + line[at:].lstrip()
    return [*lines, line]


def interface(name, parameters, result, f08, prefix="MPI_"):
    if name in OWN:
        parts = list(own_declared(OWN[name], f08))
    else:
        moves = any(it.base == "void" and it.pointer for it in parameters)
        parts = [(it.name.rstrip("_"), unchecked(it) if moves and not f08 and is_list(it) else declared(name, it, f08)) for it in parameters]
    names = [it[0] for it in parts]
    lines = [line for it in parts for line in it[1]]
    if result != "int":
        yield from [f"  function {prefix}{name}({', '.join(names)})", *(f"    {it}" for it in lines), f"    {FUNCTIONS[name]} :: {prefix}{name}", "  end function"]
        return
    if name != "Pcontrol":
        names.append("ierror")
        lines.append("integer, optional :: ierror" if f08 else "integer :: ierror")
    yield from broken(f"  subroutine {prefix}{name}({', '.join(names)})")
    if f08:
        yield "    import"
    yield from (f"    {it}" for it in lines)
    yield "  end subroutine"


SIZES = [("character", "character(*)"), ("logical", "logical"), *((f"integer{it}", f"integer({it})") for it in (1, 2, 4, 8)), ("real4", "real(4)"), ("real8", "real(8)"),
         ("complex4", "complex(4)"), ("complex8", "complex(8)")]


def sizeof_procedures(f08):
    kind = "integer, optional, intent(out)" if f08 else "integer, intent(out)"
    for name, of in SIZES:
        yield from [f"  subroutine wz_sizeof_{name}(x, size, ierror)", f"    {of}, dimension(..) :: x", "    integer, intent(out) :: size", f"    {kind} :: ierror",
                    "    size = storage_size(x) / 8", "    if (present(ierror)) ierror = 0" if f08 else "    ierror = 0", f"  end subroutine wz_sizeof_{name}"]


def module_mpi(calls):
    lines = ["! Written by make_fortran.py: module mpi.", "module mpi", "  implicit none", "  include 'mpif_constants.h'", *(f"  external :: {it}" for it in EXTERNALS),
             "  interface MPI_Sizeof", *(f"    module procedure wz_sizeof_{it}" for it, _ in SIZES), "  end interface", *(f"  private :: wz_sizeof_{it}" for it, _ in SIZES), "  interface"]
    for call, name, parameters in calls:
        for prefix in ("MPI_", "PMPI_"):
            lines += interface(name, parameters, call.result.strip(), False, prefix)
    return [*lines, "  end interface", "contains", *sizeof_procedures(False), "end module mpi"]


TYPES = [*HANDLES, "MPI_Datatype"]
# The program's functions, as mpi_f08 declares them: name, and parameters with their types.
FUNCTION_TYPES = {
    "MPI_User_function": [("invec", "type(c_ptr), value"), ("inoutvec", "type(c_ptr), value"), ("len", "integer"), ("datatype", "type(MPI_Datatype)")],
    **{f"MPI_{it}_errhandler_function": [("handle", f"type(MPI_{it})"), ("error_code", "integer")] for it in ("Comm", "Win", "File", "Session")},
    **{f"MPI_{it}_copy_attr_function": [("old", f"type(MPI_{of})"), ("keyval", "integer"), ("extra_state", "integer(8)"), ("attribute_val_in", "integer(8)"),
                                        ("attribute_val_out", "integer(8)"), ("flag", "logical"), ("ierror", "integer")]
       for it, of in (("Comm", "Comm"), ("Win", "Win"), ("Type", "Datatype"))},
    **{f"MPI_{it}_delete_attr_function": [("handle", f"type(MPI_{of})"), ("keyval", "integer"), ("attribute_val", "integer(8)"), ("extra_state", "integer(8)"), ("ierror", "integer")]
       for it, of in (("Comm", "Comm"), ("Win", "Win"), ("Type", "Datatype"))},
    "MPI_Grequest_query_function": [("extra_state", "integer(8)"), ("status", "type(MPI_Status)"), ("ierror", "integer")],
    "MPI_Grequest_free_function": [("extra_state", "integer(8)"), ("ierror", "integer")],
    "MPI_Grequest_cancel_function": [("extra_state", "integer(8)"), ("complete", "logical"), ("ierror", "integer")],
}


def function_types():
    yield "  abstract interface"
    for name, parameters in FUNCTION_TYPES.items():
        yield from broken(f"  subroutine {name}({', '.join(it for it, _ in parameters)})")
        yield "    import"
        yield from (f"    {of} :: {it}" for it, of in parameters)
        yield "  end subroutine"
    yield "  end interface"


def module_f08(calls, known):
    lines = ["! Written by make_fortran.py: module mpi_f08.", "module mpi_f08", "  use, intrinsic :: iso_c_binding, only: c_ptr", "  implicit none", "  private :: c_ptr"]
    for name in TYPES:
        lines += [f"  type, bind(C) :: {name}", "    integer :: MPI_VAL", "  end type"]
    lines += ["  type, bind(C) :: MPI_Status", "    integer :: MPI_SOURCE, MPI_TAG, MPI_ERROR, cancelled_", "    integer :: bytes_(2)", "  end type"]
    for name, (kind, value) in known.items():
        if name in ("MPI_SOURCE", "MPI_TAG", "MPI_ERROR"):
            continue
        lines.append(f"  type({kind}), parameter :: {name} = {kind}({value})" if kind else f"  integer, parameter :: {name} = {value}")
    lines.append("  integer(8), parameter :: MPI_DISPLACEMENT_CURRENT = -54278278_8")
    lines += [f"  logical, parameter :: {it} = .false." for it in LOGICALS]
    for name, block, shape in PLACES:
        of = "type(MPI_Status)" if name.startswith("MPI_STATUS") else "integer"
        lines.append(f"  {of}, bind(C, name='mpi_wz_{block}_') :: {name}{'(1)' if name == 'MPI_STATUSES_IGNORE' else '' if of != 'integer' else shape}")
    lines += [f"  character(len=1), bind(C, name='mpi_wz_{block}_') :: {name}(1{more})" for name, block, more in (("MPI_ARGV_NULL", "argv_null", ""), ("MPI_ARGVS_NULL", "argvs_null", ", 1"))]
    lines += [f"  external :: {it}" for it in EXTERNALS]
    lines += ["  interface MPI_Sizeof", *(f"    module procedure wz_sizeof_{it}" for it, _ in SIZES), "  end interface"]
    for sign, word in (("==", "same"), ("/=", "other")):
        lines += [f"  interface operator({sign})", *(f"    module procedure wz_{word}_{it}" for it in TYPES), "  end interface"]
    lines += ["  interface MPI_Status_f2f08", "    module procedure wz_status_f2f08", "  end interface", "  interface MPI_Status_f082f", "    module procedure wz_status_f082f", "  end interface"]
    lines += [*function_types(), "  interface"]
    for call, name, parameters in calls:
        for prefix in ("MPI_", "PMPI_"):
            lines += interface(name, parameters, call.result.strip(), True, prefix)
    lines += ["  end interface", "contains", *sizeof_procedures(True)]
    for sign, word in (("==", "same"), ("/=", "other")):
        for name in TYPES:
            lines += [f"  elemental logical function wz_{word}_{name}(one, two)", f"    type({name}), intent(in) :: one, two", f"    wz_{word}_{name} = one%MPI_VAL {sign} two%MPI_VAL",
                      f"  end function wz_{word}_{name}"]
    lines += ["  subroutine wz_status_f2f08(f, f08, ierror)", "    integer, intent(in) :: f(6)", "    type(MPI_Status), intent(out) :: f08", "    integer, optional, intent(out) :: ierror",
              "    f08 = transfer(f, f08)", "    if (present(ierror)) ierror = 0", "  end subroutine wz_status_f2f08",
              "  subroutine wz_status_f082f(f08, f, ierror)", "    type(MPI_Status), intent(in) :: f08", "    integer, intent(out) :: f(6)", "    integer, optional, intent(out) :: ierror",
              "    f = transfer(f08, f)", "    if (present(ierror)) ierror = 0", "  end subroutine wz_status_f082f", "end module mpi_f08"]
    return lines


def main():
    source, header, folder = map(pathlib.Path, sys.argv[1:4])
    calls, known = list(calls_of(source)), constants(header.read_text())
    known.pop("MPI_DISPLACEMENT_CURRENT", None)
    body = ["/* Written by make_fortran.py from calls.txt. */\n", '#include "fortran.h"\n\n']
    for call, name, parameters in calls:
        if name not in OWN:
            body += wrapper(name, parameters, call.result.strip())
    (folder / "fortran.c").write_text("".join(body))
    (folder / "fortran.ld").write_text("".join(f"--defsym=pmpi_{name.lower()}_=mpi_{name.lower()}_\n" for _, name, _ in calls))
    (folder / "mpif_constants.h").write_text("\n".join(mpif(known)) + "\n")
    (folder / "mpif.h").write_text("\n".join([*mpif(known), *mpif_functions()]) + "\n")
    (folder / "mpi.f90").write_text("\n".join(module_mpi(calls)) + "\n")
    (folder / "mpi_f08.f90").write_text("\n".join(module_f08(calls, known)) + "\n")


if __name__ == "__main__":
    main()
