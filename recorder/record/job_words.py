"""Kinds, operations and types in job texts; `tools/words` makes this file."""

# By MPI's call, without MPI_ and the I of nonblocking ones.
KINDS = {"Barrier": "barrier", "Bcast": "bcast", "Gather": "gather", "Scatter": "scatter", "Allgather": "allgather", "Alltoall": "alltoall",
         "Reduce": "reduce", "Allreduce": "allreduce", "Reduce_scatter_block": "rsblock", "Scan": "scan", "Exscan": "exscan",
         "Allgatherv": "allgatherv"}
# What a member gives, in blocks: none, its own, all members' blocks, or as many elements as its count says; `root`: the root alone.
GIVEN = {"barrier": "none", "bcast": "root", "gather": "own", "scatter": "root all", "allgather": "own", "alltoall": "all", "reduce": "own",
         "allreduce": "own", "rsblock": "all", "scan": "own", "exscan": "own", "allgatherv": "counted"}
# Whom a member's value needs: all, the root, `root all`: the root needs all and others nobody else, or lower members, with it or without.
NEEDS = {"Barrier": "all", "Bcast": "root", "Gather": "root all", "Scatter": "root", "Allgather": "all", "Alltoall": "all", "Reduce": "root all",
         "Allreduce": "all", "Reduce_scatter_block": "all", "Scan": "lower own", "Exscan": "lower", "Allgatherv": "all"}
ROOTED = ["bcast", "gather", "scatter", "reduce"]
COMBINING = ["reduce", "allreduce", "rsblock", "scan", "exscan"]
# By MPI's names.
OPERATIONS = {"MPI_MAX": "max", "MPI_MIN": "min", "MPI_SUM": "sum", "MPI_PROD": "prod", "MPI_LAND": "land", "MPI_LOR": "lor", "MPI_LXOR": "lxor",
              "MPI_BAND": "band", "MPI_BOR": "bor", "MPI_BXOR": "bxor", "MPI_MAXLOC": "maxloc", "MPI_MINLOC": "minloc"}
# Those that are for each type.
OPERATIONS_ON = {"i8": ["max", "min", "sum", "prod", "land", "lor", "lxor", "band", "bor", "bxor", "lastnz"],
                 "i16": ["max", "min", "sum", "prod", "land", "lor", "lxor", "band", "bor", "bxor", "lastnz"],
                 "i32": ["max", "min", "sum", "prod", "land", "lor", "lxor", "band", "bor", "bxor", "lastnz"],
                 "i64": ["max", "min", "sum", "prod", "land", "lor", "lxor", "band", "bor", "bxor", "lastnz"],
                 "u8": ["max", "min", "sum", "prod", "land", "lor", "lxor", "band", "bor", "bxor", "lastnz"],
                 "u16": ["max", "min", "sum", "prod", "land", "lor", "lxor", "band", "bor", "bxor", "lastnz"],
                 "u32": ["max", "min", "sum", "prod", "land", "lor", "lxor", "band", "bor", "bxor", "lastnz"],
                 "u64": ["max", "min", "sum", "prod", "land", "lor", "lxor", "band", "bor", "bxor", "lastnz"], "byte": ["band", "bor", "bxor"],
                 "2int": ["maxloc", "minloc"]}
# The bytes of an element, and the least and the greatest whole number.
WIDTHS = {"i8": 1, "i16": 2, "i32": 4, "i64": 8, "u8": 1, "u16": 2, "u32": 4, "u64": 8, "byte": 1, "2int": 8}
INTEGERS = {"i8": (-(1 << 7), (1 << 7) - 1), "i16": (-(1 << 15), (1 << 15) - 1), "i32": (-(1 << 31), (1 << 31) - 1),
            "i64": (-(1 << 63), (1 << 63) - 1), "u8": (0, (1 << 8) - 1), "u16": (0, (1 << 16) - 1), "u32": (0, (1 << 32) - 1),
            "u64": (0, (1 << 64) - 1)}


def blocks_given(kind, is_root, members):
    """How many blocks a member gives; one, of its own count, where members have counts."""
    rule = GIVEN[kind].split()
    if rule == ["none"] or "root" in rule and not is_root:
        return 0
    return members if "all" in rule else 1
