"""The programs of Debian's sources that tests/programs.py builds and runs: what they are built by, their ranks and words."""

import collections

# A program: its name, with how many ranks it runs, its words, the file that it leaves, relative to where it runs, and what it reads from its standard input.
Program = collections.namedtuple("Program", "name ranks words file reads", defaults=("", None, ""))
# Programs of one source package: FOLDER, with wildcards; commands that build all of them, with CC and FC in the environment; what in their output is a time.
Set = collections.namedtuple("Set", "folder build programs times", defaults=(r"$^",))
PERMISSIVE = "-O1 -w -fallow-argument-mismatch"


def each_compiled(compiler, ending, programs, more=""):
    return [f"{compiler} -O1 -w {it.name}{ending} {more} -o {it.name}" for it in programs]


# ---- ROMIO: what its programs read of their words, and what configure would put in

def romio(names, words="-fname testfile"):
    return [Program(name, ranks, words) for name, ranks in names]


ROMIO = "mpich-*/src/mpi/romio/test"
ROMIO_C = romio([("atomicity", 4), ("coll_test", 4), ("excl", 4), ("i_noncontig", 2), ("noncontig", 2), ("noncontig_coll", 2), ("noncontig_coll2", 4), ("misc", 4), ("shared_fp", 4),
                 ("ordered_fp", 4), ("split_coll", 4), ("psimple", 4), ("simple", 4), ("async", 4), ("async-multiple", 4), ("status", 1), ("external32", 1)])
ROMIO_C += romio([("hindexed", 4), ("types_with_zeros", 2), ("darray_read", 4), ("aggregation2", 4)], "testfile")
ROMIO_FORTRAN = romio([("fcoll_test", 4), ("fmisc", 4), ("pfcoll_test", 4)])
ROMIO_HEAD = ["""for it in *.in; do sed -e 's/@F77MPIOINC@//' -e 's/@FORTRAN_MPI_OFFSET@/integer*8/' -e 's/@F77IARGC@/iargc()/' -e 's/@LL@/lld/' \\
    -e 's/@F77GETARG@/call getarg(i,str)/' -e 's/@[A-Z_0-9]*@//' $it > ${it%.in}; done"""]

# ---- SimGrid: its programs name some functions of its own, of which these stand in

SIMGRID_HEAD = ["mkdir -p head/simgrid head/smpi head/xbt && cat > head/stand_in.h <<'END'\n"
                "#include <assert.h>\n#include <stdlib.h>\n#include <string.h>\n#include <unistd.h>\n#include <getopt.h>\n"
                "#define xbt_malloc malloc\n#define xbt_free free\n#define xbt_new0(type, count) ((type*)calloc(count, sizeof(type)))\n#define xbt_assert(is, ...) assert(is)\n"
                "#define XBT_LOG_NEW_DEFAULT_CATEGORY(name, text) extern int stand_in_##name\n#define XBT_INFO(...) (printf(__VA_ARGS__), puts(\"\"))\n"
                "#define sleep(seconds) 0\n#define sg_actor_self_get_pid() 0\n#define TRACE_smpi_set_category(name) ((void)0)\n"
                "#define SMPI_SHARED_MALLOC malloc\n#define SMPI_SHARED_FREE free\n#define SMPI_SAMPLE_GLOBAL(first, is, next, ...) for (first; is; next)\nEND\n"
                "for it in simgrid/actor.h simgrid/instr.h; do echo '#include \"../stand_in.h\"' > head/$it; done; echo '#include <mpi.h>' > head/smpi/mpi.h"]


def simgrid(programs):
    """Commands that compile programs FOLDER/NAME, each of FOLDER/NAME.c alone."""
    return [f"$CC -O1 -w -Ihead -include head/stand_in.h {it.name}.c -o {it.name} -lm" for it in programs]


SIMGRID_FILES = [Program(f"io-{it}/io-{it}", 4) for it in ("all", "all-at", "ordered", "shared", "simple", "simple-at")]
SIMGRID_COLLECTIVES = [Program(f"coll-{it}/coll-{it}", 16) for it in ("allgather", "allgatherv", "allreduce", "alltoall", "alltoallv", "barrier", "bcast", "gather", "reduce", "reduce-scatter", "scatter")]
SIMGRID_TESTS = [Program(f"{name}/{name}", ranks) for name, ranks in (
    ("bug-17132", 16), ("privatization", 32), ("pt2pt-dsend", 2), ("pt2pt-pingpong", 4), ("topo-cart-sub", 4), ("type-hvector", 2), ("type-indexed", 2), ("type-struct", 2), ("type-vector", 2))]
# Not trace.c and gemm.c: the one receives 13 messages at a time into one buffer, the other gathers into memory that it sends, neither of which MPI allows.
SIMGRID_EXAMPLES = [Program("trace_simple/trace_simple", 3), Program("trace_call_location/trace_call_location", 3), Program("mc/only_send_deterministic", 3)]
NAS = [Program("ep", 4, "4 S"), Program("is", 4, "4 S"), Program("dt", 5, "5 S BH"), Program("dt", 5, "5 S WH"), Program("dt", 12, "12 S SH")]

# ---- pnetcdf and hypre

PNETCDF = "pnetcdf-*"
FLAGS = "-O0 -fPIC -w"
PNETCDF_HEAD = ["autoreconf -i > configure.log 2>&1", f"./configure --disable-cxx --disable-shared MPICC=$CC MPIF77=$FC MPIF90=$FC CFLAGS='{FLAGS}' FFLAGS='{FLAGS} -fallow-argument-mismatch' "
                f"FCFLAGS='{FLAGS} -fallow-argument-mismatch' >> configure.log 2>&1", "for it in include dispatchers drivers binding packaging libs; do make -C src/$it || exit 1; done > make.log 2>&1"]


def pnetcdf(folder, names):
    return [Program(f"examples/{folder}/{it}", 4, f"-q {it}.nc", f"{it}.nc") for it in names]


PNETCDF_C = pnetcdf("C", ["block_cyclic", "column_wise", "collective_write", "fill_mode", "flexible_api", "ghost_cell", "i_varn_int64", "mput", "nonblocking_write", "put_vara", "put_varn_int", "transpose"])
PNETCDF_F77 = pnetcdf("F77", ["block_cyclic", "bput_varn_int8", "column_wise", "fill_mode", "flexible_api", "i_varn_real", "nonblocking_write", "put_vara", "put_varn_int", "time_var", "transpose"])
PNETCDF_F90 = pnetcdf("F90", ["block_cyclic", "column_wise", "fill_mode", "flexible_api", "nonblocking_write", "put_var", "put_varn_int", "put_varn_real", "transpose"])
HYPRE = [Program(f"src/examples/{name}", ranks) for name, ranks in (("ex5f", 4), ("ex12f", 2))]

# ---- Tachyon and MrBayes

TACHYON = [Program("compile/linux-mpi/tachyon", ranks, f"../../../scenes/{scene}.dat -o image.tga", "image.tga")
           for scene, ranks in (("2balls", 4), ("dna", 4), ("transtest", 3), ("spotlight", 2))]
MRBAYES_WORDS = "set autoclose=yes nowarn=yes seed=7 swapseed=7\nexecute ../../examples/{0}.nex\nlset nst=6 rates=gamma\nmcmc ngen=1000 samplefreq=100 printfreq=100 nruns=2 nchains=4\nquit\n"
MRBAYES = [Program("src/mb", ranks, "", None, MRBAYES_WORDS.format(data)) for data, ranks in (("primates", 4), ("primates", 2), ("cynmix", 4))]

SETS = {
    # Its MPI_Win_create has NULL in place of MPI_INFO_NULL, which MPICH refuses, as wzrun does; it frees no window, of which --strict warns. Without -I, -a sends memory that it receives into; without -a, -2 leans on buffers.
    "netpipe": Set("NetPIPE-*/src", ["sed -i 's/1, NULL, MPI_COMM_WORLD/1, MPI_INFO_NULL, MPI_COMM_WORLD/' mpi2.c", "$CC -O1 -w -DMPI -DMPI2 netpipe.c mpi2.c -o NPmpi2", "$CC -O1 -w -DMPI netpipe.c mpi.c -o NPmpi"],
                   [Program("NPmpi2", 2, "-i -u 9000"), Program("NPmpi2", 2, "-g -u 9000"), Program("NPmpi", 2, "-i -u 9000"), Program("NPmpi", 2, "-a -I -u 9000"), Program("NPmpi", 2, "-S -u 9000"),
                    Program("NPmpi", 2, "-2 -a -I -u 9000")], r"\d+ times|[0-9.]+ Mbps in +[0-9.]+ usec|^\d: .*"),
    "romio": Set(ROMIO, ROMIO_HEAD + each_compiled("$CC", ".c", ROMIO_C), ROMIO_C),
    "romio-fortran": Set(ROMIO, ROMIO_HEAD + each_compiled("$FC", ".f", ROMIO_FORTRAN, "-fallow-argument-mismatch"), ROMIO_FORTRAN),
    "simgrid-files": Set("simgrid-*/teshsuite/smpi", ["sed -i 's,/scratch/,,' io-*/*.c"] + SIMGRID_HEAD + simgrid(SIMGRID_FILES), SIMGRID_FILES),
    "simgrid-collectives": Set("simgrid-*/teshsuite/smpi", SIMGRID_HEAD + simgrid(SIMGRID_COLLECTIVES), SIMGRID_COLLECTIVES),
    "simgrid-tests": Set("simgrid-*/teshsuite/smpi", SIMGRID_HEAD + simgrid(SIMGRID_TESTS), SIMGRID_TESTS, r"Walltime = .*"),
    "simgrid-fortran": Set("simgrid-*/teshsuite/smpi", ["$FC -O1 -w fort_args/fort_args.f90 -o fort_args/fort_args"], [Program("fort_args/fort_args", 2, "a 3 -q")]),
    "simgrid-examples": Set("simgrid-*/examples/smpi", SIMGRID_HEAD + simgrid(SIMGRID_EXAMPLES), SIMGRID_EXAMPLES),
    "nas": Set("simgrid-*/examples/smpi", SIMGRID_HEAD + [f"$CC -O1 -w -Ihead -include head/stand_in.h NAS/{it}.c NAS/nas_common.c {'NAS/DGraph.c' if it == 'dt' else ''} -o {it} -lm" for it in ("ep", "is", "dt")],
               NAS, r"(?i)(time|mop/s|mops|cpu).*"),
    "pnetcdf": Set(PNETCDF, PNETCDF_HEAD + [f"for it in {' '.join(it.name for it in PNETCDF_C)}; do $CC -O1 -w -Isrc/include $it.c -o $it -Lsrc/libs/.libs -Lsrc/libs -lpnetcdf -lm || exit 1; done"] + [
        f"cd examples/{folder} && $FC -O1 -w -c utils.F90 && for it in {' '.join(it.name.split('/')[-1] for it in programs)}; do "
        f"$FC {PERMISSIVE} -I../../src/binding/{folder.lower()} $it.{ending} utils.o -o $it -L../../src/libs/.libs -L../../src/libs -lpnetcdf -lm || exit 1; done"
        for folder, ending, programs in (("F77", "f", PNETCDF_F77), ("F90", "f90", PNETCDF_F90))], PNETCDF_C + PNETCDF_F77 + PNETCDF_F90),
    "hypre-fortran": Set("hypre-*", [f"cd src && ./configure CC=$CC FC=$FC F77=$FC CFLAGS='{FLAGS}' FFLAGS='{FLAGS}' --with-MPI > configure.log 2>&1 && make > make.log 2>&1",
                                     f"cd src/examples && for it in ex5f ex12f; do $FC {PERMISSIVE} -I../hypre/include $it.f -o $it -L../hypre/lib -lHYPRE -lm || exit 1; done"],
                         HYPRE, r"(?i)\b(time|wall|cpu)\b.*"),
    # Without USE_MPI_IN_PLACE it gives one buffer for both, which MPI doesn't allow.
    "tachyon": Set("tachyon-*", ["mkdir -p compile && make -C unix ARCH=linux-mpi CC=$CC CFLAGS='-O2 -w -DLinux -DMPI -DUSE_MPI_IN_PLACE' AR=ar ARFLAGS=r STRIP=true RANLIB=ranlib LIBS='-L. -ltachyon -lm' all > make.log 2>&1"],
                   TACHYON, r"(?i)[0-9.]+ seconds.*|\b(time|rays/sec).*"),
    "mrbayes": Set("MrBayes-*", ["./configure --with-mpi --without-beagle --without-readline CC=$CC MPICC=$CC CFLAGS='-O1 -w' > configure.log 2>&1 && make -C src > make.log 2>&1"],
                   MRBAYES, r"(?i)-- \d+:\d+:\d+|\b(seconds|hours|mins?|time).*"),
}
