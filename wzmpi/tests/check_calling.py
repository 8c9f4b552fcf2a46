"""Whether wzrun is called as mpirun is, and wzcc as mpicc: for check.py."""

import os
import pathlib
import shutil
import subprocess

from checking import HERE, compiled, reported, run

# A program that says what it was given, and one that has MPI refuse a call.
GIVEN = r"""#include <mpi.h>
#include <stdio.h>
#include <stdlib.h>
int main(int argc, char **argv) {
    int rank, size;
    MPI_Init(&argc, &argv);
    MPI_Comm_rank(MPI_COMM_WORLD, &rank);
    MPI_Comm_size(MPI_COMM_WORLD, &size);
    if (argc > 2) MPI_Barrier(MPI_COMM_NULL);
    if (rank == 0) printf("%d ranks, %s, WORD=%s\n", size, argc > 1 ? argv[1] : "no word", getenv("WORD") ? getenv("WORD") : "");
    MPI_Finalize();
    return 0;
}
"""
# A profiler's source: it defines calls itself.
PROFILER = r"""#include <mpi.h>
#include <stdio.h>
static int barriers;
int MPI_Barrier(MPI_Comm comm) { barriers++; return PMPI_Barrier(comm); }
int
MPI_Finalize(void) {
    printf("%d barriers\n", barriers);
    return PMPI_Finalize();
}
"""
PROFILED = r"""#include <mpi.h>
int main(int argc, char **argv) {
    MPI_Init(&argc, &argv);
    MPI_Barrier(MPI_COMM_WORLD);
    MPI_Finalize();
    return 0;
}
"""
# How many threads there are once ranks have begun a collective, and a sum of long rows.
THREADS = r"""#include <dirent.h>
#include <mpi.h>
#include <stdint.h>
#include <stdio.h>
static int64_t row[8192], sums[8192];
int main(int argc, char **argv) {
    int rank, size;
    MPI_Request request;
    MPI_Init(&argc, &argv);
    MPI_Comm_rank(MPI_COMM_WORLD, &rank);
    MPI_Comm_size(MPI_COMM_WORLD, &size);
    for (int turn = 0; turn < 20; turn++) {
        for (int i = 0; i < 8192; i++) row[i] = rank + turn + i;
        MPI_Iallreduce(row, sums, 8192, MPI_INT64_T, MPI_SUM, MPI_COMM_WORLD, &request);
        MPI_Wait(&request, MPI_STATUS_IGNORE);
        for (int i = 0; i < 8192; i++)
            if (sums[i] != size * (size - 1) / 2 + (int64_t)size * (turn + i)) MPI_Abort(MPI_COMM_WORLD, 9);
    }
    if (rank == 0) {
        int threads = 0;
        DIR *folder = opendir("/proc/self/task");
        while (readdir(folder) != NULL) threads++;
        closedir(folder);
        printf("%d\n", threads);
    }
    MPI_Barrier(MPI_COMM_WORLD);
    MPI_Finalize();
    return 0;
}
"""
PROJECT = """cmake_minimum_required(VERSION 3.10)
project(hello CXX C)
find_package(MPI REQUIRED)
add_executable(hello hello.cpp)
target_link_libraries(hello MPI::MPI_CXX)
add_executable(average average.c)
target_link_libraries(average MPI::MPI_C)
"""


# A program that says whether its environment has settings of the allocator, and whether the process began with all four of --large-pages.
ALLOCATOR = r"""#include <mpi.h>
#include <stdbool.h>
#include <stdio.h>
#include <stdlib.h>
#include <string.h>
int main(int argc, char **argv) {
    static char began[1 << 20];
    int rank;
    FILE *from = fopen("/proc/self/environ", "r");
    size_t many = fread(began, 1, sizeof began - 1, from);
    for (size_t i = 0; i < many; i++)
        if (began[i] == '\0') began[i] = '\n'; /* glibc ends each setting so, too */
    fclose(from);
    MPI_Init(&argc, &argv);
    MPI_Comm_rank(MPI_COMM_WORLD, &rank);
    bool all = strstr(began, "GLIBC_TUNABLES=") && strstr(began, "mmap_threshold=") && strstr(began, "trim_threshold=") && strstr(began, "top_pad=") && strstr(began, "hugetlb=1");
    if (rank == 0) printf("%s, %s\n", all ? "large pages" : "as it is", getenv("GLIBC_TUNABLES") != NULL ? getenv("GLIBC_TUNABLES") : "none");
    MPI_Finalize();
    return 0;
}
"""

RUNS = 3  # the system may take pages from a run at any time
# A program that says how many pages of its process an allreduce of 512 KiB takes fresh from the system, after 40 whose rows it keeps.
FAULTS = r"""#include <mpi.h>
#include <stdio.h>
#include <stdlib.h>
#include <sys/resource.h>
enum { MANY = 65536, TIMES = 20 };
static long given[MANY], taken[MANY];
static long faults(void) {
    struct rusage usage;
    MPI_Barrier(MPI_COMM_WORLD);
    getrusage(RUSAGE_SELF, &usage);
    return usage.ru_minflt;
}
int main(int argc, char **argv) {
    int rank;
    MPI_Init(&argc, &argv);
    MPI_Comm_rank(MPI_COMM_WORLD, &rank);
    for (int i = 0; i < 40; i++) MPI_Allreduce(given, malloc(sizeof given), MANY, MPI_LONG, MPI_SUM, MPI_COMM_WORLD);
    for (int i = 0; i < TIMES; i++) MPI_Allreduce(given, taken, MANY, MPI_LONG, MPI_SUM, MPI_COMM_WORLD);
    long before = faults();
    for (int i = 0; i < TIMES; i++) MPI_Allreduce(given, taken, MANY, MPI_LONG, MPI_SUM, MPI_COMM_WORLD);
    long after = faults();
    if (rank == 0) printf("%ld\n", (after - before) / TIMES);
    MPI_Finalize();
    return 0;
}
"""


def written(path, text):
    path.write_text(text)
    return path


def check_words(binaries, program):
    """Words of wzrun, variables, and what comes of them."""
    wzrun, alone = str(binaries / "wzrun"), "wzrun: -n: a number from 1 on stands after it (wzrun --help says more)\n"
    wanted = [
        (["-n4", program], {}, 0, "4 ranks, no word, WORD=\n"), (["-np2", program], {}, 0, "2 ranks, no word, WORD=\n"),
        (["-n", "2", "--", program, "--", "-n"], {}, 2, None), (["-n", "2", "--", program, "--x"], {}, 0, "2 ranks, --x, WORD=\n"),
        (["-x", "WORD=a b", "-n", "1", program], {}, 0, "1 ranks, no word, WORD=a b\n"), (["-x", "WORD", "-n", "1", program], {"WORD": "c"}, 0, "1 ranks, no word, WORD=c\n"),
        (["--seed=7", "--oversubscribe", program], {"WZ_RANKS": "3"}, 0, "3 ranks, no word, WORD=\n"), (["-n", "0", program], {}, 1, alone),
        ([program], {"WZ_RANKS": "0"}, 1, alone.replace("-n:", "WZ_RANKS:")), ([program], {"WZ_RANKS": "many"}, 1, alone.replace("-n:", "WZ_RANKS:")),
        (["--seeds", "3..1", program], {}, 1, "wzrun: --seeds: A..B stands after it, and A is at most B (wzrun --help says more)\n"),
        (["-n", "2", "--seeds", "1..2", "-q", program], {}, 0, "2 ranks, no word, WORD=\n" * 2 + "wzrun: all runs with the seeds 1 to 2 ended well\n"),
        (["--wrong", program], {}, 1, "wzrun: --wrong: wzrun has no such option, or its value is missing (wzrun --help says more)\n"),
        (["--status-of-faults", "99", "-n", "1", program, "1", "2"], {}, 99, None), ([program, "1", "2"], {"WZ_STATUS_OF_FAULTS": "98"}, 98, None),
        (["--version"], {}, 0, "wzrun (Worzsunab) 0.1.0, MPI 4.1 with ranks as threads of one process\n"),
        (["./given"], {"OMPI_COMM_WORLD_SIZE": "3"}, 1, "wzrun: mpirun can't run ./given, which wzcc linked: wzrun -n 3 ./given\n"),
        (["./given"], {"PMI_SIZE": "2"}, 1, "wzrun: mpirun can't run ./given, which wzcc linked: wzrun -n 2 ./given\n"),
        (["-n", "1", program], {"PMI_SIZE": "2"}, 0, "1 ranks, no word, WORD=\n"),
    ]
    failed = 0
    for words, variables, status, text in wanted:
        got, said = run([wzrun, *words], env={**os.environ, **variables})
        failed += reported(got == status and (text is None or said == text), f"wzrun {words}, {variables}: status {got}:\n{said}and not {status}:\n{text}")
    return failed + check_progress(binaries, pathlib.Path(program).parent)


def check_large_pages(binaries, folder):
    """Who has the settings: the process alone, and only where the user has none and each rank has a processor."""
    program = str(compiled(binaries, written(folder / "allocator.c", ALLOCATOR), folder / "allocator"))
    note, own = "wzrun: note: --large-pages: the allocator stays as it is, because ", "glibc.malloc.top_pad=65536"
    wanted = [
        (["-n", "1"], {}, "as it is, none\n"), (["-n", "1", "--large-pages"], {}, "large pages, none\n"), (["-n", "1"], {"WZ_LARGE_PAGES": "1"}, "large pages, none\n"),
        (["-n", "1"], {"WZ_LARGE_PAGES": "0"}, "as it is, none\n"), (["-n", "1", "--large-pages"], {"GLIBC_TUNABLES": own}, f"{note}GLIBC_TUNABLES is set\nas it is, {own}\n"),
        (["-n", "1", "-q", "--large-pages"], {"GLIBC_TUNABLES": own}, f"as it is, {own}\n"), (["-n", "1", "--large-pages", "--seeds", "1..1"], {}, None),
    ]
    many = len(os.sched_getaffinity(0))
    if many < 64:
        wanted.append((["-n", "64", "--large-pages"], {}, f"{note}there are 64 ranks on {many} processors, and each rank takes up to 64 MiB\nas it is, none\n"))
    environment, failed = {name: it for name, it in os.environ.items() if name != "GLIBC_TUNABLES"}, 0
    for words, variables, text in wanted:
        status, said = run([str(binaries / "wzrun"), *words, program], env={**environment, **variables})
        right = said == text if text is not None else said.startswith("large pages, none\n")
        failed += reported(status == 0 and right, f"wzrun {words}, {variables}: status {status}: {said}")
    return failed


def check_kept_blocks(binaries, folder):
    """Long blocks stay with the process, unless the user has set the allocator otherwise."""
    program = str(compiled(binaries, written(folder / "faults.c", FAULTS), folder / "faults"))
    environment = {name: it for name, it in os.environ.items() if name != "GLIBC_TUNABLES" and not name.startswith("MALLOC_")}
    many = {}
    for name, variables in (("own", {}), ("the user's", {"MALLOC_MMAP_THRESHOLD_": "131072"})):
        runs = [run([str(binaries / "wzrun"), "-q", "-n", "2", program], env={**environment, **variables}) for _ in range(RUNS)]
        many[name] = [int(said) if status == 0 and said.strip().isdigit() else -1 for status, said in runs]
    right = all(it >= 0 for its in many.values() for it in its) and min(many["own"]) < 60 and max(many["the user's"]) > 100
    return reported(right, f"fresh pages of an allreduce of 512 KiB: {many}")


def check_progress(binaries, folder):
    """--progress N adds N threads, which change no value."""
    wzrun, failed, threads = str(binaries / "wzrun"), 0, {}
    program = str(compiled(binaries, written(folder / "threads.c", THREADS), folder / "threads"))
    for many in range(9):
        status, said = run([wzrun, "-n", "3", "--progress", str(many), program])
        threads[many] = int(said) if status == 0 and said.strip().isdigit() else None
    failed += reported(all(threads[many] == threads[0] + many for many in threads), f"wzrun --progress N: threads by N: {threads}")
    status, said = run([wzrun, "-n", "3", program], env={**os.environ, "WZ_PROGRESS": "2"})
    failed += reported(said == f"{threads[2]}\n", f"WZ_PROGRESS=2: status {status}: {said}")
    for words, variables, word in ((["--progress", "9"], {}, "--progress"), (["--progress=-1"], {}, "--progress"), ([], {"WZ_PROGRESS": "some"}, "WZ_PROGRESS")):
        status, said = run([wzrun, *words, program], env={**os.environ, **variables})
        wanted = f"wzrun: {word}: 0 to 8 progress threads stand after it (wzrun --help says more)\n"
        failed += reported(status == 1 and said == wanted, f"wzrun {words}, {variables}: status {status}: {said}")
    return failed


def check_colours(binaries, program):
    """As colljob has them: none in a pipe, unless they are asked for."""
    failed = 0
    for words, head in ((["--color", "always"], "\033[1;31mwzrun\033[0m: rank 0: MPI_Barrier"), ([], "wzrun: rank 0: MPI_Barrier"), (["--color=never"], "wzrun: rank 0: MPI_Barrier")):
        status, said = run([str(binaries / "wzrun"), "-n", "1", *words, program, "1", "2"])
        failed += reported(status == 2 and said.startswith(head), f"wzrun {words}: status {status}: {said!r}")
    return failed


def check_help(binaries):
    """Each tool says first what it is for, in the field's words."""
    failed = 0
    for tool in ("wzcc", "wzc++", "wzrun", *(["wzfort"] if (binaries / "wzfort").exists() else [])):
        status, said = run([str(binaries / tool), "--help"])
        first = said.split("\n")[0]
        failed += reported(status == 0 and first.startswith(f"{tool}: ") and "deadlocks" in first and "MPI program" in first, f"{tool} --help: status {status}: {said}")
    return failed + reported("wzfort" in run([str(binaries / "wzrun"), "--help"])[1], "wzrun --help doesn't name wzfort")


def check_compilers(binaries, out):
    wzcc = str(binaries / "wzcc")
    failed = 0
    for standard in ("c89", "c99", "c11", "gnu17"):
        status, said = run([wzcc, f"-std={standard}", "-pedantic-errors", "-Wall", "-Wextra", "-Werror", str(out / "given.c"), "-o", str(out / "of_standard")])
        failed += reported(status == 0 and said == "", f"wzcc -std={standard}: {said}")
    for words in (["-static"], ["-static-libstdc++"]):
        status, said = run([wzcc, *words, str(out / "given.c")])
        failed += reported(status == 1 and words[0] in said, f"wzcc {words}: status {status}: {said}")
    written(out / "profiler.c", PROFILER)
    written(out / "profiled.c", PROFILED)
    run([wzcc, "-c", str(out / "profiler.c"), "-o", str(out / "profiler.o")])
    run([wzcc, str(out / "profiled.c"), str(out / "profiler.o"), "-o", str(out / "profiled")])
    status, said = run([str(binaries / "wzrun"), "-n", "2", str(out / "profiled")])
    failed += reported((status, said) == (0, "1 barriers\n" * 2), f"a profiler: status {status}: {said}")
    shown = run([wzcc, "-show"])[1].split()
    asked = run([wzcc, "-compile_info"])[1].split(), run([wzcc, "-link_info"])[1].split()
    right = "-lworzsunab-mpi" in shown and any(it.startswith("-I") for it in shown) and asked[0] + asked[1][1:] == shown
    return failed + reported(right, f"wzcc -show: {shown}, -compile_info, -link_info: {asked}")


def check_cmake(binaries, out):
    """find_package(MPI) takes wzcc, as the compiler and as MPI's."""
    if shutil.which("cmake") is None:
        print("check.py: there is no cmake, so find_package(MPI) isn't checked")
        return 0
    folder, failed = out / "project", 0
    folder.mkdir()
    written(folder / "CMakeLists.txt", PROJECT)
    for name in ("hello.cpp", "average.c"):
        shutil.copy(HERE.parent / "examples" / name, folder)
    tools = {"C": str(binaries / "wzcc"), "CXX": str(binaries / "wzc++")}
    ways = {"mpi": ([f"-DMPI_{it}_COMPILER={tools[it]}" for it in tools], {}), "compiler": ([], {"CC": tools["C"], "CXX": tools["CXX"]})}
    for way, (words, variables) in ways.items():
        environment = {**os.environ, **variables}
        _, said = run(["cmake", "-S", str(folder), "-B", str(folder / way), *words], env=environment)
        _, built = run(["cmake", "--build", str(folder / way)], env=environment)
        ran = run([str(binaries / "wzrun"), "-n", "3", str(folder / way / "hello")]), run([str(binaries / "wzrun"), "-n", "4", str(folder / way / "average")])
        right = ran == ((0, "the ranks' numbers are 0 1 2\n"), (0, "average 2.50, the farthest reading lies 1.50 from it\n"))
        failed += reported(right, f"find_package(MPI), {way}: {ran}\n{said}{built}")
    return failed


def check_spaces(binaries, out):
    """Installed in a folder with spaces it works there."""
    prefix = out / "a b"
    make = ["make", "-s", "-C", str(HERE.parent), f"OUT={binaries.parent}", f"PREFIX={prefix}"]
    subprocess.run([*make, "install"], check=True)
    program = compiled(prefix / "bin", out / "given.c", out / "of_spaces")
    failed = reported(run([str(prefix / "bin" / "wzrun"), "-n", "2", str(program)]) == (0, "2 ranks, no word, WORD=\n"), "a program of a PREFIX with spaces")
    subprocess.run([*make, "uninstall"], check=True)
    left = [it for it in prefix.rglob("*") if not it.is_dir()]
    return failed + reported(not left, f"make uninstall leaves {left}")


def check(binaries, out):
    folder = out / "calling.d"
    folder.mkdir()
    program = str(compiled(binaries, written(folder / "given.c", GIVEN), folder / "given"))
    failed = check_words(binaries, program) + check_large_pages(binaries, folder) + check_kept_blocks(binaries, folder) + check_colours(binaries, program) + check_help(binaries)
    failed += check_compilers(binaries, folder) + check_cmake(binaries, folder) + check_spaces(binaries, folder)
    print("check.py: the tools are called as mpirun and mpicc are" if failed == 0 else f"check.py: {failed} ways to call the tools failed")
    return failed
