#!/usr/bin/env python3
"""Runs MPICH's own tests over this library, unmodified, and prints a table:

    tests/mpich.py FOLDER [--bin BIN] [--parts PART ..] [--only NAME ..] [--options WORDS] [--jobs N] [--keep FOLDER] [--text]
                   [--under WORDS] [--longest SECONDS]

FOLDER is test/mpi of MPICH's sources (Debian has them: apt-get source mpich), or teshsuite/smpi/mpich3-test of SimGrid's. The tests and
their numbers of ranks are those of the lists of its folders PART, coll where none is named, and of the folders that a list names, but for
spawn's; of Fortran's io perl makes the sources there. A test passes if it ends with status 0 and says "No Errors" within SECONDS, 180 where
none are said, or within the list's own limit; where the list wants it to fail, if it ends with another status. Those that don't pass run
once more at the end, one at a time, for up to four times as long. BIN has wzcc and wzrun. --options are wzrun's, as "--strict --check";
what wzrun says of a test that passes is told. With --strict the tests are compiled with -DUSE_STRICT_MPI, by which they leave out what MPI
doesn't allow, as reductions over MPI_CHAR. --text compares what the requests got with what `colljob plain`, which COLLJOB or PATH names,
says of the calls. --under runs wzrun under these words, as "valgrind -q". --keep has the compiled programs stay in a folder; those that are
there are taken as they are. Ends with 0 where all pass.
"""

import argparse
import collections
import concurrent.futures
import functools
import os
import pathlib
import re
import shlex
import shutil
import subprocess
import sys
import tempfile
import time

HERE = pathlib.Path(__file__).resolve().parent
# What MPICH's configure finds on such a machine.
FOUND = ["MPI_WIN_CREATE", "STDARG_H", "STRING_H", "STDLIB_H", "UNISTD_H", "SYS_TIME_H", "SYS_RESOURCE_H", "GETRUSAGE", "LONG_DOUBLE", "LONG_LONG", "STDINT_H", "INTTYPES_H", "STDBOOL_H",
         "COMPLEX_H", "FLOAT__COMPLEX", "DOUBLE__COMPLEX", "LONG_DOUBLE__COMPLEX", "INT8_T", "INT16_T", "INT32_T", "INT64_T", "UINT8_T", "UINT16_T", "UINT32_T", "UINT64_T", "_BOOL"]
LONGEST = 180
# The languages of parts that aren't in C: how sources end, and how the compiler takes what MPICH's configure allows it to.
ENDINGS = {"f77": ".f", "f90": ".f90", "f08": ".f90"}
ALLOWED = ["-fallow-argument-mismatch", "-w"]


# A test of a list: its name, with the part, ranks, words, the list's own limit in seconds, and whether it is to end with another status than 0.
Row = collections.namedtuple("Row", "name ranks words limit fails")


def rows(folder, part):
    """The rows of a part's list, and of the folders that it names."""
    found = [it for it in (folder / part / "testlist.in", folder / part / "testlist") if it.exists()]
    if not found:
        sys.exit(f"mpich.py: {folder / part} has no testlist")
    for line in found[0].read_text().splitlines():
        words = line.split()
        if not words or words[0].startswith(("#", "!")):
            continue
        inner = re.sub(r"^@(\w+)dir@$", r"\1", words[0])
        if (folder / part / inner).is_dir():
            yield from rows(folder, f"{part}/{inner}") if inner != "spawn" else ()
            continue
        if words[0].startswith("@"):  # tests that MPICH runs on large machines alone
            continue
        name = f"{part}/{words[0]}"
        arguments = [it.split("=", 1)[1] for it in words[2:] if it.startswith("arg=")]
        limits = [int(it.split("=", 1)[1]) for it in words[2:] if it.startswith("timeLimit=")]
        fails = not {"resultTest=TestStatus", "resultTest=TestErrFatal"}.isdisjoint(words)
        yield Row(name, int(words[1]), arguments, max(limits, default=0), fails)


def generate(folder, part):
    """Has perl write a part's sources that the archive hasn't, as MPICH's make does."""
    place = folder / part
    if not part.endswith("/io") or not (place / "Makefile.am").exists() or list(place.glob("iwriteat*")):
        return
    if part.startswith("f90"):  # f77's harness in the other form
        subprocess.run(["make", "-s", "-f", "Makefile.ap", "srcdir=.", "./ioharness.defn", "./ioharness.tlt"], cwd=place, check=True)
    merge = "sed 1d ../../maint/testmerge.in | perl - -defn=../../maint/common.defn ioharness.defn ioharness.tlt"
    subprocess.run(["sh", "-c", merge], cwd=place, check=True, stdout=subprocess.DEVNULL)


@functools.lru_cache(None)
def rules(folder, part):
    """What the Makefile.am of a part says of its programs: their sources and words of the compiler."""
    path, found = folder / part / "Makefile.am", {}
    text = path.read_text().replace("\\\n", " ") if path.exists() else ""
    for name, what, words in re.findall(r"(?m)^(\w+)_(SOURCES|CPPFLAGS)[ \t]*=(.*)$", text):
        found.setdefault(name, {})[what] = words.split()
    return found


def sources_of(folder, name):
    """A test's sources, and words for the compiler; none where there is no source."""
    part, word = name.rsplit("/", 1)
    rule = rules(folder, part).get(re.sub(r"\W", "_", word), {})
    ending = ENDINGS.get(part.split("/")[0], ".c")
    sources = [folder / part / it for it in rule.get("SOURCES", [f"{word}{ending}"]) if it.endswith((".c", ".f", ".f90"))]
    defined = [it for it in rule.get("CPPFLAGS", []) if it.startswith("-D")]
    if sources and all(it.exists() for it in sources):
        return sources, defined
    nonblocking = folder / part / f"{word[2:]}.c"
    return ([nonblocking], ["-DUSE_MTEST_NBC"]) if word.startswith("nb") and nonblocking.exists() else ([], [])


class Programs:
    """The compiled tests."""

    def __init__(self, folder, wzcc, out, strict):
        self.folder, self.wzcc, self.out, self.made = folder, wzcc, out, {}
        self.strict = ["-DUSE_STRICT_MPI"] if strict else []
        self.wzfort = str(pathlib.Path(wzcc).with_name("wzfort"))
        threads = "#define THREAD_PACKAGE_NAME THREAD_PACKAGE_POSIX\n"
        (out / "include").mkdir(exist_ok=True)
        for path in (out / "mpitestconf.h", out / "include/mpitestconf.h"):  # tests in two languages name it by its folder
            path.write_text(threads + "#define F77_NAME_LOWER_USCORE 1\n" + "".join(f"#define HAVE_{it} 1\n" for it in FOUND))
        self.util = []

    def words(self, sources, defined):
        include = [self.out, self.folder / "include", self.folder / "util", self.folder / "dtpools/include", sources[0].parent]
        return [self.wzcc, "-O1", "-w", *defined, *self.strict, *(f"-I{it}" for it in include), *sources, *self.util]

    def prepare_fortran(self, part):
        """The headers that configure makes, and what the tests of a language share. The words for the compiler."""
        language, made = part.split("/")[0], self.out / part
        made.mkdir(parents=True, exist_ok=True)
        for path in [*(self.folder / part).glob("*.h.in"), *(self.folder / part).parent.glob("attr/*.h.in")]:
            text = re.sub(r"@F77_MPI_(ADDRESS|OFFSET)@", "INTEGER*8", path.read_text())
            (made / path.name[: -len(".in")]).write_text(text)
        util = self.out / f"mtest_{language}.o"
        if not util.exists():
            source = self.folder / f"util/mtest_{language}{ENDINGS[language]}"
            subprocess.run([self.wzfort, *ALLOWED, "-J", str(self.out), "-c", str(source), "-o", str(util)], check=True)
        return ["-I", str(made), "-I", str(self.folder / part), "-J", str(made), "-I", str(self.out), str(util)]

    def link_fortran(self, name, program):
        """Compiles and links a test in Fortran, of which some sources may be in C."""
        part, (sources, _) = name.rsplit("/", 1)[0], sources_of(self.folder, name)
        words, objects = self.prepare_fortran(part), []
        include = [f"-I{it}" for it in (self.out, self.out / part, self.folder / "include", self.folder / "util")]
        for source in (it for it in sources if it.suffix == ".c"):
            objects.append(program.with_name(f"{program.name}-{source.stem}.o"))
            done = subprocess.run([*map(str, [self.wzcc, "-O1", "-w", *include, "-c", source, "-o", objects[-1]])], capture_output=True, text=True)
            if done.returncode != 0:
                return done
        shared = [it for it in self.util if objects]
        inputs = [it for it in sources if it.suffix != ".c"]
        return subprocess.run([*map(str, [self.wzfort, "-O1", *ALLOWED, *words, *inputs, *objects, *shared, "-o", program])], capture_output=True, text=True)

    def compile_util(self):
        """What all tests share, once."""
        for name in ("mtest", "mtest_common", "mtest_thread", "mtest_datatype", "mtest_datatype_gen", "dtypes"):
            if not (self.folder / f"util/{name}.c").exists():
                continue
            made = self.out / f"{name}.o"
            if made.exists():
                self.util.append(made)
                continue
            subprocess.run([*map(str, [it for it in self.words([self.folder / f"util/{name}.c"], []) if it not in self.util]), "-c", "-o", str(made)], check=True)
            self.util.append(made)

    def program(self, name):
        """The program, or what the compiler says."""
        program = self.out / name.replace("/", "-")
        if program.exists():
            self.made[name] = (program, None)
        if name not in self.made:
            if name.split("/")[0] in ENDINGS:
                made = self.link_fortran(name, program)
            else:
                made = subprocess.run([*map(str, self.words(*sources_of(self.folder, name))), "-o", str(program)], capture_output=True, text=True)
            lacks = sorted({it.split("`")[1].split("'")[0] for it in made.stderr.splitlines() if "undefined reference to" in it})
            said = "lacks " + ", ".join(lacks) if lacks else made.stderr.strip().splitlines()[:1]
            self.made[name] = (program, None) if made.returncode == 0 else (None, str(said))
        return self.made[name]


def same_values(text, values):
    """Whether what requests got is what colljob says of the calls; None where it can't say."""
    colljob = os.environ.get("COLLJOB", "colljob")
    plain = subprocess.run([colljob, "plain", str(text)], capture_output=True)
    if plain.returncode != 0:
        return None
    return plain.stdout == values.read_bytes()


def run(program, row, seconds, options, folder):
    """What came of a test: a word, and what it said where it didn't pass."""
    words = [*shlex.split(options.under), str(options.bin / "wzrun"), "-q", "-n", str(row.ranks), *options.options.split()]
    if row.fails and row.limit:
        words += ["--timeout", str(row.limit)]
    with tempfile.TemporaryDirectory(dir=folder) as place:  # of its own, because tests leave files of one name
        text, values = (pathlib.Path(place) / it for it in ("calls.job", "values"))
        if options.text:
            words += ["--text", str(text), "--values", str(values)]
        try:
            done = subprocess.run([*words, str(program), *row.words], cwd=place, capture_output=True, text=True, timeout=seconds, errors="replace")
        except subprocess.TimeoutExpired:
            return f"over {seconds} s", ""
        return judged(done, row, text if options.text else None, values)


def judged(done, row, text, values):
    said = (done.stderr + done.stdout).strip().splitlines()
    if row.fails and done.returncode != 0:
        return "passes", f"status {done.returncode}"
    if done.returncode != 0 or not re.search("No [Ee]rrors", done.stdout):
        return f"status {done.returncode}", " | ".join(said[:3])
    if text:
        same = same_values(text, values)
        return "passes", {None: "no text", True: "values equal", False: "VALUES DIFFER"}[same]
    return "passes", " | ".join(it for it in done.stderr.splitlines() if "wzrun:" in it)


def main():
    parser = argparse.ArgumentParser(description=__doc__, formatter_class=argparse.RawDescriptionHelpFormatter)
    parser.add_argument("folder", type=pathlib.Path)
    parser.add_argument("--bin", type=pathlib.Path, default=HERE.parent / "out/bin")
    parser.add_argument("--parts", nargs="+", default=["coll"])
    parser.add_argument("--only", nargs="*")
    parser.add_argument("--options", default="")
    parser.add_argument("--text", action="store_true")
    parser.add_argument("--jobs", type=int, default=1)
    parser.add_argument("--longest", type=int, default=LONGEST)
    parser.add_argument("--under", default="")
    parser.add_argument("--keep", type=pathlib.Path)
    options = parser.parse_args()
    if options.text and shutil.which(os.environ.get("COLLJOB", "colljob")) is None:
        sys.exit("mpich.py: --text needs colljob in PATH, or its path in COLLJOB")
    with tempfile.TemporaryDirectory() as made:
        out = (options.keep or pathlib.Path(made)).resolve()
        out.mkdir(parents=True, exist_ok=True)
        programs = Programs(options.folder, str(options.bin / "wzcc"), out, "--strict" in options.options)
        listed = [it for part in options.parts for it in rows(options.folder, part) if not options.only or it.name.rsplit("/", 1)[1] in options.only]
        for part in dict.fromkeys(it.name.rsplit("/", 1)[0] for it in listed):
            generate(options.folder, part)
        lacks = [it for it in listed if not sources_of(options.folder, it.name)[0]]
        wanted = [it for it in listed if it not in lacks]
        programs.compile_util()
        for part in dict.fromkeys(it.name.rsplit("/", 1)[0] for it in wanted if it.name.split("/")[0] in ENDINGS):
            programs.prepare_fortran(part)
        with concurrent.futures.ThreadPoolExecutor(options.jobs) as pool:
            list(pool.map(programs.program, dict.fromkeys(it.name for it in wanted)))
        failed = table(wanted, programs, options, out)
        again = table(failed, programs, argparse.Namespace(**{**vars(options), "jobs": 1, "longest": 4 * options.longest}), out, "again ") if failed else []
    passed = len(wanted) - len(again)
    told = f", {len(failed) - len(again)} of them only when run again" if len(failed) > len(again) else ""
    print(f"{passed} of {len(wanted)} rows with a source pass{told}; {len(lacks)} have none: {' '.join(sorted({it.name for it in lacks}))}")
    return 0 if not again else 1


def table(wanted, programs, options, out, head=""):
    """Prints a line for each row, and returns those that don't pass."""
    def tried(row):
        program, said = programs.program(row.name)
        begun = time.monotonic()
        word, why = ("isn't built", said) if program is None else run(program, row, max(row.limit, options.longest), options, out)
        return row, word, why, time.monotonic() - begun

    failed = []
    with concurrent.futures.ThreadPoolExecutor(options.jobs) as pool:
        for row, word, why, seconds in pool.map(tried, wanted):
            failed += [row] if word != "passes" else []
            print(f"| {head}{' '.join([row.name.split('coll/')[-1], *row.words])} | {row.ranks} | {word} | {why.replace('|', '/')} | {seconds:.1f} s |", flush=True)
    return failed


if __name__ == "__main__":
    sys.exit(main())
