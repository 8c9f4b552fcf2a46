#!/usr/bin/env python3
"""Measures how far collectives proceed while their ranks compute, by the definition of the Intel MPI Benchmarks (IMB-NBC): a rank posts,
computes as long as the collective takes alone, and waits. All programs by turns, medians of RUNS runs:

    bench/overlap.py [RUNS] [--busy] [--clock] [--all] [--only WORD].. [--picture FILE]    (5 runs by default, in at most 4 minutes)

It prints for each collective, in microseconds: `pure`, the collective alone; `paid`, what the program pays for post and wait beside its
computation; `total`, post, computation and wait together. `overlap` is (pure + computation - total) / min(pure, computation), in per cent:
100 where the collective costs no time, 0 where it costs what it costs alone, and below where both together take longer than one after the
other. `slower` is by how much the computation takes longer than without a collective, in per cent. Where the ranks compute longer than the
collective takes, the row says how many times.

Ranks compute by work on words of their own, which others can slow down; with --clock until the clock has gone on so far. With --busy all
is measured beside one busy process. With --all more collectives are measured, also by ranks that test each microsecond. --only leaves those
programs out whose name lacks the word. --picture draws what the ports measured of an allreduce of 512 KiB, with a progress thread and without
(docs/overlap.svg). In brackets stands how many of the runs weren't through in time.

`ports` are `coll_bench` (after `rt run` in crates/coll_bench), `C` is the C library (after `make -C bindings`), `wzrun` runs the MPI program
over it (after `make -C wzmpi`). Each MPI library is measured whose compiler is found, mpicc.openmpi or mpicc.mpich. What isn't built is left
out, with a line that says so. Run it at the top of the repository, with nothing else beside it.
"""

import os
import shutil
import signal
import statistics
import subprocess
import sys
import tempfile

HERE = os.path.dirname(os.path.abspath(__file__))
TOP = os.path.dirname(HERE)
PORTS = os.environ.get("WZ_COLL_BENCH", os.path.join(TOP, "crates", "coll_bench", "out", "coll_bench"))
LIBRARY = os.environ.get("WZ_LIBRARY", os.path.join(TOP, "out", "lib", "libworzsunab.a"))
TOOLS = os.environ.get("WZ_TOOLS", os.path.join(TOP, "wzmpi", "out", "bin"))
# Of one run of a program.
SECONDS = 20

# Collective, bytes, per cent of the time that it takes alone for which the ranks compute.
TELLING = [
    ("allreduce", 8, 100),
    ("allreduce", 8, 3000),
    ("allreduce", 65536, 100),
    ("allreduce", 524288, 100),
    ("bcast", 524288, 100),
    ("alltoall", 65536, 100),
    ("barrier", 0, 3000),
]
ALL = [
    *((name, size, 100) for name in ("allreduce", "bcast", "alltoall") for size in (8, 65536, 524288)),
    ("barrier", 0, 100),
    *((name, size, 3000) for name, size in (("allreduce", 8), ("bcast", 8), ("alltoall", 8), ("barrier", 0))),
    ("allreduce", 524288, 200),
]
NAMES = {8: "8 bytes", 65536: "64 KiB", 524288: "512 KiB"}


class Program:
    """One of the programs, with that many progress threads, whose ranks test once in that many microseconds."""

    def __init__(self, name, ranks, threads=0, tests=0):
        self.name, self.ranks, self.threads, self.tests = name, ranks, threads, tests

    def __str__(self):
        said = [self.name]
        if self.threads:
            said.append("asynchronous progress" if self.name == "mpich" else f"{self.threads} progress thread{'s' * (self.threads > 1)}")
        if self.tests:
            said.append(f"a test each {self.tests} us")
        return ", ".join(said)


def programs(everything):
    """On four processors: two and three ranks with a progress thread, four without. Ranks that test have none."""
    all_programs = []
    for ranks in (2, 3, 4):
        threads = 1 if ranks < 4 else 0
        all_programs += [Program(name, ranks, threads) for name in ("ports", "C", "wzrun")]
        all_programs += [Program(name, ranks) for name in ("openmpi", "mpich")]
        if ranks == 2:
            all_programs += [Program(name, ranks) for name in ("ports", "C", "wzrun")]
        if ranks == 2 or everything:
            all_programs += [Program(name, ranks, 0, 100) for name in ("ports", "C", "wzrun", "openmpi", "mpich")]
            all_programs.append(Program("mpich", ranks, 1))
        if ranks == 2 and everything:
            all_programs += [Program(name, ranks, 2) for name in ("ports", "C", "wzrun")]
            all_programs += [Program(name, ranks, 0, 1) for name in ("ports", "C", "wzrun", "openmpi", "mpich")]
    return all_programs


def end(run):
    """Ends a command: a launcher that is asked to ends its ranks."""
    run.terminate()
    try:
        run.communicate(timeout=3)
    except subprocess.TimeoutExpired:
        os.killpg(run.pid, signal.SIGKILL)


def output(command, **settings):
    """What a command prints; nothing where it isn't through in time."""
    environment = dict(os.environ, OMPI_ALLOW_RUN_AS_ROOT="1", OMPI_ALLOW_RUN_AS_ROOT_CONFIRM="1", **settings)
    with subprocess.Popen(command, stdout=subprocess.PIPE, text=True, env=environment, start_new_session=True) as run:
        try:
            text, _ = run.communicate(timeout=SECONDS)
        except subprocess.TimeoutExpired:
            end(run)
            return None
        except BaseException:
            end(run)
            raise
        if run.returncode != 0:
            sys.exit(f"overlap.py: {' '.join(command)} ended with {run.returncode}")
        return text


def times_in(text):
    """The numbers of a line, by the words before them."""
    words = text.split()
    return {word: int(number) for word, number in zip(words[::2], words[1::2])}


class Runs:
    """How each program is run: those that are built, in a folder."""

    def __init__(self, folder, computing):
        self.computing = computing
        self.made = {}
        if os.path.exists(PORTS):
            self.made["ports"] = PORTS
        sources = os.path.join(HERE, "overlap.c")
        mpi = [sources, os.path.join(HERE, "overlap_mpi.c")]
        compilers = {"openmpi": ["mpicc.openmpi", *mpi], "mpich": ["mpicc.mpich", *mpi]}
        if os.path.exists(LIBRARY):
            include = os.path.join(TOP, "include")
            compilers["C"] = ["cc", f"-I{include}", sources, os.path.join(HERE, "overlap_library.c"), LIBRARY, "-pthread"]
        compilers["wzrun"] = [os.path.join(TOOLS, "wzcc"), *mpi]
        for name, (compiler, *words) in compilers.items():
            if shutil.which(compiler):
                self.made[name] = os.path.join(folder, name)
                subprocess.run([compiler, "-O2", "-D_GNU_SOURCE", *words, "-o", self.made[name]], check=True)

    def ports(self, program, collectives):
        """The same of `coll_bench`, which measures one collective at a time."""
        found = {}
        for name, size, percent in collectives:
            words = [name, size, program.ranks, program.threads, self.computing, program.tests * 1000, percent]
            text = output([PORTS, "overlap", "times", *map(str, words)])
            found[name, size, percent] = times_in(text) if text else None
        return found

    def run(self, program, collectives):
        """(collective, bytes, per cent) -> what was measured; None where it wasn't through."""
        if program.name == "ports":
            return self.ports(program, collectives)
        words = [self.computing, str(program.tests * 1000), *(str(word) for collective in collectives for word in collective)]
        made, ranks, threads = self.made[program.name], str(program.ranks), str(program.threads)
        if program.name == "C":
            text = output([made, ranks, threads, *words])
        elif program.name == "wzrun":
            progress = ["--progress", threads] if program.threads else []
            text = output([os.path.join(TOOLS, "wzrun"), "-n", ranks, *progress, made, *words])
        elif program.name == "openmpi":
            text = output(["mpirun.openmpi", "--oversubscribe", "-n", ranks, made, *words])
        else:
            text = output(["mpirun.mpich", "-n", ranks, made, *words], MPICH_ASYNC_PROGRESS=threads)
        found = dict.fromkeys(collectives)
        for line in (text or "").splitlines():
            name, size, percent, times = line.split(maxsplit=3)
            found[name, int(size), int(percent)] = times_in(times)
        return found


def overlap(times):
    """In per cent."""
    least = min(times["pure"], times["alone"])
    return 100 * (times["pure"] + times["alone"] - times["total"]) / least if least else 0


def row(column):
    """The medians of the runs that were through, and how many weren't."""
    through = [times for times in column if times is not None]
    if not through:
        return f"- ({len(column)})"

    def median(figure):
        return statistics.median(figure(times) for times in through)

    cells = [
        f"{median(lambda times: times['pure']) / 1000:9.1f}",
        f"{median(lambda times: times['post'] + times['wait']) / 1000:9.1f}",
        f"{median(lambda times: times['total']) / 1000:9.1f}",
        f"{median(overlap):7.0f} %",
        f"{median(lambda times: 100 * times['computing'] / max(times['alone'], 1) - 100):6.0f} %",
    ]
    late = f"  ({len(column) - len(through)})" if len(through) < len(column) else ""
    return " ".join(cells) + late


def title(collective):
    name, size, percent = collective
    times = f", computing {percent / 100:g} times as long" if percent != 100 else ""
    return f"{name} of {NAMES[size]}{times}" if size else f"{name}{times}"


def measured(runs, folder, words, collectives):
    """(collective, program) -> what all runs measured."""
    made = Runs(folder, "clock" if "--clock" in words else "work")
    only = [words[at + 1] for at, word in enumerate(words) if word == "--only"]
    wanted = [program for program in programs("--all" in words) if all(word in str(program) for word in only)]
    for name in dict.fromkeys(program.name for program in wanted):
        if name not in made.made:
            print(f"{name} isn't built, and is left out")
    wanted = [program for program in wanted if program.name in made.made]
    found = {}
    for _ in range(runs):
        for program in wanted:
            for collective, times in made.run(program, collectives).items():
                found.setdefault((program.ranks, collective, str(program)), []).append(times)
    return found


def show(found, collectives):
    for ranks in sorted({key[0] for key in found}):
        for collective in collectives:
            print(f"\n{ranks} ranks, {title(collective)}\n{'':38}     pure      paid     total   overlap   slower")
            for (its_ranks, its_collective, program), column in found.items():
                if (its_ranks, its_collective) == (ranks, collective):
                    print(f"  {program:36}{row(column)}")


def bars(times, scale, top):
    """A rank's post, computation and wait, one behind the other."""
    drawn, left = [], 190.0
    for part in ("post", "computing", "wait"):
        width = times[part] * scale
        drawn.append(f'<rect class="{part}" x="{left:.1f}" y="{top}" width="{width:.1f}" height="26"/>')
        if width > 70:
            drawn.append(f'<text class="of-{part}" x="{left + width / 2:.1f}" y="{top + 18}" text-anchor="middle">{part}</text>')
        left += width
    drawn.append(f'<text x="{left + 8:.1f}" y="{top + 18}">{times["total"] / 1000:,.0f} us</text>')
    return drawn


def draw(found, path):
    """Writes the picture: medians of ports, an allreduce of 512 KiB between two ranks, with a progress thread and without."""
    rows = []
    for name, program in (("no progress thread", "ports"), ("a progress thread", "ports, 1 progress thread")):
        column = [times for times in found.get((2, ("allreduce", 524288, 100), program), []) if times is not None]
        if not column:
            sys.exit(f"overlap.py: --picture needs {program}, which wasn't measured")
        parts = ("post", "computing", "wait", "total")
        rows.append((name, {part: statistics.median(times[part] for times in column) for part in parts}))
    scale = 500 / max(times["total"] for _, times in rows)
    lines = [
        '<svg xmlns="http://www.w3.org/2000/svg" width="780" height="130" viewBox="0 0 780 130" font-family="sans-serif" font-size="14">',
        "<title>A rank that posts an allreduce of 512 KiB, computes and waits</title>",
        "<style>.post { fill: #b35900 } .computing { fill: #9fc5e8 } .wait { fill: #b35900 } .of-post, .of-wait { fill: #fff }</style>",
        '<rect width="780" height="130" fill="#fff"/>',
        '<text x="10" y="24">A rank posts an allreduce of 512 KiB, computes, and waits, between two ranks:</text>',
    ]
    for at, (name, times) in enumerate(rows):
        top = 44 + 40 * at
        lines += [f'<text x="10" y="{top + 18}">{name}</text>', *bars(times, scale, top)]
    with open(path, "w") as out:
        out.write("\n".join([*lines, "</svg>"]) + "\n")


def main():
    words = sys.argv[1:]
    if "--help" in words:
        print(__doc__)
        return
    options, with_value = {"--busy", "--clock", "--all"}, {"--only", "--picture"}
    values = [at + 1 for at, word in enumerate(words) if word in with_value]
    numbers = [word for at, word in enumerate(words) if word not in options | with_value and at not in values]
    if len(numbers) > 1 or not all(word.isdigit() and int(word) > 0 for word in numbers) or len(words) in values:
        sys.exit("overlap.py: [RUNS] [--busy] [--clock] [--all] [--only WORD].. [--picture FILE]")
    signal.signal(signal.SIGTERM, lambda *_: sys.exit(143))
    collectives = ALL if "--all" in words else TELLING
    busy = [subprocess.Popen([sys.executable, "-c", "while True: pass"]) for _ in range("--busy" in words)]
    try:
        with tempfile.TemporaryDirectory() as folder:
            found = measured(int(numbers[0]) if numbers else 5, folder, words, collectives)
    finally:
        for process in busy:
            process.kill()
            process.wait()
    show(found, collectives)
    if "--picture" in words:
        draw(found, words[words.index("--picture") + 1])


if __name__ == "__main__":
    main()
