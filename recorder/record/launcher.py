"""The launcher of an MPI program: of which library it is, and how it hands variables to the ranks. And the recorder for that library."""

import os
import re
import shutil
import subprocess

from records import Unreadable

HERE = os.path.dirname(os.path.abspath(__file__))
# Here are the recorder's sources and, where it is installed, a folder with a recorder for each library.
HOME = os.path.dirname(HERE)

WORDS = {"openmpi": "Open MPI", "mpich": "MPICH"}

# What the launchers of each library say of themselves. Intel's and MVAPICH's libraries have MPICH's handles.
SAYS = {"openmpi": re.compile(r"Open ?MPI|OpenRTE|PRRTE|prterun", re.I), "mpich": re.compile(r"HYDRA|MPICH|Intel\(R\) MPI|MVAPICH", re.I)}

# A launcher by its name. No other command is asked for its version: it may be a script that knows no such word, and begins to work.
LAUNCHERS = re.compile(r"(mpirun|mpiexec|orterun|prterun)([.\-_].*)?")

# The macros by which a compiler's mpi.h is known.
MACROS = {"openmpi": "OPEN_MPI", "mpich": "MPICH_VERSION"}

# A launcher or compiler that says nothing for so long is none.
PATIENCE = 20


class Impossible(Unreadable):
    """A program that can't be recorded, and why."""


def output_of(*words, given=None):
    """What a command writes to standard output, or nothing where it fails."""
    try:
        run = subprocess.run(words, input=given, stdin=None if given is not None else subprocess.DEVNULL, stdout=subprocess.PIPE, stderr=subprocess.DEVNULL, timeout=PATIENCE)
    except (OSError, subprocess.TimeoutExpired):
        return ""
    return run.stdout.decode(errors="replace")


def version_of(launcher):
    """Of which library a launcher is, and its version; None and an empty word for what is none."""
    if not LAUNCHERS.fullmatch(os.path.basename(launcher)):
        return None, ""
    said = output_of(launcher, "--version")
    version = re.search(r"\d+\.\d+(\.\d+)?", said)
    for library, pattern in SAYS.items():
        if pattern.search(said):
            return library, version[0] if version else ""
    return None, ""


class Linked:
    """The MPI library that a program is linked with."""

    def __init__(self, path):
        self.path, self.library, self.file, self.wzcc = path, None, None, False
        for line in output_of("ldd", path).splitlines():
            name, _, file = line.strip().partition(" => ")
            self.wzcc = self.wzcc or name.startswith("libworzsunab-mpi.so")
            if re.match(r"libmpi(ch)?\.so", name):
                self.file = file.split(" (")[0]
                self.library = "openmpi" if re.match(r"libmpi\.so\.(20|40)$", name) else "mpich"

    def name(self):
        return os.path.basename(self.file or "")


def program_of(words):
    """The program of a launcher's words: the first that is linked with an MPI library, or None."""
    for word in words:
        path = shutil.which(word) if word and not word.startswith("-") else None
        linked = Linked(path) if path else None
        if linked and (linked.library or linked.wzcc):
            return linked
    return None


class Launch:
    """A command that starts an MPI program. KIND is how its first word takes variables: `openmpi`, `mpich`, `srun`, or `none` where it hands
    on its own. LIBRARY is that of the program."""

    def __init__(self, words, library=None):
        self.words, self.path = words, shutil.which(words[0])
        if not self.path:
            raise Impossible(f"{words[0]}: no such program")
        self.linked = program_of(words)
        if self.linked and self.linked.wzcc:
            raise Impossible(f"{self.linked.path} is linked by wzcc: run it by `wzrun -n RANKS {self.linked.path}`, which judges it itself")
        own, self.version = (None, "") if self.is_program() else version_of(self.path)
        self.kind = "srun" if os.path.basename(self.path) == "srun" else own or "none"
        self.library = library or (self.linked and self.linked.library) or own
        self.check(own)

    def is_program(self):
        return self.linked is not None and self.linked.path == self.path

    def check(self, own):
        if not self.library:
            raise Impossible(f"{self.words[0]}: it isn't known of which MPI library this is: name it by --library openmpi or --library mpich")
        if self.linked and own and self.linked.library and self.linked.library != own:
            raise Impossible(f"{self.words[0]} is {WORDS[own]}'s, and {self.linked.path} is linked with {WORDS[self.linked.library]}: each rank would be alone")

    def command(self, variables):
        """The command with variables for all ranks, and for the programs that these start."""
        if self.kind == "openmpi":
            own = [word for name, value in variables.items() for word in ("-x", f"{name}={value}")]
        elif self.kind == "mpich":
            own = [word for name, value in variables.items() for word in ("-genv", name, value)]
        elif self.kind == "srun":
            own = ["--export=" + ",".join(["ALL", *(f"{name}={value}" for name, value in variables.items())])]
        else:
            own = []
        rest = []
        for word in self.words[1:]:
            # Open MPI has each program's own words behind a colon.
            rest += [word, *own] if word == ":" and self.kind == "openmpi" else [word]
        return [self.path, *own, *rest]

    def environment(self, variables):
        return dict(os.environ, **variables) if self.kind == "none" else dict(os.environ)


# The recorder


def is_for(compiler, library):
    """Whether an mpicc is that of a library."""
    return MACROS[library] in output_of(compiler, "-E", "-dM", "-x", "c", "-", given=b"#include <mpi.h>\n")


def compiler_of(launch):
    """The mpicc of the launcher's library: beside the launcher, or by name; None where there is none."""
    folder, name = os.path.split(launch.path)
    suffix = os.path.splitext(name)[1]
    names = [os.path.join(folder, "mpicc" + suffix), os.path.join(folder, "mpicc"), f"mpicc.{launch.library}", "mpicc"]
    found = [shutil.which(it) for it in names]
    return next((it for it in dict.fromkeys(found) if it and is_for(it, launch.library)), None)


def cache_of(launch):
    """Where a recorder is built that isn't installed."""
    cache = os.environ.get("XDG_CACHE_HOME") or os.path.expanduser("~/.cache")
    name = "-".join(filter(None, [launch.library, launch.version, launch.linked and launch.linked.name()]))
    return os.path.join(cache, "worzsunab", "recorder", name)


def fits(recorder, launch):
    """Whether a recorder is there, and linked with the very library of the program where that is known."""
    return os.path.exists(recorder) and (not launch.linked or not launch.linked.file or Linked(recorder).name() == launch.linked.name())


def built(launch, folder, tell):
    """The recorder that `make` builds into a folder, if it isn't there yet."""
    compiler = compiler_of(launch)
    recorder = os.path.join(folder, "librecord.so")
    words = ["make", "-s", "-C", HOME, f"MPICC={compiler}", f"OUT={folder}", recorder]
    if not compiler or not shutil.which("make"):
        if fits(recorder, launch):
            return recorder
        lacking = "make" if compiler else f"compiler of {WORDS[launch.library]} (mpicc) that could build one"
        raise Impossible(f"there is no recorder for {WORDS[launch.library]} {launch.version} here, and no {lacking}")
    if not os.path.exists(recorder):
        tell(f"builds the recorder for {WORDS[launch.library]} {launch.version} by {compiler}, once")
    run = subprocess.run(words, stdin=subprocess.DEVNULL, stdout=subprocess.PIPE, stderr=subprocess.STDOUT)
    if run.returncode:
        raise Impossible(f"the recorder for {WORDS[launch.library]} can't be built: {run.stdout.decode(errors='replace').strip()}")
    return recorder


def recorder_for(launch, tell):
    """The file that is preloaded: an installed one, one that was built before, or one that is built now."""
    if " " in HOME:
        tell("the path of the recorder has a blank, at which the loader splits LD_PRELOAD")
    if os.path.isdir(os.path.join(HOME, "tried")):
        return built(launch, os.path.join(HOME, "out", launch.library), tell)
    installed = os.path.join(HOME, launch.library, "librecord.so")
    return installed if fits(installed, launch) else built(launch, cache_of(launch), tell)
