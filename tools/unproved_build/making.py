"""How what is kept is made: of a copy of the sources, by the kit's front end, clang and linker."""

import os
import shutil

import building
import compiling
import first
import front_end
import library
import modules
import sources
from kept import MOST, TOOLS, Kept


def build(wanted, kit, progress):
    """Builds what is wanted where nobody else does, and gives its path."""
    lock = os.path.join(wanted.folder, f"{wanted.kind}.lock")
    with building.locked(lock, lambda: progress.enter("waiting for another call that builds it")):
        found = wanted.ready(kit)
        if found:
            return found
        with building.scratch_folder(wanted.root) as scratch:
            total = copy(wanted, scratch)
            made = os.path.join(scratch, "made")
            make(wanted, kit, scratch, made, progress)
            place = wanted.place(kit.short_id(), total)
            os.makedirs(wanted.folder, exist_ok=True)
            building.keep(made, place)
        for name in wanted.names()[MOST:]:
            building.drop(os.path.join(wanted.folder, name))
        return place


def copy(wanted, scratch):
    """Copies the sources, so that they stay as they are while they are read, and gives the sum over the copy."""
    for path in wanted.paths():
        to = os.path.join(scratch, path)
        os.makedirs(os.path.dirname(to), exist_ok=True)
        shutil.copyfile(os.path.join(wanted.top, path), to)
    return Kept(scratch, wanted.kind).sum()


def make(wanted, kit, scratch, made, progress):
    uses = sources.read_crates(scratch)
    if wanted.kind == "library":
        library.make(kit, scratch, uses, wanted.crates, made, progress)
    elif wanted.kind == "first":
        make_program(kit, scratch, "coll_job", first.cut(scratch, TOOLS, uses), made, progress)
    else:
        make_program(kit, scratch, "colljob", {name: uses[name] for name in wanted.crates}, made, progress)


def make_program(kit, scratch, name, uses, made, progress):
    """Makes a program of the sources in a scratch folder. `uses` has what it and the crates below it stand on."""
    progress.enter("reading the sources")
    libraries = front_end.libraries(kit, uses, [it for it in uses if it != name], uses[name])
    caught = front_end.lower(kit, scratch, name, f"crates/{name}/src/main.rt", libraries, progress.wait)
    progress.enter("compiling")
    module = modules.Module(compiling.text_of(kit, scratch, caught, progress))
    objects = compiling.objects_of(kit, scratch, module, "-fPIE", compiling.processors(), progress)
    progress.enter("linking")
    compiling.link(kit, scratch, objects, made, progress)
    os.chmod(made, 0o755)
