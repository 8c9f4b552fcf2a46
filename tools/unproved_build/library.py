"""The C library without proof: the functions of crates/worzsunab that C calls, in one object.

The front end lowers programs alone. So the crate's root gets a `main` that names each function for C, which has the front end lower it; no
call of it ever runs. In the module these functions get C's names, and all that nothing reaches from them is left out.
"""

import os
import re
import subprocess

import compiling
import front_end
import modules
from kit import OtherKit

CRATE = "worzsunab"

EXPORTED = re.compile(r'^#\[unsafe\(no_mangle\)\]\npub extern "C" fn (\w+)\(([^{]*?)\)(?: ->|$)', re.MULTILINE)

# A module's name of a function of the crate that C calls.
OF_CRATE = re.compile(rf'"{CRATE}::(?:\w+::)*(wz_\w+)"')

MAIN = """
fn nothing_of<T>() -> T {
    unreachable!()
}

fn main() {
%s}
"""


def functions_of(folder):
    """The functions for C of a crate's sources: their paths in the crate, and how many parameters each has."""
    found = []
    for inner, folders, files in os.walk(folder):
        folders.sort()
        for file in sorted(files):
            with open(os.path.join(inner, file), encoding="utf-8") as source:
                text = source.read()
            path = os.path.relpath(os.path.join(inner, file), folder)[:-len(".rt")].split(os.sep)
            for name, parameters in EXPORTED.findall(text):
                found.append(("::".join([*(it for it in path if it != "lib"), name]), len(re.findall(r"\b\w+: ", parameters))))
    return found


def make_root(scratch):
    """Makes the root of a program of the crate's root. Gives the names of the functions."""
    folder = os.path.join(scratch, "crates", CRATE, "src")
    functions = functions_of(folder)
    if not functions:
        raise OtherKit(f"crates/{CRATE} has no function for C")
    calls = "".join(f"    let _ = {path}({', '.join(['nothing_of()'] * count)});\n" for path, count in functions)
    with open(os.path.join(folder, "lib.rt"), encoding="utf-8") as file:
        text = file.read()
    os.remove(os.path.join(folder, "lib.rt"))
    with open(os.path.join(folder, "main.rt"), "w", encoding="utf-8") as file:
        file.write(text + MAIN % calls)
    return [path.rsplit("::", 1)[-1] for path, _ in functions]


def make(kit, scratch, uses, crates, made, progress):
    """Makes an archive of one object."""
    names = make_root(scratch)
    progress.enter("reading the sources")
    libraries = front_end.libraries(kit, uses, [name for name in crates if name != CRATE], uses[CRATE])
    caught = front_end.lower(kit, scratch, CRATE, f"crates/{CRATE}/src/main.rt", libraries, progress.wait)
    progress.enter("compiling")
    module = modules.Module(OF_CRATE.sub(r"\1", compiling.text_of(kit, scratch, caught, progress)))
    missing = [name for name in names if name not in module.functions]
    if missing:
        raise OtherKit(f"its front end lowered no function {missing[0]}")
    module.export(names)
    # (In one part: where rows' bytes are read by functions of another one, long rows take ten times as long; see bench/RESULTS.md.)
    objects = compiling.objects_of(kit, scratch, module, "-fPIC", 1, progress)
    progress.enter("linking")
    join(kit, scratch, objects, made, progress)


def join(kit, scratch, objects, made, progress):
    """Joins objects to one that shows C's functions alone, and puts it into an archive."""
    whole = os.path.join(scratch, f"{CRATE}.o")
    compiling.run_all([[kit.part("toolchain", "bin", "ld.lld"), "-r", "-o", whole, *objects]], scratch, progress)
    hide_others(kit, whole)
    compiling.run_all([[kit.part("toolchain", "bin", "llvm-ar"), "qcs", made, whole]], scratch, progress)


def hide_others(kit, whole):
    """Makes the hidden names of an object local ones. The kit's clang has this tool in it."""
    clang = kit.part("toolchain", "bin", "clang")
    ran = subprocess.run(["llvm-objcopy", "--localize-hidden", whole], executable=clang, stdin=subprocess.DEVNULL, capture_output=True)
    if ran.returncode:
        raise OtherKit(f"its llvm-objcopy failed: {ran.stderr.decode(errors='replace').strip()[-300:]}")
