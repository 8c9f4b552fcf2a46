"""The objects of a module: its text may be cut into parts, which the kit's clang compiles side by side."""

import os
import subprocess

from kit import OtherKit

TARGET = "x86_64-unknown-linux-gnu"

# The options by which the kit compiles proved code.
OPTIONS = """
    -march=x86-64 -ffunction-sections -fdata-sections --no-default-config -no-canonical-prefixes -mllvm -no-trap-after-noreturn
    -mllvm -trap-unreachable -mllvm -no-x86-call-frame-opt -mllvm -disable-machine-licm -mllvm -disable-postra-machine-licm
    -mllvm -sink-common-insts=false
""".split()


def clang(kit, *words):
    return [kit.part("toolchain", "bin", "clang"), f"--target={TARGET}", f"--sysroot={kit.part('toolchain')}", *OPTIONS, "-x", "ir", *words]


def processors():
    return len(os.sched_getaffinity(0))


def text_of(kit, scratch, module, progress):
    """The module's text."""
    path = os.path.join(scratch, "module.ll")
    run_all([clang(kit, "-S", "-emit-llvm", "-O0", module, "-o", path)], scratch, progress)
    with open(path, encoding="utf-8") as file:
        return file.read()


def objects_of(kit, scratch, module, code, parts, progress):
    """Compiles a module in that many parts, to position-independent code of a kind (`-fPIE` or `-fPIC`). A function of another part isn't
    inlined. The paths of the objects."""
    objects, calls = [], []
    for number, text in enumerate(module.parts(parts)):
        path = os.path.join(scratch, f"part{number}")
        with open(f"{path}.ll", "w", encoding="utf-8") as file:
            file.write(text)
        objects.append(f"{path}.o")
        calls.append(clang(kit, "-c", f"{path}.ll", "-o", f"{path}.o", code, "-O3"))
    run_all(calls, scratch, progress)
    return objects


def run_all(calls, scratch, progress):
    """Runs commands side by side."""
    said = os.path.join(scratch, "said")
    with open(said, "w+b") as told:
        running = [subprocess.Popen(words, cwd=scratch, stdin=subprocess.DEVNULL, stdout=told, stderr=told) for words in calls]
        try:
            for process in running:
                progress.wait(process)
        finally:
            for process in running:
                if process.poll() is None:
                    process.kill()
                    process.wait()
        if any(process.returncode for process in running):
            told.seek(0)
            raise OtherKit(f"its {os.path.basename(calls[0][0])} failed: {told.read().decode(errors='replace').strip()[-300:]}")


def link(kit, scratch, objects, program, progress):
    """Links objects and the kit's archives to a program."""
    words = [kit.part("bin", "rattle-link"), "--target", TARGET, "--toolchain", kit.part("toolchain"), "-o", program, *objects]
    run_all([[*words, kit.part("c", "libos_c.a"), kit.part("c", "liblibc_c.a")]], scratch, progress)
