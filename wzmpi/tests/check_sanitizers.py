"""The sanitizers, as docs/WZRUN.md says that they are used: for check.py. Nothing is said of the examples, and a program's own mistakes are seen."""

import os
import pathlib
import subprocess

from checking import HERE, compiled, reported, run

# Of each sanitizer: its library, the variables that it is run with, and what it says of which case of sanitized.c.
SANITIZERS = {
    "address": ("libasan.so", {}, {"overflow": "heap-buffer-overflow", "leak": "LeakSanitizer: detected memory leaks"}),
    "thread": ("libtsan.so", {"TSAN_OPTIONS": "ignore_noninstrumented_modules=1"}, {"race": "ThreadSanitizer: data race"}),
}
RIGHT = ["average.c", "early.c", "hello.cpp"]
# A race is seen where the threads' accesses come close to one another, which a busy machine may prevent.
MOST_TRIES = 10
RUNS = 20  # of a program without MPI, which show whether programs run under a sanitizer here


def library_of(name):
    """Where gcc has a sanitizer's library; None: it has none."""
    try:
        path = subprocess.run(["gcc", f"-print-file-name={name}"], capture_output=True, text=True, check=True).stdout.strip()
    except (OSError, subprocess.CalledProcessError):
        return None
    return path if pathlib.Path(path).is_absolute() else None


def lacks(out, name):
    """The cases of sanitized.c that a program without MPI can't show on this machine; None: it doesn't run there. Where the kernel places memory at more places
    than ThreadSanitizer knows, some runs fail and others don't; where ptrace is forbidden, leaks aren't looked for."""
    source, program = out / "plain.c", out / f"plain_{name}"
    source.write_text("#include <stdlib.h>\nint main(int argc, char **argv) {\n    char *volatile kept = malloc(argc);\n    if (argc > 1) kept = NULL;\n    free(kept);\n    return argv == NULL;\n}\n")
    built, said = run(["gcc", f"-fsanitize={name}", str(source), "-o", str(program)])
    environment = {**os.environ, "ASAN_OPTIONS": "detect_leaks=0"}
    if built != 0 or any(run([str(program)], env=environment)[0] != 0 for _ in range(RUNS)):
        return None
    status, said = run([str(program), "leak"])
    return [] if name != "address" or (status != 0 and SANITIZERS[name][2]["leak"] in said) else ["leak"]


def check_one(binaries, out, name, library):
    _, variables, wrong = SANITIZERS[name]
    lacking = lacks(out, name)
    if lacking is None:
        print(f"check.py: programs don't run under -fsanitize={name} here, so it isn't checked")
        return 0
    environment = {**os.environ, **variables, "LD_PRELOAD": library, **({"ASAN_OPTIONS": "detect_leaks=0"} if lacking else {})}
    wrong = {case: words for case, words in wrong.items() if case not in lacking}
    failed = 0
    for source in [HERE.parent / "examples" / it for it in RIGHT] + [HERE / "sanitized.c"]:
        program = compiled(binaries, source, out / f"{name}_{source.stem}", "-g", f"-fsanitize={name}")
        status, said = run([str(binaries / "wzrun"), "-n", "3", str(program)], env=environment)
        failed += reported(status == 0 and "Sanitizer" not in said, f"-fsanitize={name}, {source.name}: status {status}:\n{said[:3000]}")
    for case, words in wrong.items():
        for _ in range(MOST_TRIES):
            status, said = run([str(binaries / "wzrun"), "-n", "3", str(program), case], env=environment)
            if status != 0:
                break
        failed += reported(status != 0 and words in said, f"-fsanitize={name}, sanitized {case}: status {status}:\n{said[:3000]}")
    return failed


def check(binaries, out):
    failed = 0
    for name, (library, *_) in SANITIZERS.items():
        path = library_of(library)
        if path is None:
            print(f"check.py: gcc has no {library}, so -fsanitize={name} isn't checked")
            continue
        failed += check_one(binaries, out, name, path)
    print("check.py: sanitizers see the program's mistakes and no others" if failed == 0 else f"check.py: {failed} runs with sanitizers failed")
    return failed
