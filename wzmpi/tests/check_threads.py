"""Threads of a rank, as the level of MPI_Init_thread allows them, of threads.c: for check.py."""

import re
import subprocess

from checking import HERE, comes_true, compiled, ended, reported, run

AT = r"threads\.c:(\d+)"
# Of each wrong case: the sentence, whose lines are both calls'.
WRONG = {
    "single": rf"wzrun: rank \d: MPI_Send at {AT}: another thread than the main one calls it, under MPI_THREAD_SINGLE; the main thread's last call stands at {AT} \(MPI_ERR_OTHER\)\n",
    "funneled": rf"wzrun: rank 1: MPI_Send at {AT}: another thread than the main one calls it, under MPI_THREAD_FUNNELED; the main thread's last call stands at {AT} \(MPI_ERR_OTHER\)\n",
    "serialized": (rf"wzrun: rank \d: MPI_(?:Send|Recv) at {AT}: another thread is in MPI_(?:Recv|Send) at {AT}, "
                   r"and under MPI_THREAD_SERIALIZED threads call one at a time \(MPI_ERR_OTHER\)\n"),
}
WAITING = ("wzrun: warning: no rank goes on: each waits (not sure: under MPI_THREAD_MULTIPLE another thread of a rank may let it go on)\n"
           "  rank 0 waits in MPI_Recv at threads.c:")


def line_of(text):
    """The line of threads.c that has a text."""
    return next(i for i, line in enumerate((HERE / "threads.c").read_text().splitlines(), 1) if text in line)


def check_wrong(binaries, program):
    failed = 0
    send = line_of("MPI_Send(&one, 1, MPI_INT, rank, 3, MPI_COMM_SELF)")
    second = {"serialized": line_of("MPI_Send(&two, 1, MPI_INT, 0, 5, MPI_COMM_SELF)"), "funneled": line_of("MPI_Barrier(MPI_COMM_WORLD);"), "single": line_of("MPI_Comm_size(")}
    for name, pattern in WRONG.items():
        status, said = run([str(binaries / "wzrun"), "-n", "3", str(program), name])
        match = re.fullmatch(pattern, said.replace(f"{HERE}/", ""))
        lines = {int(it) for it in match.groups()} if match else set()
        wanted = {line_of("MPI_Recv(&one, 1, MPI_INT, size - 1, 3, MPI_COMM_WORLD"), second[name]} if name == "serialized" else {send, second[name]}
        failed += reported(status == 2 and lines == wanted, f"threads {name}: status {status}, lines {lines} and not {wanted}:\n{said}")
    return failed


def check_right(binaries, program):
    failed = 0
    for name in ("multiple", "to_itself", "beside_wait", "asking"):
        for ranks in ("2", "5"):
            for words in ([], ["--strict", "--check"], ["--seed", "3"]):
                status, said = run([str(binaries / "wzrun"), "-n", ranks, *words, str(program), name])
                failed += reported((status, said) == (0, ""), f"threads {name}, {ranks} ranks, {words}: status {status}:\n{said}")
    return failed


def check_warned(binaries, program, said):
    """Where all threads wait, that is warned of, and the run goes on."""
    with said.open("w") as to:
        running = subprocess.Popen([str(binaries / "wzrun"), "-n", "2", str(program), "waiting"], stdout=to, stderr=to)
    warned = comes_true(lambda: said.read_text().replace(f"{HERE}/", "").startswith(WAITING), running)
    goes_on = running.poll() is None
    running.terminate()
    return reported(warned and goes_on and ended(running) == 143, f"threads waiting: status {ended(running)}:\n{said.read_text()}")


def check(binaries, out):
    program = compiled(binaries, HERE / "threads.c", out / "threads")
    failed = check_wrong(binaries, program) + check_right(binaries, program) + check_warned(binaries, program, out / "threads.said")
    print("check.py: threads of a rank call as their level allows" if failed == 0 else f"check.py: {failed} runs of threads.c failed")
    return failed
