"""Where the ranks stand: loops of tests that can't come true, signals and --timeout, of loops.c: for check.py."""

import re
import signal
import subprocess

from checking import HERE, answered, comes_true, compiled, ended, reported, run, with_signals

SURE = "wzrun: stalled: no rank can go on, and tests can't come true any more\n"
NOT_SURE = ("wzrun: warning: no rank goes on: tests can't come true any more "
            "(not sure: the program may leave its loops by the time, or by something else than MPI)\n")
# Of each case under `wzrun -n 3`: status, and what is said, with its lines.
LOOPS = {
    "lacking": (3, SURE + """  ranks 0 and 2 test in vain in MPI_Test at loops.c:9
    for MPI_Ibarrier at loops.c:18, place 0 of MPI_COMM_WORLD, which rank 1 has not called
  rank 1 waits in MPI_Recv at loops.c:15
    for a message from rank 0, tag 4: MPI_Recv at loops.c:15
  so they wait for one another: 0 -> 1 -> 0
"""),
    "other_tag": (3, SURE + """  ranks 0 and 2 wait in MPI_Barrier at loops.c:26
    for MPI_Barrier, place 0 of MPI_COMM_WORLD, which rank 1 has not called
  rank 1 tests in vain in MPI_Iprobe at loops.c:25
    for a message from rank 0, tag 4: MPI_Iprobe at loops.c:25
      rank 0 sent one with another tag, tag 5, at loops.c:24, which nobody has received
  so they wait for one another: 0 -> 1 -> 0
"""),
    "later": (0, ""),
}
UNTIL = NOT_SURE + """  ranks 0 and 2 wait in MPI_Barrier at loops.c:43
    for MPI_Barrier, place 0 of MPI_COMM_WORLD, which rank 1 has not called
  rank 1 tests in vain in MPI_Iprobe at loops.c:42
    for a message from rank 0, tag 4: MPI_Iprobe at loops.c:42
  so they wait for one another: 0 -> 1 -> 0
"""
# A busy machine may need the longer times, and may have the one answer before an end come at a bad moment.
TIMES = (5, 20, 80, 320)
MOST_TRIES = 5
STANDING = """  ranks 0, 3 and 4 wait in MPI_Wait at loops.c:66
    for MPI_Ibarrier at loops.c:64, place 0 of MPI_COMM_WORLD, which rank 2 has not called
  rank 1 tests in vain for N s, at loops.c:9
  rank 2 computes, or waits outside of MPI, for N s since its call at loops.c:78
"""


def plain(said):
    """Without the folder of the sources, and without seconds."""
    return re.sub(r"for \d+ s", "for N s", said.replace(f"{HERE}/", ""))


def check_loops(binaries, program):
    failed = 0
    for name, wanted in LOOPS.items():
        status, said = run([str(binaries / "wzrun"), "-n", "3", str(program), name])
        failed += reported((status, plain(said)) == wanted, f"loops {name}: status {status}:\n{said}")
    status, said = run([str(binaries / "wzrun"), "-n", "3", str(program), "several"])
    lines = ["from rank 1, tag 0: MPI_Irecv", "from rank 1, tag 1: MPI_Irecv", "from rank 1, tag 2: MPI_Irecv", "from any rank, tag 9: MPI_Iprobe"]
    return failed + reported(status == 3 and said.startswith(SURE) and all(said.count(it) == (3 if "any" in it else 1) for it in lines), f"loops several: status {status}:\n{said}")


def check_timeout(binaries, program, text):
    for seconds in TIMES:
        words = ["-n", "5", "--timeout", str(seconds), "--text", str(text)]
        status, said = run([str(binaries / "wzrun"), *words, str(program), "computing"])
        right = (status, plain(said)) == (124, f"wzrun: --timeout ends the run after {seconds} s: here the ranks stand:\n{STANDING}") and "post 0 barrier" in text.read_text()
        if right:
            return 0
    return reported(False, f"loops computing, --timeout: status {status}:\n{said}")


def check_warned(binaries, program, said):
    """A loop that the time may end is warned of once, and the run goes on."""
    with said.open("w") as to:
        running = subprocess.Popen([str(binaries / "wzrun"), "-n", "3", str(program), "until"], stdout=to, stderr=to, preexec_fn=with_signals)
    comes_true(lambda: plain(said.read_text()) == UNTIL, running)
    goes_on = running.poll() is None
    running.terminate()
    ended(running)
    return reported(goes_on and plain(said.read_text()).startswith(UNTIL), f"loops until: goes on {goes_on}:\n{said.read_text()}")


def end_by(number, words, said, timeline):
    """Whether a run answers SIGQUIT, and whether it goes on then until a signal ends it. It is asked until all ranks stand where they stay."""
    timeline.unlink(missing_ok=True)
    with said.open("w") as to:
        running = subprocess.Popen(words, stdout=to, stderr=to, preexec_fn=with_signals)  # pylint: disable=subprocess-popen-preexec-fn
    steady = answered(running, lambda: f"wzrun: SIGQUIT: here the ranks stand:\n{STANDING}" in plain(said.read_text()))
    running.send_signal(number)
    status = ended(running)
    told = plain(said.read_text()).endswith(f"wzrun: {number.name} ends the run: here the ranks stand:\n{STANDING}")
    return steady, steady and told and status == 128 + number and timeline.exists()


def check_signals(binaries, program, out):
    """SIGQUIT is answered, and the run goes on until SIGINT or SIGTERM."""
    failed, said, timeline = 0, out / "loops.said", out / "loops.json"
    for number in (signal.SIGINT, signal.SIGTERM):
        words = [str(binaries / "wzrun"), "-n", "5", "--timeline", str(timeline), str(program), "computing"]
        for _ in range(MOST_TRIES):
            steady, right = end_by(number, words, said, timeline)
            if right or not steady:
                break
        failed += reported(right, f"loops computing, {number.name}:\n{said.read_text()[-3000:]}")
    return failed


def check(binaries, out):
    program = compiled(binaries, HERE / "loops.c", out / "loops")
    failed = check_loops(binaries, program) + check_warned(binaries, program, out / "loops.said") + check_timeout(binaries, program, out / "loops.job") + check_signals(binaries, program, out)
    print("check.py: it is told where ranks stand" if failed == 0 else f"check.py: {failed} runs of loops.c failed")
    return failed
