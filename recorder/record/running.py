"""The page of a command of wzrun: it is run as it is, with its timeline and tables in files that are gone afterwards."""

import os
import subprocess
import sys
import tempfile

from launcher import Impossible
from page import page_of_files


# How the tables of `wzrun --stats` begin.
TABLES = b"wzrun: collectives that were posted"


def page_of_command(command, title=None):
    """Runs a command, and gives its status with its page."""
    name = os.path.basename(command[0])
    if name == "colljob":
        raise Impossible("colljob makes its pages itself: `colljob run --html OUT ..` and `colljob explain --html OUT ..`")
    if name != "wzrun":
        raise Impossible(f"{name}: a page is made of `wzrun ..`")
    with tempfile.TemporaryDirectory(prefix="wzrecord-") as folder:
        status, files = run_wzrun(command, folder)
        return status, page_of_files(title or " ".join([name, *command[1:]]), status=status, **files)


def started(command, **how):
    try:
        return subprocess.Popen(command, **how)
    except OSError as why:
        raise Impossible(f"{command[0]}: {why.strerror}") from why


def ended(run):
    """A run's status, as a shell has it."""
    try:
        status = run.wait()
    except KeyboardInterrupt:
        status = run.wait()
    return 128 - status if status < 0 else status


def run_wzrun(command, folder):
    """What it says goes to standard error as it comes, and is kept. The tables are shown only where they were asked for."""
    files = {"timeline": os.path.join(folder, "timeline"), "words": os.path.join(folder, "words"), "tables": os.path.join(folder, "tables")}
    environment = dict(os.environ, WZ_TIMELINE=files["timeline"], WZ_STATS="1")
    run = started(command, env=environment, stderr=subprocess.PIPE)
    said, tables = [], []
    is_asked = "--stats" in command or os.environ.get("WZ_STATS", "0") not in ("", "0")
    for line in run.stderr:
        lines = tables if tables or line.startswith(TABLES) else said
        lines.append(line)
        if lines is said or is_asked:
            sys.stderr.buffer.write(line)
            sys.stderr.buffer.flush()
    status = ended(run)
    words = [line for line in said if line.startswith((b"wzrun:", b"  "))]
    for key, lines in (("words", words), ("tables", tables)):
        with open(files[key], "wb") as file:
            file.writelines(lines)
    return status, files
