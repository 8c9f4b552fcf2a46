#!/usr/bin/env python3
"""Makes a job text of what the recorder wrote, one file for each rank:

    recorder/record/join.py FOLDER > job.text
    recorder/record/join.py --from P FOLDER    only what stands at place P or after it on each communicator

Each command has a comment above it that says where the call stands in the program. What had to be left out stands on standard error and
in the text's first lines; the status is then 3. Of a program that hung or was killed, what a rank never reached is added as it must be if
the ranks agree, and said to be so. Where no text can be made, its only line says why, and the status is 2, as it is where the text couldn't be written.
"""

import argparse
import sys

from differences import Contexts, Judge
from job_text import Job, why_not_judged
from messages import Messages
from output import FAILED, run_reporting, write_out
from program_places import Places
from records import Unreadable, read_records
from stalls import doubts
from standing import limits_of, ranks_unseen, read_nows


def give_up(why):
    write_out(f"# no text: {why}\n")
    print(why, file=sys.stderr)
    return FAILED


def main():
    parser = argparse.ArgumentParser(description="Makes a job text of a folder of records.", epilog="status 0: the whole text; 2: no text, or it couldn't be written; 3: with something left out")
    parser.add_argument("folder")
    parser.add_argument("--from", dest="first", type=int, default=0, metavar="P", help="leave out what stands before place P")
    words = parser.parse_args()
    try:
        records = read_records(words.folder)
    except Unreadable as why:
        return give_up(str(why))
    places = Places(records)
    contexts = Contexts(records, places)
    nows = read_nows(words.folder, records)
    judge = Judge(records, contexts, ranks_unseen(nows))
    notes = limits_of(records, nows) + doubts(records, contexts)
    if not why_not_judged(records, judge.unseen):
        notes += Messages(records, contexts, places, nows).notes()
    job = Job(records, contexts, places, judge, notes=notes)
    lines = job.fitting_text(words.first)
    if lines is None:
        return give_up(f"{words.folder}: " + "; ".join(job.notes))
    notes = job.incomplete() + job.notes
    for note in notes:
        print(f"{words.folder}: {note}", file=sys.stderr)
    write_out("\n".join(job.whole_lines(lines)) + "\n")
    return 3 if any(note.startswith("left out") for note in notes) else 0


if __name__ == "__main__":
    sys.exit(run_reporting("join.py", main))
