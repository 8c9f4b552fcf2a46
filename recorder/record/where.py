#!/usr/bin/env python3
"""Reports what is wrong with a recorded program, and where:

    recorder/record/where.py FOLDER    of the records in a folder
    recorder/record/where.py TEXT      of a text that join.py made of them, alone

Of a folder it reports first what isn't there: which ranks didn't come to MPI_Finalize, and where each of them stands. Then come the first
place of each communicator, window and file at which the ranks' calls differ, over all calls, and ranks that wait for one another. Where
nothing of that is found, it says whether the collective calls let the ranks wait for one another, also where only another library lets them:
MPI lets a program rely on nothing better. That is found over all calls too, and explained by `colljob explain --strict` of a text of them.

The oracle is ./colljob at the top of the repository, or the program that --colljob or the variable COLLJOB names. The status is 0 where
all is there and no fault, 1 where there is a fault or a wait without end, 2 where nothing could be read or the report couldn't be written,
and 3 where nothing was found in what is there, and something isn't.
"""

import argparse
import os
import sys

import text_places
from output import colljob_of, run_reporting, write_out
from report import Report


def judge(path, program, is_json=False):
    """Writes the report of a folder or a text, and gives its status."""
    if os.path.isdir(path):
        report = Report(path, program)
        write_out(report.json_lines() if is_json else report.text())
        return report.status
    lines, status = text_places.tell(path, program)
    write_out("".join(f"{line}\n" for line in lines))
    return status


def main():
    parser = argparse.ArgumentParser(description="Reports what is wrong with a recorded program, and where.", epilog="status 0: no fault; 1: a fault or a wait without end; 2: nothing to read, or the report couldn't be written; 3: nothing found, and something isn't there")
    parser.add_argument("folder", metavar="FOLDER-OR-TEXT")
    parser.add_argument("--colljob", default=colljob_of(), metavar="PROGRAM")
    words = parser.parse_args()
    return judge(words.folder, words.colljob)


if __name__ == "__main__":
    sys.exit(run_reporting("where.py", main))
