"""The command wzrecord: records an MPI program with its own library, and reports what is wrong with it."""

import argparse
import os
import signal
import subprocess
import sys

import join
import text_places
from launcher import HOME, WORDS, Impossible, Launch, recorder_for
from output import colljob_of, write_file, write_out
from page import page_of_files, page_of_report
from records import Unreadable
from running import page_of_command
from report import CLEAN, FAULT, OPEN, Report
from watch import Ended, Teller, Watch, end, start

# No fault was found, and the program itself ended badly.
PROGRAM_FAILED = 4

STATUSES = """status:
  0  no fault, and the program ended with status 0
  1  a fault, ranks that wait for one another, or calls that let runs stall
  2  nothing was recorded, or nothing could be read or written
  3  nothing found, but something is open: an unfinished record, or a sentence that begins with "not sure"
  4  no fault, but the program ended with another status than 0, which a line names"""


class Interrupted(Exception):
    """That a signal asks for the end."""

    def __init__(self, number):
        super().__init__(number)
        self.number = number


def seconds(word):
    number = float(word)
    if not 0 <= number < 1e9:
        raise ValueError
    return number


def parser_of_run():
    parser = argparse.ArgumentParser("wzrecord", usage="wzrecord [OPTIONS] LAUNCHER ..\n       wzrecord report [OPTIONS] FOLDER\n       wzrecord text [--from P] FOLDER\n       wzrecord page [OPTIONS] OUT [COMMAND ..]", allow_abbrev=False,
                                     description="Records an MPI program with its own library, Open MPI or MPICH, and reports what is wrong with it.",
                                     epilog=STATUSES, formatter_class=argparse.RawDescriptionHelpFormatter)
    parser.add_argument("-V", "--version", action="version", version=f"wzrecord {version()}")
    parser.add_argument("-o", "--out", metavar="FOLDER", help="where the records are written; it must be empty or not there. Without it: wzrecord-N in this folder, which all ranks must see")
    parser.add_argument("--hang", type=seconds, default=10, metavar="SECONDS", help="ends a run whose ranks have waited for one another for so long (10); 0: never")
    parser.add_argument("--timeout", type=seconds, default=0, metavar="SECONDS", help="ends the run after that, and reports where the ranks stand")
    parser.add_argument("--library", choices=list(WORDS), help="the MPI library, where the launcher doesn't say it")
    parser.add_argument("--recorder", metavar="FILE", help="the librecord.so that is preloaded, in place of the one that is found or built")
    parser.add_argument("-q", "--quiet", action="store_true", help="says nothing of a run without a fault")
    add_report_words(parser)
    parser.add_argument("launcher", nargs=argparse.REMAINDER, metavar="LAUNCHER", help="the command that starts the program, as `mpirun -n 4 ./app`")
    return parser


def add_report_words(parser):
    parser.add_argument("--format", choices=["text", "json"], default="text", help="how the report is written: for a reader, or an object in each line (text)")
    parser.add_argument("--report", metavar="OUT", help="writes the report to the file OUT in place of standard error, or output for `report`")
    parser.add_argument("--html", metavar="OUT", help="writes a page to the file OUT: what was found, who waits for whom, a timeline and tables, for any browser")
    parser.add_argument("--colljob", default=colljob_of(), metavar="PROGRAM", help="the program that explains stalls, in place of the installed one")


def parser_of_report():
    parser = argparse.ArgumentParser("wzrecord report", description="Reports what is wrong with recorded programs.", epilog=STATUSES, allow_abbrev=False,
                                     formatter_class=argparse.RawDescriptionHelpFormatter)
    add_report_words(parser)
    parser.add_argument("folder", metavar="FOLDER", help="a folder of records, or a text that was made of one")
    return parser


def version():
    """That of the programs: the file beside the installed recorders has it."""
    try:
        with open(os.path.join(HOME, "version")) as file:
            return file.read().strip()
    except OSError:
        return "of a checkout"


# Reports


def reports_of(folder, colljob, teller, first=None):
    """The report of a folder, and those of the programs that this one started."""
    yield first or Report(folder, colljob, teller.progress)
    teller.clear()
    for name in sorted(os.listdir(folder)):
        if name.startswith("started.") and os.path.isdir(os.path.join(folder, name)):
            try:
                yield from reports_of(os.path.join(folder, name), colljob, teller)
            except Unreadable:
                continue  # what was started hasn't come to MPI_Init


def worst(statuses):
    return next((it for it in (FAULT, OPEN) if it in statuses), CLEAN)


def write_reports(reports, words, to_error):
    text = "".join(it.json_lines() if words.format == "json" else it.text() for it in reports)
    if words.report:
        write_file(words.report, text)
    elif to_error:
        sys.stderr.write(text)
        sys.stderr.flush()
    else:
        write_out(text)


def write_pages(reports, path):
    """Writes the page of the first report, and beside it those of the programs that were started."""
    if not path:
        return
    stem, ending = os.path.splitext(path)
    for number, it in enumerate(reports):
        write_file(path if not number else f"{stem}-{number}{ending}", page_of_report(it))


def parser_of_page():
    parser = argparse.ArgumentParser("wzrecord page", allow_abbrev=False, description="Makes a page of what wzrun or colljob wrote, for any browser.")
    parser.add_argument("--timeline", metavar="FILE", help="what --timeline of wzrun or colljob run wrote")
    parser.add_argument("--stats", metavar="FILE", help="what --stats of these wrote")
    parser.add_argument("--words", metavar="FILE", help="what the program wrote to standard error")
    parser.add_argument("--explain", metavar="FILE", help="what `colljob explain --format json` wrote")
    parser.add_argument("--status", type=int, help="the program's status")
    parser.add_argument("--title", help="the page's first line")
    parser.add_argument("out", metavar="OUT", help="the page")
    parser.add_argument("command", nargs=argparse.REMAINDER, metavar="COMMAND", help="in place of files: `wzrun ..`, which is run as it is; the status is its own")
    return parser


def make_page(arguments):
    parser = parser_of_page()
    words = parser.parse_args(arguments)
    command = words.command[1:] if words.command[:1] == ["--"] else words.command
    if command:
        status, text = page_of_command(command, words.title)
        write_file(words.out, text)
        return status
    if not (words.timeline or words.stats or words.words or words.explain):
        parser.error("there is neither a file nor a command of which a page is made")
    write_file(words.out, page_of_files(words.title or "A run", words.timeline, words.stats, words.words, words.explain, words.status))
    return CLEAN


def report(arguments):
    words = parser_of_report().parse_args(arguments)
    if os.path.isdir(words.folder):
        reports = list(reports_of(words.folder, words.colljob, Teller(False)))
        write_reports(reports, words, False)
        write_pages(reports, words.html)
        return worst([it.status for it in reports])
    lines, status = text_places.tell(words.folder, words.colljob)
    write_out("".join(f"{line}\n" for line in lines))
    return status


# Runs


def fresh_folder(named):
    """A new folder for the records, or one that is empty."""
    if named:
        try:
            os.makedirs(named, exist_ok=True)
        except FileExistsError as why:
            raise Impossible(f"{named}: not a folder") from why
        if os.listdir(named):
            raise Impossible(f"{named}: not empty: records of two runs don't belong together")
        return os.path.abspath(named)
    number = 1
    while True:
        try:
            os.mkdir(f"wzrecord-{number}")
            return os.path.abspath(f"wzrecord-{number}")
        except FileExistsError:
            number += 1


def shorter_path(path):
    return min(os.path.relpath(path), path, key=len)


def ended_words(status):
    if status < 0:
        return f"the launcher was ended by signal {-status}"
    return f"the program ended with status {status}"


def variables_of(recorder, folder):
    preloaded = os.environ.get("LD_PRELOAD")
    return {"LD_PRELOAD": f"{recorder}:{preloaded}" if preloaded else recorder, "RECORD_DIR": folder}


def watched(run, folder, words, teller):
    """Waits for a run. Gives why it was ended, and what was found of it by then, if it was."""
    def interrupt(number, _):
        raise Interrupted(number)
    for number in (signal.SIGINT, signal.SIGTERM, signal.SIGHUP):
        signal.signal(number, interrupt)
    why, found, number = None, None, signal.SIGTERM
    try:
        Watch(run, folder, words.hang, words.timeout, words.colljob, teller).wait()
    except Ended as ended:
        why, found = ended.why, ended.report
    except Interrupted as signalled:
        why, number = f"ended by {signal.Signals(signalled.number).name}", signalled.number
    finally:
        # A second signal ends the waiting for the launcher's end.
        for it in (signal.SIGINT, signal.SIGTERM, signal.SIGHUP):
            signal.signal(it, signal.SIG_DFL)
        end(run, number)
        teller.clear()
    return why, found


def record(arguments):
    parser = parser_of_run()
    words = parser.parse_args(arguments)
    command = words.launcher[1:] if words.launcher[:1] == ["--"] else words.launcher
    if not command:
        parser.error("there is no LAUNCHER, as `mpirun -n 4 ./app`")
    teller = Teller(words.quiet)
    launch = Launch(command, words.library)
    recorder = os.path.abspath(words.recorder) if words.recorder else recorder_for(launch, teller.tell)
    if not os.path.exists(recorder):
        raise Impossible(f"{recorder}: no such file")
    folder = fresh_folder(words.out)
    variables = variables_of(recorder, folder)
    run = start(launch.command(variables), launch.environment(variables))
    why, found = watched(run, folder, words, teller)
    return finish(run, folder, words, teller, why, found)


def finish(run, folder, words, teller, why, found):
    """Writes the report of a run that is over, and gives the status."""
    shown = shorter_path(folder)
    if not os.listdir(folder):
        os.rmdir(folder)
        raise Impossible(f"nothing was recorded ({why or ended_words(run.returncode)}): no rank came through MPI_Init, or the program has its MPI library linked in")
    reports = list(reports_of(shown, words.colljob, teller, found))
    status = worst([it.status for it in reports])
    is_bad = run.returncode != 0 and not why
    if why or is_bad:
        teller.tell(why or ended_words(run.returncode))
    if status or is_bad or not words.quiet or words.report:
        write_reports(reports, words, True)
    write_pages(reports, words.html)
    return PROGRAM_FAILED if status == CLEAN and is_bad else status


def main():
    arguments = sys.argv[1:]
    if arguments[:1] == ["report"]:
        return report(arguments[1:])
    if arguments[:1] == ["page"]:
        return make_page(arguments[1:])
    if arguments[:1] == ["text"]:
        sys.argv[1:] = arguments[1:]
        return join.main()
    try:
        return record(arguments)
    except subprocess.SubprocessError as why:
        raise Impossible(str(why)) from why
