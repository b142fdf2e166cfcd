"""The words of the command line, and what is done by them."""

import argparse
import importlib.util
import os
import shlex
import subprocess
import sys
from collections.abc import Callable
from concurrent.futures import ThreadPoolExecutor
from contextlib import nullcontext
from itertools import product
from pathlib import Path

from grading.folder import NUMBERS, SETTINGS, WORDS, Folder, GradeError, Submission, Test, foreign_includes, read_folder
from grading.outputs import shown
from grading.results import collected, line_of, write_whole
from grading.run import Result, run

TOP = Path(__file__).resolve().parents[2]
PACKAGES = {"rich": "python3-rich", "junitparser": "python3-junitparser", "jinja2": "python3-jinja2"}


def parser() -> argparse.ArgumentParser:
    """The words that are understood."""
    made = argparse.ArgumentParser(prog="grade", description="Runs submissions of C by HeapSafe on tests, and reports on them.", allow_abbrev=False)
    made.add_argument(
        "folder",
        type=Path,
        metavar="FOLDER",
        help="has submissions/NAME.c or submissions/NAME/*.c, tests/NAME.out, and maybe tests/NAME.in, tests/NAME.status, grade.toml",
    )
    made.add_argument("only", nargs="*", default=[], help=argparse.SUPPRESS)
    what = made.add_mutually_exclusive_group()
    what.add_argument(
        "--jobs", action="store_true", help="run nothing, and write a command for each run, as GNU parallel takes them; each writes one line"
    )
    what.add_argument("--collect", metavar="FILE", help="run nothing, and report on the lines that these commands wrote; - is the input")
    what.add_argument("--run", action="store_true", help=argparse.SUPPRESS)
    made.add_argument("--html", type=Path, metavar="FILE", help="the page (FOLDER/report.html)")
    made.add_argument("--junit", type=Path, metavar="FILE", help="the JUnit XML file (FOLDER/report.xml)")
    made.add_argument("--at-once", type=int, metavar="N", default=os.cpu_count(), help="runs at a time (as many as there are processors)")
    made.add_argument("--heapsafe", metavar="PROGRAM", default=str(TOP / "heapsafe"), help="the program HeapSafe (that of this repository)")
    settings = made.add_argument_group("settings, in place of those of FOLDER/grade.toml")
    for name in NUMBERS:
        settings.add_argument(f"--{name}", type=int, metavar="N", help=f"{' to '.join(f'{it:,}' for it in NUMBERS[name])}")
    for name, words in WORDS.items():
        settings.add_argument(f"--{name}", choices=words)
    return made


def chosen(words: argparse.Namespace) -> dict:
    """The settings that the command line gives."""
    return {name: value for name in SETTINGS if (value := getattr(words, name)) is not None}


def look_for_packages() -> None:
    """Says which packages are missing, before anything is run."""
    if missing := [package for module, package in PACKAGES.items() if not importlib.util.find_spec(module)]:
        raise GradeError(f"{sys.executable} lacks {', '.join(missing)}: apt-get install {' '.join(missing)} gives them to /usr/bin/python3")


def look_for_heapsafe(program: str) -> str:
    """The path of the program, which is built here where it is not."""
    path = os.path.abspath(program) if os.path.dirname(program) else program
    try:
        told = subprocess.run([path, "--version"], stdin=subprocess.DEVNULL, stdout=subprocess.DEVNULL)
    except OSError as error:
        raise GradeError(f"{program}: {error.strerror}; --heapsafe names the program") from error
    if told.returncode:
        raise GradeError(f"{program}: it does not tell its version")
    return path


def job(words: argparse.Namespace, program: str, folder: Folder, submission: str, test: str) -> str:
    """The command that makes one run."""
    settings = [f"--{name}={value}" for name, value in chosen(words).items()]
    return shlex.join([str(TOP / "tools" / "grade"), "--run", f"--heapsafe={program}", *settings, "--", str(folder.path), submission, test])


def print_jobs(words: argparse.Namespace, folder: Folder) -> int:
    """Writes the commands of all runs."""
    program = look_for_heapsafe(words.heapsafe)
    for submission, test in product(folder.submissions, folder.tests):
        print(job(words, program, folder, submission.name, test.name))
    return 0


def print_run(words: argparse.Namespace, folder: Folder) -> int:
    """Makes one run, and writes its line."""
    found = [pair for pair in product(folder.submissions, folder.tests) if [it.name for it in pair] == words.only]
    if not found:
        raise GradeError(f"{folder.path}: there is no run of {' on '.join(words.only)}")
    print(line_of(run(words.heapsafe, folder, *found[0])))
    return 0


def run_all(words: argparse.Namespace, program: str, folder: Folder, done: Callable[[], None]) -> list[Result]:
    """The results of all runs, in their order; `done` is called behind each."""

    def one(pair: tuple[Submission, Test]) -> Result:
        result = run(program, folder, *pair)
        done()
        return result

    pool = ThreadPoolExecutor(max(1, words.at_once))
    try:
        return list(pool.map(one, product(folder.submissions, folder.tests)))
    finally:
        pool.shutdown(cancel_futures=True)


def collect(folder: Folder, name: str) -> list[Result]:
    """The results that stand in a file."""
    try:
        with nullcontext(sys.stdin) if name == "-" else open(name, encoding="utf-8", errors="replace") as lines:
            return collected(folder, name, lines)
    except OSError as error:
        raise GradeError(f"{name}: {error.strerror}") from error


def tell_of(folder: Folder) -> None:
    """Says what a teacher may have to look at before the marks."""
    for it in folder.aside:
        print(f"grade: left aside, since it is neither a .c file nor a folder: {it}", file=sys.stderr)
    for submission in folder.submissions:
        for name in foreign_includes(submission):
            print(f"grade: {submission.name} includes {shown(name)}, which it does not hold", file=sys.stderr)


def said_of_unjudged(results: list[Result]) -> int:
    """Says which runs tell nothing about a submission, and gives the status."""
    if results:
        first, runs = results[0], "1 run is" if len(results) == 1 else f"{len(results)} runs are"
        print(f"grade: {runs} not judged, as {first.submission} on test {first.test}: {first.note or first.verdict}", file=sys.stderr)
    return 1 if results else 0


def report(words: argparse.Namespace, folder: Folder) -> int:
    """Makes all runs, or takes their results, and writes the reports."""
    look_for_packages()
    from grading.junit import junit  # (these want packages, which a single run does without)
    from grading.marks import marks, summary
    from grading.page import page
    from grading.table import bar, print_table

    html, xml = words.html or words.folder / "report.html", words.junit or words.folder / "report.xml"
    for path in (html, xml):
        if path.is_dir() or not os.access(path.parent, os.W_OK):
            raise GradeError(f"{path}: cannot be written")
    tell_of(folder)
    if words.collect:
        results = collect(folder, words.collect)
    else:
        program = look_for_heapsafe(words.heapsafe)
        with bar(len(folder.submissions) * len(folder.tests)) as done:
            results = run_all(words, program, folder, done)
    every = marks(folder, results)
    text, cases = page(folder, results), junit(every)
    write_whole(html, lambda path: path.write_text(text, encoding="utf-8"))
    write_whole(xml, lambda path: cases.write(str(path), pretty=True))
    print_table(folder, every)
    print(f"\n{summary(folder, results)}\n{html}, {xml}")
    return said_of_unjudged([it for it in results if not it.is_judged])


def do(words: argparse.Namespace) -> int:
    """Does what the words ask for."""
    folder = read_folder(words.folder, chosen(words))
    if words.run:
        return print_run(words, folder)
    return print_jobs(words, folder) if words.jobs else report(words, folder)


def main() -> int:
    """The whole program: its status is 0 where all runs are judged, 1 where some are not, and 2 where something is to be mended first."""
    for stream in (sys.stdout, sys.stderr):
        stream.reconfigure(errors="backslashreplace")
    made = parser()
    words = made.parse_args()
    if len(words.only) != (2 if words.run else 0):
        made.error("one FOLDER is wanted")
    if words.at_once < 1:
        made.error("--at-once wants a number from 1 on")
    try:
        return do(words)
    except GradeError as error:
        print(f"grade: {error}", file=sys.stderr)
        return 2
    except BrokenPipeError:
        sys.stdout = None
        return 2
    except KeyboardInterrupt:
        print("grade: ended; no report was written", file=sys.stderr)
        return 130
