"""The table of all submissions, and the bar while they run."""

import sys
from collections.abc import Callable, Iterator
from contextlib import contextmanager

from rich.box import SIMPLE_HEAD
from rich.console import Console
from rich.progress import BarColumn, MofNCompleteColumn, Progress, TimeRemainingColumn
from rich.table import Table
from rich.text import Text

from grading.folder import Folder, has_points
from grading.marks import Marks, first_word, most_points
from grading.outputs import shown

WIDE = 1_000


def row(folder: Folder, marked: Marks) -> list[Text]:
    """The cells of a submission."""
    many = len(folder.tests)
    style = "green" if marked.passed == many else "red" if marked.passed == 0 else "yellow"
    cells = [Text(shown(marked.submission.name)), Text(f"{marked.passed} of {many}", style)]
    if has_points(folder):
        cells.append(Text(f"{marked.points} of {most_points(folder)}", style))
    return [*cells, Text(shown(first_word(marked)))]


def table(folder: Folder, every: list[Marks]) -> Table:
    """A line for each submission."""
    made = Table(box=SIMPLE_HEAD, show_edge=False, pad_edge=False)
    made.add_column("submission", overflow="fold")
    made.add_column("tests", no_wrap=True)
    if has_points(folder):
        made.add_column("points", no_wrap=True)
    made.add_column("first to mend", overflow="fold")
    for marked in every:
        made.add_row(*row(folder, marked))
    return made


def print_table(folder: Folder, every: list[Marks]) -> None:
    """Writes the table to the output, without blanks at the ends of lines. Only a terminal has a width."""
    console = Console(width=None if sys.stdout.isatty() else WIDE)
    with console.capture() as caught:
        console.print(table(folder, every))
    for line in caught.get().splitlines():
        print(line.rstrip())


@contextmanager
def bar(total: int) -> Iterator[Callable[[], None]]:
    """A bar on the error stream, where that is a terminal; what it gives is called when a run is done."""
    if not sys.stderr.isatty():
        yield lambda: None
        return
    with Progress(BarColumn(), MofNCompleteColumn(), TimeRemainingColumn(), console=Console(stderr=True), transient=True) as drawn:
        task = drawn.add_task("", total=total)
        yield lambda: drawn.advance(task)
