"""The results as one HTML page: a table of all runs, and what came of each."""

from collections.abc import Iterable
from dataclasses import dataclass
from pathlib import Path

from jinja2 import Environment, FileSystemLoader, StrictUndefined

from grading.folder import Folder, Submission, foreign_includes, has_points
from grading.marks import Marks, in_short, marks, most_points, summary
from grading.outputs import shown
from grading.run import Result
from grading.said import further, headline

AROUND, CHARACTERS = 3, 200
FAILED = ("wrong output", "wrong status", "leaks")
REFUSED = ("preprocess", "lex", "syntax", "type", "conflict", "cannot read", "text too long", "no C file")


@dataclass(frozen=True)
class Line:
    """A line of a source that is shown, and whether it is the one that is meant."""

    number: int
    text: str
    is_meant: bool


@dataclass(frozen=True)
class Detail:
    """What came of a run, for all tests in which the same came of it."""

    anchor: str
    tests: list[str]
    kind: str
    verdict: str
    said: str
    lines: list[Line]
    further: list[str]
    difference: list[str]


@dataclass(frozen=True)
class Cell:
    """A run in the table: where its detail is, and what is said of it in short."""

    anchor: str
    kind: str
    verdict: str
    said: str


@dataclass(frozen=True)
class Row:
    """A submission."""

    name: str
    anchor: str
    passed: int
    points: int
    includes: list[str]
    cells: list[Cell]
    details: list[Detail]


def kind_of(result: Result) -> str:
    """Which of the five kinds of ends it is that have a colour."""
    if result.passed:
        return "leaky" if result.report and result.report["leaks"] else "passed"
    if not result.is_judged:
        return "unknown"
    if result.verdict in FAILED:
        return "failed"
    return "refused" if result.verdict in REFUSED else "stopped"


def word_of(result: Result) -> str:
    """The verdict, as the table has it."""
    return "passed, leaks" if kind_of(result) == "leaky" else result.verdict


def source_lines(submission: Submission, report: dict) -> list[Line]:
    """The line that is meant with some around it. Of a text that the submission does not hold only the line that HeapSafe says."""
    number = report["line"]
    if number is None:
        return []
    name = report["file"].removeprefix("./") if report["file"] else None
    if name in submission.texts:
        try:
            text = (submission.place / name).read_bytes().decode("utf-8", "replace").removesuffix("\n").split("\n")
        except OSError:
            text = []
        if number <= len(text):
            near = range(max(1, number - AROUND), min(len(text), number + AROUND) + 1)
            return [Line(it, shown(text[it - 1].rstrip("\r"))[:CHARACTERS], it == number) for it in near]
    return [Line(number, shown(report["source"]), True)] if report["source"] is not None else []


def detail(anchor: str, submission: Submission, results: list[Result]) -> Detail:
    """What is shown of results that tell the same."""
    result = results[0]
    report = result.report
    said = headline(report) if report else ""
    told = further(report) if report else []
    return Detail(
        anchor,
        [shown(it.test) for it in results],
        kind_of(result),
        word_of(result),
        shown(said),
        source_lines(submission, report) if report and not report["own"] else [],
        [shown(it) for it in ([result.note] if result.note else []) + told],
        [shown(it) for it in result.difference],
    )


def grouped(results: Iterable[Result]) -> list[list[Result]]:
    """The results of a submission, those together that tell the same."""
    groups: list[list[Result]] = []
    for result in results:
        told = result.verdict, result.report, result.note, result.difference
        for group in groups:
            if told == (group[0].verdict, group[0].report, group[0].note, group[0].difference):
                group.append(result)
                break
        else:
            groups.append([result])
    return groups


def row(number: int, marked: Marks) -> Row:
    """A submission of the page. Tests on which the same came of it share one detail."""
    cells, details = {}, []
    for part, group in enumerate(grouped(marked.results), 1):
        anchor = f"s{number}-{part}"
        details.append(detail(anchor, marked.submission, group))
        for it in group:
            cells[it.test] = Cell(anchor, kind_of(it), word_of(it), shown(f"test {it.test}: {in_short(it)}"))
    in_order = [cells[it.test] for it in marked.results]
    includes = [shown(it) for it in foreign_includes(marked.submission)]
    return Row(shown(marked.submission.name), f"s{number}", marked.passed, marked.points, includes, in_order, details)


def page(folder: Folder, results: list[Result]) -> str:
    """The whole page."""
    rows = [row(number, marked) for number, marked in enumerate(marks(folder, results), 1)]
    made = Environment(
        loader=FileSystemLoader(Path(__file__).parent), autoescape=True, undefined=StrictUndefined, trim_blocks=True, lstrip_blocks=True
    )
    return made.get_template("page.html").render(
        title=shown(folder.path.name),
        summary=summary(folder, results),
        tests=[(shown(it.name), it.points) for it in folder.tests],
        has_points=has_points(folder),
        most_points=most_points(folder),
        rows=rows,
    )
