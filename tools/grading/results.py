"""Results as lines of JSON: what a run on another machine writes, and what is read back."""

import json
from collections.abc import Callable
from dataclasses import asdict
from itertools import product
from pathlib import Path
from typing import TextIO

from grading.folder import Folder, GradeError, digest
from grading.run import Result
from grading.said import is_report

FORM = "heapsafe grade 1"


def line_of(result: Result) -> str:
    """A result as one line."""
    return json.dumps({"form": FORM, **asdict(result)})


def result_of(line: str) -> Result | None:
    """The result that a line tells, or None where it tells none."""
    try:
        told = json.loads(line)
        form = told.pop("form")
        told["difference"] = tuple(told["difference"])
        result = Result(**told)
    except (ValueError, TypeError, KeyError, AttributeError):
        return None
    words = [result.submission, result.test, result.of, result.verdict, *result.difference]
    is_one = form == FORM and all(isinstance(it, str) for it in words)
    is_one = is_one and (result.report is None or is_report(result.report))
    return result if is_one and isinstance(result.note, str | None) else None


def read_results(name: str, lines: TextIO) -> dict[tuple[str, str], Result]:
    """The results of a file, by submission and test. One that is not judged gives way to one that is, as of a second try."""
    found: dict[tuple[str, str], Result] = {}
    for number, line in enumerate(lines, 1):
        result = result_of(line)
        if result is None:
            raise GradeError(f"{name}:{number}: this line is no result of a run")
        of = result.submission, result.test
        before = found.get(of, result)
        if before.is_judged and result.is_judged and before != result:
            raise GradeError(f"{name}:{number}: {of[0]} on test {of[1]} has another result above")
        found[of] = before if before.is_judged else result
    return found


def collected(folder: Folder, name: str, lines: TextIO) -> list[Result]:
    """The results of all runs of a folder, in their order; one that is not among the lines is `missing`."""
    found = read_results(name, lines)
    results = []
    for submission, test in product(folder.submissions, folder.tests):
        of = digest(folder.settings, submission, test)
        missing = Result(submission.name, test.name, of, "missing", note="no result of this run came back")
        result = found.pop((submission.name, test.name), missing)
        if result.of != of:
            raise GradeError(f"{name}: the result of {submission.name} on test {test.name} is one of other texts or settings")
        results.append(result)
    if found:
        other = next(iter(found))
        raise GradeError(f"{name}: there is no run of {other[0]} on test {other[1]} here")
    return results


def write_whole(path: Path, write: Callable[[Path], object]) -> None:
    """Has a file written whole or not at all: under another name, which it then gives up."""
    new = path.with_name(f".{path.name}.new")
    try:
        write(new)
        new.replace(path)
    except OSError as error:
        raise GradeError(f"{path}: {error.strerror}") from error
    finally:
        new.unlink(missing_ok=True)
