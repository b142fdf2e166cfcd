"""What the results of a submission come to."""

from dataclasses import dataclass

from grading.folder import Folder, Submission
from grading.run import Result
from grading.said import headline, leak_words


@dataclass(frozen=True)
class Marks:
    """A submission with its results, in the order of the tests."""

    submission: Submission
    results: tuple[Result, ...]
    points: int

    @property
    def passed(self) -> int:
        return sum(it.passed for it in self.results)


def marks(folder: Folder, results: list[Result]) -> list[Marks]:
    """The marks of all submissions, from the results of all runs in their order."""
    found, many = [], len(folder.tests)
    for number, submission in enumerate(folder.submissions):
        own = tuple(results[number * many : (number + 1) * many])
        found.append(Marks(submission, own, sum(test.points for test, result in zip(folder.tests, own) if result.passed)))
    return found


def most_points(folder: Folder) -> int:
    return sum(test.points for test in folder.tests)


def in_short(result: Result) -> str:
    """A result in some words."""
    report = result.report
    if report and not report["own"]:
        return headline(report)
    if report and report["leaks"] and result.verdict in ("passed", "leaks"):
        return leak_words(report["leaks"][0])
    return result.note or result.verdict


def first_word(marked: Marks) -> str:
    """What is said of a submission in one line: the first test that is not passed, or else the first leak."""
    for result in marked.results:
        if not result.passed:
            return f"test {result.test}: {in_short(result)}"
    return next((it for it in map(in_short, marked.results) if it != "passed"), "")


def summary(folder: Folder, results: list[Result]) -> str:
    """One line on all runs."""
    passed = sum(it.passed for it in results)
    counted = [(len(folder.submissions), "submission"), (len(folder.tests), "test")]
    parts = [f"{number} {word}{'' if number == 1 else 's'}" for number, word in counted]
    return f"{', '.join(parts)}: {passed} of {len(results)} runs passed"
