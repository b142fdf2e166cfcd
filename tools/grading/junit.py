"""The results as a JUnit XML text: a suite for each submission, a case for each test."""

from junitparser import Error, Failure, JUnitXml, TestCase, TestSuite

from grading.marks import Marks, in_short
from grading.outputs import shown
from grading.run import Result
from grading.said import further

FAILURES = ("wrong output", "wrong status", "leaks")


def case(result: Result) -> TestCase:
    """A test. A wrong answer is a failure, and what was stopped or not run an error."""
    made = TestCase(shown(result.test), classname=shown(result.submission))
    if not result.passed:
        fault = (Failure if result.verdict in FAILURES else Error)(shown(in_short(result)), result.verdict)
        fault.text = shown("\n".join([*result.difference, *(further(result.report) if result.report else [])]))
        made.result = [fault]
    return made


def junit(every: list[Marks]) -> JUnitXml:
    """The whole text, which its `write` puts into a file."""
    made = JUnitXml("heapsafe")
    for marked in every:
        suite = TestSuite(shown(marked.submission.name))
        suite.add_testcases(case(result) for result in marked.results)
        made.add_testsuite(suite)
    made.update_statistics()
    return made
