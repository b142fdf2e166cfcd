"""One run: a submission on a test, by `heapsafe run .. --json`, and the verdict on it."""

import json
import os
import selectors
import subprocess
import time
from dataclasses import dataclass
from pathlib import Path

from grading.folder import Folder, GradeError, Settings, Submission, Test, bytes_of, digest
from grading.outputs import difference, first_line, normal
from grading.said import is_report

MORE_BYTES = 1_000_000
REPORT_BYTES = 16_000_000
NOT_JUDGED = ("no report", "missing", "no memory", "input fault", "output fault", "bad command line")


@dataclass(frozen=True)
class Result:
    """What came of a run. `of` is the checksum of what it depends on, `report` the object of HeapSafe where there is one."""

    submission: str
    test: str
    of: str
    verdict: str
    report: dict | None = None
    note: str | None = None
    difference: tuple[str, ...] = ()

    @property
    def passed(self) -> bool:
        return self.verdict == "passed"

    @property
    def is_judged(self) -> bool:
        """Whether the verdict is one on the submission, and not on the machine."""
        return self.verdict not in NOT_JUDGED


class Stopped(Exception):
    """A run that was ended from outside: the verdict, and why."""


def drained(process: subprocess.Popen, most: int, seconds: int) -> tuple[bytes, bytes]:
    """What a process writes to its two streams until both end."""
    ends = time.monotonic() + seconds
    taken, limits = (bytearray(), bytearray()), (most, REPORT_BYTES)
    with selectors.DefaultSelector() as ready:
        for number, stream in enumerate((process.stdout, process.stderr)):
            ready.register(stream, selectors.EVENT_READ, number)
        while ready.get_map():
            left = ends - time.monotonic()
            if left <= 0:
                raise Stopped("too slow", f"it was stopped after {seconds} seconds")
            for key, _ in ready.select(left):
                part = os.read(key.fd, 65_536)
                taken[key.data].extend(part)
                if not part:
                    ready.unregister(key.fileobj)
                elif len(taken[key.data]) > limits[key.data]:
                    raise Stopped("too much output", f"it was stopped {MORE_BYTES:,} bytes behind what is wanted")
    return bytes(taken[0]), bytes(taken[1])


def ran(words: list[str], place: Path, input: Path | None, most: int, seconds: int) -> tuple[int, bytes, bytes]:
    """The status of a program, and what it wrote to its two streams."""
    with open(input or os.devnull, "rb") as given:
        process = subprocess.Popen(words, cwd=place, stdin=given, stdout=subprocess.PIPE, stderr=subprocess.PIPE)
    with process:
        try:
            output, said = drained(process, most, seconds)
        except BaseException:
            process.kill()
            raise
    return process.returncode, output, said


def command(program: str, settings: Settings, files: tuple[str, ...]) -> list[str]:
    """The command line of a run."""
    limits = [f"--{name}={value}" for name in ("heap", "stack", "steps") if (value := getattr(settings, name)) is not None]
    leaks = [] if settings.leaks == "ignore" else ["--leaks"]
    return [program, "run", "--json", *limits, *leaks, "--", *(f"./{it}" if it.startswith("-") else it for it in files)]


def compared(report: dict, wanted: bytes, output: bytes, test: Test, settings: Settings) -> dict:
    """What a run came to, by what counts of the wanted output and of what was written."""
    if not report["own"]:
        return {"verdict": report["kind"], "report": report}
    if wanted != output:
        unit = "word" if settings.compare == "words" else "line"
        note = f"the output differs in {unit} {first_line(wanted, output) + 1}"
        return {"verdict": "wrong output", "report": report, "note": note, "difference": tuple(difference(wanted, output))}
    if test.status is not None and report["status"] != test.status:
        return {"verdict": "wrong status", "report": report, "note": f"the status is {report['status']}, and {test.status} is wanted"}
    return {"verdict": "leaks" if report["leaks"] and settings.leaks == "fail" else "passed", "report": report}


def report_of(status: int, said: bytes) -> tuple[dict | None, str | None]:
    """The object that HeapSafe said, or why there is none."""
    try:
        report = json.loads(said)
    except ValueError:
        report = None
    if is_report(report):
        return report, None
    *_, last = [""] + said.decode("utf-8", "backslashreplace").splitlines()
    end = f"signal {-status}" if status < 0 else f"status {status}"
    return None, f"HeapSafe ended with {end} and without an object of JSON" + (f": {last[:200]}" if last else "")


def judged(program: str, settings: Settings, submission: Submission, test: Test) -> dict:
    """The parts of a result that the run itself gives."""
    if not submission.files:
        return {"verdict": "no C file", "note": f"the folder {submission.name} has no .c file"}
    wanted = bytes_of(test.wanted)
    words = command(program, settings, submission.files)
    try:
        status, output, said = ran(words, submission.place, test.input, len(wanted) + MORE_BYTES, settings.seconds)
    except Stopped as stop:
        return dict(zip(("verdict", "note"), stop.args))
    except OSError as error:
        raise GradeError(f"{error.filename or program}: {error.strerror}") from error
    report, note = report_of(status, said)
    if report is None:
        return {"verdict": "no report", "note": note}
    return compared(report, normal(wanted, settings.compare), normal(output, settings.compare), test, settings)


def run(program: str, folder: Folder, submission: Submission, test: Test) -> Result:
    """Runs a submission on a test."""
    of = digest(folder.settings, submission, test)
    return Result(submission.name, test.name, of, **judged(program, folder.settings, submission, test))
