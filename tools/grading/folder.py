"""A folder that is graded: its submissions, its tests and its settings."""

import hashlib
import json
import os
import re
import tomllib
from dataclasses import asdict, dataclass, fields
from pathlib import Path

from bad_word import RANGES

NUMBERS = {**{name: RANGES[f"--{name}"] for name in ("heap", "stack", "steps")}, "seconds": (1, 86_400)}
WORDS = {"leaks": ("ignore", "tell", "fail"), "compare": ("exact", "lines", "words")}


class GradeError(Exception):
    """What the caller has to mend, said in words."""


@dataclass(frozen=True)
class Settings:
    """What holds for all runs. Where heap or stack is None, HeapSafe's own limit holds."""

    heap: int | None = None
    stack: int | None = None
    steps: int = 10_000_000
    seconds: int = 60
    leaks: str = "tell"
    compare: str = "exact"


@dataclass(frozen=True)
class Submission:
    """A program: it is run in the folder `place`, where its C files and all its texts have these names."""

    name: str
    place: Path
    files: tuple[str, ...]
    texts: tuple[str, ...]


@dataclass(frozen=True)
class Test:
    """An input, or None for none, the output that is wanted, and the status, where one is wanted."""

    name: str
    input: Path | None
    wanted: Path
    status: int | None
    points: int


@dataclass(frozen=True)
class Folder:
    """All that is graded. `aside` are the files that are no submission."""

    path: Path
    settings: Settings
    submissions: tuple[Submission, ...]
    tests: tuple[Test, ...]
    aside: tuple[Path, ...]


def natural(name: str) -> list[int | str]:
    """A key by which 2 comes before 10."""
    return [int(part) if at % 2 else part for at, part in enumerate(re.split("([0-9]+)", name))]


def entries(folder: Path) -> list[Path]:
    """What a folder holds and does not hide, in natural order."""
    try:
        found = [it for it in folder.iterdir() if not it.name.startswith(".")]
    except OSError as error:
        raise GradeError(f"{folder}: {error.strerror}") from error
    for it in found:
        if it.name != it.name.encode("utf-8", "replace").decode() or re.search(r"[\x00-\x1f\x7f]", it.name):
            raise GradeError(f"{folder}: a file is to have another name than {it.name!a}: no control characters, and UTF-8 alone")
    return sorted(found, key=lambda it: natural(it.name))


def bytes_of(path: Path) -> bytes:
    """The bytes of a file that has to be there."""
    try:
        return path.read_bytes()
    except OSError as error:
        raise GradeError(f"{path}: {error.strerror}") from error


def setting_fault(name: str, value: object) -> str | None:
    """What is wrong with a setting, if anything is."""
    if name in NUMBERS:
        least, most = NUMBERS[name]
        fine = type(value) is int and least <= value <= most
        return None if fine else f"{name} is no number from {least} to {most}"
    if name in WORDS:
        return None if value in WORDS[name] else f"{name} is none of {', '.join(WORDS[name])}"
    return f"there is no setting {name}"


def read_settings(path: Path) -> tuple[dict, dict]:
    """The settings and the points of grade.toml, both empty where there is none."""
    if not path.exists():
        return {}, {}
    try:
        found = tomllib.loads(bytes_of(path).decode("utf-8"))
    except (UnicodeDecodeError, tomllib.TOMLDecodeError) as error:
        raise GradeError(f"{path}: {error}") from error
    points = found.pop("points", {})
    faults = [fault for name, value in found.items() if (fault := setting_fault(name, value))]
    if not isinstance(points, dict) or not all(type(value) is int and value >= 0 for value in points.values()):
        faults.append("points is no table of numbers from 0 on")
    if faults:
        raise GradeError(f"{path}: {faults[0]}")
    return found, points


def read_submissions(folder: Path) -> tuple[list[Submission], list[Path]]:
    """The submissions of a folder, and what is none."""
    found, aside = [], []
    for it in entries(folder):
        if it.is_dir():
            files = tuple(file.name for file in entries(it) if file.suffix == ".c")
            texts = tuple(sorted(str(file.relative_to(it)) for file in it.rglob("*") if file.is_file()))
            found.append(Submission(it.name, it, files, texts))
        elif it.suffix == ".c":
            found.append(Submission(it.stem, folder, (it.name,), (it.name,)))
        else:
            aside.append(it)
    names = [it.name for it in found]
    if twice := sorted({name for name in names if names.count(name) > 1}):
        raise GradeError(f"{folder}: {twice[0]} is there both as a file and as a folder")
    if not found:
        raise GradeError(f"{folder}: no submission: neither a .c file nor a folder")
    return found, aside


def foreign_includes(submission: Submission) -> list[str]:
    """What its C files include and it does not hold: as a text of another submission, or the output that is wanted."""
    found: set[str] = set()
    for name in submission.texts:
        try:
            text = (submission.place / name).read_bytes().replace(b"\\\n", b"").decode("utf-8", "surrogateescape")
        except OSError:  # (of that HeapSafe tells)
            continue
        gap = r"(?:\s|/\*.*?\*/)*"
        found.update(re.findall(f'#{gap}include{gap}"([^"\n]*)"', text))
    return sorted(name for name in found if os.path.normpath(name) not in submission.texts)


def read_status(path: Path) -> int | None:
    """The status that a test wants, or None where any will do."""
    if not path.exists():
        return None
    words = bytes_of(path).decode("utf-8", "replace").split()
    if len(words) != 1 or not re.fullmatch("[0-9]{1,3}", words[0]) or int(words[0]) > 255:
        raise GradeError(f"{path}: no number from 0 to 255")
    return int(words[0])


def read_tests(folder: Path, points: dict) -> list[Test]:
    """The tests of a folder, with their points."""
    files = entries(folder)
    names = [it.stem for it in files if it.suffix == ".out"]
    for it in files:
        if it.suffix in (".in", ".status") and it.stem not in names:
            raise GradeError(f"{it}: no {it.stem}.out stands beside it")
    for name in points:
        if name not in names:
            raise GradeError(f"{folder}: grade.toml gives points for {name}, and there is no {name}.out")
    if not names:
        raise GradeError(f"{folder}: no test: no .out file")
    inputs = {it.stem: it for it in files if it.suffix == ".in"}
    return [Test(it, inputs.get(it), folder / f"{it}.out", read_status(folder / f"{it}.status"), points.get(it, 1)) for it in names]


def read_folder(path: Path, options: dict) -> Folder:
    """Reads what is to be graded. An option takes the place of the setting of its name."""
    if not path.is_dir():
        raise GradeError(f"{path}: no such folder")
    path = path.absolute()
    for name, value in options.items():
        if fault := setting_fault(name, value):
            raise GradeError(f"--{fault}")
    given, points = read_settings(path / "grade.toml")
    settings = Settings(**{**given, **options})
    submissions, aside = read_submissions(path / "submissions")
    return Folder(path, settings, tuple(submissions), tuple(read_tests(path / "tests", points)), tuple(aside))


def has_points(folder: Folder) -> bool:
    """Whether some test counts more or less than another."""
    return len({test.points for test in folder.tests}) > 1 or folder.tests[0].points != 1


def digest(settings: Settings, submission: Submission, test: Test) -> str:
    """A checksum of all that a run depends on, so that a result is not taken for one of other texts."""
    told = hashlib.sha256(json.dumps([asdict(settings), submission.files, submission.texts, test.status]).encode())
    for path in [*(submission.place / name for name in submission.texts), test.input, test.wanted]:
        try:
            text = path.read_bytes() if path else b""
        except OSError as error:  # (of a text HeapSafe says so itself)
            text = str(error.strerror).encode()
        told.update(f"\n{len(text)} ".encode() + text)
    return told.hexdigest()[:16]


SETTINGS = tuple(it.name for it in fields(Settings))
