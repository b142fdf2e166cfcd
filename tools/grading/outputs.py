"""What counts of an output, and how two outputs differ."""

import difflib
import unicodedata
from collections.abc import Sequence

BEFORE, LINES = 2, 10
BEFORE_COLUMN, CHARACTERS = 40, 200


def normal(text: bytes, compare: str) -> bytes:
    """What of an output counts: all of it; its lines without the blanks behind them and behind the last; or its words, one in a line."""
    if compare == "exact":
        return text
    parts = text.split() if compare == "words" else [it.rstrip() for it in text.rstrip().split(b"\n")]
    return b"\n".join(parts) + b"\n" if text.strip() else b""


def shown(text: str) -> str:
    """A text that does nothing where it is shown: what has no picture, as control characters, becomes a number."""

    def picture(it: str) -> str:
        is_plain = it in "\n\t" or unicodedata.category(it) not in ("Cc", "Cf", "Cs", "Co", "Cn")
        return it if is_plain else f"\\x{ord(it):02x}"

    return "".join(map(picture, text))


def decoded(text: bytes) -> str:
    """Bytes as they are shown: those that are no UTF-8 as numbers."""
    return shown(text.decode("utf-8", "backslashreplace"))


def lines_of(text: bytes, start: int, column: int) -> list[str]:
    """Some lines of an output as they are shown, each from this column on; where the last one has no end, it says so."""
    pieces = text.split(b"\n")
    *lines, rest = [decoded(it)[column:] for it in pieces[start : start + LINES]]
    if start + LINES < len(pieces):
        lines.append(rest)
    elif rest:
        lines.append(rest + " (no line end)")
    return [it if len(it) <= CHARACTERS else it[:CHARACTERS] + ".." for it in lines]


def first_difference(left: Sequence, right: Sequence) -> int:
    """Where two sequences differ first."""
    return next((at for at, (it, other) in enumerate(zip(left, right)) if it != other), min(len(left), len(right)))


def first_line(wanted: bytes, got: bytes) -> int:
    """The first line, from 0 on, in which two outputs differ."""
    return first_difference(wanted.split(b"\n"), got.split(b"\n"))


def difference(wanted: bytes, got: bytes) -> list[str]:
    """Some lines around the first that differs: behind `-` those that are wanted, behind `+` those that were written."""
    left, right = wanted.split(b"\n"), got.split(b"\n")
    first = first_difference(left, right)
    start, column = max(0, first - BEFORE), 0
    if first < min(len(left), len(right)):
        at = first_difference(decoded(left[first]), decoded(right[first]))
        column = at - BEFORE_COLUMN if at > CHARACTERS - BEFORE_COLUMN else 0
    place = f", from {start + 1} on" + (f", column {column + 1}" if column else "") if start or column else ""
    told = ["--- wanted" + place, "+++ written" + place]
    told += list(difflib.unified_diff(lines_of(wanted, start, column), lines_of(got, start, column), n=LINES, lineterm=""))[3:]
    if max(len(left), len(right)) > start + LINES:
        told.append(" ..")
    return told + (["(they differ in blanks alone)"] if wanted.split() == got.split() else [])
