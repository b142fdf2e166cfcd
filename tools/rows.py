#!/usr/bin/env python3
"""rows.py [--quiet]: runs the rows of rows/*.json by ./heapsafe and compares what it writes, says and answers.

A file is a list of groups, each with what it `shows` and its `rows`. A row has its `words`, a list of command lines that all
answer alike; the `text` of the file a.c, or none; other `files` by name; the `input`; the bytes of the output and of the error stream,
`out` and `err`; and the `status`. What a row lacks is empty, or 0. A text or bytes may be a list of parts, and a part [BYTES, COUNT] stands for
so many times these bytes. A row with `seconds` has to end within so many. With --quiet it says only what differs."""

import glob
import json
import os
import subprocess
import sys
import tempfile
from concurrent.futures import ThreadPoolExecutor

TOP = os.path.dirname(os.path.dirname(os.path.abspath(__file__)))
PROGRAM = os.path.join(TOP, "heapsafe")


def content(parts):
    """The bytes of a text, or of a list of parts."""
    if isinstance(parts, str):
        return parts.encode("latin-1")
    return b"".join(content(it) if isinstance(it, str) else content(it[0]) * it[1] for it in parts)


def texts(row):
    """The files of a row, by their names."""
    return {**({"a.c": row["text"]} if "text" in row else {}), **row.get("files", {})}


def write_texts(folder, row):
    """Writes the files of a row into a folder."""
    for name, text in texts(row).items():
        with open(os.path.join(folder, name), "wb") as file:
            file.write(content(text))


def difference(case):
    """What is wrong with a command line of a row, if anything is."""
    name, words, row = case
    with tempfile.TemporaryDirectory() as folder:
        write_texts(folder, row)
        try:
            ran = subprocess.run(
                [PROGRAM, *words], cwd=folder, input=content(row.get("input", "")), capture_output=True, timeout=row.get("seconds")
            )
        except subprocess.TimeoutExpired:
            return f"{name}: {words}: {texts(row)!r:.300}\n  not done in {row['seconds']} seconds"
    wanted = content(row.get("out", "")), content(row.get("err", "")), row.get("status", 0)
    got = ran.stdout, ran.stderr, ran.returncode
    return None if got == wanted else f"{name}: {words}: {texts(row)!r:.300}\n  got    {got!r:.600}\n  wanted {wanted!r:.600}"


def files():
    """The files of rows."""
    return sorted(glob.glob(os.path.join(TOP, "rows", "*.json")))


def cases(path):
    """Each command line of a file with its row."""
    with open(path, encoding="utf-8") as file:
        for group in json.load(file):
            for row in group["rows"]:
                for words in row["words"]:
                    yield os.path.basename(path), words.split(" ") if isinstance(words, str) else words, row


def main():
    if sys.argv[1:] not in ([], ["--quiet"]):
        print("usage: rows.py [--quiet]", file=sys.stderr)
        return 2
    every = [case for path in files() for case in cases(path)]
    subprocess.run([PROGRAM, "--version"], stdout=subprocess.DEVNULL)  # the program is built here, where it is missing
    with ThreadPoolExecutor(os.cpu_count()) as pool:
        wrong = [it for it in pool.map(difference, every) if it]
    for it in wrong:
        print(it)
    if wrong or not sys.argv[1:]:
        print(f"{len(every)} command lines, {len(wrong)} faults")
    return 1 if wrong else 0


if __name__ == "__main__":
    sys.exit(main())
