#!/usr/bin/env python3
"""documents.py [--quiet]: tries the form of the documents. README has at most 150 lines, no cell of a table has more than 200
characters, and each link to a file of the repository leads to one. Each report in JSON that a document or a row shows is valid by
docs/report.schema.json, where python3-jsonschema is there to say so. Exit status 0 where all is so."""

import glob
import json
import os
import re
import sys

import rows

TOP = os.path.dirname(os.path.dirname(os.path.abspath(__file__)))
MOST_LINES, MOST_CHARACTERS = 150, 200


def lines_outside_blocks(text):
    """The lines of a document with their numbers, but for those of its fenced blocks."""
    inside = False
    for number, line in enumerate(text.splitlines(), 1):
        if line.startswith("```"):
            inside = not inside
        elif not inside:
            yield number, line


def anchors(text):
    """What a link may name behind # in a document: its headings, as they are spelt there."""
    headings = [line.lstrip("#").strip() for _, line in lines_outside_blocks(text) if line.startswith("#")]
    return [re.sub(r"[^\w -]", "", heading.lower()).replace(" ", "-") for heading in headings]


def faults(name):
    """What is wrong with a document."""
    with open(name, encoding="utf-8") as file:
        text = file.read()
    for number, line in lines_outside_blocks(text):
        for cell in line.strip("|").split("|") if line.startswith("|") else []:
            if len(cell.strip()) > MOST_CHARACTERS:
                yield number, f"a cell of {len(cell.strip())} characters"
        for path, anchor in re.findall(r"\]\(([^)#:]*)#?([^):]*)\)", line):
            to = os.path.normpath(os.path.join(os.path.dirname(name), path)) if path else name
            if not os.path.exists(to):
                yield number, f"no file {path}"
            elif anchor:
                with open(to, encoding="utf-8") as file:
                    if anchor not in anchors(file.read()):
                        yield number, f"no heading {anchor} in {path or 'this document'}"
    if name == f"{TOP}/README.md" and text.count("\n") > MOST_LINES:
        yield text.count("\n"), f"more than {MOST_LINES} lines"


def reports():
    """The reports in JSON that documents and rows show, each with where it stands."""
    for name in sorted(glob.glob(f"{TOP}/docs/*.md")):
        with open(name, encoding="utf-8") as file:
            for number, line in enumerate(file, 1):
                if '{"kind":' in line:
                    yield f"{os.path.relpath(name, TOP)}:{number}", json.loads(line[line.index('{"kind":') :])
    for path in rows.files():
        for name, words, row in rows.cases(path):
            said = rows.content(row.get("err", ""))
            if said.startswith(b'{"kind":'):
                yield f"{name}: {' '.join(words)}", json.loads(said)


def invalid_reports():
    """What is wrong with the reports, or None where nothing here can tell."""
    try:
        import jsonschema
    except ImportError:
        return None
    with open(f"{TOP}/docs/report.schema.json", encoding="utf-8") as file:
        schema = jsonschema.Draft202012Validator(json.load(file))
    return [f"{where}: {error.message}" for where, report in reports() for error in schema.iter_errors(report)]


def main():
    if sys.argv[1:] not in ([], ["--quiet"]):
        sys.exit("usage: documents.py [--quiet]")
    names = [f"{TOP}/README.md", *sorted(glob.glob(f"{TOP}/*/*.md"))]
    wrong = [f"{os.path.relpath(name, TOP)}:{number}: {why}" for name in names for number, why in faults(name)]
    invalid = invalid_reports()
    if invalid is None:
        print("documents.py: reports are not compared with their schema, since python3-jsonschema is missing")
    wrong += invalid or []
    for it in wrong:
        print(it)
    if wrong or not sys.argv[1:]:
        print(f"{len(names)} documents, {len(wrong)} faults")
    return 1 if wrong else 0


if __name__ == "__main__":
    sys.exit(main())
