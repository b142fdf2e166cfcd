#!/usr/bin/env python3
"""edits.py [--quiet]: looks whether each wrong edit still applies. edits.py NAME..: lets the prover try those of some crates.

An edit is a file `*.edit`: a line `file: PATH`, and pairs of lines `old: TEXT` and `new: TEXT`, where each old text stands in the
file of the crate exactly once. The gate tries those in crates/NAME/must-fail; a crate with edits is proved once more for them. So
those of the crates whose proof takes long stand in crates/NAME/must-fail-by-hand, and are tried by this script where their crate
changes. Exit status 0 where all apply, or where the prover refuses all."""

import glob
import os
import shutil
import subprocess
import sys

TOP = os.path.dirname(os.path.dirname(os.path.abspath(__file__)))


def edits(name="*"):
    """The edits of a crate, or of all."""
    return sorted(glob.glob(f"{TOP}/crates/{name}/must-fail*/*.edit"))


def faults(edit):
    """Why an edit does not apply."""
    crate, text, pairs = os.path.dirname(os.path.dirname(edit)), None, 0
    with open(edit, encoding="utf-8") as lines:
        for word, _, rest in (line.rstrip("\n").partition(": ") for line in lines):
            if word == "file":
                with open(os.path.join(crate, rest.strip()), encoding="utf-8") as file:
                    text = file.read()
            elif word == "old":
                pairs += 1
                if text is None or text.count(rest) != 1:
                    yield f"stands {0 if text is None else text.count(rest)} times: {rest.strip()}"
    if not pairs:
        yield "no line `old: `"


def tried(name):
    """Lets the prover try all edits of a crate, and says whether it refuses them."""
    folder = f"{TOP}/crates/{name}/must-fail"
    had = os.path.isdir(folder)
    os.makedirs(folder, exist_ok=True)
    copies = []
    try:
        for edit in edits(name):
            if os.path.dirname(edit) != folder:
                copies.append(shutil.copy(edit, folder))
        return subprocess.run(["rt", "must-fail", name], cwd=TOP).returncode == 0
    finally:
        for copy in copies:
            os.remove(copy)
        if not had:
            os.rmdir(folder)


def main(words):
    if words not in ([], ["--quiet"]):
        lacking = [name for name in words if not edits(name)]
        if lacking:
            print(f"edits.py: {lacking[0]} has no edit", file=sys.stderr)
            return 2
        return 0 if all([tried(name) for name in words]) else 1
    every = edits()
    wrong = [f"{os.path.relpath(edit, TOP)}: {why}" for edit in every for why in faults(edit)]
    for it in wrong:
        print(it)
    if wrong or not words:
        print(f"{len(every)} wrong edits, {len(wrong)} that do not apply")
    return 1 if wrong else 0


if __name__ == "__main__":
    sys.exit(main(sys.argv[1:]))
