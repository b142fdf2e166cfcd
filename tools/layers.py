#!/usr/bin/env python3
"""layers.py [--quiet]: looks whether a crate takes something from the `proofs` of another: a layer is used through its `specs` and its
contracts alone, so what a crate above needs is an equation in `specs` or the contract of a law. Exit status 0 where none does."""

import glob
import os
import re
import sys

TOP = os.path.dirname(os.path.dirname(os.path.abspath(__file__)))
IN_PROOFS = re.compile(r"\bRattle\.(\w+)\.proofs\b|\b(\w+)::proofs::")


def crates():
    """The crates of the repository."""
    with open(f"{TOP}/crates.txt", encoding="utf-8") as lines:
        return {line.split()[0].rstrip(":") for line in lines if line.strip() and not line.startswith("#")}


def faults(name, known):
    """The places in a file of a crate that name the proofs of another."""
    own = os.path.relpath(name, f"{TOP}/crates").split(os.sep)[0]
    with open(name, encoding="utf-8") as lines:
        for number, line in enumerate(lines, 1):
            for found in IN_PROOFS.findall(line):
                crate = found[0] or found[1]
                if crate in known and crate != own:
                    yield number, crate


def main():
    if sys.argv[1:] not in ([], ["--quiet"]):
        sys.exit("usage: layers.py [--quiet]")
    known = crates()
    names = [name for part in ("src", "specs", "proofs") for ending in ("rt", "antt")
             for name in sorted(glob.glob(f"{TOP}/crates/*/{part}/**/*.{ending}", recursive=True))]
    wrong = [f"{os.path.relpath(name, TOP)}:{number}: takes something from the proofs of {crate}"
             for name in names for number, crate in faults(name, known)]
    for it in wrong:
        print(it)
    if wrong or not sys.argv[1:]:
        print(f"{len(names)} files, {len(wrong)} faults")
    return 1 if wrong else 0


if __name__ == "__main__":
    sys.exit(main())
