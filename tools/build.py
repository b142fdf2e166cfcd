#!/usr/bin/env python3
"""build.py: builds the program and prints its path. build.py --keep TIME: keeps the proved program.

The launcher calls it where the program is missing or older than a source. With HEAPSAFE_PROVED=1 it builds from the proofs,
and else without them, unless the proved program was built from the same sources. With --keep it takes as the proved program the
one that a green gate, which began at TIME, has built. One run builds at a time, and a program stands at its path only once it
is whole."""

import fcntl
import glob
import hashlib
import os
import shutil
import subprocess
import sys
import tempfile
import time

import build_unproved

TOP = os.path.dirname(os.path.dirname(os.path.abspath(__file__)))
MADE_BY_RT = f"{TOP}/crates/heapsafe_cli/out/heapsafe_cli"
COSTS = {
    "unproved": "without proofs, which takes some minutes; HEAPSAFE_PROVED=1 takes a proved program",
    "proved": "from the proofs, which takes hours on a machine that has kept none",
}


def program_of(kind):
    return f"{TOP}/out/{kind}/heapsafe"


def source_files():
    """All that the program and what is promised of it are made of."""
    parts = [f"{TOP}/crates/*/src/**/*.rt", f"{TOP}/crates/*/specs/**/*.antt", f"{TOP}/crates.txt"]
    return sorted(name for part in parts for name in glob.glob(part, recursive=True))


def sources():
    """A checksum of the sources."""
    sum = hashlib.sha256()
    for name in source_files():
        with open(name, "rb") as file:
            sum.update(f"{os.path.relpath(name, TOP)} {os.path.getsize(name)}\n".encode() + file.read())
    return sum.hexdigest()[:16]


def version(kind):
    """What --version says of a program of this kind that is built now."""
    what = {"proved": "built from the proofs", "unproved": "built without proofs"}[kind]
    return f"heapsafe, sources {sources()}, {what}\n"


def is_same(kind):
    """Whether a program of this kind was built from the sources as they are; if so, it is newer than they from now on."""
    try:
        with open(f"{program_of(kind)}.version", encoding="utf-8") as file:
            same = file.read() == version(kind) and os.path.exists(program_of(kind))
    except FileNotFoundError:
        return False
    if same:
        os.utime(program_of(kind))
    return same


def keep(made, kind, told, began):
    """Puts a program that was made at its path; it counts as made when the work on it began."""
    program = program_of(kind)
    os.makedirs(os.path.dirname(program), exist_ok=True)
    shutil.copy(made, f"{program}.new")
    os.utime(f"{program}.new", (began, began))
    with open(f"{program}.version", "w", encoding="utf-8") as file:
        file.write(told)
    os.replace(f"{program}.new", program)


def by_proofs(room):
    """Builds the program from the proofs, and gives its path."""
    if os.path.exists(MADE_BY_RT):
        os.remove(MADE_BY_RT)
    log = f"{room}/log"
    with open(log, "wb") as out:
        subprocess.run(["rt", "run", "--"], cwd=f"{TOP}/crates/heapsafe_cli", stdin=subprocess.DEVNULL, stdout=out, stderr=out)
    if not os.path.exists(MADE_BY_RT):
        with open(log, encoding="utf-8", errors="replace") as out:
            sys.stderr.write(out.read())
    return MADE_BY_RT


def without_proofs(room):
    """Builds the program without proofs, and gives its path."""
    build_unproved.build(TOP, f"{room}/heapsafe")
    return f"{room}/heapsafe"


def build(kind):
    """Builds a program of this kind, and says whether that went well."""
    if not shutil.which("rt"):
        print("heapsafe: the command `rt` of the Rattle toolchain is wanted in the PATH", file=sys.stderr)
        return False
    print(f"heapsafe: building {COSTS[kind]}", file=sys.stderr, flush=True)
    began, told = time.time(), version(kind)
    with tempfile.TemporaryDirectory() as room:
        made = {"proved": by_proofs, "unproved": without_proofs}[kind](room)
        if os.path.exists(made):
            keep(made, kind, told, began)
            return True
    return False


def chosen():
    """Gives the kind of program that is wanted, built where it is not there, or None where that fails."""
    wanted = {"1": ["proved"], "0": ["unproved"]}.get(os.environ.get("HEAPSAFE_PROVED"), ["proved", "unproved"])
    for kind in wanted:
        if is_same(kind):
            return kind
    return wanted[-1] if build(wanted[-1]) else None


def main():
    words = sys.argv[1:]
    os.makedirs(f"{TOP}/out", exist_ok=True)
    with open(f"{TOP}/out/lock", "w", encoding="utf-8") as lock:
        fcntl.flock(lock, fcntl.LOCK_EX)
        if words[:1] == ["--keep"]:
            began = float(words[1])
            if any(os.path.getmtime(name) > began for name in source_files()):
                print("heapsafe: a source changed while the gate ran, so its program is not kept", file=sys.stderr)
                return 1
            keep(MADE_BY_RT, "proved", version("proved"), began)
            return 0
        kind = chosen()
    if kind:
        print(program_of(kind))
    return 0 if kind else 1


if __name__ == "__main__":
    sys.exit(main())
