#!/usr/bin/env python3
"""check.py [--quiet]: runs every program below this folder by ./heapsafe and compares what it writes and answers.

NAME.c is run in its folder, with NAME.in as its input and the words of NAME.words behind its name, where there are such files.
The files that NAME.units names are further units of the same program.
It has to write NAME.out, to say NAME.err on the error stream, and to answer the status in NAME.status; where a file is missing,
nothing or 0. README.md beside this script has to name every program. With --quiet it says only what differs."""

import os
import subprocess
import sys
from concurrent.futures import ThreadPoolExecutor

HERE = os.path.dirname(os.path.abspath(__file__))
PROGRAM = os.path.join(os.path.dirname(HERE), "heapsafe")


def content(path, otherwise=b""):
    if not os.path.exists(path):
        return otherwise
    with open(path, "rb") as file:
        return file.read()


def units(stem):
    """The files of the further units of a program."""
    return content(stem + ".units").decode().split()


def programs():
    """The programs, as paths from here, without their ending."""
    for folder, _, names in sorted(os.walk(HERE)):
        stems = [os.path.join(folder, name[:-6]) for name in names if name.endswith(".units")]
        further = {unit for stem in stems for unit in units(stem)}
        for name in sorted(names):
            if name.endswith(".c") and name not in further:
                yield os.path.relpath(os.path.join(folder, name[:-2]), HERE)


def difference(name):
    """What is wrong with a program, if anything is."""
    folder, base = os.path.split(os.path.join(HERE, name))
    stem = os.path.join(folder, base)
    words = content(stem + ".words").decode().split()
    ran = subprocess.run([PROGRAM, "run", base + ".c", *units(stem), *words], cwd=folder, input=content(stem + ".in"), capture_output=True)
    wanted = (content(stem + ".out"), content(stem + ".err"), int(content(stem + ".status", b"0")))
    got = (ran.stdout, ran.stderr, ran.returncode)
    return None if got == wanted else f"{name}: got {got!r}, wanted {wanted!r}"


def main():
    if sys.argv[1:] not in ([], ["--quiet"]):
        print("usage: check.py [--quiet]", file=sys.stderr)
        return 2
    names, index = list(programs()), content(os.path.join(HERE, "README.md")).decode()
    wrong = [f"README.md does not name {name}.c" for name in names if f"({name}.c)" not in index]
    subprocess.run([PROGRAM, "--version"], stdout=subprocess.DEVNULL)  # the program is built here, where it is missing
    with ThreadPoolExecutor(os.cpu_count()) as pool:
        wrong += [it for it in pool.map(difference, names) if it]
    for it in wrong:
        print(it)
    if wrong or not sys.argv[1:]:
        print(f"{len(names)} examples, {len(wrong)} faults")
    return 1 if wrong else 0


if __name__ == "__main__":
    sys.exit(main())
