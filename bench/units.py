#!/usr/bin/env python3
"""units.py [COMMAND]: what does it cost that a program has many files?

Runs `./heapsafe COMMAND` (COMMAND is `list` where none is given) on 64 files of 16 KiB and on one file that has all of their text, and
prints, for each kind of text, both processor times and their ratio. Each time is the least of twenty runs, of which each is followed by
one of the other kind. A ratio of 1 is best."""

import os
import resource
import subprocess
import sys
import tempfile

TOP = os.path.dirname(os.path.dirname(os.path.abspath(__file__)))
PROGRAM = os.path.join(TOP, "heapsafe")
UNITS, BYTES, RUNS = 64, 16 * 1024, 20
MAIN = "int main(void) { return 0; }\n"


def functions(unit, number):
    """Small functions for all files."""
    return f"int f{unit}_{number}(int a, int b) {{ int c = a * {number}; if (c > b) return c; while (c < b) c = c + 1; return c - b; }}\n"


def own(unit, number):
    """Small functions and variables, each of its file."""
    return f"static int v{unit}_{number};\nstatic int f{unit}_{number}(int a) {{ v{unit}_{number} = v{unit}_{number} + a; return v{unit}_{number}; }}\n"


def calls(unit, number):
    """Functions that call those of the file before, which each file declares."""
    if unit == 0:
        return f"int f0_{number}(int a) {{ return a * {number}; }}\n"
    return f"int f{unit - 1}_{number}(int);\nint f{unit}_{number}(int a) {{ return f{unit - 1}_{number}(a) + {number}; }}\n"


def structs(unit, number):
    """Structs, and functions that take pointers to them."""
    return f"struct s{unit}_{number} {{ int n; struct s{unit}_{number} *next; }};\nint f{unit}_{number}(struct s{unit}_{number} *s) {{ return s->n; }}\n"


def filled(piece, unit):
    """The text of a file: pieces by their numbers, as many as fit beside `main`."""
    text, left, number = [], BYTES - len(MAIN), 0
    while len(one := piece(unit, number)) <= left:
        text.append(one)
        left -= len(one)
        number += 1
    return "".join(text) + (MAIN if unit == UNITS - 1 else "")


def seconds(command, files):
    """The processor time of a run."""
    before = resource.getrusage(resource.RUSAGE_CHILDREN)
    ran = subprocess.run([PROGRAM, command, *files], stdout=subprocess.DEVNULL, stderr=subprocess.PIPE)
    after = resource.getrusage(resource.RUSAGE_CHILDREN)
    if ran.returncode:
        sys.exit(ran.stderr.decode("latin-1"))
    return after.ru_utime - before.ru_utime + after.ru_stime - before.ru_stime


def main():
    command = sys.argv[1] if sys.argv[1:] else "list"
    subprocess.run([PROGRAM, "--version"], stdout=subprocess.DEVNULL)  # the program is built here, where it is missing
    with tempfile.TemporaryDirectory() as folder:
        for piece in (functions, own, calls, structs):
            texts = [filled(piece, unit) for unit in range(UNITS)]
            files = [os.path.join(folder, f"u{unit}.c") for unit in range(UNITS)]
            one = os.path.join(folder, "one.c")
            for path, text in [*zip(files, texts), (one, "".join(texts))]:
                with open(path, "w", encoding="ascii") as file:
                    file.write(text)
            runs = [(seconds(command, [one]), seconds(command, files)) for _ in range(RUNS)]
            alone, many = (min(took) for took in zip(*runs))
            print(f"{piece.__doc__[:-1]}: one file {alone:.2f} s, {UNITS} files {many:.2f} s, ratio {many / alone:.2f}", flush=True)


main()
