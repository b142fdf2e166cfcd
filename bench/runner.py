#!/usr/bin/env python3
"""runner.py: does the time of a statement depend on the size of the program, and how much memory does a run take?

Runs one loop by `./heapsafe run` in a small program and behind many other functions, and prints the ratio of the two processor
times, each less that of the same text without turns of the loop (least of three runs), and the greatest memory of the small
run at the default limits. A ratio of 1 is best."""

import os
import subprocess
import sys
import tempfile

TOP = os.path.join(os.path.dirname(os.path.abspath(__file__)), "..")
PROGRAM = os.path.join(TOP, "heapsafe")
TURNS = 3_000_000


def text(functions, turns):
    others = "".join(f"int f{number}(int a) {{ int b = a + {number}; return b * a; }}\n" for number in range(functions))
    return others + f"int add(int a, int b) {{ return a + b; }}\nint main(void) {{ int i = 0; int s = 0; while (i < {turns}) {{ s = add(s, i) ^ (i >> 3); i = i + 1; }} return s & 1; }}\n"


def run(path):
    child = subprocess.Popen([PROGRAM, "run", "--steps", "1000000000", path], stdout=subprocess.DEVNULL, stderr=subprocess.PIPE)
    _, status, used = os.wait4(child.pid, 0)
    words = child.stderr.read().decode("latin-1")
    child.returncode = os.waitstatus_to_exitcode(status)
    if words:
        sys.exit(words)
    return used.ru_utime + used.ru_stime, used.ru_maxrss


def main():
    with tempfile.TemporaryDirectory() as folder:
        path = os.path.join(folder, "a.c")

        def least(functions, turns):
            with open(path, "w", encoding="ascii") as file:
                file.write(text(functions, turns))
            runs = [run(path) for _ in range(3)]
            return min(took for took, _ in runs), max(memory for _, memory in runs)

        subprocess.run([PROGRAM], capture_output=True)  # the program is built here, where it is missing
        small, memory = least(0, TURNS)
        large, _ = least(10_000, TURNS)
        ratio = (large - least(10_000, 1)[0]) / (small - least(0, 1)[0])
        print(f"a loop of {TURNS:,} turns behind 10,000 functions: time x{ratio:.2f} of that alone; memory of the run {memory / 1024:.1f} MiB")


main()
