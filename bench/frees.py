#!/usr/bin/env python3
"""frees.py [PROGRAM]: does the time of a free depend on how many objects live beside it?

Runs a program (./heapsafe) that makes so many objects and then 400,000 times frees one of them and makes another, and prints the
processor time of each pair, less that of the same text without them (least of three runs). The ratio to the first is printed
beside it: 1 is best, and one that looks at each object would grow with them."""

import os
import subprocess
import sys
import tempfile

TOP = os.path.join(os.path.dirname(os.path.abspath(__file__)), "..")
PAIRS = 400_000
TEXT = """struct node { struct node *next; int value; };
int main(void) {
  struct node **all = malloc(LIVE * sizeof *all), *p;
  int i, k = 0;
  for (i = 0; i < LIVE; i++) { all[i] = malloc(sizeof *p); all[i]->value = i; }
  for (i = 0; i < PAIRS; i++) {
    k = (k + STRIDE) % LIVE;
    p = all[k];
    all[k] = NULL;
    free(p);
    all[k] = malloc(sizeof *p);
    all[k]->value = i;
  }
  return 0;
}
"""


def main():
    program = sys.argv[1] if sys.argv[1:] else os.path.join(TOP, "heapsafe")
    subprocess.run([program], capture_output=True)  # the program is built here, where it is missing
    with tempfile.TemporaryDirectory() as folder:
        path = os.path.join(folder, "a.c")

        def least(live, pairs, stride):
            text = TEXT.replace("LIVE", str(live)).replace("PAIRS", str(pairs)).replace("STRIDE", str(stride))
            with open(path, "w", encoding="ascii") as file:
                file.write(text)
            times = []
            for _ in range(3):
                before = os.times()
                subprocess.run([program, "run", path, "--steps", "1000000000"], check=True)
                after = os.times()
                times.append(after.children_user + after.children_system - before.children_user - before.children_system)
            return min(times)

        for name, stride in ("one behind the other", 1), ("far apart", 7919):
            first = None
            for live in 2_000, 20_000, 200_000:
                pair = (least(live, PAIRS, stride) - least(live, 0, stride)) / PAIRS
                first = first or pair
                print(f"{name}, {live:,} objects: {pair * 1e9:.0f} ns a free and a malloc, x{pair / first:.2f}")


main()
