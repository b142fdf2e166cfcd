#!/usr/bin/env python3
"""speed.py [PROGRAM] [--runs N]: how much slower is a run than the same text built by `gcc -O0`?

Runs six programs by PROGRAM (./heapsafe where none is given) and as gcc builds them, and prints the ratio of the two processor
times, each the median of N runs (3), and the time of a program that does nothing. Both have to write the same. It wants gcc."""

import argparse
import os
import resource
import statistics
import subprocess
import sys
import tempfile

TOP = os.path.join(os.path.dirname(os.path.abspath(__file__)), "..")
INPUT = ("".join(f"{word * 7919 % 100003} " + ("\n" if word % 9 == 0 else "") for word in range(50_000))).encode()

PROGRAMS = {
    "sums": """#include <stdio.h>
int main(void) {
  unsigned sum = 0, i;
  for (i = 0; i < 3000000; i++) sum = sum * 3 + (i ^ sum >> 5);
  printf("%u\\n", sum);
  return 0;
}
""",
    "sieve": """#include <stdio.h>
char crossed[400000];
int main(void) {
  int i, j, primes = 0;
  for (i = 2; i < 400000; i++) {
    if (crossed[i]) continue;
    primes++;
    for (j = i; j < 400000; j += i) crossed[j] = 1;
  }
  printf("%d\\n", primes);
  return 0;
}
""",
    "calls": """#include <stdio.h>
int fib(int n) { return n < 2 ? n : fib(n - 1) + fib(n - 2); }
int main(void) {
  printf("%d\\n", fib(28));
  return 0;
}
""",
    "objects": """#include <stdio.h>
#include <stdlib.h>
struct node { struct node *next; int value; };
int main(void) {
  int round, i;
  unsigned sum = 0;
  for (round = 0; round < 20; round++) {
    struct node *first = NULL;
    for (i = 0; i < 5000; i++) {
      struct node *made = malloc(sizeof *made);
      made->value = i;
      made->next = first;
      first = made;
    }
    while (first) {
      struct node *it = first;
      first = it->next;
      sum += it->value;
      free(it);
    }
  }
  printf("%u\\n", sum);
  return 0;
}
""",
    "bytes": """#include <stdio.h>
int main(void) {
  int c, words = 0, inside = 0;
  while ((c = getchar()) != EOF) {
    if (c == ' ' || c == '\\n') inside = 0;
    else if (!inside) { inside = 1; words++; }
    putchar(c);
  }
  printf("%d\\n", words);
  return 0;
}
""",
    "squares": """#include <stdio.h>
int a[90][90], b[90][90], c[90][90];
int main(void) {
  int i, j, k;
  unsigned sum = 0;
  for (i = 0; i < 90; i++) for (j = 0; j < 90; j++) { a[i][j] = i + j; b[i][j] = i - j; }
  for (i = 0; i < 90; i++) for (j = 0; j < 90; j++) for (k = 0; k < 90; k++) c[i][j] += a[i][k] * b[k][j];
  for (i = 0; i < 90; i++) for (j = 0; j < 90; j++) sum = sum * 31 + c[i][j];
  printf("%u\\n", sum);
  return 0;
}
""",
}


def median_time(command, given, runs):
    """The median of the processor times of a command in milliseconds, and what it writes and answers."""
    times = []
    for _ in range(runs):
        before = resource.getrusage(resource.RUSAGE_CHILDREN)
        ran = subprocess.run(command, input=given, capture_output=True)
        after = resource.getrusage(resource.RUSAGE_CHILDREN)
        times.append(1000 * (after.ru_utime + after.ru_stime - before.ru_utime - before.ru_stime))
    return statistics.median(times), (ran.stdout, ran.returncode)


def main():
    words = argparse.ArgumentParser()
    words.add_argument("program", nargs="?", default=os.path.join(TOP, "heapsafe"))
    words.add_argument("--runs", type=int, default=3)
    asked = words.parse_args()
    differ = 0
    with tempfile.TemporaryDirectory() as folder:
        for name, text in PROGRAMS.items():
            file = os.path.join(folder, name + ".c")
            with open(file, "w", encoding="ascii") as it:
                it.write(text)
            subprocess.run(["gcc", "-O0", "-w", "-o", f"{folder}/built", file], check=True)
            native, wanted = median_time([f"{folder}/built"], INPUT, asked.runs)
            checked, got = median_time([asked.program, "run", file, "--steps", "1000000000"], INPUT, asked.runs)
            differ += got != wanted
            print(f"{name:8} gcc -O0 {native:5.0f} ms   heapsafe {checked:6.0f} ms   ratio {checked / native:5.0f}{'' if got == wanted else '   ANOTHER ANSWER'}", flush=True)
        with open(f"{folder}/empty.c", "w", encoding="ascii") as it:
            it.write("int main(void) { return 0; }\n")
        print(f"an empty program: {median_time([asked.program, 'run', f'{folder}/empty.c'], b'', 9)[0]:.0f} ms")
    return 1 if differ else 0


if __name__ == "__main__":
    sys.exit(main())
