#!/usr/bin/env python3
"""code_files.py [--quiet] [--few]: tries `compile` and `exec` by the program that ./heapsafe takes.

Each run of the rows is made by both ways: `exec` of what `compile` writes has to write, answer and say what `run` does, but for the
source line that a report shows, and of several texts but for their names and lines, since a code file counts the lines of all. Then the code file of a small program is changed: each byte in turn, to
three other values; cut at each place; with bytes behind its end; and with each of its four-byte numbers made as great as it can be. So are
random bytes. Each of these has to be refused, by status 136 or 137 and that line alone, or to run, within a few seconds. With --quiet
it says only what differs; with --few it tries one of 16 of the changed files."""

import os
import random
import re
import subprocess
import sys
import tempfile
from concurrent.futures import ThreadPoolExecutor

import rows

BUILD = os.path.join(os.path.dirname(os.path.abspath(__file__)), "build.py")
# the launcher looks at each source before it runs this, which would take most of the time of so many runs
PROGRAM = subprocess.run([sys.executable, BUILD], stdout=subprocess.PIPE, text=True).stdout.strip() or rows.PROGRAM

# Its code has a site, a static with a pointer, a format, a memory local, a loop and a call.
SMALL = b"""#include <stdio.h>
#include <stdlib.h>
int g = 3;
int *p = &g;
int twice(int x) { return 2 * x; }
int main(void) {
  int a[2] = {1, 2};
  int *q = malloc(8);
  for (int i = 0; i < 2; i++) q[i] = twice(a[i]) + *p;
  printf("%d\\n", q[0] + q[1]);
  free(q);
  return 0;
}
"""

EXPLAINED = (b"    freed: ", b"    help: ", b"    limit: ")
REFUSALS = {136: b"bad code", 137: b"unverified"}


def run(folder, *words, data=b"", seconds=20):
    return subprocess.run([PROGRAM, *words], cwd=folder, input=data, capture_output=True, timeout=seconds)


def is_file(word):
    return word.endswith(".c")


def unlined(said):
    """What was said, without the source lines below it; an explanation stays."""
    if said.startswith(b"{"):
        return re.sub(rb'"source":"(?:[^"\\]|\\.)*"', b'"source":null', said)
    return b"".join(line for line in said.splitlines(True) if not line.startswith(b"  ") or line.startswith(EXPLAINED))


def unplaced(said):
    """What was said, without the names and lines of texts."""
    return re.sub(rb"(?m)^[a-z]\.[ch](:\d+)?: |\bline \d+|\"file\":\"[a-z]\.[ch]\"|\"line\":\d+", b"", said)


def by_both(case):
    """What differs between a run and the execution of what was compiled."""
    name, words, row = case
    files, options = [it for it in words if is_file(it)], [it for it in words[1:] if not is_file(it)]
    with tempfile.TemporaryDirectory() as folder:
        rows.write_texts(folder, row)
        data = rows.content(row.get("input", ""))
        once = run(folder, *words, data=data, seconds=120)
        if once.returncode == 120 and b"bad command line" in once.stderr:
            return None
        made = run(folder, "compile", *files)
        if made.returncode != 0:
            if "--json" in words and once.returncode == made.returncode:
                return None
            return None if (once.stderr, once.returncode) == (made.stderr, made.returncode) and not made.stdout else f"{name}: {words}: compile answers {made.returncode}"
        with open(os.path.join(folder, files[0]), "wb") as file:
            file.write(made.stdout)
        again = run(folder, "exec", *options, files[0], data=data, seconds=120)
    seen = unplaced if len(rows.texts(row)) > 1 else bytes
    wanted = once.stdout, seen(unlined(once.stderr)), once.returncode
    got = again.stdout, seen(again.stderr), again.returncode
    return None if got == wanted else f"{name}: {words}: {rows.texts(row)!r:.200}\n  exec {got!r:.400}\n  run  {wanted!r:.400}"


def is_fine(ran):
    """Whether a file was refused as such, or run to an end of its own."""
    if ran.returncode in REFUSALS and ran.stderr == b"a.hc: " + REFUSALS[ran.returncode] + b"\n":
        return not ran.stdout
    return not ran.stderr if ran.returncode > 131 else ran.returncode >= 0


def tried(case):
    """What is wrong with what `exec` does with these bytes, if anything is."""
    what, content = case
    with tempfile.TemporaryDirectory() as folder:
        with open(os.path.join(folder, "a.hc"), "wb") as file:
            file.write(content)
        try:
            ran = run(folder, "exec", "a.hc", "--heap", "4096", "--stack", "4096", "--steps", "1000")
        except subprocess.TimeoutExpired:
            return f"{what}: no answer"
    return None if is_fine(ran) else f"{what}: {ran.returncode}, {ran.stderr!r:.200}"


def changes(good):
    """A good file changed in many ways."""
    for place, byte in enumerate(good):
        for other in {byte ^ 1, byte ^ 0x80, 255 - byte}:
            yield f"byte {place} is {other}", good[:place] + bytes([other]) + good[place + 1 :]
        yield f"cut at {place}", good[:place]
        yield f"without byte {place}", good[:place] + good[place + 1 :]
        yield f"another byte at {place}", good[:place] + b"\x01" + good[place:]
        yield f"the greatest number at {place}", good[:place] + b"\xff\xff\xff\xff" + good[place + 4 :]
    for more in b"\0", b"\1", b"HSCODE01", good:
        yield "more bytes behind the end", good + more
    draw = random.Random(1)
    for size in range(200):
        yield f"random bytes {size}", bytes(draw.randrange(256) for _ in range(size))
        yield f"random bytes {size} behind the first eight", b"HSCODE01" + bytes(draw.randrange(256) for _ in range(size))


def main():
    options = set(sys.argv[1:])
    if not options <= {"--quiet", "--few"}:
        print("usage: code_files.py [--quiet] [--few]", file=sys.stderr)
        return 2
    every = [case for path in rows.files() for case in rows.cases(path) if case[1][:1] == ["run"] and any(map(is_file, case[1]))]
    with tempfile.TemporaryDirectory() as folder:
        with open(os.path.join(folder, "a.c"), "wb") as file:
            file.write(SMALL)
        good = run(folder, "compile", "a.c").stdout
    altered = list(changes(good))[:: 16 if "--few" in options else 1]
    with ThreadPoolExecutor(os.cpu_count()) as pool:
        wrong = [it for it in [*pool.map(by_both, every), *pool.map(tried, altered)] if it]
    if not good.startswith(b"HSCODE01"):
        wrong.append("the small program has no code file")
    for it in wrong:
        print(it)
    if wrong or "--quiet" not in options:
        print(f"{len(every)} runs by both ways and {len(altered)} changed files, {len(wrong)} faults")
    return 1 if wrong else 0


if __name__ == "__main__":
    sys.exit(main())
