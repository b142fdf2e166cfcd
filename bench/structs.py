#!/usr/bin/env python3
"""structs.py [COUNT [SEED]]: are structs and unions laid out as by the C compiler?

Makes a text of COUNT structs and unions (200 where no number is given) from a seed, and compares the size, the alignment and
the places of all pointers that `./heapsafe layout` gives each with what `gcc -m32 -malign-double` gives. It wants a gcc that
links programs of 32 bits (Debian: gcc-multilib)."""

import os
import random
import subprocess
import sys
import tempfile

TOP = os.path.join(os.path.dirname(os.path.abspath(__file__)), "..")
PROGRAM = os.path.join(TOP, "heapsafe")
INTEGERS = ["char", "signed char", "unsigned char", "short", "unsigned short", "int", "unsigned int", "long", "unsigned long", "long long", "unsigned long long"]
POINTERS = ["char *{}", "int *{}", "void *{}", "struct t0 *{}", "int (*{})[3]", "char **{}"]


class Maker:
    """Makes types, and notes for each tag the paths of the pointers in it."""

    def __init__(self, seed):
        self.random = random.Random(seed)
        self.paths = {}  # by the word and name of a tag
        self.text = []

    def array(self):
        """The lengths of an array's dimensions; none for no array."""
        return [self.random.randint(1, 4) for _ in range(self.random.choice([0, 0, 0, 1, 1, 2]))]

    def spread(self, name, lengths, paths):
        """The paths of the pointers in a member with these lengths, where each element has such paths."""
        heads = [name]
        for length in lengths:
            heads = [f"{head}[{i}]" for head in heads for i in range(length)]
        return [head + path for head in heads for path in paths]

    def member(self, name, may_point):
        lengths = self.array()
        tail = "".join(f"[{length}]" for length in lengths)
        known = [tag for tag, paths in self.paths.items() if may_point or not paths]
        kind = self.random.choice(["integer", "integer", "pointer", "tag"] if may_point else ["integer", "integer", "tag"])
        if kind == "tag" and known:
            tag = self.random.choice(known)
            if len(self.paths[tag]) * 16 < 400:
                return f"{tag} {name}{tail};", self.spread(name, lengths, [f".{path}" for path in self.paths[tag]])
        if kind == "pointer":
            return self.random.choice(POINTERS).format(name) .replace(name, name + tail, 1) + ";", self.spread(name, lengths, [""])
        return f"{self.random.choice(INTEGERS)} {name}{tail};", []

    def struct(self, name):
        members = [self.member(f"m{i}", True) for i in range(self.random.randint(1, 6))]
        self.text.append(f"struct {name} {{ {' '.join(text for text, _ in members)} }};")
        self.paths[f"struct {name}"] = [path for _, paths in members for path in paths]

    def union(self, name):
        """All members without pointers, or all of them one pointer."""
        if self.random.random() < 0.3:
            names = [f"m{i}" for i in range(self.random.randint(1, 3))]
            self.text.append(f"union {name} {{ {' '.join(self.random.choice(POINTERS).format(it) + ';' for it in names)} }};")
            self.paths[f"union {name}"] = ["m0"]
            return
        members = [self.member(f"m{i}", False)[0] for i in range(self.random.randint(1, 4))]
        self.text.append(f"union {name} {{ {' '.join(members)} }};")
        self.paths[f"union {name}"] = []

    def make(self, count):
        for number in range(count):
            (self.union if number % 5 == 4 else self.struct)(f"t{number}")


def by_gcc(maker, folder):
    """The lines that `layout` has to write, by gcc."""
    shown = []
    for tag, paths in maker.paths.items():
        slots = "".join(" %u" for _ in paths)
        offsets = "".join(f", (unsigned)__builtin_offsetof({tag}, {path})" for path in paths)
        shown.append(f'printf("{tag} size %u align %u slots{slots}\\n", (unsigned)sizeof({tag}), (unsigned)_Alignof({tag}){offsets});')
    source = "\n".join(["#include <stdio.h>", *maker.text, "int main(void) {", *shown, "return 0; }"])
    with open(f"{folder}/b.c", "w", encoding="ascii") as file:
        file.write(source)
    subprocess.run(["gcc", "-m32", "-malign-double", "-w", f"{folder}/b.c", "-o", f"{folder}/b"], check=True)
    return subprocess.run([f"{folder}/b"], capture_output=True, check=True, text=True).stdout.splitlines()


def main():
    count = int(sys.argv[1]) if len(sys.argv) > 1 else 200
    maker = Maker(int(sys.argv[2]) if len(sys.argv) > 2 else 1)
    maker.make(count)
    with tempfile.TemporaryDirectory() as folder:
        with open(f"{folder}/a.c", "w", encoding="ascii") as file:
            file.write("\n".join([*maker.text, "int main(void) { return 0; }", ""]))
        wanted = by_gcc(maker, folder)
        ran = subprocess.run([PROGRAM, "layout", f"{folder}/a.c"], capture_output=True, text=True)
    got = ran.stdout.splitlines()
    sys.stdout.write(ran.stderr)
    wrong = [(one, other) for one, other in zip(wanted, got) if one != other]
    for one, other in wrong[:5]:
        print(f"gcc:      {one}\nheapsafe: {other}")
    missing = abs(len(wanted) - len(got))
    print(f"{len(wrong) + missing} of {len(wanted)} layouts differ")
    sys.exit(1 if wrong or missing else 0)


main()
