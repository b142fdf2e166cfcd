#!/usr/bin/env python3
"""sweep.py [--quiet] [--programs N] [--seed N]: runs small generated programs and compares them to a model in Python.

Half of them make, link and free objects, the other half reckon with integers. The model says for each what it writes, what is
said of it and its status; `run` and `mean` both have to agree. Exit status 0 where nothing differs."""

import argparse
import os
import random
import subprocess
import sys
import tempfile
from concurrent.futures import ThreadPoolExecutor

TOP = os.path.dirname(os.path.dirname(os.path.abspath(__file__)))
GLOBALS = ["g0", "g1", "g2", "g3"]
FIELDS = {"a": 0, "b": 4}
HEAD = ["struct n { struct n *a; struct n *b; int v; };", "struct n *g0, *g1, *g2, *g3;", "int main(void) {", "  struct n *p;"]


class Stop(Exception):
    """The program ends: its status, the words behind the line's number, and the lines below the source line."""

    def __init__(self, status, words, line, more=""):
        super().__init__(words)
        self.status, self.words, self.line, self.more = status, words, line, more


class Objects:
    """The model of a run that makes, links and frees objects."""

    def __init__(self):
        self.globals = dict.fromkeys(GLOBALS)
        self.heap = []
        self.queue = []
        self.is_delayed = False
        self.out = ""

    def made(self, line):
        self.heap.append({"a": None, "b": None, "line": line})
        return self.heap[-1]

    def at(self, name, line):
        if self.globals[name] is None:
            raise Stop(128, "trap: null", line)
        return self.globals[name]

    def free(self, freed, line):
        if freed is None:
            return
        if any(freed is it for it, _ in self.queue):
            raise Stop(126, "bad free: again", line)
        self.queue.append((freed, line))
        if not self.is_delayed:
            self.check()

    def holder(self, freed):
        """Who holds a freed object: globals first, then the objects of the heap that were not freed."""
        for name, held in self.globals.items():
            if held is freed:
                return f"held by global {name} at 0\n"
        for it in self.heap:
            for field, offset in FIELDS.items():
                if it[field] is freed and not any(it is other for other, _ in self.queue):
                    return f"held by block of line {it['line']} at {offset}\n"
        return None

    def check(self):
        for freed, line in self.queue:
            holder = self.holder(freed)
            if holder:
                raise Stop(126, "bad free: held", line, holder)
        dead = [it for it, _ in self.queue]
        self.heap = [it for it in self.heap if not any(it is other for other in dead)]
        self.queue = []

    def leaks(self):
        lines = {}
        for it in self.heap:
            lines[it["line"]] = lines.get(it["line"], 0) + 1
        return "".join(f"leak: line {line}: {count} blocks, {12 * count} bytes\n" for line, count in sorted(lines.items()))


def object_step(chance, model, line):
    """A random line of C, and what the model does at it."""
    filled = [name for name in GLOBALS if model.globals[name]]
    x, y, field = chance.choice(GLOBALS), chance.choice(GLOBALS), chance.choice("ab")
    # (a null pointer is seldom followed, so that most programs get far)
    z = chance.choice(filled if filled and chance.random() < 0.99 else GLOBALS)

    def link():
        model.at(z, line)[field] = model.globals[y]

    def follow():
        model.globals[x] = model.at(z, line)[field]

    def show():
        model.out += f"{model.at(z, line)['line']}\n"

    def drop():
        freed, model.globals[x] = model.globals[x], None
        model.free(freed, line)

    steps = [
        (f"{x} = malloc(sizeof *{x}); {x}->v = {line};", lambda: model.globals.update({x: model.made(line)})),
        (f"{x} = {y};", lambda: model.globals.update({x: model.globals[y]})),
        (f"{z}->{field} = {y};", link),
        (f"{x} = {z}->{field};", follow),
        (f'printf("%d\\n", {z}->v);', show),
        (f"p = {x}; {x} = 0; free(p);", drop),
        (f"free({x});", lambda: model.free(model.globals[x], line)),
    ]
    follows = 2 if filled else 0.05
    weights = [8, 3, 1.5 * follows, follows, follows, 4, 3 if model.is_delayed else 0.3]
    return chance.choices(steps, weights)[0]


def ended(text, out, stop, leaks=""):
    """What a program writes, what is said of it, and its status."""
    if stop is None:
        return out, leaks, 0
    source = text[stop.line - 1]
    return out, f"a.c:{stop.line}: {stop.words}\n  {source}\n{stop.more}", stop.status


def object_program(chance):
    """A program that makes, links and frees objects, and how it ends."""
    text, model, stop = list(HEAD), Objects(), None

    def go(line, act):
        nonlocal stop
        text.append("  " + line)
        if stop is None:
            try:
                act()
            except Stop as it:
                stop = it

    def delay(is_delayed):
        model.is_delayed = is_delayed
        if not is_delayed:
            model.check()

    for _ in range(chance.randrange(5, 40)):
        if chance.random() < 0.08:
            is_open = model.is_delayed
            go("}" if is_open else "__delay_frees {", lambda: delay(not is_open))
            model.is_delayed = not is_open
        else:
            go(*object_step(chance, model, len(text) + 1))
    if model.is_delayed:
        go("}", lambda: delay(False))
    text += ["  return 0;", "}"]
    return text, ended(text, model.out, stop, model.leaks())


KINDS = {"int": (32, True), "unsigned": (32, False), "signed char": (8, True), "unsigned short": (16, False)}
WORDS = {"v0": "int", "v1": "unsigned", "v2": "signed char", "v3": "unsigned short", "v4": "int"}


def narrowed(value, kind):
    bits, is_signed = KINDS[kind]
    value %= 1 << bits
    return value - (1 << bits) if is_signed and value >> (bits - 1) else value


def promoted(kind):
    return "unsigned" if kind == "unsigned" else "int"


def reckoned(sign, left, right, kinds, line):
    """The value of an operator of C on two operands of these kinds."""
    kind = promoted(kinds[0])
    if sign in ("<<", ">>"):
        if not 0 <= right < 32:
            raise Stop(128, "trap: shift", line)
        return left << right if sign == "<<" else left >> right
    if "unsigned" in kinds:
        kind = "unsigned"
    left, right = narrowed(left, kind), narrowed(right, kind)
    if sign in "/%":
        if right == 0:
            raise Stop(128, "trap: divide", line)
        quotient = abs(left) // abs(right) * (1 if (left < 0) == (right < 0) else -1)
        return narrowed(quotient if sign == "/" else left - quotient * right, kind)
    value = {"+": left + right, "-": left - right, "*": left * right, "&": left & right, "|": left | right, "^": left ^ right, "<": int(left < right)}[sign]
    return narrowed(value, kind) if sign != "<" else value


def integer_program(chance):
    """A program that reckons with integers, and how it ends."""
    text, values, out, stop = ["int main(void) {"], {}, "", None
    for name, kind in WORDS.items():
        values[name] = narrowed(chance.choice([0, 1, -1, 7, 100, 255, 40000, 2147483647]) * chance.randrange(1, 9), kind)
        text.append(f"  {kind} {name} = {values[name]};")
    for _ in range(chance.randrange(5, 30)):
        to, x, y, sign = *(chance.choice(list(WORDS)) for _ in range(3)), chance.choice(["+", "-", "*", "/", "%", "&", "|", "^", "<", "<<", ">>"])
        # (most shifts are by less than 32, and most divisors are not zero)
        guard = {"<<": "& 31", ">>": "& 31", "/": "| 1", "%": "| 1"}.get(sign) if chance.random() < 0.95 else None
        text.append(f'  {to} = {x} {sign} {f"({y} {guard})" if guard else y}; printf("%d\\n", {to});')
        if stop is None:
            try:
                right = {None: values[y], "& 31": values[y] & 31, "| 1": values[y] | 1}[guard]
                values[to] = narrowed(reckoned(sign, values[x], right, (WORDS[x], WORDS[y]), len(text)), WORDS[to])
                out += f"{narrowed(values[to], 'int')}\n"
            except Stop as it:
                stop = it
    text += ["  return 0;", "}"]
    return text, ended(text, out, stop)


def difference(seed):
    """Where a program differs from the model."""
    chance = random.Random(seed)
    text, wanted = (integer_program if seed % 2 else object_program)(chance)
    with tempfile.TemporaryDirectory() as folder:
        with open(f"{folder}/a.c", "w", encoding="utf-8") as file:
            file.write("\n".join(text) + "\n")
        for words in (["run", "a.c", "--leaks"], ["mean", "a.c"]):
            ran = subprocess.run([f"{TOP}/heapsafe", *words], cwd=folder, stdin=subprocess.DEVNULL, capture_output=True, text=True)
            said = wanted[1] if wanted[2] or "--leaks" in words else ""
            if (ran.stdout, ran.stderr, ran.returncode) != (wanted[0], said, wanted[2]):
                return f"seed {seed}: {words[0]} differs: got {ran.stdout!r} {ran.stderr!r} {ran.returncode}, wanted {wanted[0]!r} {said!r} {wanted[2]}\n" + "\n".join(text)
    return None


def main():
    words = argparse.ArgumentParser()
    words.add_argument("--quiet", action="store_true")
    words.add_argument("--programs", type=int, default=300)
    words.add_argument("--seed", type=int, default=1)
    asked = words.parse_args()
    with ThreadPoolExecutor(os.cpu_count()) as pool:
        found = [it for it in pool.map(difference, range(asked.seed, asked.seed + asked.programs)) if it]
    for it in found[:5]:
        print(it)
    if found or not asked.quiet:
        print(f"{asked.programs} small programs, {len(found)} differ from the model")
    return 1 if found else 0


if __name__ == "__main__":
    sys.exit(main())
