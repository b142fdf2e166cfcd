#!/usr/bin/env python3
"""integers.py [COUNT [SEED]]: do programs of integers and functions run as the C compiler builds them?

Makes COUNT programs (300 where no number is given) from a seed, runs each by `./heapsafe run` and as `gcc -m32 -fwrapv` builds
it, on the same input, and compares the output and the status. The programs divide by 1 to 8, shift by less than the width, and
have no side effect whose order C leaves open. It wants a gcc that links programs of 32 bits (Debian: gcc-multilib)."""

import os
import random
import subprocess
import sys
import tempfile
from concurrent.futures import ThreadPoolExecutor

TOP = os.path.join(os.path.dirname(os.path.abspath(__file__)), "..")
PROGRAM = os.path.join(TOP, "heapsafe")
TYPES = ["char", "signed char", "unsigned char", "short", "unsigned short", "int", "unsigned", "long", "unsigned long", "long long", "unsigned long long"]
CONSTANTS = ["0", "1", "2", "7", "10", "100", "255", "256", "32767", "65535", "2147483647", "0x80000000", "4294967295u", "0xffffffffffffffff", "1LL", "5u", "'a'", "'\\n'", "'\\377'", "017", "12345678901"]


class Program:
    def __init__(self, seed):
        self.random = random.Random(seed)
        self.functions = []  # name, types of the parameters
        self.number = 0

    def pick(self, *choices):
        return self.random.choice(choices)

    def fresh(self, letter):
        self.number += 1
        return f"{letter}{self.number}"

    def expression(self, names, depth):
        if depth <= 0 or self.random.random() < 0.15:
            return self.random.choice(names + [self.random.choice(CONSTANTS), str(self.random.randint(0, 999))])
        inner = lambda: self.expression(names, depth - 1)
        form = self.random.randrange(13)
        if form <= 3:
            return f"({inner()} {self.pick('+', '-', '*', '&', '|', '^')} {inner()})"
        if form == 4:
            return f"({inner()} {self.pick('/', '%')} (({inner()} & 7) + 1))"
        if form == 5:
            return f"({inner()} {self.pick('<<', '>>')} ({inner()} & 31))"
        if form == 6:
            return f"({inner()} {self.pick('<', '>', '<=', '>=', '==', '!=')} {inner()})"
        if form == 7:
            return f"({inner()} {self.pick('&&', '||')} {inner()})"
        if form == 8:
            return f"{self.pick('-', '~', '!', '+')}({inner()})"
        if form == 9:
            return f"({self.random.choice(TYPES)})({inner()})"
        if form == 10:
            return f"({inner()} ? {inner()} : {inner()})"
        if form == 11 and self.functions:
            name, count = self.random.choice(self.functions)
            return f"{name}({', '.join(inner() for _ in range(count))})"
        return self.pick(f"(int)sizeof({self.random.choice(TYPES)})", f"({inner()}, {inner()})")

    def statements(self, names, own, depth, room, in_loop):
        """Statements over names that are read and names that are written."""
        text = []
        for _ in range(self.random.randint(1, room)):
            text.append(self.statement(names, own, depth, in_loop))
        return " ".join(text)

    def statement(self, names, own, depth, in_loop):
        value = lambda deep=2: self.expression(names, deep)
        form = self.random.randrange(12)
        target = self.random.choice(own)
        if form <= 2 or depth <= 0:
            return f"{target} {self.pick('=', '+=', '-=', '*=', '&=', '|=', '^=')} {value(3)};"
        if form == 3:
            return self.pick(f"{target}++;", f"--{target};", f"{target} <<= ({value(1)} & 15);", f"{target} /= (({value(1)} & 7) + 1);")
        if form == 4:
            return f"if ({value()}) {{ {self.statements(names, own, depth - 1, 2, in_loop)} }} else {{ {self.statements(names, own, depth - 1, 2, in_loop)} }}"
        if form == 5:
            i = self.fresh("i")
            return f"for (int {i} = 0; {i} < {self.random.randint(1, 5)}; {i}++) {{ {self.statements(names + [i], own, depth - 1, 2, True)} }}"
        if form == 6:
            i = self.fresh("w")
            return f"{{ unsigned char {i} = {self.random.randint(1, 4)}; while ({i}) {{ {i}--; {self.statements(names + [i], own, depth - 1, 2, True)} }} }}"
        if form == 7:
            i = self.fresh("d")
            return f"{{ short {i} = {self.random.randint(1, 4)}; do {{ {self.statements(names + [i], own, depth - 1, 2, False)} }} while (--{i} > 0); }}"
        if form == 8:
            cases = self.random.sample(range(-3, 9), self.random.randint(1, 4))
            arms = [f"case {case}: {self.statements(names, own, depth - 1, 2, False)} {self.pick('break;', '')}" for case in cases]
            arms.insert(self.random.randint(0, len(arms)), f"default: {self.statements(names, own, depth - 1, 1, False)} {self.pick('break;', '')}")
            return f"switch (({value()}) % 9) {{ {' '.join(arms)} }}"
        if form == 9:
            name = self.fresh("b")
            return f"{{ {self.random.choice(TYPES)} {name} = {value()}; {self.statements(names + [name], own + [name], depth - 1, 2, in_loop)} }}"
        if form == 10 and in_loop:
            return f"if ({value()}) {self.pick('break;', 'continue;')}"
        return f"{target} = {value()}, {target} += {value(1)};"

    def function(self):
        name = self.fresh("f")
        params = [(self.random.choice(TYPES), self.fresh("p")) for _ in range(self.random.randint(1, 4))]
        local = self.fresh("x")
        names = [param for _, param in params] + [local]
        body = self.statements(names, names, 2, 3, False)
        text = f"{self.random.choice(TYPES)} {name}({', '.join(f'{ty} {param}' for ty, param in params)}) {{ {self.random.choice(TYPES)} {local} = {self.random.randint(0, 99)}; {body} return {self.expression(names, 2)}; }}"
        self.functions.append((name, len(params)))
        return text

    def whole(self):
        functions = [self.function() for _ in range(self.random.randint(1, 4))]
        names = [self.fresh("v") for _ in range(4)]
        main = [f"{self.random.choice(TYPES)} {name} = {self.random.choice(CONSTANTS)};" for name in names]
        main.append(f"int c = getchar(); while (c != -1) {{ {names[0]} += c; c = getchar(); }}")
        for _ in range(self.random.randint(3, 7)):
            main.append(self.statement(names, names, 3, False))
            main.append(f'printf("%d %u %lld %x|%5d|%-4x|%c\\n", (int)({self.expression(names, 3)}), (unsigned)({self.expression(names, 2)}), (long long)({self.expression(names, 3)}), (unsigned)({self.expression(names, 2)}), (int){names[1]}, (unsigned){names[2]}, 33 + ((int){names[3]} & 63));')
        main.append(f"return (int)({self.expression(names, 2)});")
        return "\n".join(["#include <stdio.h>", *functions, "int main(void) {", *main, "}", ""])


def compared(seed):
    """The text, and what both wrote and answered; none where gcc's program does not end by itself."""
    text = Program(seed).whole()
    with tempfile.TemporaryDirectory() as folder:
        with open(f"{folder}/a.c", "w", encoding="ascii") as file:
            file.write(text)
        subprocess.run(["gcc", "-m32", "-fwrapv", "-w", f"{folder}/a.c", "-o", f"{folder}/a"], check=True)
        given = bytes(seed % 97 + i for i in range(seed % 5))
        wanted = subprocess.run([f"{folder}/a"], input=given, capture_output=True)
        got = subprocess.run([PROGRAM, "run", f"{folder}/a.c"], input=given, capture_output=True)
    return text, (wanted.stdout, wanted.returncode), (got.stdout, got.returncode), got.stderr


def main():
    count = int(sys.argv[1]) if len(sys.argv) > 1 else 300
    first = 1000 * (int(sys.argv[2]) if len(sys.argv) > 2 else 1)
    subprocess.run([PROGRAM], capture_output=True)  # the program is built here, where it is missing
    with ThreadPoolExecutor(os.cpu_count()) as pool:
        answers = list(pool.map(compared, range(first, first + count)))
    wrong = [answer for answer in answers if answer[1] != answer[2]]
    for text, wanted, got, said in wrong[:3]:
        print(f"{text}gcc: {wanted}\nheapsafe: {got} {said.decode('latin-1')}")
    print(f"{len(wrong)} of {count} programs differ")
    sys.exit(1 if wrong else 0)


main()
