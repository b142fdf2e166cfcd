#!/usr/bin/env python3
"""words.py [COUNT [SEED]]: do words without effect have none?

Makes COUNT programs (300 where none is given) whose declarations have `volatile`, `restrict`, `register`, `auto`, `inline`, `const`,
`static` and `extern` at random, wherever C99 lets them stand: of variables, members, parameters, locals, in `for`, in casts, `sizeof`,
typedefs and behind `*`. Each is run by ./heapsafe and by `gcc -std=c99`; the script prints how many of the outputs and statuses
agree, and the first programs of which they do not."""

import os
import random
import subprocess
import sys
import tempfile

TOP = os.path.dirname(os.path.dirname(os.path.abspath(__file__)))
SHOWN = 3


def mixed(source, type_words, storage=()):
    """The words of a declaration in some order: those of a type, qualifiers, and one of storage where there is any."""
    words = [type_words, *source.choices(["volatile", "const"], k=source.randrange(3))]
    if storage and source.random() < 0.6:
        words.append(source.choice(storage))
    source.shuffle(words)
    return " ".join(words)


def behind_star(source):
    return " ".join(["*", *source.sample(["volatile", "restrict", "const"], source.randrange(3))])


def plain(source):
    return source.choice(["unsigned", "unsigned int", "unsigned char", "unsigned short", "word"])


def pointer(source, target):
    return f"{target} {behind_star(source)}"


def expression(source, names, depth=2):
    if depth == 0 or source.random() < 0.3:
        return source.choice([*names, str(source.randrange(200))])
    left, right = (expression(source, names, depth - 1) for _ in range(2))
    kind = source.randrange(6)
    if kind == 0:
        return f"({mixed(source, plain(source))})({left})"
    if kind == 1:
        return f"(unsigned)sizeof({mixed(source, plain(source))})"
    return f"({left} {source.choice(['+', '*', '^', '|', '&', '-'])} {right})"


def function(source, number):
    """A function of two numbers and a pointer to one."""
    words = mixed(source, "unsigned", ["static inline", "inline static", "static", "extern"])
    loop = f"for ({source.choice(['', 'register ', 'auto '])}unsigned i = 0; i < 3; i++) t = t + {expression(source, ['a', 'b', '*p', 't', 'i'])};"
    local = " ".join(source.sample([source.choice(["register", "auto", "volatile"]), "unsigned"], 2))
    first = source.choice(["register ", "volatile ", "const register ", ""])
    target = mixed(source, "unsigned")
    prototype = f"{words} f{number}({pointer(source, target)}, unsigned, {first}unsigned);\n" if source.random() < 0.5 else ""
    return (
        f"{prototype}{words} f{number}({pointer(source, target)} p, {mixed(source, 'unsigned')} a, {first}unsigned b) {{\n"
        f"  {local} t = {expression(source, ['a', 'b', '*p'])};\n  {loop}\n  return t;\n}}\n"
    )


def program(source):
    count = source.randrange(1, 4)
    parts = [
        "#include <stdio.h>\n",
        f"typedef {mixed(source, 'unsigned')} word;\n",
        f"struct pair {{ {mixed(source, plain(source))} left; {pointer(source, mixed(source, 'unsigned'))} to; volatile unsigned right; }};\n",
        f"{mixed(source, 'unsigned', ['static', 'extern']).replace('extern', 'volatile')} g = {source.randrange(1000)};\n",
        *(function(source, number) for number in range(count)),
        "int main(void) {\n",
        f"  {source.choice(['register', 'auto', 'volatile', ''])} unsigned x = {source.randrange(1000)};\n",
        "  auto unsigned place = 5;\n",
        f"  struct pair pair = {{{source.randrange(200)}, &place, {source.randrange(1000)}}};\n",
    ]
    for number in range(count):
        names = ["x", "g", "place", "*pair.to", "pair.right", "pair.left"]
        call = f"f{number}(&place, {expression(source, names)}, {expression(source, names)})"
        parts.append(f'  x = x * 31 + {call};\n  printf("%u %u\\n", x, (unsigned){expression(source, names)});\n')
    return "".join([*parts, "  return x & 63;\n}\n"])


def ran(words, folder):
    it = subprocess.run(words, cwd=folder, capture_output=True, timeout=60)
    return it.returncode, it.stdout


def main():
    count = int(sys.argv[1]) if sys.argv[1:] else 300
    source = random.Random(int(sys.argv[2]) if sys.argv[2:] else 1)
    agree, shown = 0, 0
    with tempfile.TemporaryDirectory() as folder:
        for _ in range(count):
            text = program(source)
            with open(f"{folder}/a.c", "w", encoding="ascii") as file:
                file.write(text)
            subprocess.run(["gcc", "-std=c99", "-w", "a.c", "-o", "a"], cwd=folder, check=True)
            wanted, got = ran(["./a"], folder), ran([f"{TOP}/heapsafe", "run", "a.c"], folder)
            agree += got == wanted
            if got != wanted and shown < SHOWN:
                shown += 1
                print(f"{text}gcc {wanted}\nheapsafe {got}\n")
    print(f"{agree} of {count} programs agree")


if __name__ == "__main__":
    main()
