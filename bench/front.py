#!/usr/bin/env python3
"""front.py [COMMAND]: does the time of the front end grow linearly?

Runs `./heapsafe COMMAND FILE` (COMMAND is `print` where none is given) on generated texts of 512 KiB and of twice that, and
prints, for each kind of text, the ratio of the two processor times and the greatest memory per byte of the longer text. Each time is the
least of five runs, which take turns with those of the other texts, less that of a text of a few bytes. A ratio of 2 is linear. The shapes
that once grew faster are run, or laid out."""

import os
import resource
import subprocess
import sys
import tempfile

TOP = os.path.dirname(os.path.dirname(os.path.abspath(__file__)))
PROGRAM = os.path.join(TOP, "heapsafe")
HALF = 512 * 1024
MAIN = "int main(void){return 0;}\n"


def filled(size, piece):
    """Pieces by their numbers, as many as fit."""
    text, number = [], 0
    while (one := piece(number)) and len(one) <= size:
        text.append(one)
        size -= len(one)
        number += 1
    return "".join(text)


def functions(size):
    """Many small functions."""
    return filled(
        size,
        lambda n: f"int f{n}(int a, int b) {{ int c = a * {n}; if (c > b) return c; while (c < b) c = c + 1; return c - b; }}\n",
    )


def list_of_values(size):
    """One huge list of expressions."""
    return "int a[] = {" + "1 + 2 * 3, " * (size // 11) + "0};\n"


def deep(size):
    """Expressions nested close to the greatest depth."""
    inner = "(" * 390 + "x" + ")" * 390
    return filled(size, lambda n: f"int g{n}(int x) {{ return {inner}; }}\n")


def comments(size):
    """Long comments."""
    return ("/* " + "a comment " * 1000 + "*/\n") * (size // 10006)


def strings(size):
    """Long strings."""
    return filled(size, lambda n: f'char *s{n} = "{"a string " * 1000}";\n')


def layers(layer):
    """Types of very many layers that come by names: each name has so many more than the one before it."""

    def text(size):
        return "typedef int t0;\n" + filled(size, lambda n: layer(f"t{n}", f"t{n + 1}"))

    text.__doc__ = f"Types of many layers: {layer('a', 'b')[:20]}.."
    return text


def pointer_layers(old, new):
    return f"typedef {old} {'*' * 390}{new};\n"


def array_layers(old, new):
    return f"typedef {old} {new}{'[1]' * 130};\n"


def named_pointers(size):
    """Chains of names of pointers to names."""
    return "typedef int t0;\n" + filled(size, lambda n: f"typedef t{n} *t{n + 1};\n")


def cases(size):
    """One switch of very many cases."""
    return f"int g(int x) {{ switch (x) {{ {filled(size, lambda n: f'case {n}: x = {n}; break;' + chr(10))} }} return x; }}\n"


def addresses(size):
    """Addresses of locals that are declared between them."""
    return f"int g(void) {{ {filled(size, lambda n: f'int a{n} = 1; int *p{n} = &a{n};' + chr(10))} return 0; }}\n"


def members(size):
    """Very many members, each used."""
    names = filled(size * 2 // 5, lambda n: f"int m{n};\n")
    uses = "".join(f"s.m{n} = {n};\n" for n in range(names.count(";")))
    return f"struct s {{ {names} }};\nint g(void) {{ struct s s; {uses} return 0; }}\n"


def linked_structs(size):
    """Chains of pointers to structs."""
    return "struct s0 { int x; };\n" + filled(size, lambda n: f"struct s{n + 1} {{ struct s{n} *p; }};\n")


def nested_structs(size):
    """Structs in one another."""
    text = filled(size, lambda n: f"struct s{n + 1} {{ struct s{n} s; }};\n")
    return f"struct s0 {{ int *p; }};\n{text}struct s{text.count('};')} all;\n"


def pointer_locals(size):
    """Very many pointer locals, each freed."""
    text = filled(size * 5 // 8, lambda n: f"int *p{n} = malloc(4);\n")
    frees = "".join(f"free(p{n});\n" for n in range(text.count(";")))
    return f"#include <stdlib.h>\nint g(void) {{ {text}{frees} return 0; }}\n"


def choices(size):
    """Chains of choices in one another, in the last part."""
    inner = "x ? 1 : " * 390 + "2"
    return filled(size, lambda n: f"int g{n}(int x) {{ return {inner}; }}\n")


def choices_first(size):
    """Chains of choices in one another, in the middle part."""
    inner = "x ? " * 190 + "1" + " : 2" * 190
    return filled(size, lambda n: f"int g{n}(int x) {{ return {inner}; }}\n")


def replaced_in_turn(size):
    """Macros in place of one another."""
    count = size // 22
    return "".join(f"#define A{number} A{number + 1}\n" for number in range(count)) + "int A0;\n"


def calls_in_turn(size):
    """Calls of macros in place of one another."""
    count = size // 28
    return "".join(f"#define F{number}(x) F{number + 1}(x)\n" for number in range(count)) + f"int F{count}(int);\nint a[sizeof(F0(1))];\n"


def doubled(size):
    """Macros that double one another."""
    levels = size.bit_length() - 3
    text = "".join(f"#define TWICE_{number + 1} TWICE_{number} TWICE_{number}\n" for number in range(levels))
    return f"#define TWICE_0 1,\n{text}int a[] = {{ TWICE_{levels} 0 }};\n"


def doubled_apart(size):
    """Macros that double one another, with others between."""
    levels = size.bit_length() - 3
    text = "".join(f"#define GAP_{number} 0\n#define TWICE_{number + 1} TWICE_{number} TWICE_{number}\n" for number in range(levels))
    return f"#define TWICE_0 1,\n{text}int a[] = {{ TWICE_{levels} 0 }};\n"


def nested_calls(size):
    """Calls of a macro in one another."""
    depth = (size - 50) // 3
    return f"#define F(x) x\nint a[] = {{ {'F(' * depth}1{')' * depth} }};\n"


def nested_replacements(size):
    """Calls in one another in a replacement."""
    depth = (size - 70) // 3
    return f"#define F(x) x\n#define G {'F(' * depth}1{')' * depth}\nint a[] = {{ G }};\n"


def long_arguments(size):
    """A macro of very many parameters."""
    names = [f"p{number}" for number in range(size // 20)]
    return f"#define F({','.join(names)}) {','.join(names)}\nint a[] = {{ F({','.join(['1'] * len(names))}) }};\n"


def used_often(size):
    """One macro, used over and over."""
    return f"#define X 1,\nint a[] = {{ {'X ' * (size // 2 - 30)} 0 }};\n"


def called_often(size):
    """One macro, called over and over."""
    return f"#define F(x) x\nint a[] = {{ {'F(1),' * (size // 5 - 30)} 0 }};\n"


def definitions(size):
    """Very many macros, each used."""
    names = [f"A{number:06}" for number in range(size // 27)]
    return "".join(f"#define {name} 1\n" for name in names) + f"int a[] = {{ {','.join(names)} }};\n"


def withdrawn(size):
    """Very many macros, each taken back."""
    names = [f"A{number:06}" for number in range(size // 33)]
    return "".join(f"#define {name} 1\n" for name in names) + "".join(f"#undef {name}\n" for name in names)


def inclusions(size):
    """Very many includes of an empty text."""
    return '#include "empty.h"\n' * (size // 19)


# what the command in hand is run on, and what `run` or another command of its own
KINDS = [functions, list_of_values, deep, comments, strings]
SHAPES = [
    (layers(pointer_layers), "run"),
    (layers(array_layers), "run"),
    (named_pointers, "run"),
    (cases, "run"),
    (addresses, "run"),
    (members, "run"),
    (linked_structs, "layout"),
    (nested_structs, "run"),
    (pointer_locals, "run"),
    (choices, "run"),
    (choices_first, "run"),
]
MACROS = [
    replaced_in_turn,
    calls_in_turn,
    doubled,
    doubled_apart,
    nested_calls,
    nested_replacements,
    long_arguments,
    used_often,
    called_often,
    definitions,
    withdrawn,
    inclusions,
]


def run(command, path):
    """The processor time of one run in seconds, and the memory in bytes."""
    child = subprocess.Popen([PROGRAM, command, path], stdout=subprocess.DEVNULL, stderr=subprocess.PIPE)
    _, status, used = os.wait4(child.pid, 0)
    took = used.ru_utime + used.ru_stime
    words = child.stderr.read().decode("latin-1")
    child.returncode = os.waitstatus_to_exitcode(status)
    return took, used.ru_maxrss * 1024, words


def least(command, texts):
    """Of each text its least time and its greatest memory, and what is said of the last: of five runs by turns."""
    paths = [f"{number}.c" for number in range(len(texts))]
    for path, text in zip(paths, texts):
        with open(path, "w", encoding="latin-1") as file:
            file.write(text)
    turns = [[run(command, path) for path in paths] for _ in range(5)]
    figures = [(min(took for took, _, _ in runs), max(memory for _, memory, _ in runs)) for runs in zip(*turns)]
    return figures, turns[0][-1][2]


def main():
    given = sys.argv[1] if len(sys.argv) > 1 else "print"
    with tempfile.TemporaryDirectory() as folder:
        os.chdir(folder)
        with open("empty.h", "w", encoding="latin-1"):
            pass

        least(given, [MAIN])  # the program is built here, where it is missing
        print(f"heapsafe {given}, 512 KiB against 1 MiB")
        for kind, command in [(kind, given) for kind in KINDS + MACROS] + SHAPES:
            texts = [MAIN, kind(HALF - len(MAIN)) + MAIN, kind(2 * HALF - 1024 - len(MAIN)) + MAIN]
            ((nothing, room), (short, _), (long, memory)), words = least(command, texts)
            ratio = (long - nothing) / max(short - nothing, 1e-9)
            print(f"{kind.__doc__:48} time x{ratio:.2f}  memory {(memory - room) / len(texts[-1]):.1f} bytes a byte {words.strip()}")


main()
