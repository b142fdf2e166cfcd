#!/usr/bin/env python3
"""conditions.py [COUNT [SEED]]: are groups of lines read as another preprocessor reads them?

Makes COUNT texts (1000 where none is given) of generated groups: `#if`, `#ifdef`, `#ifndef`, `#elif` and `#else`, one in another,
with numbered lines between them and `#pragma` here and there. Their conditions have constants of every form, the operators of C99
6.5 that 6.6 leaves in, `defined` in both forms, macros with and without arguments, and names that are none; now and then one that is no condition. Each text is
preprocessed by `pre` and by `gcc -E`. The script prints how many of the answers agree, as the lines that are left or as a refusal,
and the first texts whose answers do not.

The two differ by design where a shift has a count below 0 or above 63, a `defined` comes from a replacement, or a decimal constant without
`u` does not fit 64 bits with a sign, which gcc takes; where a comma stands in what is not evaluated, which gcc takes too; where a skipped group has a second `#else`, which gcc
refuses; and where a `defined` stands in an argument, of which
gcc replaces the name. Such conditions are not made."""

import random
import subprocess
import sys
import tempfile

from macros import TOKEN, build_printer

MACROS = """#define ZERO 0
#define ONE 1
#define TWO (ONE + ONE)
#define BIG 0x7fffffffffffffff
#define TOP 0xffffffffffffffffu
#define EMPTY
#define SELF SELF
#define ADD(a, b) ((a) + (b))
#define PICK(a, b) a
#define NOT(a) !a
"""
NAMES = ["ZERO", "ONE", "TWO", "BIG", "TOP", "EMPTY", "SELF", "ADD", "PICK", "NONE", "other", "_x", "int", "while"]
CONSTANTS = ["0", "1", "2", "3", "7", "10", "0u", "1u", "1l", "2ul", "3LL", "4ull", "0x10", "017", "0x7fffffffffffffff", "0xffffffffffffffff", "0x8000000000000000",
             "9223372036854775807", "18446744073709551615u", "01777777777777777777777", "0x80000000", "4294967295", "'a'", "'0'", "'\\n'", "'\\377'", "'\\0'", "'\\x7f'"]
BINARY = ["||", "&&", "|", "^", "&", "==", "!=", "<", ">", "<=", ">=", "+", "-", "*", "/", "%"]
WRONG = ["", "1 +", "(1", "1)", "1 2", "1 = 1", "1, 2", "x = 1", "\"a\"", "defined", "defined 1", "defined (ONE", "ONE(1)", "other(1)", "++1", "&1", "*1", "sizeof 1", "1 ? 2", "1 : 2",
         "(int)1", "ADD(1)", "ADD", "1.5", "a.b", "1[2]", "- ", "! ", "1 ||", "@", "# 1"]
SHOWN = 3


def primary(source, depth, asks):
    kind = source.random()
    if kind < 0.45:
        return source.choice(CONSTANTS)
    if kind < 0.55:
        return source.choice(["ZERO", "ONE", "TWO", "BIG", "TOP", "SELF", "NONE", "other", "int", "while"])
    if kind < 0.7 and asks:
        name = source.choice(NAMES)
        return source.choice([f"defined {name}", f"defined({name})", f"defined ( {name} )"])
    if kind < 0.8 and depth > 0:
        return f"{source.choice(['ADD', 'PICK'])}({condition(source, depth - 1, False)}, {condition(source, depth - 1, False)})"
    return f"({condition(source, depth - 1, asks)})" if depth > 0 else source.choice(CONSTANTS)


def condition(source, depth, asks=True):
    """A condition, mostly one that has a value; of arguments one that does not ask for names."""
    kind = source.random()
    if depth <= 0 or kind < 0.2:
        return primary(source, depth, asks)
    if kind < 0.3:
        return f"{source.choice(['!', '-', '~', '+'])} {primary(source, depth - 1, asks)}"
    if kind < 0.36:
        count = source.choice(["0", "1", "5u", "31", "62", "63", f"(({condition(source, depth - 1, asks)}) & 63)"])
        return f"({primary(source, depth - 1, asks)} {source.choice(['<<', '>>'])} {count})"
    if kind < 0.44:
        return f"{condition(source, depth - 1, asks)} ? {condition(source, depth - 1, asks)} : {condition(source, depth - 1, asks)}"
    return f"{condition(source, depth - 1, asks)} {source.choice(BINARY)} {condition(source, depth - 1, asks)}"


def asked(source):
    kind = source.random()
    if kind < 0.01:
        return source.choice(WRONG)
    if kind < 0.02:
        return f"{source.choice(['0 && ', '1 || ', '1 ? 1 : '])}({source.choice([it for it in WRONG if it != '1, 2'])})"
    return condition(source, source.randrange(0, 4))


def lines(source, depth, count):
    """Some lines, each with a number of its own, and groups between them."""
    made = []
    for _ in range(source.randrange(1, 4)):
        count[0] += 1
        made.append(f"line {count[0]} ONE" if source.random() < 0.9 else source.choice([f"#pragma omp {count[0]}", "#pragma @ (x", "#", f"#define M{count[0]} {count[0]}"]))
        if depth > 0 and source.random() < 0.7:
            made += group(source, depth - 1, count)
    return made


def group(source, depth, count, outer=False):
    word = source.random()
    first = f"#if {asked(source)}" if word < 0.7 else f"#{source.choice(['ifdef', 'ifndef'])} {source.choice([it for it in NAMES if it not in ('int', 'while')])}"
    made = [first, *lines(source, depth, count)]
    while source.random() < 0.5:
        made += [f"# elif {asked(source)}", *lines(source, depth, count)]
    if source.random() < 0.5:
        made += ["#else", *lines(source, depth, count)]
    if outer and source.random() < 0.03:
        made += [source.choice(["#elif 1", "#else"]), *lines(source, depth, count)]
    return made if source.random() < 0.01 else [*made, "#endif"]


def text_of(source):
    return "\n".join([MACROS, *group(source, 2, [0], True), *group(source, 1, [1000], True), ""])


def answer(words, ours):
    """What a preprocessor leaves: tokens, or none where it refuses the text."""
    ran = subprocess.run(words, capture_output=True, text=True, check=False)
    if ours and ran.returncode not in (0, 1):
        sys.exit(f"{' '.join(words)}: status {ran.returncode}")
    left = "\n".join(it for it in ran.stdout.splitlines() if not it.startswith("#pragma"))
    return None if ran.returncode else TOKEN.findall(left)


def main():
    count, seed = (int(word) for word in [*sys.argv[1:], *["1000", "1"][len(sys.argv) - 1 :]])
    source = random.Random(seed)
    agree = refused = shown = 0
    with tempfile.TemporaryDirectory() as folder:
        printer, file = build_printer(folder), f"{folder}/text.c"
        for _ in range(count):
            text = text_of(source)
            with open(file, "w", encoding="utf-8") as it:
                it.write(text)
            ours = answer([printer, file], True)
            theirs = answer(["gcc", "-std=c99", "-pedantic-errors", "-m32", "-E", "-P", "-undef", file], False)
            agree += ours == theirs
            refused += ours is None
            if ours != theirs and shown < SHOWN:
                shown += 1
                print(f"{text}ours: {ours}\ngcc: {theirs}\n")
    print(f"{agree} of {count} agree, of which {refused} texts are refused")
    return agree != count


if __name__ == "__main__":
    sys.exit(main())
