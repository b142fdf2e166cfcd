#!/usr/bin/env python3
"""macros.py [--before FOLDER] [COUNT [SEED]]: are macros replaced as another preprocessor replaces them?

Makes COUNT texts (1000 where none is given) of generated macros: in place of one another, in circles, with arguments that hold
commas in parentheses or other calls, with unbalanced parentheses, and with names of function-like macros at the end of a
replacement or of an argument. In every second text macros may end in `...`, and in every fourth backslashes join lines between
tokens. Each is preprocessed by `pre` and by `gcc -E`. The script prints how many of the answers agree, as tokens or as a refusal,
and the first texts whose answers do not. With --before each text without `...` is also preprocessed by the `pre` of the checkout
FOLDER, which has to answer the same.

The two differ by design where a directive stands between the name of a macro and its `(`, where an argument that no
parameter stands for in the replacement is refused, and where a backslash stands next to a token that may go on behind it: such
texts are not made."""

import argparse
import os
import random
import re
import subprocess
import sys
import tempfile

TOP = os.path.dirname(os.path.dirname(os.path.abspath(__file__)))
sys.path.append(f"{TOP}/tools")

import build_unproved  # noqa: E402
TOKEN = re.compile(r"[A-Za-z_]\w*|\d+|\S")
NAMES = [*"ABCDEF"]
REST = "__VA_ARGS__"
SHOWN = 3

# writes the tokens of a text, a line for each
PRINTER = """//! The tokens of a preprocessed text.
#![tactic(auto)]

use c_pre::pre;
use hs_base::{FileTexts, NoMemory};
use std::env;
use std::io::Write;
use std::process::ExitCode;

fn run(rt: &HostRuntime) -> Result<u8, NoMemory> {
    let mut words = Vec::new(rt.alloc());
    if let Ok(args) = env::args(rt) {
        for word in args.skip(1) {
            words.push(word)?;
        }
    }
    if words.len() != 1 {
        return Ok(2);
    }
    let Ok(all) = pre(rt.alloc(), &mut FileTexts::new(rt), words[0].as_str(), 0) else {
        return Ok(1);
    };
    let mut lines = Vec::new(rt.alloc());
    for token in all.tokens.as_slice() {
        lines.extend_from_slice(token.bytes.as_slice())?;
        lines.push(b'\\n')?;
    }
    match rt.stdout().write_all(lines.as_slice()) {
        Ok(()) => Ok(0),
        Err(_) => Ok(2),
    }
}

fn main(rt: HostRuntime) -> ExitCode {
    match run(&rt) {
        Ok(status) => ExitCode::from(status),
        Err(NoMemory) => ExitCode::from(2),
    }
}
"""


def build_printer(folder, top=TOP):
    """Builds the printer of a checkout in a folder, and gives its path."""
    os.makedirs(f"{folder}/crates/token_printer/src")
    used = [name for name in build_unproved.below(build_unproved.crates(top), "c_pre", []) if os.path.isdir(f"{top}/crates/{name}")]
    for name in (*used, "c_pre"):
        os.symlink(f"{top}/crates/{name}", f"{folder}/crates/{name}")
    with open(f"{folder}/crates/token_printer/src/main.rt", "w", encoding="utf-8") as it:
        it.write(PRINTER)
    with open(f"{top}/crates.txt", encoding="utf-8") as all_lines, open(f"{folder}/crates.txt", "w", encoding="utf-8") as it:
        it.writelines(line for line in all_lines if line.split(":")[0] in (*used, "c_pre"))
        it.write("token_printer: c_lexer c_pre hs_base\n")
    program = f"{folder}/printer"
    if not build_unproved.build(folder, program, program_of="token_printer"):
        sys.exit(1)
    return program


class Called(dict):
    """How many arguments a call of a macro has: of one with `...` as many as it has parameters, or some more."""

    def __init__(self, random, counts, dotted):
        super().__init__(counts)
        self.random, self.dotted = random, dotted

    def get(self, name, other=None):
        return super().get(name, other) + (self.random.randrange(0, 4) if name in self.dotted else 0)


def call_of(random, depth, words, counts):
    """A name and arguments behind it, mostly as many as its macro takes."""
    name = random.choice(words)
    count = counts.get(name, 1) if random.random() < 0.98 else random.randrange(0, 4)
    return f"{name} ({', '.join(' '.join(run_of(random, depth - 1, words, counts)) for _ in range(count))})"


def run_of(random, depth, words, counts):
    """Some tokens, now and then a call, and seldom a lone sign."""
    tokens = []
    for _ in range(random.randrange(1, 5)):
        kind = random.random()
        if kind < 0.25 and depth > 0:
            tokens.append(call_of(random, depth, words, counts))
        elif kind < 0.8:
            tokens.append(random.choice(words))
        elif kind < 0.9:
            tokens.append(random.choice(["1", "2", "+", "-"]))
        elif kind < 0.99:
            tokens.append(f"({', '.join(run_of(random, 0, words, counts))})")
        else:
            tokens.append(random.choice(["(", ")", ","]))
    return tokens


def macro_of(random, name, counts, dotted):
    """A macro, which has each of its parameters somewhere, also what `...` stands for."""
    parameters = [*"pqr"[: counts.get(name, 0)], *([REST] if name in dotted else [])]
    replacement = run_of(random, 1, [*NAMES, "x", *(3 * parameters)], counts) if random.random() < 0.95 else []
    replacement += [it for it in parameters if it not in TOKEN.findall(" ".join(replacement))]
    form = f"{name}({', '.join('...' if it == REST else it for it in parameters)})" if name in counts else name
    return f"#define {form} {' '.join(replacement)}"


def text_of(random, dots=False):
    """Some macros, and lines in which they stand. A macro with `...` is called with any number of arguments from its own on."""
    counts = {name: random.randrange(0, 4) for name in NAMES if random.random() < 0.6}
    dotted = {name for name in counts if random.random() < 0.5} if dots else set()
    macros = [macro_of(random, name, counts, dotted) for name in NAMES if random.random() < 0.8]
    called = Called(random, counts, dotted) if dots else counts
    return "\n".join([*macros, *(" ".join(run_of(random, 2, NAMES, called)) for _ in range(2)), ""])


def joined(random, text):
    """A text with backslashes at the end of lines between some of its tokens, one byte of white space beside each."""
    return "".join(random.choice([" \\\n", "\\\n ", " \\\n "]) if it == " " and random.random() < 0.2 else it for it in text)


def tokens_of(words, ours):
    """What a preprocessor answers: its tokens, or none where it refuses the text."""
    ran = subprocess.run(words, capture_output=True, text=True, check=False)
    if ours and ran.returncode not in (0, 1):
        sys.exit(f"{' '.join(words)}: status {ran.returncode}")
    return None if ran.returncode else TOKEN.findall(ran.stdout)


def written(file, text):
    with open(file, "w", encoding="utf-8") as it:
        it.write(text)


def main():
    parser = argparse.ArgumentParser(description=__doc__, formatter_class=argparse.RawDescriptionHelpFormatter)
    parser.add_argument("count", nargs="?", type=int, default=1000)
    parser.add_argument("seed", nargs="?", type=int, default=1)
    parser.add_argument("--before", metavar="FOLDER")
    words = parser.parse_args()
    source = random.Random(words.seed)
    agree = refused = shown = old = same = 0
    with tempfile.TemporaryDirectory() as folder:
        printer, file = build_printer(f"{folder}/now"), f"{folder}/text.c"
        before = build_printer(f"{folder}/before", os.path.abspath(words.before)) if words.before else None
        for turn in range(words.count):
            text = text_of(source, turn % 2 == 1)
            text = joined(source, text) if turn % 4 > 1 else text
            written(file, text)
            ours = tokens_of([printer, file], True)
            theirs = tokens_of(["gcc", "-std=c99", "-w", "-E", "-P", "-undef", file], False)
            agree += ours == theirs
            refused += ours is None
            if before and turn % 2 == 0:
                old += 1
                same += ours == tokens_of([before, file], True)
            if ours != theirs and shown < SHOWN:
                shown += 1
                print(f"{text}ours: {ours}\ngcc: {theirs}\n")
    print(f"{agree} of {words.count} agree, of which {refused} texts are refused")
    if before:
        print(f"{same} of {old} texts without `...` have the answer that they had before")
    return agree != words.count or same != old


if __name__ == "__main__":
    sys.exit(main())
