#!/usr/bin/env python3
"""cited.py [--missing DOCUMENT]: of which definitions does the contract of the top call `heapsafe` speak?

It begins with the names in that contract, goes on to the names in their definitions, and so on, and prints each file of specs/ that it
comes to, with the names. Names are found as they are written, so a local variable that is spelled like a definition leads to it
too. With --missing it prints which of these crates the document does not name, and which of these files of `heapsafe` and `hs_base`."""

import glob
import os
import re
import sys
from collections import defaultdict

TOP = os.path.dirname(os.path.dirname(os.path.abspath(__file__)))
BEGINS = ("abbrev", "unfoldable", "opaque", "pub", "record", "data")
USE = re.compile(r"(?:ghost )?use Rattle\.(\w+)\.specs\.([\w.]+?)(?:\.\{(.*)\}| as (\w+));?\s*$")


def used(lines):
    """What a file takes from others: names to where they stand, and aliases of whole files."""
    names, aliases = {}, {}
    for found in filter(None, map(USE.match, lines)):
        crate, part, taken, alias = found.groups()
        for word in (taken or "").split(","):
            first, _, own = word.strip().partition(" as ")
            names[own or first] = (crate, part, first)
        if alias:
            aliases[alias] = (crate, part)
    return names, aliases


def defined(lines):
    """The definitions of a file: the text of each, also by the names of its constructors."""
    texts, owner, name, inner = defaultdict(str), {}, None, 0
    for line in lines:
        words, depth = line.split(), len(line) - len(line.lstrip())
        if not words or words[0] in ("use", "--"):
            continue
        if words[0] in ("module", "mutual") or words[-1] == "mutual":
            name, inner = None, 2
            continue
        inner = min(inner, depth)
        if depth == inner:
            name = next(word for word in words if word not in BEGINS)
        elif "data" in texts[name].split()[:2] and words[1:2] == [":"]:
            owner[words[0]] = name
        texts[name] += line
    return texts, owner


class Definitions:
    def __init__(self):
        self.files = {}
        for path in glob.glob(f"{TOP}/crates/*/specs/**/*.antt", recursive=True):
            crate, _, part = os.path.relpath(path, f"{TOP}/crates")[:-5].split("/", 2)
            with open(path, encoding="utf-8") as file:
                lines = file.readlines()
            self.files[crate, part.replace("/", ".")] = (*defined(lines), *used(lines))

    def named_in(self, at, text):
        """The definitions that a text in a file names."""
        texts, owner, names, aliases = self.files[at]
        for alias, name in re.findall(r"\b(\w+)\.(\w+)", text):
            if alias in aliases:
                yield (*aliases[alias], name)
        for word in set(re.findall(r"[^\W\d][\w']*", text)):
            word = owner.get(word, word)
            if word in texts:
                yield (*at, word)
            elif word in names:
                yield names[word]

    def reached(self, first):
        """All definitions that these lead to; a name of the code or the toolchain leads to no other."""
        seen, left = set(), list(first)
        while left:
            crate, part, name = left.pop()
            texts, owner = self.files.get((crate, part), ({}, {}))[:2]
            name = owner.get(name, name)
            if (crate, part, name) not in seen and name in texts:
                seen.add((crate, part, name))
                left += self.named_in((crate, part), texts[name])
        return seen


def main():
    if sys.argv[1:2] not in ([], ["--missing"]) or len(sys.argv) not in (1, 3):
        sys.exit("usage: cited.py [--missing DOCUMENT]")
    with open(f"{TOP}/crates/heapsafe/src/lib.rt", encoding="utf-8") as file:
        code = file.read()
    contract = code.split("pub fn heapsafe<")[1].split("\n{\n")[0]
    names, _ = used(code.splitlines())
    cited = defaultdict(list)
    for crate, part, name in Definitions().reached(names[word] for word in names if re.search(rf"\b{word}\b", contract)):
        cited[crate, part].append(name)
    if len(sys.argv) == 1:
        for (crate, part), words in sorted(cited.items()):
            print(f"crates/{crate}/specs/{part.replace('.', '/')}.antt: {' '.join(sorted(words))}")
        return
    with open(sys.argv[2], encoding="utf-8") as file:
        document = file.read()
    wanted = {crate for crate, _ in cited} | {f"{part}.antt" for crate, part in cited if crate in ("heapsafe", "hs_base")}
    for it in sorted(wanted):
        if not re.search(rf"(?<![\w]){re.escape(it)}(?![\w])", document):
            print(it)


if __name__ == "__main__":
    main()
