#!/usr/bin/env python3
"""sessions.py [--quiet] [DOCUMENT..]: runs the shell sessions of the documents and compares them to the byte.

A session is a block ```console: a line `$ COMMAND`, lines `> ..` that go on with it, and then all that it writes to either
stream. The commands of a document are run in one shell, one after another, in a scratch folder that has the files of the
repository. A block whose first line names a file behind its language, as ```c bug.c, is that file: where the repository has
one of that name, it must be the same; else it is made in the scratch folder. A block ```console needs WORD.. is left out where
one of these programs is missing, or of these packages of Debian for Python, as python3-rich. Exit status 0 where nothing differs."""

import glob
import os
import re
import shutil
import subprocess
import sys
import tempfile
from concurrent.futures import ThreadPoolExecutor
from dataclasses import dataclass, field

TOP = os.path.dirname(os.path.dirname(os.path.abspath(__file__)))
MARK = "---- end of a command ----"
SECONDS = 300


@dataclass
class Block:
    line: int
    words: list
    text: list = field(default_factory=list)


@dataclass
class Command:
    line: int
    text: str
    wanted: str = ""


def blocks(name):
    """The fenced blocks of a document, in order."""
    found, block = [], None
    with open(name, encoding="utf-8") as document:
        for number, line in enumerate(document, 1):
            if line.startswith("```"):
                if block is None:
                    block = Block(number, line[3:].split())
                else:
                    found.append(block)
                    block = None
            elif block is not None:
                block.text.append(line)
            elif re.match(r"(    |\t)\$ ", line):
                sys.exit(f"{name}:{number}: a session stands in a block ```console")
    if block is not None:
        sys.exit(f"{name}:{block.line}: a block has no end")
    return found


def commands(block):
    """The commands of a session, each with what it has to write."""
    found = []
    goes_on = False
    for number, line in enumerate(block.text, block.line + 1):
        if line.startswith("$ "):
            found.append(Command(number, line[2:]))
            goes_on = True
        elif line.startswith("> ") and goes_on:
            found[-1].text += line[2:]
        else:
            found = found or [Command(number, ":\n")]
            found[-1].wanted += line
            goes_on = False
    return found


def is_there(word):
    """Whether a program is there, or a package of Debian's Python."""
    if not word.startswith("python3-"):
        return shutil.which(word) is not None
    module = word.removeprefix("python3-")
    return subprocess.run(["/usr/bin/python3", "-c", f"import {module}"], capture_output=True).returncode == 0


def needs(block):
    """The programs and packages that a session wants and that are missing."""
    return [word for word in block.words[2:] if not is_there(word)] if block.words[1:2] == ["needs"] else []


def scratch(folder):
    """Makes a folder that has all that the repository has, by links."""
    for name in os.listdir(TOP):
        if name not in (".git", "out"):
            os.symlink(f"{TOP}/{name}", f"{folder}/{name}")


def fault_of_file(name, block, folder):
    """Makes the file of a block that names one, or says where it differs from that of the repository."""
    if any(line.startswith("$ ") for line in block.text):
        return [f"{name}:{block.line}: a session stands in a block ```console"]
    if len(block.words) < 2:
        return []
    path, text = block.words[1], "".join(block.text)
    if os.path.exists(f"{TOP}/{path}"):
        with open(f"{TOP}/{path}", encoding="utf-8") as file:
            return [] if file.read() == text else [f"{name}:{block.line}: {path} of the repository is another text"]
    os.makedirs(os.path.dirname(f"{folder}/{path}"), exist_ok=True)
    with open(f"{folder}/{path}", "w", encoding="utf-8") as file:
        file.write(text)
    return []


def outputs(asked, folder):
    """What each command writes, run by one shell in this folder."""
    script = "".join(f"{it.text}{{ status=$?; printf '%s' '{MARK}'; (exit $status); }}\n" for it in asked)
    ran = subprocess.run(["bash", "-c", script], cwd=folder, stdin=subprocess.DEVNULL, stdout=subprocess.PIPE, stderr=subprocess.STDOUT, timeout=SECONDS)
    return ran.stdout.decode(errors="replace").split(MARK)[: len(asked)]


def difference(name, command, got):
    wanted = "".join(f"    | {line}\n" for line in command.wanted.splitlines())
    written = "".join(f"    | {line}\n" for line in (got or "no end\n").splitlines())
    return f"{name}:{command.line}: {command.text.rstrip()}\n  wanted\n{wanted}  got\n{written}".rstrip()


def faults(name):
    """What is wrong with a document, how many commands were run, and what was left out."""
    shown, wrong, asked, left = os.path.relpath(name, TOP), [], [], []
    with tempfile.TemporaryDirectory() as folder:
        scratch(folder)
        for block in blocks(name):
            if block.words[:1] != ["console"]:
                wrong += fault_of_file(shown, block, folder)
            elif needs(block):
                left += [f"{shown}:{block.line}: left out, since {' '.join(needs(block))} is missing"]
            else:
                asked += commands(block)
        got = outputs(asked, folder) if asked else []
    got += [None] * (len(asked) - len(got))
    wrong += [difference(shown, command, text) for command, text in zip(asked, got) if text != command.wanted]
    return wrong, len(asked), left


def main():
    words = [word for word in sys.argv[1:] if word != "--quiet"]
    if any(word.startswith("-") for word in words):
        sys.exit("usage: sessions.py [--quiet] [DOCUMENT..]")
    names = words or [f"{TOP}/README.md", *sorted(glob.glob(f"{TOP}/*/*.md"))]
    subprocess.run([f"{TOP}/heapsafe"], capture_output=True)  # builds the program where it is missing
    with ThreadPoolExecutor(os.cpu_count()) as pool:
        found = list(pool.map(faults, [os.path.abspath(name) for name in names]))
    is_quiet = "--quiet" in sys.argv[1:]
    wrong = [line for lines, _, _ in found for line in lines]
    left = [line for _, _, lines in found for line in lines]
    for line in wrong if is_quiet else wrong + left:
        print(line)
    if wrong or not is_quiet:
        print(f"{sum(number for _, number, _ in found)} commands in {len(names)} documents, {len(wrong)} faults")
    return 1 if wrong else 0


if __name__ == "__main__":
    sys.exit(main())
