#!/usr/bin/env python3
"""launcher.py [--quiet]: tries what the launcher ./heapsafe answers by itself. Exit status 0 where all is as it should be."""

import os
import pty
import shutil
import subprocess
import sys
import tempfile
import time

TOP = os.path.dirname(os.path.dirname(os.path.abspath(__file__)))
USAGE = "heapsafe: bad command line\n"


def ran(*words, **more):
    it = subprocess.run(words, stdin=subprocess.DEVNULL, capture_output=True, text=True, **more)
    return it.stdout, it.stderr, it.returncode


def has_terminals():
    try:
        for end in pty.openpty():
            os.close(end)
    except OSError:
        return False
    return True


def on_terminal(*words):
    """What is written to a terminal, and the status."""
    child, terminal = pty.fork()
    if child == 0:
        os.execv(words[0], words)
    shown = b""
    try:
        while part := os.read(terminal, 4096):
            shown += part
    except OSError:
        pass  # (so the end of a terminal is told)
    return shown.decode().replace("\r\n", "\n"), os.waitstatus_to_exitcode(os.waitpid(child, 0)[1])


STUB = """import os, time
def build(top, program):
    time.sleep(1)
    with open(f"{top}/builds", "a") as it:
        it.write("a build\\n")
    with open(f"{top}/crates/a/src/lib.rt") as it:
        text = it.read()
    with open(program, "w") as it:
        it.write(f"#!/bin/sh\\necho unproved {text}\\n")
    os.chmod(program, 0o755)
    return True
"""


def written(path, text):
    os.makedirs(os.path.dirname(path), exist_ok=True)
    with open(path, "w", encoding="utf-8") as file:
        file.write(text)


def faults_of_builds(top, same):
    """Tries when the launcher builds, in a repository whose build is a stub that takes a second."""
    for name in ("heapsafe", "tools/build.py"):
        os.makedirs(os.path.dirname(f"{top}/{name}"), exist_ok=True)
        shutil.copy(f"{TOP}/{name}", f"{top}/{name}")
    source = f"{top}/crates/a/src/lib.rt"
    for path, text in [(f"{top}/tools/build_unproved.py", STUB), (source, "first"), (f"{top}/crates/a/specs/A.antt", ""), (f"{top}/crates.txt", "")]:
        written(path, text)
    made = f"{top}/crates/heapsafe_cli/out/heapsafe_cli"
    written(made, "#!/bin/sh\necho proved\n")
    os.chmod(made, 0o755)
    unset = {name: value for name, value in os.environ.items() if name != "HEAPSAFE_PROVED"}

    def answers(what, wanted, builds, **more):
        both = [subprocess.Popen([f"{top}/heapsafe", "run"], stdout=subprocess.PIPE, stderr=subprocess.DEVNULL, env={**unset, **more}) for _ in range(2)]
        same(what, [it.communicate()[0].decode() for it in both], [wanted, wanted])
        with open(f"{top}/builds", encoding="utf-8") as it:
            same(f"builds, {what}", len(it.readlines()), builds)

    answers("two runs at once", "unproved first\n", 1)
    os.utime(source)
    answers("a source that was only touched", "unproved first\n", 1)
    ran("python3", f"{top}/tools/build.py", "--keep", str(time.time()), env=unset)
    answers("after a green gate", "proved\n", 1)
    answers("the other program", "unproved first\n", 1, HEAPSAFE_PROVED="0")
    written(source, "second")
    answers("a changed source", "unproved second\n", 2)
    written(source, "first")
    answers("the source as the gate saw it", "proved\n", 2)


def faults_on_terminals(folder, installed, same):
    """Tries the line that a bad command line gets on a terminal."""
    hello = f"{folder}/hello.c"
    bad = [("rnu", ["rnu", hello]), ("--step", ["run", hello, "--step", "4"]), ("0", ["run", hello, "--steps", "0"]), ("x.c", ["print", hello, "x.c"])]
    bad += [("--install", ["--install"]), ("there", ["--install", folder, "there"]), ("all", ["--version", "all"])]
    for word, words in bad:
        shown, status = on_terminal(f"{TOP}/heapsafe", *words)
        lines = shown.splitlines()
        is_told = lines[:1] == [USAGE.strip()] and len(lines) == 2 and f"'{word}'" in lines[1] and lines[1].endswith("heapsafe --help")
        same(f"on a terminal, {words}", (is_told, status), (True, 120))
    written(f"{folder}/own.c", "int main(void) { return 120; }\n")
    same("a program's own status on a terminal", on_terminal(f"{TOP}/heapsafe", "run", f"{folder}/own.c"), ("", 120))
    same("an installed one on a terminal", on_terminal(installed, "rnu")[0].splitlines()[1:], [f"heapsafe: 'rnu' is no command; see {installed} --help"])


def faults(folder):
    """What is not as it should be, line by line."""
    program = f"{TOP}/heapsafe"
    hello = f"{TOP}/examples/programs/hello.c"
    wrong = []

    def same(what, got, wanted):
        if got != wanted:
            wrong.append(f"{what}: got {got!r}, wanted {wanted!r}")

    faults_of_builds(f"{folder}/stub", same)
    page = ran(program, "--help")
    same("help is on the output", (page[0][:8], page[1:]), ("HeapSafe", ("", 0)))
    same("-h", ran(program, "-h"), page)
    same("help", ran(program, "help"), page)
    told = ran(program, "--version")
    same("the version", (told[0].startswith("heapsafe, sources "), told[1:]), (True, ("", 0)))
    same("a bad command line", ran(program, "rnu", hello), ("", USAGE, 120))
    os.symlink(program, f"{folder}/link")
    same("through a link", ran(f"{folder}/link", "run", hello), ("hello\n", "", 0))
    same("installing", ran(program, "--install", f"{folder}/there"), ("", "", 0))
    shutil.copy(hello, f"{folder}/hello.c")
    installed = f"{folder}/there/bin/heapsafe"
    same("an installed one", ran(installed, "run", "hello.c", cwd=folder), ("hello\n", "", 0))
    same("its version", ran(installed, "--version"), told)
    same("its manual page", os.path.exists(f"{folder}/there/share/man/man1/heapsafe.1"), True)
    if has_terminals():
        faults_on_terminals(folder, installed, same)
    for script in (f"{TOP}/.ci/run", f"{TOP}/examples/check.py"):
        same(f"a word that {script} does not know", ran(script, "--quik")[2], 2)
    return wrong


def main():
    if sys.argv[1:] not in ([], ["--quiet"]):
        sys.exit("usage: launcher.py [--quiet]")
    with tempfile.TemporaryDirectory() as folder:
        wrong = faults(folder)
    for it in wrong:
        print(it)
    if wrong or not sys.argv[1:]:
        print(f"the launcher: {len(wrong)} faults")
    return 1 if wrong else 0


if __name__ == "__main__":
    sys.exit(main())
