#!/usr/bin/env python3
"""grade_test.py [--quiet]: tries tools/grade on a folder whose submissions are the examples, so with each kind of end among them.

What each has to come to is taken from the files beside the example, NAME.err and NAME.out. Some of the runs are made once more, by the
commands that the tool writes for GNU parallel: that has to give the same reports. Where a package that the reports are made with is
missing, that is said and only what does without is tried. Exit status 0 where all is as it should be."""

import glob
import json
import os
import random
import re
import shutil
import subprocess
import sys
import tempfile
import xml.etree.ElementTree
from collections.abc import Callable
from html.parser import HTMLParser

TOP = os.path.dirname(os.path.dirname(os.path.abspath(__file__)))
GRADE = f"{TOP}/tools/grade"
PYTHON = "/usr/bin/python3"
GROUPS = ("frees", "escapes", "traps", "limits", "refusals")
STEPS = 100_000
WRITES_3 = '#include <stdio.h>\n#include <stdlib.h>\nint main(void) { puts("3"); %s }\n'

Same = Callable[[str, object, object], None]

# submissions that are no example: the text, and the verdict and the first words that are said of it
OWN = {
    "right": (WRITES_3 % "return 7;", "passed", ""),
    "a b'c\"<b>$(id)&;{}[red]\\": (WRITES_3 % "return 7;", "passed", ""),
    "-dash": (WRITES_3 % "return 7;", "passed", ""),
    "leaky": (WRITES_3 % "return malloc(5) ? 7 : 0;", "passed", ""),
    "status": (WRITES_3 % "return 0;", "wrong status", "the status is 0, and 7 is wanted"),
    "blanks": ('int main(void) { puts(" 3"); return 7; }\n', "wrong output", "the output differs in line 1"),
    "bytes": (WRITES_3 % 'putchar(255); putchar(0); puts("\\033[31m<b>&"); return 7;', "wrong output", "the output differs in line 2"),
    "endless": (
        WRITES_3 % 'for (;;) puts("0123456789012345678901234567890123456789");',
        "too much output",
        "it was stopped 1,000,000 bytes behind what is wanted",
    ),
    "long": (" " * 1_048_577, "text too long", "long.c: text too long"),
    "include": ('#include "none.h"\n', "cannot read", "none.h: cannot read"),
    "marked": ('int main(void) {\n  char *s = "<i>\xff";\n  return s[5]; // <script>alert(1)</script>\n}\n', "trap", "marked.c:3: trap: bounds"),
}


def written(path: str, text: str) -> None:
    os.makedirs(os.path.dirname(path), exist_ok=True)
    with open(path, "w", encoding="latin-1") as file:
        file.write(text)


def content(path: str) -> str:
    if not os.path.exists(path):
        return ""
    with open(path, encoding="latin-1") as file:
        return file.read()


def wanted_of_example(stem: str) -> tuple[str, str]:
    """The verdict on an example, and the first words that are said of it, by the files beside it."""
    first = content(f"{stem}.err").partition("\n")[0]
    found = re.fullmatch("[^:]*(?::[0-9]+)?: ([^:]*)(?:: .*)?", first)
    if found and not first.startswith("leak: "):
        return found[1], first
    lines = content(f"{stem}.out").split("\n")
    return ("passed", "") if lines == ["3", ""] else ("wrong output", f"the output differs in line {2 if lines[0] == '3' else 1}")


def make_submissions(folder: str, groups: tuple[str, ...]) -> dict[str, tuple[str, str]]:
    """Makes the submissions, and gives what each has to come to."""
    wanted = {}
    for stem in sorted(it[:-7] for name in groups for it in glob.glob(f"{TOP}/examples/{name}/*.status")):
        name = os.path.basename(stem)
        further = [
            f"{os.path.dirname(stem)}/{it}" for it in content(f"{stem}.units").split() + re.findall('#include "(.*[.]h)"', content(f"{stem}.c"))
        ]
        place = f"{folder}/{name}" if further else folder
        os.makedirs(place, exist_ok=True)
        for path in [f"{stem}.c", *further]:
            shutil.copy(path, place)
        wanted[name] = wanted_of_example(stem)
    for name, (text, verdict, words) in OWN.items():
        written(f"{folder}/{name}.c", text)
        wanted[name] = verdict, words
    os.makedirs(f"{folder}/empty")
    return {**wanted, "empty": ("no C file", "the folder empty has no .c file")}


def make_folder(folder: str, groups: tuple[str, ...]) -> dict[str, tuple[str, str]]:
    """Makes a folder to be graded from these groups of examples, with two tests on which each submission comes to the same."""
    for name in ("2", "10"):
        written(f"{folder}/tests/{name}.out", "3\n")
        written(f"{folder}/tests/{name}.status", "7\n")
    written(f"{folder}/tests/10.in", "an input\n")
    written(f"{folder}/grade.toml", f"steps = {STEPS}\n\n[points]\n2 = 3\n")
    written(f"{folder}/submissions/notes.txt", "")
    return make_submissions(f"{folder}/submissions", groups)


def ran(*words: str, input: str = "") -> tuple[str, str, int]:
    it = subprocess.run(words, input=input, capture_output=True, text=True, errors="surrogateescape")
    return it.stdout, it.stderr, it.returncode


def graded(*words: str, input: str = "") -> tuple[str, str, int]:
    return ran(GRADE, *words, input=input)


def verdicts(path: str) -> dict[tuple[str, str], tuple[str, str]]:
    """The verdict and the words of each run, by a JUnit XML file."""
    found = {}
    for case in xml.etree.ElementTree.parse(path).iter("testcase"):
        fault = next(iter(case), None)
        found[case.get("classname"), case.get("name")] = ("passed", "") if fault is None else (fault.get("type"), fault.get("message"))
    return found


class Page(HTMLParser):
    """What a page links to, the names that it has for it, its tags, and its marked lines."""

    def __init__(self, text: str) -> None:
        super().__init__()
        self.links, self.names, self.tags, self.marked, self.is_marked = [], [], set(), [], False
        self.feed(text)

    def handle_starttag(self, tag: str, attrs: list) -> None:
        told = dict(attrs)
        self.tags.add(tag)
        self.links += [told["href"]] if "href" in told else []
        self.names += [told["id"]] if "id" in told else []
        if tag == "b":
            self.is_marked = told.get("class") == "at"
            self.marked += [""] if self.is_marked else []

    def handle_endtag(self, tag: str) -> None:
        self.is_marked = self.is_marked and tag != "b"

    def handle_data(self, data: str) -> None:
        if self.is_marked:
            self.marked[-1] += data


def faults_of_page(folder: str, submissions: int, same: Same) -> None:
    """Tries the page: each cell leads to a detail, the line is marked, and no text of a submission is taken for a tag."""
    with open(f"{folder}/report.html", encoding="utf-8") as file:
        text = file.read()
    page = Page(text)
    same("names on the page that stand twice", len(page.names) - len(set(page.names)), 0)
    same("links of the page that lead nowhere", [it for it in page.links if it[1:] not in page.names], [])
    same("links of the page", len(page.links), submissions * 3)
    same("tags of submissions", page.tags & {"script", "i"}, set())
    same("the line that is marked", "    3    return s[5]; // <script>alert(1)</script>" in page.marked, True)
    same("control characters on the page", re.findall("[\x00-\x08\x0b-\x1f\x7f]", text), [])


def faults_of_jobs(folder: str, same: Same) -> None:
    """Tries the commands of the runs, in another order, and the reports that are made of what they write."""
    make_folder(folder, ("escapes", "limits"))
    graded(folder)
    before = [content(f"{folder}/{name}") for name in ("report.html", "report.xml")]
    jobs, said, status = graded("--jobs", folder)
    same("the commands", (status, said), (0, ""))
    lines = jobs.splitlines(keepends=True)
    random.Random(1).shuffle(lines)
    by = ["parallel", "--will-cite"] if shutil.which("parallel") else ["xargs", "-d", "\n", "-n", "1", "-P", "4", "sh", "-c"]
    results, said, status = ran(*by, input="".join(lines))
    same("the runs of the commands", (said, status, results.count("\n")), ("", 0, len(lines)))
    again = graded("--collect", "-", folder, input=results)
    same("reports of collected runs", ([content(f"{folder}/{name}") for name in ("report.html", "report.xml")], again[2]), (before, 0))
    same("results twice", graded("--collect", "-", folder, input=results * 2)[2], 0)
    first, _, rest = results.partition("\n")
    lost = graded("--collect", "-", folder, input=rest)
    same("a result that is missing", (lost[2], "1 run is not judged" in lost[1], "no result of this run" in lost[1]), (1, True, True))
    same(
        "a line cut short",
        f"grade: -:{len(lines)}: this line is no result of a run\n" in graded("--collect", "-", folder, input=f"{rest}{first[:-9]}\n")[1],
        True,
    )
    told = json.loads(first)
    unjudged = graded("--run", "--heapsafe=/bin/echo", "--", folder, told["submission"], told["test"])[0]
    same("a run that is made once more", graded("--collect", "-", folder, input=unjudged + results)[2], 0)
    other = json.dumps({**told, "verdict": "passed", "note": "of another kind"})
    same("two results that differ", "has another result above" in graded("--collect", "-", folder, input=f"{other}\n{results}")[1], True)
    same("results of other settings", "other texts or settings" in graded("--steps=7", "--collect", "-", folder, input=results)[1], True)


def faults_of_words(folder: str, same: Same) -> None:
    """Tries what is said where something is to be mended first."""
    text = f"{folder}/submissions/a.c"
    written(text, WRITES_3 % "return 0;")

    def said(what: str, wanted: str, *words: str) -> None:
        same(what, graded("--jobs", *(words or (folder,)))[1:], (f"grade: {wanted}\n", 2))

    said("no folder", f"{folder}/none: no such folder", f"{folder}/none")
    said("no tests", f"{folder}/tests: No such file or directory")
    written(f"{folder}/tests/1.in", "")
    said("an input alone", f"{folder}/tests/1.in: no 1.out stands beside it")
    written(f"{folder}/tests/1.out", "3\n")
    said("a bad number", "--steps is no number from 1 to 1000000000", "--steps=0", folder)
    said("no program", f"{folder}/none: No such file or directory; --heapsafe names the program", f"--heapsafe={folder}/none", folder)
    for settings, wanted in [
        ("step = 4", "there is no setting step"),
        ("heap = true", "heap is no number from 0 to 268435456"),
        ("leaks = 'no'", "leaks is none of ignore, tell, fail"),
    ]:
        written(f"{folder}/grade.toml", settings)
        said(settings, f"{folder}/grade.toml: {wanted}")
    written(f"{folder}/grade.toml", "[points]\n2 = 1\n")
    said("points for no test", f"{folder}/tests: grade.toml gives points for 2, and there is no 2.out")
    os.remove(f"{folder}/grade.toml")
    written(f"{folder}/tests/1.status", "256\n")
    said("a bad status", f"{folder}/tests/1.status: no number from 0 to 255")
    os.remove(f"{folder}/tests/1.status")
    written(f"{folder}/submissions/a/b.c", "")
    said("a name twice", f"{folder}/submissions: a is there both as a file and as a folder")
    os.remove(f"{folder}/submissions/a/b.c")
    os.rmdir(f"{folder}/submissions/a")
    same("a run that is not there", graded("--run", "--", folder, "a", "2")[1:], (f"grade: {folder}: there is no run of a on 2\n", 2))
    same("no packages", ran(PYTHON, "-S", GRADE, folder)[1].startswith(f"grade: {PYTHON} lacks python3-"), True)
    for name, shown in [("\udcff.c", "\\udcff.c"), ("a\nb.c", "a\\nb.c")]:
        written(f"{folder}/submissions/{name}", "")
        said("a name", f"{folder}/submissions: a file is to have another name than '{shown}': no control characters, and UTF-8 alone")
        os.remove(f"{folder}/submissions/{name}")
    os.remove(text)
    said("no submissions", f"{folder}/submissions: no submission: neither a .c file nor a folder")


def faults_of_settings(folder: str, same: Same) -> None:
    """Tries the settings that the great folder does not have."""
    written(f"{folder}/tests/1.out", "3 \n\n")
    for name, text in [("loop", "int main(void) { for (;;) ; }"), ("leaky", WRITES_3 % "return malloc(5) ? 0 : 1;")]:
        written(f"{folder}/submissions/{name}.c", text)

    def both(what: str, words: list[str], **wanted: str) -> None:
        status = graded(*words, folder)[2]
        found = verdicts(f"{folder}/report.xml")
        same(what, (status, {name: found[name, "1"][0] for name in wanted}), (0, wanted))

    both("to the byte", ["--steps=9"], loop="out of steps", leaky="wrong output")
    both("by lines", ["--steps=9", "--compare=lines"], loop="out of steps", leaky="passed")
    both("by words", ["--steps=9", "--compare=words", "--leaks=fail"], leaky="leaks")
    both("leaks that are not asked for", ["--steps=9", "--compare=words", "--leaks=ignore"], leaky="passed")
    both("too slow", ["--steps=1000000000", "--seconds=1"], loop="too slow")
    status = graded("--heapsafe=/bin/false", folder)
    same("a program that fails", status[1:], ("grade: /bin/false: it does not tell its version\n", 2))
    status = graded("--heapsafe=/bin/echo", folder)
    same("a program that is another", (status[2], "2 runs are not judged" in status[1]), (1, True))
    os.remove(f"{folder}/report.html")
    os.mkdir(f"{folder}/report.html")
    same("a page that cannot be written", graded(folder)[1:], (f"grade: {folder}/report.html: cannot be written\n", 2))


def faults_of_reports(folder: str, same: Same) -> None:
    """Tries the reports on the great folder."""
    wanted = make_folder(folder, GROUPS)
    output, said, status = graded(folder)
    aside = f"left aside, since it is neither a .c file nor a folder: {folder}/submissions/notes.txt"
    same("grading", (said.splitlines(), status), ([f"grade: {aside}", "grade: include includes none.h, which it does not hold"], 0))
    passed = sum(verdict == "passed" for verdict, _ in wanted.values())
    same("the summary", f"{len(wanted)} submissions, 2 tests: {2 * passed} of {2 * len(wanted)} runs passed\n" in output, True)
    same("a line of the table", "\nheld_by_block" in output and "test 2: held_by_block.c:" in output, True)
    got = verdicts(f"{folder}/report.xml")
    for name, told in wanted.items():
        for test in ("2", "10"):
            same(f"{name} on test {test}", got.get((name, test)), told)
    same("how many kinds of ends", len({verdict for verdict, _ in got.values()}) >= 16, True)
    faults_of_page(folder, len(wanted), same)


def main() -> int:
    if sys.argv[1:] not in ([], ["--quiet"]):
        sys.exit("usage: grade_test.py [--quiet]")
    wrong = []

    def same(what: str, got: object, wanted: object) -> None:
        if got != wanted:
            wrong.append(f"{what}: got {got!r:.900}, wanted {wanted!r:.900}")

    has_packages = ran(PYTHON, "-c", "import rich, junitparser, jinja2")[2] == 0
    with tempfile.TemporaryDirectory() as folder:
        faults_of_words(f"{folder}/words", same)
        if has_packages:
            faults_of_settings(f"{folder}/settings", same)
            faults_of_reports(f"{folder}/examples", same)
            faults_of_jobs(f"{folder}/jobs", same)
    for it in wrong:
        print(it)
    if not has_packages:
        print("grade_test.py: the reports are left out, since python3-rich, python3-junitparser or python3-jinja2 is missing")
    if wrong or not sys.argv[1:]:
        print(f"grade: {len(wrong)} faults")
    return 1 if wrong else 0


if __name__ == "__main__":
    sys.exit(main())
