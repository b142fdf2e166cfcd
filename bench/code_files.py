#!/usr/bin/env python3
"""code_files.py [PROGRAM]: does the time of `exec` grow linearly with its file?

Compiles generated texts and of each twice as much, runs `exec` on the code files, and prints for each kind of program the bytes of the
longer file, the processor times of both, their ratio, and the greatest memory for each byte of the longer file. Each time is the least of
three runs, less that of a file of a few instructions. A ratio of 2 is linear. The programs do next to nothing when they run."""

import os
import resource
import subprocess
import sys
import tempfile

TOP = os.path.join(os.path.dirname(os.path.abspath(__file__)), "..")
PROGRAM = os.path.abspath(sys.argv[1]) if sys.argv[1:] else os.path.join(TOP, "heapsafe")


def functions(count):
    """Functions with some sites each."""
    one = "int f{0}(int a){{int*p=malloc(4);int x=a;" + "x=x*3+a;" * 40 + "*p=x;x=*p;free(p);return x;}}\n"
    return "#include <stdlib.h>\n" + "".join(one.format(number) for number in range(count)) + "int main(void){return f0(1)&0;}\n"


def statements(count):
    """One function of many statements."""
    return "int main(void){int x=1;int b=2;" + "x=x*3+b;" * count + "return 0;}\n"


def pointers(count):
    """One function of many pointers that are all live at once, each of them freed."""
    made = "".join(f"char*p{number}=malloc(1);" for number in range(count))
    freed = "".join(f"free(p{number});" for number in range(count))
    return "#include <stdlib.h>\nint main(void){" + made + freed + "return 0;}\n"


def statics(count):
    """Statics with pointers to one another."""
    return "int g;\n" + "".join(f"int*a{number}[]={{{'&g,' * 20}}};\n" for number in range(count)) + "int main(void){return 0;}\n"


KINDS = {functions: 800, statements: 40000, pointers: 400, statics: 5000}


def run(words):
    """The processor time of a run in seconds, and its greatest memory in bytes."""
    with subprocess.Popen([PROGRAM, *words], stdout=subprocess.DEVNULL) as process:
        _, status, used = os.wait4(process.pid, 0)
        process.returncode = os.waitstatus_to_exitcode(status)
    if process.returncode != 0:
        sys.exit(f"{words}: status {process.returncode}")
    return used.ru_utime + used.ru_stime, used.ru_maxrss * 1024


def measured(folder, text):
    """The bytes of a text's code file, and the time and the memory of its execution."""
    source, code = os.path.join(folder, "a.c"), os.path.join(folder, "a.hc")
    with open(source, "w", encoding="ascii") as file:
        file.write(text)
    with open(code, "wb") as file:
        subprocess.run([PROGRAM, "compile", source], stdout=file, check=True)
    runs = [run(["exec", code]) for _ in range(3)]
    return os.path.getsize(code), min(time for time, _ in runs), max(memory for _, memory in runs)


def main():
    resource.setrlimit(resource.RLIMIT_CORE, (0, 0))
    with tempfile.TemporaryDirectory() as folder:
        _, least, _ = measured(folder, "int main(void){return 0;}\n")
        print("program      MiB   one    two   ratio  memory a byte")
        for kind, count in KINDS.items():
            _, one, _ = measured(folder, kind(count))
            size, two, memory = measured(folder, kind(2 * count))
            print(f"{kind.__name__:10} {size / 2**20:5.1f} {one - least:5.2f}s {two - least:5.2f}s {(two - least) / max(one - least, 0.001):6.2f} {memory / size:8.1f}")


if __name__ == "__main__":
    main()
