#!/usr/bin/env python3
"""generated.py [--quiet] [--seed N]: runs rows of words, a text and an input, each with what has to be written and answered, and how
much of the input may be read; then a text of 2,000 functions; then `print` of 200 texts that are generated from the grammar, each
spelled with other gaps than its canonical ones, and again of what that gives. Exit status 0 where nothing differs."""

import argparse
import os
import random
import subprocess
import sys
import tempfile
from concurrent.futures import ThreadPoolExecutor

TOP = os.path.dirname(os.path.dirname(os.path.abspath(__file__)))
PROGRAM = os.path.join(TOP, "heapsafe")

HELD_300 = "char *a[300];\nint main(void){\nint i;\na[0] = malloc(1);\nfor (i = 1; i < 300; i++) a[i] = a[0];\nfor (i = %d; i < 300; i++) a[i] = 0;\n__delay_frees { free(a[0]); a[0] = 0; }\nreturn 0;}"
DEEP = "int f(int n, char *p){\nint r;\nif (n == 0) { char *q = malloc(1); free(q); return 0; }\nr = f(n - 1, p);\nreturn r + p[0];\n}\nint main(void){ char *p = malloc(1); int r = f(5000, p); free(p); return r; }"
NUMBERS = """#include <stdio.h>
#include <stdlib.h>

struct vec { int *buf; int len; int cap; };

static void push(struct vec *v, int x) {
  if (v->len == v->cap) {
    v->cap = v->cap ? 2 * v->cap : 4;
    v->buf = realloc(v->buf, v->cap * sizeof(int));
  }
  v->buf[v->len++] = x;
}

int main(void) {
  struct vec v = {NULL, 0, 0};
  int c, x = 0, in = 0, i;
  long sum = 0;
  while ((c = getchar()) != EOF) {
    if (c >= '0' && c <= '9') { x = 10 * x + (c - '0'); in = 1; }
    else if (in) { push(&v, x); x = 0; in = 0; }
  }
  for (i = v.len - 1; i >= 0; i--) { sum += v.buf[i]; printf("%d ", v.buf[i]); }
  printf("\\n%d numbers, sum %ld\\n", v.len, sum);
  __delay_frees { free(v.buf); v.buf = NULL; }
  return 0;
}
"""
USED_LATER = "int main(void){\nchar *p = malloc(1);\nfree(p);\nif (getchar() == 'r') return *p;\nreturn 0;}"
STRUCTS = "struct s { char c; char *p; short n; };\nunion u { char *p; int *q; };\nstruct w { char c; long long v; };\nint main(void){return 0;}"

TWO = '#include "b.h"\n#ifdef TWO\nint main(void){ return ADD(1, TWO); }\n#endif'
ADD = "#define ADD(x, y) ((x) + (y))\n#define TWO 2"
AGAIN = "#define f(a) a*g\n#define g(a) f(a)\nint main(void){ int g = 3; return f(2)(9); }"

# the words behind the program, the text of a.c or texts by name, the input; the output, the error stream, the status, and how many bytes of the input are read
ROWS = [
    (["run"], HELD_300 % 1, "", "", "", 0, 0),
    (["run"], HELD_300 % 2, "", "", "a.c:7: bad free: held\n  __delay_frees { free(a[0]); a[0] = 0; }\nheld by global a at 4\n", 126, 0),
    (["run"], DEEP, "", "", "", 0, 0),
    (["run"], NUMBERS, "1 22 333\n", "333 22 1 \n3 numbers, sum 356\n", "", 0, 9),
    (
        ["run"],
        NUMBERS,
        "".join(f"{i}\n" for i in range(1, 1001)),
        "".join(f"{i} " for i in range(1000, 0, -1)) + "\n1000 numbers, sum 500500\n",
        "",
        0,
        3893,
    ),
    (["run"], USED_LATER, "r", "", "a.c:3: bad free: held\n  free(p);\nheld by local p of main\n", 126, 0),
    (["mean"], USED_LATER, "r", "", "a.c:3: bad free: held\n  free(p);\nheld by local p of main\n", 126, 0),
    (
        ["layout"],
        "typedef struct { char a[3]; int *p[2]; } t; struct w { t x; short y; }; int main(void){return 0;}",
        "",
        "struct - size 12 align 4 slots 4 8\nstruct w size 16 align 4 slots 4 8\n",
        "",
        0,
        0,
    ),
    (
        ["layout"],
        "union u { struct { char c; char *p; } a; short n; }; int main(void){return 0;}",
        "",
        "struct - size 8 align 4 slots 4\nunion u size 8 align 4 slots 4\n",
        "",
        0,
        0,
    ),
    (
        ["layout"],
        "union u { struct { char c; char *p; } a; long long n; }; int main(void){return 0;}",
        "",
        "",
        "a.c:1: type: pointer in union\n  union u { struct { char c; char *p; } a; long long n; }; int main(void){return 0;}\n",
        125,
        0,
    ),
    (["layout"], "", "", "", "a.c:1: type: no main\n", 125, 0),
    (
        ["layout"],
        "typedef struct node node; struct node { node *next; int node; }; int main(void){return 0;}",
        "",
        "struct node size 8 align 4 slots 0\n",
        "",
        0,
        0,
    ),
    (["layout"], STRUCTS, "", "struct s size 12 align 4 slots 4\nunion u size 4 align 4 slots 0\nstruct w size 16 align 8 slots\n", "", 0, 0),
    (
        ["layout"],
        "union u { int n; char *p; };\nint main(void){return 0;}",
        "",
        "",
        "a.c:1: type: pointer in union\n  union u { int n; char *p; };\n",
        125,
        0,
    ),
    (["layout"], "union u { char *p; int *q; };\nint main(void){return 0;}", "", "union u size 4 align 4 slots 0\n", "", 0, 0),
    (["run"], {"a.c": TWO, "b.h": ADD}, "", "", "", 3, 0),
    (["mean"], {"a.c": TWO, "b.h": ADD}, "", "", "", 3, 0),
    (["run"], TWO, "", "", "b.h: cannot read\n", 121, 0),
    (["run"], AGAIN, "", "", "", 54, 0),
    (
        ["run"],
        "#define F(x) x\nint main(void){ return F(1, 2); }",
        "",
        "",
        "a.c:2: preprocess: arguments\n  int main(void){ return F(1, 2); }\n",
        138,
        0,
    ),
    (["run"], "#ifdef A\nint main(void){return 0;}", "", "", "a.c:1: preprocess: unbalanced\n  #ifdef A\n", 138, 0),
    (["run", "--leaks"], {"a.c": '#include "b.h"\nint main(void){ f(); malloc(8); return 0; }', "b.h": "\nint *f(void){ return malloc(4); }\n\n"}, "", "", "leak: line 2: 1 blocks, 8 bytes\nleak: line 2: 1 blocks, 4 bytes\n", 0, 0),
]


def functions(count):
    """The text of so many functions, each of which frees a ring of two objects."""
    made = "struct n *a = malloc(sizeof(struct n)); struct n *b = malloc(sizeof(struct n)); a->next = b; b->next = a;"
    head = "#include <stdio.h>\n#include <stdlib.h>\nstruct n { struct n *next; int v; };\n"
    one = "int f%d(int x) { " + made + " a->v = x; b->v = %d; x = a->v + b->v; __delay_frees { free(a); free(b); } return x; }\n"
    calls = "".join(f" x = f{i}(x);" for i in range(count))
    return head + "".join(one % (i, i) for i in range(count)) + f'int main(void) {{ int x = 0;{calls} printf("%d\\n", x); return 0; }}\n'


class Tree:
    """The tokens of a unit that is made up by the grammar."""

    def __init__(self, chance):
        self.chance, self.names = chance, 0

    def pick(self, *ways):
        return self.chance.choice(ways)()

    def name(self):
        return [self.chance.choice(["a", "b", "c", "x1", "_y", "long_name"])]

    def some(self, part, most, between=None):
        """Between one and so many parts."""
        tokens = part()
        for _ in range(self.chance.randrange(most)):
            tokens = tokens + (between or []) + part()
        return tokens

    def maybe(self, part):
        return part() if self.chance.random() < 0.5 else []

    def constant(self):
        return [self.chance.choice(["0", "7", "017", "0xFfu", "1ull", "'a'", "'\\n'", "'\\x41'", '"s"', '"a\\"b"'])]

    def expr(self, depth):
        """A list of expressions between commas."""
        return self.some(lambda: self.assign(depth), 2, [","])

    def assign(self, depth):
        if depth > 0 and self.chance.random() < 0.3:
            sign = self.chance.choice("= *= /= %= += -= <<= >>= &= ^= |=".split())
            return self.unary(depth - 1) + [sign] + self.assign(depth - 1)
        return self.cond(depth)

    def cond(self, depth):
        if depth > 0 and self.chance.random() < 0.2:
            return self.binary(depth - 1) + ["?"] + self.expr(depth - 1) + [":"] + self.cond(depth - 1)
        return self.binary(depth)

    def binary(self, depth):
        tokens = self.cast(depth)
        while depth > 0 and self.chance.random() < 0.4:
            sign = self.chance.choice("|| && | ^ & == != < > <= >= << >> + - * / %".split())
            tokens = tokens + [sign] + self.cast(depth - 1)
        return tokens

    def cast(self, depth):
        if depth > 0 and self.chance.random() < 0.15:
            return ["("] + self.typename(depth - 1) + [")"] + self.cast(depth - 1)
        return self.unary(depth)

    def unary(self, depth):
        if depth <= 0 or self.chance.random() < 0.5:
            return self.postfix(depth)
        return self.pick(
            lambda: [self.chance.choice(["++", "--"])] + self.unary(depth - 1),
            lambda: [self.chance.choice("&*+-~!")] + self.cast(depth - 1),
            lambda: ["sizeof"] + self.unary(depth - 1),
            lambda: ["sizeof", "("] + self.typename(depth - 1) + [")"],
        )

    def postfix(self, depth):
        tokens = self.primary(depth)
        while depth > 0 and self.chance.random() < 0.4:
            tokens = tokens + self.pick(
                lambda: ["["] + self.expr(depth - 1) + ["]"],
                lambda: ["("] + self.maybe(lambda: self.some(lambda: self.assign(depth - 1), 3, [","])) + [")"],
                lambda: ["."] + self.name(),
                lambda: ["->"] + self.name(),
                lambda: [self.chance.choice(["++", "--"])],
            )
        return tokens

    def primary(self, depth):
        if depth > 0 and self.chance.random() < 0.3:
            return ["("] + self.expr(depth - 1) + [")"]
        return self.pick(self.name, self.constant, lambda: ['"one"', '"two"'])

    def typename(self, depth):
        return self.plain_specs(depth) + self.maybe(lambda: self.abstract(depth))

    def plain_specs(self, depth):
        """Specs that hold none of static, extern and typedef."""
        words = self.chance.choice(
            ["int", "char", "void", "short int", "unsigned", "long long", "long unsigned int", "signed char", "T"]
        ).split()
        if depth > 0 and self.chance.random() < 0.3:
            words = self.tag(depth - 1)
        return ["const"] * (self.chance.random() < 0.2) + words + ["const"] * (self.chance.random() < 0.2)

    def tag(self, depth):
        word, name = [self.chance.choice(["struct", "union"])], ["t" + str(self.chance.randrange(9))]
        return self.pick(
            lambda: word + name,
            lambda: word + self.maybe(lambda: name) + ["{"] + self.some(lambda: self.member(depth), 3) + ["}"],
            lambda: ["enum"] + name,
            lambda: ["enum"] + self.maybe(lambda: name) + ["{"] + self.some(lambda: self.enumer(depth), 3, [","]) + self.maybe(lambda: [","]) + ["}"],
        )

    def enumer(self, depth):
        self.names += 1
        return [f"E{self.names}"] + self.maybe(lambda: ["="] + self.cond(depth))

    def member(self, depth):
        return self.plain_specs(depth) + self.some(lambda: self.declarator(depth), 2, [","]) + [";"]

    def declarator(self, depth, name=None):
        if depth > 0 and self.chance.random() < 0.3:
            return ["*"] + ["const"] * (self.chance.random() < 0.2) + self.declarator(depth - 1, name)
        inner = name or self.name()
        if depth > 0 and self.chance.random() < 0.15:
            inner = ["(", "*"] + self.declarator(depth - 1, name) + [")"]
        return inner + self.suffixes(depth)

    def suffixes(self, depth):
        tokens = []
        while depth > 0 and self.chance.random() < 0.25:
            tokens = tokens + self.pick(lambda: ["["] + self.maybe(lambda: self.cond(depth - 1)) + ["]"], lambda: self.parameters(depth - 1))
        return tokens

    def parameters(self, depth):
        return ["("] + self.pick(lambda: ["void"], lambda: self.some(lambda: self.parameter(depth), 3, [","]), lambda: []) + [")"]

    def parameter(self, depth):
        return ["int"] + self.pick(lambda: self.declarator(depth), lambda: self.abstract(depth))

    def abstract(self, depth):
        if depth > 0 and self.chance.random() < 0.4:
            return ["*"] + self.abstract(depth - 1)
        return self.maybe(lambda: ["["] + self.cond(depth - 1) + ["]"])

    def init(self, depth):
        if depth > 0 and self.chance.random() < 0.4:
            return ["{"] + self.some(lambda: self.init(depth - 1), 3, [","]) + self.maybe(lambda: [","]) + ["}"]
        return self.assign(depth)

    def names_of(self, depth):
        return self.some(lambda: self.declarator(depth) + self.maybe(lambda: ["="] + self.init(depth)), 2, [","])

    def declaration(self, depth):
        return ["static"] * (self.chance.random() < 0.2) + self.plain_specs(depth) + self.maybe(lambda: self.names_of(depth)) + [";"]

    def block(self, depth):
        items = [] if depth <= 0 else self.maybe(lambda: self.some(lambda: self.pick(lambda: self.declaration(depth - 1), lambda: self.stmt(depth - 1)), 4))
        return ["{"] + items + ["}"]

    def stmt(self, depth):
        if depth <= 0:
            return self.pick(lambda: [";"], lambda: self.expr(1) + [";"], lambda: ["break", ";"], lambda: ["return"] + self.maybe(lambda: self.expr(1)) + [";"])
        head = lambda word: [word, "("] + self.expr(depth - 1) + [")"]
        body = lambda: self.stmt(depth - 1)
        return self.pick(
            lambda: self.expr(depth) + [";"],
            lambda: self.block(depth),
            lambda: ["__delay_frees"] + self.block(depth - 1),
            lambda: head("if") + self.block(depth - 1) + self.maybe(lambda: ["else"] + body()),
            lambda: head("while") + body(),
            lambda: ["do"] + body() + head("while") + [";"],
            lambda: ["for", "("]
            + self.pick(lambda: self.plain_specs(0) + self.names_of(depth - 1), lambda: self.maybe(lambda: self.expr(1)))
            + [";"]
            + self.maybe(lambda: self.expr(1))
            + [";"]
            + self.maybe(lambda: self.expr(1))
            + [")"]
            + body(),
            lambda: head("switch") + body(),
            lambda: ["case"] + self.cond(1) + [":"] + body(),
            lambda: ["default", ":"] + body(),
            lambda: ["continue", ";"],
        )

    def external(self, depth):
        self.names += 1
        return self.pick(
            lambda: ["int", f"f{self.names}"] + self.parameters(depth) + self.block(depth),
            lambda: self.plain_specs(depth) + [";"],
            lambda: self.plain_specs(depth) + self.names_of(depth) + [";"],
        )

    def unit(self):
        return ["typedef", "int", "T", ";"] + self.some(lambda: self.external(4), 5)


def spelled(chance, tokens):
    """The tokens with gaps of any kind between them."""
    gaps = [" ", "\n", "\t ", " /* a\n comment */ ", " // one\n", "\r\n"]
    return "".join(token + chance.choice(gaps) for token in tokens)


def canonical(tokens):
    return "".join(token + ("\n" if token in (";", "{", "}") else " ") for token in tokens)


def ran(words, text, given=""):
    """What a run writes and answers, and how many bytes of its input are read."""
    with tempfile.TemporaryDirectory() as folder, tempfile.TemporaryFile() as input_file:
        for name, content in (text if isinstance(text, dict) else {"a.c": text}).items():
            with open(f"{folder}/{name}", "w", encoding="latin-1", newline="") as it:
                it.write(content)
        input_file.write(given.encode())
        input_file.seek(0)
        got = subprocess.run([PROGRAM, words[0], "a.c", *words[1:]], cwd=folder, stdin=input_file, capture_output=True)
        return got.stdout.decode("latin-1"), got.stderr.decode("latin-1"), got.returncode, os.lseek(input_file.fileno(), 0, os.SEEK_CUR)


def row_difference(row):
    words, text, given, *wanted = row
    got = ran(words, text, given)
    return None if list(got) == wanted else f"{' '.join(words)} of {text!r}: got {got!r}, wanted {tuple(wanted)!r}"


def tree_difference(seed):
    """Whether a tree is read as it is, and what that gives as well."""
    chance = random.Random(seed)
    tokens = Tree(chance).unit()
    wanted = (canonical(tokens), "", 0)
    for text in (spelled(chance, tokens), canonical(tokens)):
        got = ran(["print"], text)[:3]
        if got != wanted:
            return f"tree {seed}: {text!r}: got {got!r}, wanted {wanted!r}"
    return None


def main():
    words = argparse.ArgumentParser()
    words.add_argument("--quiet", action="store_true")
    words.add_argument("--seed", type=int, default=0)
    asked = words.parse_args()
    subprocess.run([PROGRAM, "--version"], stdout=subprocess.DEVNULL)  # the program is built here, where it is missing
    rows = [*ROWS, (["run"], functions(2000), "", "1999000\n", "", 0, 0)]
    with ThreadPoolExecutor(os.cpu_count()) as pool:
        wrong = [it for it in pool.map(row_difference, rows) if it]
        wrong += [it for it in pool.map(tree_difference, range(asked.seed, asked.seed + 200)) if it]
    for it in wrong:
        print(it)
    if wrong or not asked.quiet:
        print(f"{len(rows)} rows, 200 trees, {len(wrong)} faults")
    return 1 if wrong else 0


if __name__ == "__main__":
    sys.exit(main())
