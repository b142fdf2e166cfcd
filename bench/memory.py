#!/usr/bin/env python3
"""memory.py [PROGRAM]: does want of memory at any place answer as it should?

Runs some commands once for each of the allocations that they make, and refuses that one, by a small library in C that stands
before the C library's `malloc`. The answer has to be the one that is written here, or status 134 with its line; with that the
output took nothing, but under `mean` it may have a first part. Where the first allocations are refused, those for the words
of the command line, nothing is called and no line is said. Prints for each command how many allocations it makes and how many
runs wanted memory; ends with status 1 where an answer is another. It wants gcc, and the program that ./heapsafe builds."""

import os
import subprocess
import sys
import tempfile

TOP = os.path.join(os.path.dirname(os.path.abspath(__file__)), "..")

SHIM = r"""
#define _GNU_SOURCE
#include <dlfcn.h>
#include <stdio.h>
#include <stdlib.h>
#include <string.h>
#include <errno.h>
static long made, refused = -1;
static int refuses(void) {
  if (refused < 0) { const char *s = getenv("REFUSED"); refused = s ? atol(s) : 0; }
  return ++made == refused;
}
#define REAL(name) ({ static void *f; if (!f) f = dlsym(RTLD_NEXT, name); f; })
void *malloc(size_t n) {
  if (refuses()) { errno = ENOMEM; return 0; }
  return ((void *(*)(size_t))REAL("malloc"))(n);
}
void *realloc(void *p, size_t n) {
  if (refuses()) { errno = ENOMEM; return 0; }
  return ((void *(*)(void *, size_t))REAL("realloc"))(p, n);
}
void *aligned_alloc(size_t a, size_t n) {
  if (refuses()) { errno = ENOMEM; return 0; }
  return ((void *(*)(size_t, size_t))REAL("aligned_alloc"))(a, n);
}
int posix_memalign(void **p, size_t a, size_t n) {
  if (refuses()) return ENOMEM;
  return ((int (*)(void **, size_t, size_t))REAL("posix_memalign"))(p, a, n);
}
static void tell(void) __attribute__((destructor));
static void tell(void) {
  const char *to = getenv("TOLD");
  if (to) { FILE *f = fopen(to, "w"); if (f) { fprintf(f, "%ld", made); fclose(f); } }
}
"""

NOTHING = "int main(void){return 0;}"
with open(os.path.join(TOP, "examples", "programs", "vector.c"), encoding="ascii") as example:
    VECTOR = example.read()
LAYOUTS = """struct s { char c; char *p; short n; };
union u { char *p; int *q; };
struct w { char c; long long v; };
int main(void){return 0;}"""
LOOP = "int main(void){int x=3;while(x)x=x-1;return x;}"
LISTED = """func main regs 3 mems 0
reg 0 int x
reg 1 int -
reg 2 int -
0 1 set r0 3
1 1 set r1 r0
2 1 zero r1 7
3 1 set r1 r0
4 1 bin - i32 r2 r1 1
5 1 set r0 r2
6 1 loop 1
7 1 set r1 r0
8 1 return r1
9 1 return 0
"""
LIVE = "func main\n0: r0\n1: r0 r1\n2: r0\n3: r1\n4: r2\n5: r0\n6: r0\n7: r1\n8:\n9:\n"
PAST_THE_END = """char *e;
int main(void){
char *a = malloc(16);
char *b = malloc(16);
e = a + 16;
putchar(e == b ? 'y' : 'n');
free(b);
free(a);
return 0;}"""
HELD = "char *g;\nint main(void){\ng = malloc(1);\nfree(g);\nputchar('x');\nreturn 0;}"
RING = """struct n { struct n *next; };
int main(void){
struct n *a = malloc(sizeof *a);
struct n *b = malloc(sizeof *b);
struct n *c = malloc(sizeof *c);
a->next = b; b->next = c; c->next = a;
__delay_frees { free(a); free(b); free(c); }
puts("ok");
return 0;}"""
NESTED = "char *g;\nint main(void){\n__delay_frees {\ng = malloc(1);\n__delay_frees { free(g); }\ng = 0;\n}\nreturn 0;}"
TWICE = "int main(void){\nchar *p = malloc(2);\n__delay_frees {\nfree(p);\nfree(p);\n}\nreturn 0;}"
COPY = """struct s { char *p; int n; };
struct s a, b;
int main(void){
a.p = malloc(3);
memcpy(&b, &a, sizeof a);
a.p = 0;
free(b.p);
return 0;}"""
POINTER_IN_UNION = "union u { int n; char *p; };\nint main(void){return 0;}"
ESCAPE = "int *g;\nvoid f(void){ int x = 1; g = &x;\n}\nint main(void){ f(); return 0;}"
SLOT = "int main(void){\nvoid *v = malloc(8);\nchar **q = v;\n*q = 0;\nreturn 0;}"
MANY = """int main(void){
int i;
for (i = 0; i < 1000; i = i + 1) { char *p = malloc(16); free(p); }
char *a = malloc(16);
char *b = malloc(16);
a[0] = 1;
b[0] = 1;
return 0;}"""

# the words, the text of a.c, the input, and the output, the lines of the error stream and the status that are wanted
CASES = [
    ("run a.c", NOTHING, "", "", "", 0),
    ("run a.c", VECTOR, "1 22 333\n", "333 22 1 \n3 numbers, sum 356\n", "", 0),
    ("print a.c", NOTHING, "", "int main ( void ) {\nreturn 0 ;\n}\n", "", 0),
    ("layout a.c", LAYOUTS, "", "struct s size 12 align 4 slots 4\nunion u size 4 align 4 slots 0\nstruct w size 16 align 8 slots\n", "", 0),
    ("list a.c", LOOP, "", LISTED, "", 0),
    ("live a.c", LOOP, "", LIVE, "", 0),
    ("mean a.c", NOTHING, "", "", "", 0),
    ("mean a.c", PAST_THE_END, "", "n", "a.c:8: bad free: held\n  free(a);\nheld by global e at 0\n", 126),
    ("mean a.c", HELD, "", "", "a.c:4: bad free: held\n  free(g);\nheld by global g at 0\n", 126),
    ("mean a.c", RING, "", "ok\n", "", 0),
    ("mean a.c", NESTED, "", "", "", 0),
    ("mean a.c", TWICE, "", "", "a.c:5: bad free: again\n  free(p);\n", 126),
    ("mean a.c", COPY, "", "", "a.c:7: bad free: held\n  free(b.p);\nheld by global b at 0\n", 126),
    ("mean a.c", POINTER_IN_UNION, "", "", "a.c:1: type: pointer in union\n  union u { int n; char *p; };\n", 125),
    ("mean a.c", ESCAPE, "", "", "a.c:3: escape: x\n  }\n", 127),
    ("mean a.c", SLOT, "", "", "a.c:4: trap: layout\n  *q = 0;\n", 128),
    ("mean a.c", MANY, "", "", "", 0),
    ("self 1", "", "", "self 1: text 353 bytes, output 2 bytes, steps 2, status 0\n", "", 0),
]


def main():
    program = os.path.abspath(sys.argv[1] if sys.argv[1:] else os.path.join(TOP, "out", "unproved", "heapsafe"))
    wrong = 0
    with tempfile.TemporaryDirectory() as folder:
        with open(f"{folder}/shim.c", "w", encoding="ascii") as file:
            file.write(SHIM)
        subprocess.run(["gcc", "-O2", "-shared", "-fPIC", "-o", f"{folder}/shim.so", f"{folder}/shim.c", "-ldl"], check=True)

        def run(words, given, refused):
            more = {"LD_PRELOAD": f"{folder}/shim.so", "REFUSED": str(refused), "TOLD": f"{folder}/told"}
            ran = subprocess.run([program, *words.split()], input=given.encode(), capture_output=True, cwd=folder, env={**os.environ, **more})
            with open(f"{folder}/told", encoding="ascii") as file:
                return (ran.stdout.decode(), ran.stderr.decode(), ran.returncode), int(file.read())

        for words, text, given, out, err, status in CASES:
            with open(f"{folder}/a.c", "w", encoding="ascii") as file:
                file.write(text)
            answer, made = run(words, given, 0)
            wanting = wordless = 0
            bad = answer != (out, err, status) or made == 0
            for refused in range(1, made + 1):
                answer, _ = run(words, given, refused)
                part = out.startswith(answer[0]) if words.startswith("mean") else not answer[0]
                is_want = answer[1:] == ("heapsafe: no memory\n", 134) and part
                is_wordless = answer == ("", "", 134) and refused == wordless + 1
                wanting, wordless = wanting + is_want, wordless + is_wordless
                if not (is_want or is_wordless) and answer != (out, err, status):
                    bad = True
                    print(f"{words}: with allocation {refused} refused it answers {answer}")
            wrong += bad
            print(f"{words}: {made} allocations; {wordless} runs wanted memory for the words, {wanting} behind them{', WRONG' if bad else ''}", flush=True)
    sys.exit(1 if wrong else 0)


main()
