#!/usr/bin/env python3
"""Counts the instructions that statements compile to, and compares with the table below.

Each statement stands alone in `with (S)` of a program with the variables below. Its count is that of the
program's listing with it less that without it, so it holds the statement's own instructions and the
constants that `main` puts in registers for it, and nothing else. The table says what the compiler makes today; a count that differs is printed, and the end is 1.
"""
import argparse
import os
import subprocess
import sys
import tempfile

TOP = os.path.dirname(os.path.dirname(os.path.abspath(__file__)))

FRAME = """shape [8]S;
int:S a, b, d; bool:S e, f, g, h; char:S c;
int s, i, n, x; char k;
main() { with (S) { %s } }
"""

COUNTS = {
    "d = d * a + b;": 2,
    "d += a;": 1,
    "d = a;": 1,
    "d = 5;": 1,
    "d = s;": 1,
    "d -= s;": 1,
    "d /= b;": 2,
    "d = -a;": 1,
    "d = a == b;": 3,
    "d = pcoord(0);": 1,
    "a++;": 1,
    "c = a;": 1,
    "g = a > b;": 2,
    "where (a < b) d = a;": 5,
    "where (a < b) d = a; else d = b;": 10,
    "where (a < 3) d += 1;": 6,
    "where (g) d = a;": 5,
    "where (a < b && g) d = a;": 8,
    "s = s * 5 + i;": 3,
    "s += i;": 1,
    "i++;": 2,
    "k++;": 3,
    "i++; n++;": 3,
    "k = s;": 1,
    "x = -1;": 1,
    "x = !x;": 2,
    "s = s / n;": 2,
    "s = i ? n : x;": 4,
    "s = += d;": 1,
    "if (i < n) s = i;": 3,
    "for (i = 0; i < n; i++) ;": 7,
    "for (i = 0; i < n; i++) x++;": 8,
    "x = [2]a;": 2,
    "d = [. + 1]a;": 2,
    "while (s > x && i) s = s - 1;": 10,
    "c += a;": 1,
    "c++;": 1,
    "g |= a < b;": 3,
    "c = c * 3 - (a << 2);": 3,
    "c = a / b;": 3,
    "where (c == 3) c = 0;": 6,
    "[a]c = d;": 4,
    "c = [. + 1]c;": 2,
    "s = += c;": 1,
    "s = |= c;": 2,
    "s = >?= g;": 2,
    "s += c;": 5,
    "g = e && !f || g && h;": 4,
    "g = e & f;": 1,
    "where (a && b) d += 1;": 10,
    "where (e && f) d += 1;": 6,
    "g = b && a / b;": 11,
}


def instructions(command, statement):
    """How many instructions the listing of the program with the statement has."""
    with tempfile.TemporaryDirectory() as folder:
        file = os.path.join(folder, "a.cs")
        with open(file, "w", encoding="ascii") as it:
            it.write(FRAME % statement)
        ran = subprocess.run([command, "--mode", "list", file], capture_output=True, text=True, check=True)
    return sum(line[:1].isdigit() for line in ran.stdout.splitlines())


def main():
    words = argparse.ArgumentParser(description=__doc__.splitlines()[0])
    words.add_argument("--binary", default=os.path.join(TOP, "crates", "cstar", "out", "cstar"))
    command = os.path.abspath(words.parse_args().binary)
    without = instructions(command, "")
    wrong = 0
    for statement, wanted in COUNTS.items():
        count = instructions(command, statement) - without
        wrong += count != wanted
        print(f"{count:4} {statement}" + ("" if count == wanted else f"   (the table has {wanted})"))
    print(f"{len(COUNTS)} statements, {wrong} not as the table has them")
    return 1 if wrong else 0


if __name__ == "__main__":
    sys.exit(main())
