#!/usr/bin/env python3
"""Measures the front and the scalar code: mode check on 1 MB of ordinary statements beside
gcc -fsyntax-only on the same text, and a scalar loop beside the same one in C and in Lua 5.4, where that
is there. Each line has the least time of several runs, and how many times as long cstar takes. Run it on
an idle machine.
"""
import argparse
import os
import shutil
import subprocess
import tempfile

from kernels import least

TOP = os.path.dirname(os.path.dirname(os.path.abspath(__file__)))
RUNS = 5
ROUNDS = 20_000_000
BYTES = 1 << 20

LOOP = """main() { int i; unsigned s;
    for (i = 0; i < %d; i++)
        s = s * 1103515245 + (i ^ (s >> 16));
    printf("%%u\\n", s); }
"""

C_LOOP = r"""
#include <stdint.h>
#include <stdio.h>
#include <stdlib.h>

static uint32_t s;

__attribute__((noinline)) static void one_round(uint32_t i) { s = s * 1103515245u + (i ^ (s >> 16)); }

int main(int count, char **words) {
    uint32_t rounds = count > 1 ? (uint32_t)strtoul(words[1], 0, 10) : 0;
    for (uint32_t i = 0; i < rounds; i++) one_round(i);
    printf("%u\n", s);
    return 0;
}
"""

LUA_LOOP = """local s = 0
for i = 0, tonumber(arg[1]) - 1 do
    s = s * 1103515245 + (i ~ (s >> 16)) & 0xffffffff
end
print(s)
"""


def write(folder, name, text):
    with open(os.path.join(folder, name), "w", encoding="ascii") as out:
        out.write(text)


def show(name, ours, other, other_took, said=""):
    times = f"{ours / other_took:6.2f} times {other}"
    print(f"{name:10} cstar {ours * 1e3:8.1f} ms   {other} {other_took * 1e3:8.1f} ms   {times}{said}", flush=True)


def ordinary_text(size):
    """A text of about this many bytes, which is C and C* alike."""
    parts, length, number = [], 0, 0
    while length < size - 20000:
        body = "".join(
            f"    x = x * {n + 3} + (y >> {n % 7}) - {number};\n    if (x > y) y += x % {n + 2}; else x ^= {n} & y;\n"
            for n in range(20)
        )
        part = f"/* function number {number} */\nint f{number}(int x, int y)\n{{\n{body}    return x - y;\n}}\n\n"
        parts.append(part)
        length += len(part)
        number += 1
    calls = "".join(f"    s += f{n}(s, {n});\n" for n in range(number))
    return "".join(parts) + f"int main()\n{{\n    int s = 0;\n{calls}    return s;\n}}\n"


def scalar(binary, folder):
    """The scalar loop, its start taken off, beside the same one in C and in Lua."""

    def ours(rounds):
        write(folder, "loop.cs", LOOP % rounds)
        return least([binary, "--turns", "4294967295", "loop.cs"], folder, RUNS)

    def beside(other, command):
        text, took = least([*command, str(ROUNDS)], folder, RUNS)
        took -= least([*command, "0"], folder, RUNS)[1]
        show("scalar", whole - start, other, took, "" if text == wanted else f"   WRONG: {wanted.strip()} where it has {text.strip()}")

    (wanted, whole), (_, start) = ours(ROUNDS), ours(0)
    write(folder, "loop.c", C_LOOP)
    subprocess.run(["gcc", "-O2", "-o", "loop", "loop.c"], cwd=folder, check=True)
    beside("C", ["./loop"])
    write(folder, "loop.lua", LUA_LOOP)
    lua = shutil.which("lua5.4")
    if lua is not None:
        beside("Lua", [lua, "loop.lua"])


def front(binary, folder):
    text = ordinary_text(BYTES)
    write(folder, "front.cs", text)
    write(folder, "front.c", text)
    _, took = least([binary, "--mode", "check", "front.cs"], folder, RUNS)
    _, gcc = least(["gcc", "-fsyntax-only", "front.c"], folder, RUNS)
    show("front", took, "gcc -fsyntax-only", gcc, f", {len(text)} bytes")


def main():
    words = argparse.ArgumentParser(description=__doc__, formatter_class=argparse.RawDescriptionHelpFormatter)
    words.add_argument("binary", nargs="?", default=os.path.join(TOP, "crates", "cstar", "out", "cstar"), help="the built command")
    binary = os.path.abspath(words.parse_args().binary)
    print(f"command: {binary}", flush=True)
    with tempfile.TemporaryDirectory() as folder:
        front(binary, folder)
        scalar(binary, folder)


if __name__ == "__main__":
    main()
