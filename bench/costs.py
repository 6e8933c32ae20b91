#!/usr/bin/env python3
"""Measures what single statements cost, by element type, way and workers.

Each statement stands alone in a loop over a shape of a million positions. Its cost is the time of many
rounds less that of few, so neither the start of the command nor the loop's first round is in it; of three
runs the quickest counts. Run it on an idle machine.
"""
import argparse
import os
import subprocess
import tempfile
import time

TOP = os.path.dirname(os.path.dirname(os.path.abspath(__file__)))
RUNS = 3
LEAST = 0.4  # seconds that the many rounds should take beside the few

FRAME = """shape [1024][1024]S;
shape [1024]T;
%(elem)s:S a, b, d; bool:S g, h; int:S k, far; int:T t;
int s;
main() { int i;
    with (S) {
        k = pcoord(0) * 1024 + pcoord(1); far = k * 40503 & 1023;
        a = k * 40503; b = k ^ 21845; g = k >> 3; h = k >> 5;
        for (i = 0; i < %(rounds)d; i++) { %(statement)s }
    }
}
"""

STATEMENTS = [
    ("a sum", "d = a + b;"),
    ("a product", "d = a * b;"),
    ("a quotient by a power of 2", "d = a / 4;"),
    ("a quotient", "d = a / (b | 1);"),
    ("a comparison", "g = a < b;"),
    ("a sum where a comparison holds", "where (a < b) d += a;"),
    ("`&&` of truth values", "h = g && h;"),
    ("a bitwise `&` of truth values", "h = g & h;"),
    ("the neighbour on the last axis", "d = [.][(. + 1) %% dimof(S, 1)]a;"),
    ("the neighbour on the first axis", "d = [(. + 1) %% dimof(S, 0)][.]a;"),
    ("the same neighbour by the router", "d = [(pcoord(0) + 1) %% 1024][.]a;"),
    ("a get from scattered positions", "d = [far][far]a;"),
    ("a sum over all positions", "s = += a;"),
    ("a running sum along the last axis", "k = scan(k, 1, CMC_combiner_add, CMC_upward, CMC_none, CMC_no_field, CMC_inclusive);"),
    ("a sum by messages, 1,024 to one", "[far]t += k;"),
    ("the own coordinate", "d = pcoord(1);"),
]


class Measured:
    """Statements as one command runs them."""

    def __init__(self, command, folder):
        self.command = command
        self.folder = folder

    def seconds(self, elem, statement, rounds, workers):
        file = os.path.join(self.folder, "a.cs")
        with open(file, "w", encoding="ascii") as it:
            it.write(FRAME % {"elem": elem, "rounds": rounds, "statement": statement})
        best = None
        for _ in range(RUNS):
            begun = time.perf_counter()
            subprocess.run([self.command, "--turns", "4000000000", "--workers", str(workers), file], check=True)
            took = time.perf_counter() - begun
            best = took if best is None else min(best, took)
        return best

    def cost(self, elem, statement, workers):
        """Milliseconds of one round."""
        few, rounds = 2, 8
        start = self.seconds(elem, statement, few, workers)
        while True:
            took = self.seconds(elem, statement, few + rounds, workers) - start
            if took >= LEAST or rounds >= 1 << 14:
                return took / rounds * 1000
            rounds *= 4


def main():
    words = argparse.ArgumentParser(description=__doc__.splitlines()[0])
    words.add_argument("--binary", default=os.path.join(TOP, "crates", "cstar", "out", "cstar"))
    words.add_argument("--elems", default="int,short,char,bool")
    words.add_argument("--workers", default="1,2,4")
    given = words.parse_args()
    elems, workers = given.elems.split(","), given.workers.split(",")
    print("milliseconds of one round over 1,048,576 positions: one worker by element type, then int by workers")
    print(f"{'':36}" + "".join(f"{x:>9}" for x in elems + workers[1:]))
    with tempfile.TemporaryDirectory() as folder:
        measured = Measured(os.path.abspath(given.binary), folder)
        for name, statement in STATEMENTS:
            row = [measured.cost(elem, statement, workers[0]) for elem in elems]
            row += [measured.cost(elems[0], statement, more) for more in workers[1:]]
            print(f"{name:36}" + "".join(f"{x:9.3f}" for x in row), flush=True)


if __name__ == "__main__":
    main()
