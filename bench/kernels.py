#!/usr/bin/env python3
"""Measures kernels in C* against plain C loops, and against NumPy where it is there.

Each kernel is one statement of C*, done round after round by the command as it compiles and runs it.
The stencil stands there twice: with neighbours round the ends, and with neighbours that have to be in
the grid, which is checked.
One run prints three tables, or those that --tables names:

  large    one, two and four workers over 32,768 and 1,048,576 positions. A line has the least time of
           one round with each number of workers, the time of the C loop (gcc -O2) and of NumPy, and how
           many times as long as C one worker takes. All print a sum of their results, which has to agree.
  small    sets of 2 to 63 blocks: the time of one worker, and that of more as a part of it. Where more
           workers take a tenth longer than one, the line says so.
  machine  a C program with threads of its own that does the same on planes, in one pass over the blocks:
           how much sooner this machine's processors are done at all when two and four work, and what
           it costs to start them.

Run it on an idle machine; it takes some minutes.
"""
import argparse
import os
import subprocess
import sys
import tempfile
import time

TOP = os.path.dirname(os.path.dirname(os.path.abspath(__file__)))
GRIDS = {32768: (128, 256), 1048576: (1024, 1024)}
BLOCK = 512  # positions of a block
COLUMNS = 64  # of a grid of few blocks
TARGETS = 1024
LIMIT = 120  # seconds that one run may take
ENOUGH = 0.4  # seconds that a measured run should take
ENOUGH_SMALL = 0.1  # the same for a few blocks
RUNS = 3
MOST_ROUNDS = 1 << 20
PYTHON = os.environ.get("NUMPY_PYTHON", sys.executable)


WHOLE = """#define ROUNDS {rounds}
shape [{rows}][{columns}]G;
shape [{positions}]L;
shape [{targets}]T;
{variables}
main() {{ int i; with ({shape}) {{
    {start}
    for (i = 0; i < ROUNDS; i++) {{
        {round} }} }}
    with ({result_shape}) printf("%u\\n", += {result}); }}
"""


class Kernel:
    """A statement of C*, the variables that it works on, and how they start."""

    def __init__(self, variables, start, round, result="d", shape="G", result_shape=None):
        self.variables, self.start, self.round, self.result = variables, start, round, result
        self.shape, self.result_shape = shape, result_shape or shape

    def text(self, rows, columns, rounds):
        """The program that does so many rounds on a grid of this size, or a line as long."""
        return WHOLE.format(rows=rows, columns=columns, positions=rows * columns, targets=TARGETS, rounds=rounds, **vars(self))


WORDS = "int:G a, b, d;"
START = "a = pcoord(0) * dimof(G, 1) + pcoord(1); b = a ^ 21845; a *= 40503;"
SCATTERED = "t = (pcoord(0) * dimof(G, 1) + pcoord(1)) * 2654435769u;"
INNER = """d = (pcoord(0) * 7919 + pcoord(1) * 104) & 65535;
    inner = pcoord(0) > 0 && pcoord(0) < dimof(G, 0) - 1 && pcoord(1) > 0 && pcoord(1) < dimof(G, 1) - 1;"""
KERNELS = {
    "chain": Kernel(WORDS, START, "where (a & 64) d = d + (a ^ b); else d -= b;"),
    "logic": Kernel(
        "unsigned:G t; bool:G a, b, c, d;",
        SCATTERED + " a = t >> 9 & 1; b = t >> 12 & 1; c = t >> 15 & 1; d = t >> 20 & 1;",
        "d = a && !b || c && d;"),
    "life": Kernel(
        "unsigned:G t; bool:G d; char:G row, n;",
        SCATTERED + " d = t >> 20 & 1;",
        """row = [.][(. - 1) %% dimof(G, 1)]d + d + [.][(. + 1) %% dimof(G, 1)]d;
        n = [(. - 1) %% dimof(G, 0)][.]row + row + [(. + 1) %% dimof(G, 0)][.]row;
        d = n == 3 || n == 4 && d;"""),
    "multiply": Kernel(WORDS, START, "where (a & 4096) d = d * a + b;"),
    "stencil": Kernel(
        "int:G d; bool:G inner;", INNER,
        """where (inner) d = ([(. - 1) %% dimof(G, 0)][.]d + [(. + 1) %% dimof(G, 0)][.]d
            + [.][(. - 1) %% dimof(G, 1)]d + [.][(. + 1) %% dimof(G, 1)]d) / 4;"""),
    "bordered": Kernel(
        "int:G d; bool:G inner;", INNER,
        "where (inner) d = ([. - 1][.]d + [. + 1][.]d + [.][. - 1]d + [.][. + 1]d) / 4;"),
    "scan": Kernel(
        "int:L a, d;", "a = pcoord(0) * 40503; d = a;",
        "d = scan(d ^ a, 0, CMC_combiner_add, CMC_upward, CMC_none, CMC_no_field, CMC_inclusive);", shape="L"),
    "send": Kernel(
        "int:G a, b; int:T target;", START + " a &= 1023;", "[a]target += b;", result="target", result_shape="T"),
}


C_PROGRAM = r"""
#include <stdint.h>
#include <stdio.h>
#include <stdlib.h>
#include <string.h>
#include <time.h>

static uint32_t a[POSITIONS], b[POSITIONS], d[POSITIONS], next[POSITIONS], target[1024];
static uint8_t ba[POSITIONS], bb[POSITIONS], bc[POSITIONS], bd[POSITIONS], be[POSITIONS];

#define ONE_ROUND __attribute__((noinline)) static void

ONE_ROUND chain(void) {
    for (int n = 0; n < POSITIONS; n++)
        if (a[n] & 64) d[n] += a[n] ^ b[n]; else d[n] -= b[n];
}

ONE_ROUND logic(void) {
    for (int n = 0; n < POSITIONS; n++) bd[n] = (ba[n] && !bb[n]) || (bc[n] && bd[n]);
}

ONE_ROUND life(void) {
    for (int r = 0; r < ROWS; r++) {
        const uint8_t *up = bd + (r + ROWS - 1) % ROWS * COLUMNS, *own = bd + r * COLUMNS, *down = bd + (r + 1) % ROWS * COLUMNS;
        for (int c = 0; c < COLUMNS; c++) {
            int left = (c + COLUMNS - 1) % COLUMNS, right = (c + 1) % COLUMNS;
            int n = up[left] + up[c] + up[right] + own[left] + own[right] + down[left] + down[c] + down[right];
            be[r * COLUMNS + c] = n == 3 || (n == 2 && own[c]);
        }
    }
    memcpy(bd, be, POSITIONS);
}

ONE_ROUND multiply(void) {
    for (int n = 0; n < POSITIONS; n++)
        if (a[n] & 4096) d[n] = d[n] * a[n] + b[n];
}

ONE_ROUND stencil(void) {
    for (int r = 1; r < ROWS - 1; r++)
        for (int n = r * COLUMNS + 1; n < (r + 1) * COLUMNS - 1; n++)
            next[n] = (int32_t)(d[n - COLUMNS] + d[n + COLUMNS] + d[n - 1] + d[n + 1]) / 4;
    for (int r = 1; r < ROWS - 1; r++)
        memcpy(d + r * COLUMNS + 1, next + r * COLUMNS + 1, 4 * (COLUMNS - 2));
}

ONE_ROUND scan(void) {
    uint32_t sum = 0;
    for (int n = 0; n < POSITIONS; n++) d[n] = sum += d[n] ^ a[n];
}

ONE_ROUND send(void) {
    for (int n = 0; n < POSITIONS; n++) target[a[n] & 1023] += b[n];
}

int main(int count, char **words) {
    static const struct { const char *name; void (*round)(void); } kernels[] = {
        {"chain", chain}, {"logic", logic}, {"life", life}, {"multiply", multiply}, {"stencil", stencil}, {"bordered", stencil}, {"scan", scan}, {"send", send}};
    uint32_t rounds = count > 2 ? (uint32_t)strtoul(words[2], 0, 10) : 0;
    for (unsigned k = 0; count > 2 && k < sizeof kernels / sizeof *kernels; k++) {
        if (strcmp(words[1], kernels[k].name)) continue;
        for (uint32_t n = 0; n < POSITIONS; n++) {
            uint32_t h = n * 2654435769u;
            a[n] = n * 40503u, b[n] = n ^ 21845u;
            ba[n] = h >> 9 & 1, bb[n] = h >> 12 & 1, bc[n] = h >> 15 & 1, bd[n] = h >> 20 & 1;
            if (kernels[k].round == stencil) d[n] = (n / COLUMNS * 7919 + n % COLUMNS * 104) & 65535;
            if (kernels[k].round == scan) d[n] = a[n];
        }
        struct timespec before, after;
        clock_gettime(CLOCK_MONOTONIC, &before);
        for (uint32_t i = 0; i < rounds; i++) kernels[k].round();
        clock_gettime(CLOCK_MONOTONIC, &after);
        uint32_t sum = 0;
        if (kernels[k].round == send) for (int n = 0; n < 1024; n++) sum += target[n];
        else if (kernels[k].round == logic || kernels[k].round == life) for (int n = 0; n < POSITIONS; n++) sum += bd[n];
        else for (int n = 0; n < POSITIONS; n++) sum += d[n];
        printf("%u\n%.9f\n", sum, (after.tv_sec - before.tv_sec) + (after.tv_nsec - before.tv_nsec) * 1e-9);
    }
    return 0;
}
"""

NUMPY = r"""
import sys, time
import numpy as np
name, rows, columns, rounds = sys.argv[1], *map(int, sys.argv[2:])
n = np.arange(rows * columns, dtype=np.uint32)
h = n * np.uint32(2654435769)
a, b, d = n * np.uint32(40503), n ^ np.uint32(21845), np.zeros(rows * columns, np.uint32)
ba, bb, bc, bd = (((h >> np.uint32(k)) & 1).astype(bool) for k in (9, 12, 15, 20))
world = bd.reshape(rows, columns).astype(np.uint8)
grid = ((n // columns * 7919 + n % columns * 104) & 65535).astype(np.int32).reshape(rows, columns)
line, target, k = a.copy(), np.zeros(1024, np.uint32), (a & np.uint32(1023)).astype(np.intp)

def chain():
    global d
    d = np.where(a & 64, d + (a ^ b), d - b)
def logic():
    global bd
    bd = ba & ~bb | bc & bd
def life():
    global world
    row = np.roll(world, 1, 1) + world + np.roll(world, -1, 1)
    around = np.roll(row, 1, 0) + row + np.roll(row, -1, 0)
    world = ((around == 3) | (around == 4) & (world == 1)).astype(np.uint8)
def multiply():
    global d
    d = np.where(a & 4096, d * a + b, d)
def stencil():
    s = grid[:-2, 1:-1] + grid[2:, 1:-1] + grid[1:-1, :-2] + grid[1:-1, 2:]
    grid[1:-1, 1:-1] = (s + ((s >> 31) & 3)) >> 2
bordered = stencil
def scan():
    global line
    line = np.cumsum(line ^ a, dtype=np.uint32)
def send():
    np.add.at(target, k, b)

began = time.perf_counter()
for _ in range(rounds):
    globals()[name]()
took = time.perf_counter() - began
result = {"logic": lambda: bd, "life": lambda: world, "stencil": lambda: grid.astype(np.uint32), "bordered": lambda: grid.astype(np.uint32), "scan": lambda: line, "send": lambda: target}.get(name, lambda: d)()
print(int(result.sum(dtype=np.uint64)) % 2**32)
print(took)
"""


PLANES_PROGRAM = r"""
#include <pthread.h>
#include <stdint.h>
#include <stdio.h>
#include <stdlib.h>
#include <time.h>

typedef uint64_t plane __attribute__((vector_size(64)));
enum { A = 0, B = 32, D = 64, T = 96, P = 128, CONTEXT, BITS };
typedef struct { plane planes[BITS]; } block;
typedef void (*work)(block *, int);

static void empty(block *b, int count) { (void)b, (void)count; }

// where (a & 64) d = d + (a ^ b); else d -= b;
static void chain(block *b, int count) {
    for (block *end = b + count; b < end; b++) {
        plane *p = b->planes, all = p[CONTEXT], test = {0}, carry = {0};
        for (int j = 0; j < 32; j++) {
            plane v = j == 6 ? p[A + j] : (plane){0};
            p[T + j] ^= all & (v ^ p[T + j]), test |= p[T + j];
        }
        plane on = all & test, off = all & ~test;
        for (int j = 0; j < 32; j++) p[T + j] ^= on & (p[A + j] ^ p[B + j] ^ p[T + j]);
        for (int j = 0; j < 32; j++) {
            plane x = p[D + j], y = p[T + j], sum = x ^ y ^ carry;
            carry = (x & y) | (carry & (x ^ y)), p[D + j] ^= on & (sum ^ x);
        }
        carry = ~(plane){0};
        for (int j = 0; j < 32; j++) {
            plane x = p[D + j], y = ~p[B + j], sum = x ^ y ^ carry;
            carry = (x & y) | (carry & (x ^ y)), p[D + j] ^= off & (sum ^ x);
        }
    }
}

// d = a && !b || c && d; on one plane each
static void logic(block *b, int count) {
    for (block *end = b + count; b < end; b++) {
        plane *p = b->planes;
        p[P] ^= p[CONTEXT] & (((p[A] & ~p[B]) | (p[D] & p[P])) ^ p[P]);
    }
}

// d = a, plane by plane
static void copy(block *b, int count) {
    for (block *end = b + count; b < end; b++)
        for (int j = 0; j < 32; j++) b->planes[D + j] = b->planes[A + j];
}

typedef struct { work work; block *from; int count; } part;

static void *do_part(void *given) {
    part *p = given;
    p->work(p->from, p->count);
    return 0;
}

static void one_round(work work, block *blocks, int count, int threads) {
    pthread_t started[64];
    part parts[64];
    for (int w = 0; w < threads; w++) {
        int from = (int)((long)count * w / threads), til = (int)((long)count * (w + 1) / threads);
        parts[w] = (part){work, blocks + from, til - from};
        if (w) pthread_create(&started[w], 0, do_part, &parts[w]);
    }
    do_part(&parts[0]);
    for (int w = 1; w < threads; w++) pthread_join(started[w], 0);
}

static double now(void) {
    struct timespec t;
    clock_gettime(CLOCK_MONOTONIC, &t);
    return t.tv_sec + t.tv_nsec * 1e-9;
}

int main(int count, char **words) {
    static const struct { const char *name; work work; } all[] = {{"empty", empty}, {"copy", copy}, {"logic", logic}, {"chain", chain}};
    static const int sizes[] = {16, 64, 2048}, threads[] = {1, 2, 4};
    (void)count, (void)words;
    for (int s = 0; s < 3; s++) {
        block *blocks = aligned_alloc(64, sizes[s] * sizeof *blocks);
        uint64_t *all_words = (uint64_t *)blocks, seed = 1;
        for (size_t n = 0; n < sizes[s] * sizeof *blocks / 8; n++) all_words[n] = seed = seed * 6364136223846793005u + 1442695040888963407u;
        for (int k = 0; k < 4; k++) {
            double best[3] = {1e9, 1e9, 1e9};
            for (int repeat = 0; repeat < 3; repeat++)
                for (int t = 0; t < 3; t++) {
                    int rounds = 1 + 400000 / sizes[s];  // many, since threads move to free processors late
                    double began = now();
                    for (int r = 0; r < rounds; r++) one_round(all[k].work, blocks, sizes[s], threads[t]);
                    double took = (now() - began) / rounds;
                    if (took < best[t]) best[t] = took;
                }
            printf("%s %d %.9f %.9f %.9f\n", all[k].name, sizes[s], best[0], best[1], best[2]);
        }
        free(blocks);
    }
    return 0;
}
"""


def timed(command, folder):
    """The output and the wall clock time of a command that has to end well."""
    began = time.perf_counter()
    done = subprocess.run(command, cwd=folder, capture_output=True, text=True, timeout=LIMIT)
    took = time.perf_counter() - began
    if done.returncode != 0:
        sys.exit(f"{' '.join(command)}: status {done.returncode}\n{done.stdout[:300]}{done.stderr[:300]}")
    return done.stdout, took


def least(command, folder, runs=RUNS):
    """The output of a command, and its least time over several runs."""
    done = [timed(command, folder) for _ in range(runs)]
    return done[0][0], min(took for _, took in done)


class Bench:
    def __init__(self, binary, folder, numpy):
        self.binary, self.folder, self.numpy = binary, folder, numpy

    def whole(self, kernel, grid, workers, rounds, runs=RUNS):
        """What a run of so many rounds prints, and the least time that it takes."""
        with open(os.path.join(self.folder, "kernel.cs"), "w") as out:
            out.write(kernel.text(*grid, rounds))
        words = [self.binary, "--workers", str(workers), "--turns", "4294967295", "kernel.cs"]
        return least(words, self.folder, runs)

    def ours(self, kernel, grid, workers, rounds):
        """The sum, and the time of one round, the start taken off."""
        _, start = self.whole(kernel, grid, workers, 0)
        text, took = self.whole(kernel, grid, workers, rounds)
        return text.strip(), (took - start) / rounds

    def rounds(self, kernel, grid, enough=ENOUGH):
        """So many rounds that one worker is busy for a while."""
        _, start = self.whole(kernel, grid, 1, 0, 1)
        count = 1
        while True:
            _, took = self.whole(kernel, grid, 1, count, 1)
            if took - start > enough or took > 20 or count >= MOST_ROUNDS:
                return count
            count *= 4

    def plain(self, name, positions, rounds):
        """The sum, and the time of one round, of the loop in C."""
        program = os.path.join(self.folder, f"plain{positions}")
        enough = max(rounds, 50000000 // positions)
        text = timed([program, name, str(rounds)], self.folder)[0].split()[0]
        return text, min(float(timed([program, name, str(enough)], self.folder)[0].split()[1]) for _ in range(RUNS)) / enough

    def of_numpy(self, name, grid, rounds):
        """The sum, and the time of one round, of NumPy."""
        words = [PYTHON, "-c", NUMPY, name, str(grid[0]), str(grid[1])]
        text = timed([*words, str(rounds)], self.folder)[0].split()[0]
        enough = max(4, 8000000 // (grid[0] * grid[1]))
        return text, min(float(timed([*words, str(enough)], self.folder)[0].split()[1]) for _ in range(RUNS)) / enough

    def show(self, name, kernel, grid, all_workers):
        positions = grid[0] * grid[1]
        rounds = self.rounds(kernel, grid)
        times, texts = {}, set()
        for workers in all_workers:
            text, times[workers] = self.ours(kernel, grid, workers, rounds)
            texts.add(text)
        text, c_took = self.plain(name, positions, rounds)
        texts.add(text)
        shown = "  ".join(f"{workers}: {took * 1e6:9.1f}" for workers, took in times.items())
        line = f"{name:9} {positions:8}  us by workers {shown}   C {c_took * 1e6:8.1f}   {times[1] / c_took:6.2f} times C"
        if self.numpy:
            text, took = self.of_numpy(name, grid, rounds)
            texts.add(text)
            line += f"   NumPy {took * 1e6:9.1f}, {times[1] / took:5.2f} times"
        line += f"   four workers {times[1] / times[max(times)]:.2f} times as fast" if len(times) > 1 else ""
        print(line + ("" if len(texts) == 1 else f"   WRONG: {texts}"), flush=True)

    def show_small(self, name, kernel, blocks, all_workers):
        """The time of one worker on a few blocks, and that of more as a part of it."""
        grid = (blocks * BLOCK // COLUMNS, COLUMNS)
        rounds = self.rounds(kernel, grid, ENOUGH_SMALL)
        times, texts = {}, set()
        for workers in all_workers:
            text, times[workers] = self.ours(kernel, grid, workers, rounds)
            texts.add(text)
        parts = {workers: took / times[1] for workers, took in times.items() if workers != 1}
        shown = "  ".join(f"{workers} workers {part:5.2f}" for workers, part in parts.items())
        line = f"{name:9} {blocks:3} blocks  one worker {times[1] * 1e6:8.2f} us  {shown}"
        line += "   SLOWER" if max(parts.values(), default=0) > 1.1 else ""
        print(line + ("" if len(texts) == 1 else f"   WRONG: {texts}"), flush=True)


def built(folder, name, text, *flags):
    """A program in C, once it is built."""
    source, program = os.path.join(folder, "source.c"), os.path.join(folder, name)
    with open(source, "w") as out:
        out.write(text)
    subprocess.run(["gcc", "-O2", *flags, "-o", program, source], check=True)
    return program


def build_plain(folder, positions):
    rows, columns = GRIDS[positions]
    built(folder, f"plain{positions}", C_PROGRAM, f"-DPOSITIONS={positions}", f"-DROWS={rows}", f"-DCOLUMNS={columns}")


def has_numpy():
    return subprocess.run([PYTHON, "-c", "import numpy"], capture_output=True).returncode == 0


def show_large(bench, all_workers, wanted):
    for positions, grid in GRIDS.items():
        build_plain(bench.folder, positions)
        for name, kernel in KERNELS.items():
            if name in wanted:
                bench.show(name, kernel, grid, all_workers)


def show_small(bench, all_workers, wanted, sizes):
    for blocks in sizes:
        for name, kernel in KERNELS.items():
            if name in wanted:
                bench.show_small(name, kernel, blocks, all_workers)


def show_machine(folder):
    program = built(folder, "planes", PLANES_PROGRAM, "-pthread")
    for line in timed([program], folder)[0].splitlines():
        name, blocks, *times = line.split()
        one, two, four = map(float, times)
        shown = f"planes in C: {name:6} {int(blocks):5} blocks  one thread {one * 1e6:9.2f} us, two {two * 1e6:9.2f}, four {four * 1e6:9.2f}"
        print(shown + ("" if name == "empty" else f"   {one / two:5.2f} and {one / four:5.2f} times as fast"), flush=True)


def main():
    words = argparse.ArgumentParser(description=__doc__, formatter_class=argparse.RawDescriptionHelpFormatter)
    words.add_argument("binary", nargs="?", default=os.path.join(TOP, "crates", "cstar", "out", "cstar"), help="the built command")
    words.add_argument("--workers", default="1,2,4", help="numbers of workers, the first 1")
    words.add_argument("--only", help="kernels, with commas between")
    words.add_argument("--tables", default="large,small,machine", help="which tables, with commas between")
    words.add_argument("--sizes", default="2,4,8,16,32,63", help="blocks of the small sets")
    given = words.parse_args()
    all_workers = [int(word) for word in given.workers.split(",")]
    wanted = given.only.split(",") if given.only else list(KERNELS)
    tables = given.tables.split(",")
    binary = os.path.abspath(given.binary)
    numpy = has_numpy()
    print(f"command: {binary}; processors: {os.cpu_count()}; NumPy: {'yes' if numpy else 'not here'}", flush=True)
    with tempfile.TemporaryDirectory() as folder:
        bench = Bench(binary, folder, numpy)
        if "large" in tables:
            show_large(bench, all_workers, wanted)
        if "small" in tables:
            show_small(bench, all_workers, wanted, [int(word) for word in given.sizes.split(",")])
        if "machine" in tables:
            show_machine(folder)


if __name__ == "__main__":
    main()
