#!/usr/bin/env python3
"""Measures the lane kernels against C loops over 64 blocks of 512 uint32_t with a byte mask.

Builds crates/lane_bench with rt and a C program with gcc -O2, runs both in turn, and prints for each
kernel the best time for one block and the ratio to the C loop. Run it on an idle machine.
"""
import os
import subprocess
import sys
import tempfile

TOP = os.path.dirname(os.path.dirname(os.path.abspath(__file__)))
CRATE = os.path.join(TOP, "crates", "lane_bench")
RUNS = 20

C_PROGRAM = r"""
#include <stdint.h>
#include <stdio.h>
#include <string.h>
#include <time.h>

enum { BLOCKS = 64, LANES = 512, ROUNDS = 100 };

static uint32_t a[BLOCKS][LANES], b[BLOCKS][LANES], d[BLOCKS][LANES];
static uint8_t mask[BLOCKS][LANES], flag[BLOCKS][LANES];

static double now(void) {
    struct timespec t;
    clock_gettime(CLOCK_MONOTONIC, &t);
    return t.tv_sec * 1e9 + t.tv_nsec;
}

__attribute__((noinline)) static void copy(int n) { memcpy(d[n], a[n], sizeof d[n]); }

__attribute__((noinline)) static void add(int n) {
    for (int i = 0; i < LANES; i++)
        if (mask[n][i]) d[n][i] = a[n][i] + b[n][i];
}

__attribute__((noinline)) static void less(int n) {
    for (int i = 0; i < LANES; i++)
        if (mask[n][i]) flag[n][i] = (int32_t)a[n][i] < (int32_t)b[n][i];
}

static void measure(const char *name, void (*kernel)(int)) {
    double start = now();
    for (int r = 0; r < ROUNDS; r++)
        for (int n = 0; n < BLOCKS; n++) kernel(n);
    printf("%s 32 %.1f\n", name, (now() - start) / ROUNDS / BLOCKS);
}

int main(void) {
    for (int n = 0; n < BLOCKS; n++)
        for (int i = 0; i < LANES; i++) {
            a[n][i] = (uint32_t)(i + n) * 0x9E3779B1u;
            b[n][i] = (uint32_t)(i + n) * 0x85EBCA77u;
            mask[n][i] = i % 3 % 2;
        }
    measure("copy", copy);
    measure("add", add);
    measure("less", less);
    return d[5][301] + flag[5][301] == 42;
}
"""


def measured(command):
    """The times that a program prints, by kernel and length."""
    out = subprocess.run(command, check=False, capture_output=True, text=True).stdout
    lines = (line.split() for line in out.splitlines())
    return {(words[0], int(words[1])): float(words[2]) for words in lines if len(words) == 3}


def best(command):
    """The least time of each kernel over several runs."""
    runs = [measured(command) for _ in range(RUNS)]
    return {kernel: min(run[kernel] for run in runs) for kernel in runs[0]}


def built(folder):
    """The C program, once it is built."""
    source, program = os.path.join(folder, "lanes.c"), os.path.join(folder, "lanes")
    with open(source, "w") as out:
        out.write(C_PROGRAM)
    subprocess.run(["gcc", "-O2", "-o", program, source], check=True)
    return program


def main():
    with tempfile.TemporaryDirectory() as folder:
        program = built(folder)
        proved = subprocess.run(["rt", "run"], cwd=CRATE, capture_output=True, text=True)
        if proved.returncode != 0:
            sys.exit(proved.stdout + proved.stderr)
        plain = best([program])
        ours = best([os.path.join(CRATE, "out", "lane_bench"), "time"])
    copy = plain["copy", 32]
    print(f"copy of 2 KB in C: {copy:.0f} ns")
    turn = ours["turn", 32] / 2
    print(f"transposition of a block: {turn:.0f} ns each way, {turn / copy:.1f} copies")
    for name in ("add", "less"):
        c, planes = plain[name, 32], ours[name, 32]
        print(f"{name}: C {c:.0f} ns, planes {planes:.0f} ns, {c / planes:.2f} times as fast")
    for length in (8, 16, 32):
        planes, values = ours["multiply_planes", length], ours["multiply_values", length]
        print(f"multiply, {length} bits: by planes {planes:.0f} ns, by values {values:.0f} ns")
    for length in (8, 16, 32):
        divide, shift = ours["divide_values", length], ours["shift_values", length]
        print(f"{length} bits by values: divide {divide:.0f} ns, shift by a field {shift:.0f} ns")


if __name__ == "__main__":
    main()
