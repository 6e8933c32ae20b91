#!/usr/bin/env python3
"""Runs five of the examples at a size that takes about a second on one worker, and tells the times.

The sources are those of examples/ with other numbers in their #define lines. Each runs with one worker
and with the most that --workers names; what they print has to be the same. --keep FOLDER leaves the
programs, their inputs and what they print there: pictures are PGM files, which most viewers open.
"""
import argparse
import pathlib
import random
import re
import subprocess
import sys
import tempfile
import time

EXAMPLES = pathlib.Path(__file__).resolve().parent.parent / "examples"
TURNS = "4000000"  # a picture of 1024 by 1024 points takes more than the 1,000,000 of a run by itself
MAP = 638  # rows and columns of the map of islands

SIZES = {
    "wave": {"ROWS": 256, "COLUMNS": 384, "STEPS": 560, "WALL": 110, "APART": 26, "SLIT": 3, "PERIOD": 26},
    "mandelbrot": {"ROWS": 600, "COLUMNS": 800, "ROUNDS": 120, "PICTURE": 1},
    "gas": {"SIDE": 1024, "DENSE": 100, "STEPS": 640},
    "components": {"ROWS": MAP + 2, "COLUMNS": MAP + 2},
    "shortest_paths": {"TOWNS": 336},
}


def enlarged(name):
    """The source with its sizes."""
    text = (EXAMPLES / f"{name}.cs").read_text()
    for word, value in SIZES[name].items():
        text, count = re.subn(rf"(?m)^#define {word} \d+", f"#define {word} {value}", text)
        if count != 1:
            sys.exit(f"{name}.cs has no line #define {word}")
    return text


def islands():
    """A map with coasts: noise that is smoothed five times. The same map each time."""
    draw = random.Random(1)
    land = [[draw.random() < 0.47 for _ in range(MAP)] for _ in range(MAP)]
    for _ in range(5):
        land = [[sum(land[(i + di) % MAP][(j + dj) % MAP] for di in (-1, 0, 1) for dj in (-1, 0, 1)) > 4
                 for j in range(MAP)] for i in range(MAP)]
    return "".join("".join(".#"[cell] for cell in row) + "\n" for row in land).encode()


def run(binary, folder, name, workers, given):
    start = time.perf_counter()
    done = subprocess.run([binary, "--workers", str(workers), "--turns", TURNS, f"{name}.cs"], cwd=folder,
                          input=given, capture_output=True, check=False)
    if done.returncode:
        sys.exit(f"{name}: status {done.returncode}, {done.stderr.decode()}")
    return time.perf_counter() - start, done.stdout


def measure(binary, folder, workers):
    print(f"{'program':16}{'1 worker':>12}{f'{workers} workers':>12}{'bytes':>10}")
    for name in SIZES:
        given = islands() if name == "components" else b""
        (folder / f"{name}.cs").write_text(enlarged(name))
        one, shown = run(binary, folder, name, 1, given)
        many, again = run(binary, folder, name, workers, given)
        if shown != again:
            sys.exit(f"{name} printed something else with {workers} workers")
        is_picture = shown.startswith(b"P5")
        (folder / f"{name}.{'pgm' if is_picture else 'out'}").write_bytes(shown)
        print(f"{name:16}{one:10.2f} s{many:10.2f} s{len(shown):10}", flush=True)


def main():
    words = argparse.ArgumentParser(description=__doc__, formatter_class=argparse.RawDescriptionHelpFormatter)
    words.add_argument("binary")
    words.add_argument("--workers", type=int, default=4)
    words.add_argument("--keep", help="a folder for programs and pictures")
    given = words.parse_args()
    binary = str(pathlib.Path(given.binary).resolve())
    if given.keep:
        folder = pathlib.Path(given.keep)
        folder.mkdir(parents=True, exist_ok=True)
        measure(binary, folder, given.workers)
    else:
        with tempfile.TemporaryDirectory() as folder:
            measure(binary, pathlib.Path(folder), given.workers)


if __name__ == "__main__":
    main()
