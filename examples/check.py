#!/usr/bin/env python3
"""Compares the examples and the page of faults with the copies that the gate runs. With --copy the
copies are made anew, and with --binary CSTAR each example is run by that command and its output
compared."""
import argparse
import pathlib
import re
import subprocess
import sys

HERE = pathlib.Path(__file__).resolve().parent
CRATE = HERE.parent / "crates" / "example_runs"
PAGE = HERE.parent / "docs" / "faults.md"


def wanted_files():
    """What the crate is to hold, by path."""
    names = sorted(file.stem for file in HERE.glob("*.cs"))
    files = {f"data/{file.name}": file.read_bytes() for kind in ("cs", "in", "out") for file in HERE.glob(f"*.{kind}")}
    files[f"data/{PAGE.name}"] = PAGE.read_bytes()
    faults = re.findall(r"^## ([EF]\d+ \w+)$", PAGE.read_text(), re.M)
    files["args"] = "".join(f"{name}\n" for name in [*names, PAGE.name]).encode()
    files["stdout"] = "".join(f"{name}: as expected\n" for name in [*names, *faults]).encode()
    return names, files


def runs_well(binary, name):
    given = HERE / f"{name}.in"
    text = given.read_bytes() if given.exists() else b""
    done = subprocess.run([binary, f"{name}.cs"], cwd=HERE, input=text, capture_output=True)
    return (done.returncode, done.stdout, done.stderr) == (0, (HERE / f"{name}.out").read_bytes(), b"")


def main():
    words = argparse.ArgumentParser(description=__doc__)
    words.add_argument("--copy", action="store_true")
    words.add_argument("--binary")
    given = words.parse_args()
    names, files = wanted_files()
    if given.copy:
        (CRATE / "data").mkdir(exist_ok=True)
        for path, text in files.items():
            (CRATE / path).write_bytes(text)
    there = {f"data/{file.name}" for file in (CRATE / "data").glob("*")}
    wrong = [path for path, text in files.items() if not (CRATE / path).exists() or (CRATE / path).read_bytes() != text]
    wrong += sorted(there - set(files))
    if given.binary:
        binary = str(pathlib.Path(given.binary).resolve())
        wrong += [f"{name} printed something else" for name in names if not runs_well(binary, name)]
    print("\n".join(wrong) or f"{len(names)} examples, all as they should be")
    return bool(wrong)


if __name__ == "__main__":
    sys.exit(main())
