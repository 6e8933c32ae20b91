#!/usr/bin/env python3
"""Compares the page of faults with the catalogue of cstar_explain: each fault of the page, a section or a
row of a table, has the same name and the same sentences in both, and neither has one more."""
import pathlib
import re
import sys

HERE = pathlib.Path(__file__).resolve().parent
PAGE = HERE / "faults.md"
CATALOGUE = HERE.parent / "crates" / "fault_catalogue" / "src" / "entries.rt"


def sentences():
    """What the page says of each fault, by number and name."""
    text = PAGE.read_text()
    sections = re.findall(r"^##? ([EF]\d+ \w+)\n\n(.*?)(?:\n\n|\n*\Z)", text, re.M | re.S)
    rows = re.findall(r"^\| (E\d+ \w+) \| (.*?) \|$", text, re.M)
    told = {name: f"{said[0].upper()}{said[1:]}." for name, said in rows}
    return {**told, **dict(sections)}


def entries():
    """What the catalogue says."""
    written = r'Entry \{\s*number: "(\w+)",\s*name: "(\w+)",\s*advice: "((?:[^"\\]|\\.)*)",?\s*\}'
    found = re.findall(written, CATALOGUE.read_text())
    return {f"{number} {name}": re.sub(r"\\(.)", r"\1", advice) for number, name, advice in found}


def main():
    page, catalogue = sentences(), entries()
    wrong = sorted(name for name in {*page, *catalogue} if page.get(name) != catalogue.get(name))
    for name in wrong:
        print(f"{name}\n  page:      {page.get(name)}\n  catalogue: {catalogue.get(name)}")
    print(f"{len(page)} faults, {len(wrong)} differ")
    return bool(wrong)


if __name__ == "__main__":
    sys.exit(main())
