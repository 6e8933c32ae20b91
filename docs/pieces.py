#!/usr/bin/env python3
"""Runs the pieces of the pages of docs/ and of README by the cstar that is named, and compares what they
print with what stands behind them. A piece without a main is put into the frame of language.md; of the
final values only the lines that the page shows are looked for. A block that begins with `c NAME` is a file
of its page, and in a block `console` each line that begins with a dollar is a command, which is run among
these files; so are the commands of the manual page, among the programs of examples/. A cstar_explain is
looked for beside the cstar, and its commands are left out where there is none."""
import os
import pathlib
import re
import subprocess
import sys
import tempfile

HERE = pathlib.Path(__file__).resolve().parent
PAGES = ["language.md", "tutorial.md", "pictures.md", "fixed-point.md", "porting.md", "usage.md", "performance.md", "../README.md"]
MANUAL = "cstar.1"
EXAMPLES = HERE.parent / "examples"
FINAL = re.compile(r"\w+(\[\d+\])?:( -?\d+)+")


def divided(text):
    """The lines of final values, and all others."""
    lines = text.split("\n")
    finals = [line for line in lines if FINAL.fullmatch(line)]
    return finals, "\n".join(line for line in lines if not FINAL.fullmatch(line)).rstrip("\n")


def printed(binary, program):
    with tempfile.TemporaryDirectory() as folder:
        (pathlib.Path(folder) / "piece.cs").write_text(program)
        done = subprocess.run([binary, "--finals", "piece.cs"], cwd=folder, input="", capture_output=True, text=True)
    return done.stdout + done.stderr


def pieces(binary, frame, page):
    """Each piece of a page, what it prints, what the page shows, and whether they agree."""
    for piece, wanted in re.findall(r"```c\n([^`]*)```\n```\n([^`]*)```\n", page):
        found = printed(binary, piece if "main(" in piece else frame.replace("/* the piece */", piece))
        (finals, text), (shown, said) = divided(found), divided(wanted)
        yield piece, found, wanted, text == said and all(line in finals for line in shown)


def manual():
    """The manual page's commands, as a page."""
    text = (HERE / MANUAL).read_text()
    blocks = re.findall(r"(?m)^\.EX\n((?:.*\n)*?)\.EE$", text)
    for mark, plain in (("\\fB", ""), ("\\fR", ""), ("\\-", "-"), ("\\(aq", "'"), ("\\e", "\\")):
        blocks = [block.replace(mark, plain) for block in blocks]
    return "".join(f"```console\n{block}```\n" for block in blocks)


def explainer(binary):
    """The cstar_explain beside a cstar, or where the gate puts it, if there is one."""
    own = pathlib.Path(binary).parent
    found = [path for path in (own / "cstar_explain", own.parents[1] / "cstar_explain" / "out" / "cstar_explain") if path.exists()]
    return found[0] if found else None


def commands(binary, page):
    """The same of each command of a page."""
    with tempfile.TemporaryDirectory() as folder:
        root = pathlib.Path(folder)
        (root / "bin").mkdir()
        (root / "bin" / "cstar").symlink_to(binary)
        if explainer(binary):
            (root / "bin" / "cstar_explain").symlink_to(explainer(binary))
        (root / "examples").symlink_to(EXAMPLES)
        for program in EXAMPLES.glob("*.cs"):
            (root / program.name).symlink_to(program)
        around = {**os.environ, "PATH": f"{root / 'bin'}:{os.environ['PATH']}"}
        for name, text, block in re.findall(r"(?s)```c (\S+)\n(.*?)```\n|```console\n(.*?\n)```\n", page):
            if name:
                (root / name).unlink(missing_ok=True)
                (root / name).write_text(text)
            for command, wanted in re.findall(r"^\$ (.*)\n((?:(?!\$ ).*\n)*)", block, re.M):
                if "cstar_explain" in command and not explainer(binary):
                    continue
                done = subprocess.run(["sh", "-c", command], cwd=root, env=around, stdin=subprocess.DEVNULL,
                                      stdout=subprocess.PIPE, stderr=subprocess.STDOUT)
                found = done.stdout.decode("latin-1")
                yield f"{command}\n", found, wanted, found == wanted


def main():
    binary = str(pathlib.Path(sys.argv[1]).resolve())
    frame = re.search(r"(?m)(^    .*\n|^\n)*^ +/\* the piece \*/\n(^    .*\n)*", (HERE / PAGES[0]).read_text())[0]
    count = wrong = 0
    for page in [*PAGES, MANUAL]:
        text = manual() if page == MANUAL else (HERE / page).read_text()
        for piece, found, wanted, good in [*pieces(binary, frame, text), *commands(binary, text)]:
            count += 1
            if not good:
                wrong += 1
                print(f"{page}: {piece}prints\n{found}and not\n{wanted}")
    print(f"{count} pieces, {wrong} wrong")
    return wrong > 0


if __name__ == "__main__":
    sys.exit(main())
