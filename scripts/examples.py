#!/usr/bin/env python3
"""Runs the built program on what the documents show, and compares.

The transcript of README.md: each line `$ bmp ..` is run by a shell at the top of the repository, and must print the
lines below it. The tables of examples/README.md: the columns of a command give the lines that it prints for the file
of the row, each in backticks, then `and N more` where so many follow, and `status S` where that isn't 0. The pieces of
certificates that docs/FORMATS.md and docs/SHEAVES.md write out: each stands in the certificate that was named last
above it, once what is behind two spaces is taken away from each line. Prints nothing where all agrees, and else each
difference, with status 1.

Usage: scripts/examples.py [PROGRAM]   (crates/bmp/out/bmp, as `rt run` and `rt ci` leave it)
"""

import re
import subprocess
import sys
import tempfile
from pathlib import Path

TOP = Path(__file__).resolve().parent.parent
COMMANDS = {"output": "check"} | {f"`{name}`": name for name in ("check", "gkm", "graph", "kl", "ranks", "compare")}


def transcript(text):
    """Each command of a transcript with the lines below it."""
    blocks = re.findall(r"(?:^    .*\n)+", text, re.M)
    for block in blocks:
        lines = [line[4:] for line in block.splitlines()]
        starts = [i for i, line in enumerate(lines) if line.startswith("$ ")]
        for start, end in zip(starts, starts[1:] + [len(lines)]):
            yield lines[start][2:], lines[start + 1 : end]


def rows(text):
    """Each row of a table, as a map from the name of a column to the cell."""
    names = None
    for line in text.splitlines():
        if not line.startswith("|"):
            names = None
            continue
        cells = [cell.strip() for cell in line.strip("|").split("|")]
        if names is None:
            names = cells
        elif not set(cells[0]) <= set("-"):
            yield dict(zip(names, cells))


def expected(cell, status):
    """The lines that a cell names, how many more follow, and the status."""
    more = re.search(r"and (\d+) more", cell)
    own = re.search(r"status (\d+)", cell)
    lines = re.findall(r"`([^`]*)`", cell)
    return lines, int(more.group(1)) if more else 0, int(own.group(1)) if own else status


def pieces(text):
    """Each piece of a certificate with the file that was named last above it."""
    named, piece = None, []
    for line in text.splitlines() + [""]:
        if re.match(r"    (?:bmp-cert|block|vertices) ", line) or (piece and re.match(r"    \S", line)):
            piece.append(re.split(r"  ", line[4:])[0])
            continue
        if piece:
            yield named, piece
            piece = []
        named = (re.findall(r"examples/([\w-]+\.cert)", line) or [named])[-1]


def check_pieces(faults):
    for page in ("docs/FORMATS.md", "docs/SHEAVES.md"):
        for name, piece in pieces((TOP / page).read_text()):
            text = (TOP / "examples" / name).read_text()
            if "\n" + "\n".join(piece) + "\n" not in "\n" + text:
                faults.append(f"{page}: not in {name}: {piece}")


def check_transcript(program, faults):
    with tempfile.TemporaryDirectory() as folder:
        (Path(folder) / "bmp").symlink_to(program)
        script = 'PATH="$1:$PATH"; eval "$2"'
        for command, want in transcript((TOP / "README.md").read_text()):
            words = ["bash", "-c", script, "bash", folder, command]
            run = subprocess.run(words, cwd=TOP, capture_output=True, text=True)
            if run.stdout.splitlines() != want:
                faults.append(f"README.md: {command}\n  wants {want}\n  gives {run.stdout.splitlines()}")


def check_tables(program, faults):
    shown = set()
    tables = rows((TOP / "examples" / "README.md").read_text())
    for row in (row for row in tables if "file" in row):
        files = re.findall(r"`([^`]*)`", row["file"])
        for name in files:
            shown.add(name)
            for column, command in COMMANDS.items():
                if column not in row:
                    continue
                lines, more, status = expected(row[column], int(row.get("status", 0)))
                text = (TOP / "examples" / name).read_bytes()
                run = subprocess.run([program, command], input=text, capture_output=True)
                given = run.stdout.decode().splitlines()
                same = given[: len(lines)] == lines and len(given) == len(lines) + more
                if not same or run.returncode != status:
                    wants = f"wants {lines} and {more} more, {status}"
                    faults.append(f"{name}: {command}\n  {wants}\n  gives {given}, {run.returncode}")
    for path in sorted((TOP / "examples").glob("*.[cj]*")):
        if path.name not in shown:
            faults.append(f"{path.name}: in no table of examples/README.md")


def main():
    program = Path(sys.argv[1] if len(sys.argv) > 1 else TOP / "crates/bmp/out/bmp").resolve()
    faults = []
    check_transcript(program, faults)
    check_tables(program, faults)
    check_pieces(faults)
    print("".join(fault + "\n" for fault in faults), end="", file=sys.stderr)
    return 1 if faults else 0


if __name__ == "__main__":
    sys.exit(main())
