#!/usr/bin/env python3
"""Breaks the lines of sources, specs and proofs that are wider than 120 columns, imports apart and attributes that name
lemmas by their paths, which `rt fmt` keeps on one line. With --check it only names them, and those of the documents,
tables apart, and ends with 1 where there is one.

Usage: scripts/narrow.py [--check] [FILE ..]     (those of crates/, and of the documents, where none is given)

A line is broken at a space where the fewest brackets are open, if it can be behind an arrow, a sign of equality, a comma
or the word `in`, or before a path's sign; what follows is indented by four columns more than the line.
"""
import re
import sys
import textwrap
from pathlib import Path

WIDTH = 120
# where files are looked for when none is named: never in what a check leaves in out/
PARTS = ["crates/*/specs/**/*.antt", "crates/*/proofs/**/*.antt", "crates/*/src/**/*.rt"]
# where a wide line is only named: how a text goes on is its writer's to say
TEXTS = ["README.md", "docs/*.md", "examples/*.md"]
OPENING, CLOSING = "([{", ")]}"
BEHIND = {"→": 6, "↔": 6, "=": 9, ":": 7, "in": 8, "then": 3, "×": 5, "⊎": 5, "%": -12, "+": -6, "*": -6, "≡": -4}
BEFORE = {"∙": 6, "%": 4, "≡": 3, "then": 4, "else": 4, "→": 0, "=": -20, "↦": -20, ":": -6, "in": -30}


def spaces_of(line, start):
    """The places of the spaces behind `start`, each with the number of brackets that are open there."""
    depth, places = 0, []
    for place, sign in enumerate(line):
        if sign in OPENING:
            depth += 1
        elif sign in CLOSING:
            depth -= 1
        elif sign == " " and place > start:
            places.append((place, depth))
    return places


def worth(line, place, depth):
    """How good it is to break at a space: the larger the better."""
    before = line[:place].rsplit(" ", 1)[-1]
    after = line[place + 1 :].split(" ", 1)[0]
    sign = BEHIND.get(before, 0) if depth == 0 or before not in "=:" else -12
    sign += BEFORE.get(after, 0)
    if before.endswith((",", ";")):
        sign += 7
    if after.startswith("(") or after.startswith("⟨"):
        sign += 1
    return sign - 8 * depth + place / 12


def wrapped(line):
    """The lines that a line is broken into."""
    indent = len(line) - len(line.lstrip(" "))
    lead = " " * (indent + 4)
    pieces, rest, start = [], line, indent
    while len(rest) > WIDTH:
        places = [it for it in spaces_of(rest, start + 16) if it[0] <= WIDTH]
        if not places:
            break
        place, _ = max(places, key=lambda it: worth(rest, *it))
        pieces.append(rest[:place].rstrip(" "))
        rest = lead + rest[place + 1 :].lstrip(" ")
        start = indent + 4
    return pieces + [rest]


def wrapped_comment(line, below):
    """A comment, continued below its text, in a table of names below the meaning; and how many of the lines below it
    went into it, as what it was continued with."""
    lead = re.match(r" *-- *", line).group()
    row = re.match(r"( *-- *\S.*?  +)\S", line)
    is_row = row is not None and len(row.group(1)) <= WIDTH // 2
    further = "--".rjust(lead.index("-") + 2).ljust(len(row.group(1))) if is_row else lead
    taken = 0
    for other in below:
        rest = other[len(further) :]
        goes_on = other.startswith(further) and rest[:1].strip() and (is_row or rest[0].islower()) and "   " not in rest
        if not goes_on:
            break
        line += " " + rest
        taken += 1
    texts = textwrap.wrap(line, WIDTH, subsequent_indent=further, break_long_words=False, break_on_hyphens=False)
    return texts, taken


def wrapped_doc(line, below):
    """A comment of the sources: what is too wide goes to the front of the line below, where that goes on with it."""
    lead = re.match(r" *//[/!]? *", line).group()
    out, taken = [], 0
    while len(line) > WIDTH:
        end = line.rindex(" ", 0, WIDTH + 1)
        rest = line[end + 1 :]
        out.append(line[:end])
        other = below[taken] if taken < len(below) else ""
        if other.startswith(lead) and other[len(lead) :][:1].isalnum():
            rest += " " + other[len(lead) :]
            taken += 1
        line = lead + rest
    return out + [line], taken


def is_wide(line):
    return len(line) > WIDTH and not line.lstrip().startswith(("use ", "pub use ", "ghost use ", "#[tactic("))


def narrowed(lines):
    out, at = [], 0
    while at < len(lines):
        line = lines[at]
        at += 1
        if not is_wide(line):
            out.append(line)
        elif line.lstrip().startswith(("--", "//")):
            one = wrapped_comment if line.lstrip().startswith("--") else wrapped_doc
            texts, taken = one(line, lines[at:])
            out += texts
            at += taken
        else:
            out += wrapped(line)
    return out


def main():
    words = sys.argv[1:]
    if "--help" in words:
        print(__doc__)
        return 0
    check = "--check" in words
    named = [Path(word) for word in words if word != "--check"]
    top = Path(__file__).resolve().parent.parent
    parts = PARTS + (TEXTS if check else [])
    wide = 0
    for path in named or sorted(path for part in parts for path in top.glob(part)):
        lines = path.read_text().split("\n")
        table = "|" if path.suffix == ".md" else "\n"
        marked = [number for number, line in enumerate(lines, 1) if is_wide(line) and not line.startswith(table)]
        if check:
            wide += len(marked)
            for number in marked:
                print(f"{path}:{number}: {len(lines[number - 1])} columns")
        elif marked:
            path.write_text("\n".join(narrowed(lines)))
    return 1 if wide else 0


if __name__ == "__main__":
    sys.exit(main())
