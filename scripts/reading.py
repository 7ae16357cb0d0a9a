#!/usr/bin/env python3
"""Keeps docs/READING.md: the definitions that the clauses of the top call `run` rest on.

Usage, at the top of the repository: scripts/reading.py [--check | --write]

It starts from the words of the contract of `run` and follows them, definition by definition, through the `use` lines of
all crates' specs, and through the types of the programs that they name. The toolchain's own words aren't followed. With no
flag it prints the lists; --write puts them into docs/READING.md, between the marks that stand there; --check fails where
the page differs from what the specs say.
"""
import argparse
import collections
import os
import re
import sys

PAGE = "docs/READING.md"
MARKS = "<!-- made by scripts/reading.py -->\n", "<!-- end -->\n"
TOP = "crates/bmp_program/src/program.rt"
HEADLINE = "certified"
WORD = r"[A-Za-z_◌][A-Za-z0-9_◌'\-]*"
BINDERS = [r"λ ([^.]*)\.", r"[({]([\w' ]+) : ", r"\blet (\w+)", r"(\w+) ←"]

Name = collections.namedtuple("Name", "crate module word")


def text_of(path):
    with open(path, encoding="utf-8") as file:
        return file.read()


def imports_of(text, keyword):
    """What the `use` lines of a file bring: for each word the path that it stands at, and its name there."""
    found = {}
    for path, words, alias in re.findall(rf"(?m)^{keyword} ([\w.]+?)(?:\.\{{([^}}]*)\}}| as (\w+));?$", text):
        if alias:
            found[alias] = path.rpartition(".")[0], path.rpartition(".")[2]
        for word in filter(None, (it.strip() for it in words.split(","))):
            name, _, own = word.partition(" as ")
            found[own or name] = path, name
    return found


class Specs:
    """A file of definitions: what it imports, and the lines of each definition."""

    def __init__(self, path):
        text = text_of(path)
        self.imports = imports_of(text, "use")
        self.lines = {}
        name, indent, shared = None, "", []
        for line in re.sub(r"(?m)^use [^{\n]*(\{[^}]*\})?.*\n", "", text).split("\n"):
            if line.startswith("module "):
                name, indent, shared = None, "  ", [line]
            elif line and not line.startswith((" ", "--")):
                indent, shared = "", []
            head = re.match(rf"{indent}(?:(?:abbrev|unfoldable|opaque|pub|record|data) )+([^\s:(]+)", line)
            if head and head[1] not in self.lines:
                name = head[1]
                self.lines[name] = [*shared]
            elif not line.strip():
                name = None
            if name and not line.strip().startswith("--"):
                self.lines[name].append(line)


def types_of(crate):
    """The structs and enums of a crate: for each its file, and the lines of the type and of how contracts see it."""
    found = {}
    for folder, _, files in os.walk(f"crates/{crate}/src"):
        for path in (f"{folder}/{it}" for it in sorted(files) if it.endswith(".rt")):
            text = text_of(path)
            for block in re.findall(r"(?m)^(?:pub(?:\(\w+\))? )?(?:struct|enum) (?:[^;{]*;|(?:.|\n)*?\n\})", text):
                name = re.search(r"(?:struct|enum) (\w+)", block)[1]
                views = re.findall(rf"(?m)^impl.* Model for {name}\b(?:.|\n)*?\n\}}", text)
                found[name] = path, [it for part in [block, *views] for it in part.split("\n") if "ghost use" not in it]
    return found


def words_of(text):
    """The words that a definition or a clause names: neither its own variables, nor fields, nor strings."""
    text = re.sub(r"--.*", "", text)
    groups = [group for binder in BINDERS for group in re.findall(binder, text)]
    own = {word for group in groups for word in re.findall(WORD, group) if word[0].islower()}
    for words in re.findall(r"(?m)^\s*\S+((?: [a-z][\w']*)+) =", text):
        own |= set(words.split())
    text = re.sub(r"(?m)^ +pub [\w']+ :", " :", text)
    text = re.sub(r'"[^"]*"|\.[a-z_]\w*|(?<=[{;])\s*\w+ =|(?m:^)\s+\w+ = (?=.*;)', " ", text)
    return set(re.findall(WORD, text)) - own


class House:
    """All definitions of the repository."""

    def __init__(self):
        crates = [it for it in re.findall(r"(?m)^(\w+)[^:#\n]*:", text_of("crates.txt")) if not it.endswith("_tests")]
        self.order, self.specs, self.types = [], {}, {}
        for crate in crates:
            lib = f"crates/{crate}/specs/Lib.antt"
            for module in re.findall(r"(?m)^(?:pub )?mod (\w+)", text_of(lib)) if os.path.isfile(lib) else []:
                self.order.append((crate, module))
                self.specs[crate, module] = Specs(f"crates/{crate}/specs/{module}.antt")
            self.types[crate] = types_of(crate)

    def named(self, imports, word):
        """What a word stands for: a definition or a type of the repository, or None."""
        path, name = imports.get(word) or imports.get(f"◌{word}◌") or ("", "")
        parts = path.split(".")
        if len(parts) < 4 or parts[0] != "Rattle" or parts[1] not in self.types or parts[2] != "specs":
            return None
        if parts[3] == "declared":
            name = parts[-2] if parts[-1] == "TheVariants" else parts[-1]
            return Name(parts[1], None, name) if name in self.types[parts[1]] else None
        return Name(parts[1], parts[3], name)

    def below(self, name):
        """What a definition or a type names."""
        if name.module is None:
            text = re.sub(r"//.*", "", "\n".join(self.types[name.crate][name.word][1]))
            found = [(c, it) for it in re.findall(r"\b[A-Z]\w+", text) for c in self.types if it in self.types[c]]
            return [Name(crate, None, it) for crate, it in found if it != name.word]
        specs = self.specs[name.crate, name.module]
        found = []
        for word in words_of("\n".join(specs.lines.get(name.word, []))):
            own = word in specs.lines and word != name.word
            found.append(Name(name.crate, name.module, word) if own else self.named(specs.imports, word))
        return [it for it in found if it]

    def closure(self, starts):
        found, open_ = set(), list(starts)
        while open_:
            name = open_.pop()
            if name not in found and (name.module is None or name.word in self.specs[name.crate, name.module].lines):
                found.add(name)
                open_ += self.below(name)
        return found

    def lines(self, name):
        if name.module is None:
            return len(self.types[name.crate][name.word][1])
        lines = self.specs[name.crate, name.module].lines[name.word]
        return len(lines) - lines[0].startswith("module ")


def clauses_of_run():
    """The clauses of `run`: for each its name and text; and the imports of its file."""
    text = text_of(TOP)
    contract = re.search(r"(?m)^pub fn run\b((?:.|\n)*?)^\{", text)[1]
    parts = re.split(r"(?m)^\s*ensures (\w+) \{", re.sub(r"//.*", "", contract))
    return dict(zip(parts[1::2], parts[2::2])), imports_of(text, "ghost use")


def listed(house, found):
    """The lines of one list: file by file, in the order to read."""
    rows = []
    for crate, module in house.order:
        words = [it for it in house.specs[crate, module].lines if Name(crate, module, it) in found]
        if words:
            rows.append(f"- `crates/{crate}/specs/{module}.antt`: " + ", ".join(f"`{it}`" for it in words))
    files = collections.defaultdict(list)
    for crate in house.types:
        for name, (path, _) in house.types[crate].items():
            if Name(crate, None, name) in found:
                files[path].append(name)
    rows += [f"- `{path}`: " + ", ".join(f"the type `{it}`" for it in names) for path, names in files.items()]
    return [part for row in rows for part in wrapped(row)]


def wrapped(row, width=120):
    lines, line = [], ""
    for word in row.split(" "):
        if line and len(line) + 1 + len(word) > width:
            lines.append(line)
            line = " "
        line = f"{line} {word}" if line else word
    return [*lines, line]


def page_of():
    """The part of the page that is made from the specs."""
    house = House()
    clauses, imports = clauses_of_run()
    starts = {k: [n for n in (house.named(imports, w) for w in words_of(text)) if n] for k, text in clauses.items()}
    headline = house.closure(starts.pop(HEADLINE))
    others = house.closure([it for names in starts.values() for it in names]) - headline
    out = []
    for title, found in [("The headline", headline), ("The other clauses of `run`", others)]:
        specs = [it for it in found if it.module]
        types = [it for it in found if not it.module]
        files = {(it.crate, it.module) for it in specs}
        counts = f"{len(specs)} definitions, {sum(map(house.lines, specs))} lines, in {len(files)} files"
        counts += f"; {len(types)} types of the programs, {sum(map(house.lines, types))} lines."
        out += [f"## {title}", "", counts, "", *listed(house, found), ""]
    return "\n".join(out)


def main():
    words = argparse.ArgumentParser(description="Keeps docs/READING.md.")
    words.add_argument("--check", action="store_true", help="fail where the page differs from the specs")
    words.add_argument("--write", action="store_true", help="write the lists into the page")
    asked = words.parse_args()
    made = page_of()
    if not asked.check and not asked.write:
        print(made)
        return 0
    page, made = text_of(PAGE), "\n" + made
    start, end = page.index(MARKS[0]) + len(MARKS[0]), page.index(MARKS[1])
    if asked.write:
        with open(PAGE, "w", encoding="utf-8") as file:
            file.write(page[:start] + made + page[end:])
        return 0
    if page[start:end] != made:
        print(f"{PAGE} isn't what the specs say: run scripts/reading.py --write", file=sys.stderr)
        return 1
    return 0


if __name__ == "__main__":
    sys.exit(main())
