#!/usr/bin/env python3
"""Shows, for each of the three traits of the mathematics, who meets it, who uses it, and what goes round it.

Prints a line for each crate. With --check it prints nothing but what docs/ARCHITECTURE.md doesn't name, with status 1: a
crate that meets or uses a trait and isn't in the trait's row of the table, or code that goes round it elsewhere than
where that row says. Usage: scripts/traits.py [--check]
"""

import re
import sys
from pathlib import Path

TOP = Path(__file__).resolve().parent.parent

# For each row of the table: the traits, how code uses them by a bound or a call, and what would be going round them.
TRAITS = {
    "`Field`": (
        r"\bF: Field\b|\bPrimeField\b|\bBitField\b",
        # sums and products reduced by hand, where the numbers are a field's
        r"[^%]% (?:prime|p|modulus|size)\b",
    ),
    "`Rows`, `RowSpace`": (
        r": Rows<|: RowSpace<|\bRows<F> for\b|use bmp_linear::(?:\{[^}]*\b)?(?:Rows|RowSpace)\b",
        # rows that are kept as the one type or the other
        r"\bSparseRows\b|\bDenseRows\b|\bPackedRows\b",
    ),
    "`GradedModule`, `ModuleMap`": (
        r"GradedModule|ModuleMap|\bbmp_module::",
        # monomials counted where a module's coordinates are meant, and what is behind the types of bmp_module
        r"\bmonomials::count\b|\bcount_without\b|\bpush_normal\b",
    ),
}
# where each trait and the types that meet it stand; nothing there goes round it, and tests may name any type
HOMES = {
    "`Field`": {"bmp_field", "bmp_packed"},
    "`Rows`, `RowSpace`": {"bmp_linear", "bmp_elim", "bmp_packed"},
    "`GradedModule`, `ModuleMap`": {"bmp_poly", "bmp_module"},
}


def code_of(path):
    """The lines of a file that run: no comments, clauses or ghost lines."""
    text = re.sub(r"//.*", "", path.read_text())
    text = re.sub(r"^\s*(?:requires|ensures|ghost)\b[^{;]*\{(?:[^{}]|\{[^{}]*\})*\}[,;]?", "", text, flags=re.M)
    return text


def found(pattern):
    return {
        path.parts[-3]
        for path in sorted((TOP / "crates").glob("*/src/*.rt"))
        if re.search(pattern, code_of(path))
    }


def main():
    table = (TOP / "docs" / "ARCHITECTURE.md").read_text()
    missing = []
    for trait, (uses, round_it) in TRAITS.items():
        users = found(uses)
        others = {crate for crate in found(round_it) - HOMES[trait] if not crate.endswith("_tests")}
        row = next((line for line in table.splitlines() if line.startswith(f"| {trait} |")), "")
        cells = row.split("|")
        if "--check" not in sys.argv:
            print(f"{trait}: used in {', '.join(sorted(users))}; gone round in {', '.join(sorted(others)) or 'none'}")
            continue
        missing += [f"{trait}: {crate} uses it" for crate in sorted(users) if f"`{crate}`" not in row]
        missing += [f"{trait}: {crate} goes round it" for crate in sorted(others) if f"`{crate}`" not in "".join(cells[-2:])]
    print("".join(line + "\n" for line in missing), end="", file=sys.stderr)
    return 1 if missing else 0


if __name__ == "__main__":
    sys.exit(main())
