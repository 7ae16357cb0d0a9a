#!/usr/bin/env python3
"""Compares each table that `bmp kl` prints, of all elements of a type, with that of independent.py.

    agree.py BMP [TYPE ..]      (A3, B3, D4 and G2 where none is given)

Every coefficient at every vertex has to be the same, and each table self-dual. It shares no code with the crates.
"""
import subprocess
import sys

from independent import TYPES, elements


def job_of(matrix, word):
    lines = ["bmp-job 1", f"rank {len(matrix)}", *("row " + " ".join(map(str, row)) for row in matrix)]
    lines += ["prime 61", " ".join(map(str, ["word", len(word), *(k + 1 for k in word)])), "degree 0", "end"]
    return "\n".join(lines) + "\n"


def expected(order, tables, w):
    """The lines of the table of w: its vertices are the elements below it, numbered by length and then by matrix."""
    lines = []
    for x, element in enumerate(x for x in order if x in tables[w]):
        terms = sorted(tables[w][element].items())
        lines.append(" ".join([f"kl {x}", *(f"{exponent}:{value}" for exponent, value in terms)]))
    return "\n".join(lines + ["self-dual yes"]) + "\n"


def main(bmp, names):
    for name in names or ["A3", "B3", "D4", "G2"]:
        order, words, _, tables = elements(TYPES[name])
        coefficients = 0
        for w in order:
            text = job_of(TYPES[name], words[w]).encode("ascii")
            run = subprocess.run([bmp, "kl"], input=text, stdout=subprocess.PIPE, check=False)
            want = expected(order, tables, w)
            if (run.returncode, run.stdout.decode("ascii")) != (0, want):
                sys.exit(f"{name}, word {[k + 1 for k in words[w]]}: another table\n{run.stdout.decode('ascii')}{want}")
            coefficients += want.count(":")
        print(f"{name}: {len(order)} tables, {coefficients} coefficients, all the same")


main(sys.argv[1], sys.argv[2:])
