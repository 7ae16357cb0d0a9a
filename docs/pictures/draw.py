#!/usr/bin/env python3
"""Draws the pictures of this folder that show data, from what the program prints.

Usage: docs/pictures/draw.py     (needs the built program, as python/bmp.py finds it)

The others, pipeline.svg, block.svg and block-levels.svg, are written by hand.
"""

import sys
from pathlib import Path

HERE = Path(__file__).resolve().parent
TOP = HERE.parent.parent
sys.path.insert(0, str(TOP / "python"))
import bmp  # noqa: E402

# The picture, the job, the certificate that gives counts (or none), and a word on what is marked.
PICTURES = [
    ("square", bmp.job_text(bmp.cartan_matrix("A", 2), 3, [1, 2], 0), None),
    ("b2", "b2-1212-p3-d2.job", None),
    ("a3-2132", "a3-2132-d1.job", "a3-2132-d1.cert"),
    ("d4", "d4-1342134-p2-d2.job", "d4-1342134-p2-d2.cert"),
]


def main():
    for name, job, certificate in PICTURES:
        text = job if "\n" in job else (TOP / "examples" / job).read_text()
        graph = bmp.graph(text)
        ranks = bmp.check((TOP / "examples" / certificate).read_text())["ranks"] if certificate else None
        # in type D4 the vertices with a count in degree 2, where no Kazhdan-Lusztig polynomial has a coefficient
        marked = [x for x, counts in enumerate(ranks) if counts[2]] if name == "d4" else []
        (HERE / f"{name}.svg").write_text(bmp.draw(graph, ranks, marked))


if __name__ == "__main__":
    main()
