"""The example builder, examples/builder.py, makes the stored certificates again, byte for byte."""

import subprocess
import sys
import unittest
from pathlib import Path

import bmp

EXAMPLES = Path(__file__).resolve().parent.parent / "examples"
BY_SPACES = [
    "point", "line", "square", "square-d1", "b2-1212-p3-d1", "b2-1212-p3-d2", "g2-121212-p5-d1", "b3-2132-p3-d1",
    "b3-23123-p5-d2", "b3-2321-p61-d1",
]  # fmt: skip
BY_LEVELS = [
    "line-levels", "square-d1-levels", "b2-1212-p3-d1-levels", "b2-1212-p3-d1-weight", "b3-2132-p3-d1-levels",
    "a3-2132-d1-levels", "a3-2132-d1-root", "a3-longest-p5-d2-weight", "b3-23123-p5-d2-levels", "line-weight",
]  # fmt: skip


class Builder(unittest.TestCase):
    def check_stored(self, names, words):
        for name in names:
            stored = (EXAMPLES / f"{name}.cert").read_text()
            job = bmp.job_of(stored)
            text = bmp.job_text(job["cartan"], job["prime"], job["word"], job["degree"], job["lattice"])
            command = [sys.executable, str(EXAMPLES / "builder.py"), *words]
            built = subprocess.run(command, input=text, capture_output=True, text=True, check=True).stdout
            self.assertTrue(built == stored, name)

    def test_by_spaces(self):
        self.check_stored(BY_SPACES, [])

    def test_by_levels(self):
        self.check_stored(BY_LEVELS, ["levels"])


if __name__ == "__main__":
    unittest.main()
