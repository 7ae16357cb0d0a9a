"""Tests of the module: python3 -m unittest, in this folder. Those that run the program skip where it isn't built."""

import io
import json
import re
import tempfile
import unittest
import xml.etree.ElementTree as tree
from pathlib import Path

import bmp

EXAMPLES = Path(__file__).resolve().parent.parent / "examples"

# The number of positive roots of each type, and so the length of the longest element.
LENGTHS = {
    "A1": 1, "A2": 3, "A3": 6, "A4": 10, "A6": 21, "B2": 4, "B3": 9, "B4": 16, "B5": 25, "C3": 9, "C4": 16,
    "D4": 12, "D5": 20, "D6": 30, "E6": 36, "E7": 63, "F4": 24, "G2": 6,
}  # fmt: skip

# Rows as docs/CONVENTIONS.md, the examples and Sage have them.
ROWS = {
    "B2": [[2, -1], [-2, 2]],
    "C2": [[2, -2], [-1, 2]],
    "G2": [[2, -3], [-1, 2]],
    "B3": [[2, -1, 0], [-1, 2, -1], [0, -2, 2]],
    "C3": [[2, -1, 0], [-1, 2, -2], [0, -1, 2]],
    "D4": [[2, -1, 0, 0], [-1, 2, -1, -1], [0, -1, 2, 0], [0, -1, 0, 2]],
    "F4": [[2, -1, 0, 0], [-1, 2, -1, 0], [0, -2, 2, -1], [0, 0, -1, 2]],
}

FAULTS = [
    (
        "refused vertex 0 degree 1 kind Dual index 1 place 2 left 0 right 1\n",
        {"vertex": 0, "degree": 1, "kind": "Dual", "index": 1, "place": 2, "left": 0, "right": 1},
    ),
    ("text line 4 kind NotAscii\n", {"at_line": 4, "kind": "NotAscii"}),
    ("gkm vertex 0 edges 0 3\n", {"vertex": 0, "edges": [0, 3]}),
    ("job finite pairs 18 19\n", {}),
    ("usage\n", {}),
]


def type_of(name):
    return name[0], int(name[1:])


def square_graph():
    """The moment graph of type A2, word 1 2, p = 3, by hand."""
    matrices = [[[1, 0], [0, 1]], [[-1, 1], [0, 1]], [[1, 0], [1, -1]], [[0, -1], [1, -1]]]
    edges = [(0, 1, [1, 0]), (0, 2, [0, 1]), (1, 3, [1, 1]), (2, 3, [1, 0])]
    return {
        "vertices": [{"length": n, "matrix": m} for n, m in zip([0, 1, 1, 2], matrices)],
        "edges": [{"lower": x, "upper": y, "label": label} for x, y, label in edges],
    }


class Groups(unittest.TestCase):
    def test_rows(self):
        for name, rows in ROWS.items():
            self.assertEqual(bmp.cartan_matrix(*type_of(name)), rows, name)

    def test_unknown_types(self):
        for letter, rank in [("A", 0), ("B", 1), ("D", 3), ("E", 5), ("E", 9), ("F", 3), ("G", 3), ("H", 3)]:
            with self.assertRaises(ValueError, msg=f"{letter}{rank}"):
                bmp.cartan_matrix(letter, rank)

    def test_longest(self):
        for name, length in LENGTHS.items():
            cartan = bmp.cartan_matrix(*type_of(name))
            word = bmp.longest_word(cartan)
            self.assertEqual(len(word), length, name)
            self.assertTrue(bmp.is_reduced(cartan, word), name)
            self.assertEqual(len(bmp.right_descents(bmp.element(cartan, word))), len(cartan), name)

    def test_elements(self):
        for name, count in [("A1", 2), ("A3", 24), ("B3", 48), ("G2", 12), ("D4", 192)]:
            cartan = bmp.cartan_matrix(*type_of(name))
            words = list(bmp.elements(cartan))
            self.assertEqual(len({str(bmp.element(cartan, word)) for word in words}), count, name)
            self.assertEqual((len(words), len(words[-1])), (count, LENGTHS[name]), name)
            self.assertTrue(all(bmp.is_reduced(cartan, word) for word in words), name)

    def test_words(self):
        cartan = bmp.cartan_matrix("B", 2)
        self.assertEqual(bmp.element(cartan, [1, 2]), [[1, -1], [2, -1]])
        self.assertFalse(bmp.is_reduced(cartan, [1, 2, 1, 2, 1]))
        for word in ([], [1], [2, 1], [1, 2, 1], [2, 1, 2, 1]):
            matrix = bmp.element(cartan, word)
            self.assertEqual(bmp.element(cartan, bmp.reduced_word(cartan, matrix)), matrix, str(word))
        # a braid relation of the double bond, and what is not one
        self.assertEqual(bmp.element(cartan, [1, 2, 1, 2]), bmp.element(cartan, [2, 1, 2, 1]))
        self.assertNotEqual(bmp.element(cartan, [1, 2, 1]), bmp.element(cartan, [2, 1, 2]))


class Texts(unittest.TestCase):
    def test_job(self):
        text = bmp.job_text(bmp.cartan_matrix("A", 1), 2, [1], 0)
        self.assertEqual(text, (EXAMPLES / "line.job").read_text())
        job = {"cartan": [[2]], "prime": 2, "word": [1], "degree": 0, "lattice": None}
        self.assertEqual(bmp.job_of(text), job)
        text = bmp.job_text(bmp.cartan_matrix("A", 1), 2, [1], 0, "weight")
        self.assertEqual(text, (EXAMPLES / "a1-weight-p2.job").read_text())
        self.assertEqual(bmp.job_of(text), {**job, "lattice": "weight"})
        text = (EXAMPLES / "square.cert").read_text()
        job = {"cartan": [[2, -1], [-1, 2]], "prime": 3, "word": [1, 2], "degree": 0, "lattice": None}
        self.assertEqual(bmp.job_of(text), job)

    def test_faults(self):
        for text, fields in FAULTS:
            self.assertEqual(bmp.read_fault(text), {"line": text[:-1], **fields}, text)

    def test_answers(self):
        self.assertEqual(bmp.read_ranks("rank 0 1 1\nrank 1 1 0\n"), {"ranks": [[1, 1], [1, 0]]})
        text = "vertices 2\nvertex 0 0 1\nvertex 1 1 -1\nedges 1\nedge 0 1 1\n"
        vertices = [{"length": 0, "matrix": [[1]]}, {"length": 1, "matrix": [[-1]]}]
        edges = [{"lower": 0, "upper": 1, "label": [1]}]
        self.assertEqual(bmp.read_graph(text), {"vertices": vertices, "edges": edges})

    def test_tables(self):
        answer = bmp.read_kl("kl 0 1:1\nkl 1 0:1\nself-dual yes\n")
        self.assertEqual(answer, {"table": [{1: 1}, {0: 1}], "self_dual": True})
        answer = bmp.read_kl("kl 0 0:2\nself-dual no vertex 0 exponent 1 left 0 right 1\n")
        self.assertEqual(answer, {"table": [{0: 2}], "self_dual": False})
        answer = bmp.read_compare("self-dual yes\ndiffer 0 2 1 0\ndiffer 3 0 1 -2\nagree 2 of 4\n")
        fields = ["vertex", "degree", "count", "coefficient"]
        differing = [dict(zip(fields, numbers)) for numbers in ([0, 2, 1, 0], [3, 0, 1, -2])]
        self.assertEqual(answer, {"self_dual": True, "differing": differing, "agree": 2})
        graph = {"vertices": [{"length": 0}, {"length": 1}, {"length": 3}]}
        polynomials = bmp.polynomials([{1: 1, 3: 1}, {2: 1}, {0: 1}], graph)
        self.assertEqual(polynomials, [[1, 1], [1], [1]])
        self.assertEqual(bmp.differing([[1, 1, 0], [1, 1, 0], [1, 0, 0]], polynomials), [1])
        self.assertEqual(bmp.differing([[1], [1], [1]], polynomials), [])


class Pictures(unittest.TestCase):
    def test_square(self):
        picture = bmp.draw(square_graph(), ranks=[[1], [1], [1], [1]], marked=[2])
        root = tree.fromstring(picture)
        name = "{http://www.w3.org/2000/svg}"
        self.assertEqual(len(root.findall(name + "path")), 4)
        texts = [text.text for text in root.findall(name + "text")]
        self.assertEqual(sorted(t for t in texts if ":" in t), ["0: a1", "1: a2", "2: a1+a2", "3: a1"])
        self.assertEqual(picture.count("#ffe3b3"), 1)
        # the greatest vertex stands at the top
        heights = {t.text: float(t.get("y")) for t in root.findall(name + "text")}
        self.assertLess(heights["3"], heights["0"])


class Runs(unittest.TestCase):
    def setUp(self):
        try:
            bmp.find_program()
        except bmp.NoProgram as missing:
            self.skipTest(str(missing))

    def test_check(self):
        answer = bmp.check((EXAMPLES / "a3-2132-d1.cert").read_text())
        self.assertEqual((answer["status"], len(answer["ranks"]), answer["ranks"][0]), (0, 14, [1, 1]))
        answer = bmp.check((EXAMPLES / "square-wrong-section.cert").read_text())
        self.assertEqual((answer["status"], answer["kind"], answer["place"]), (1, "Section", 2))

    def test_graph(self):
        cartan = bmp.cartan_matrix("B", 2)
        answer = bmp.graph(bmp.job_text(cartan, 3, bmp.longest_word(cartan), 0))
        words = ["".join(map(str, vertex["word"])) for vertex in answer["vertices"]]
        self.assertEqual(words, ["", "1", "2", "21", "12", "121", "212", "2121"])
        ups = [(edge["upper"], edge["label"]) for edge in answer["edges"] if edge["lower"] == 0]
        self.assertEqual(ups, [(1, [1, 0]), (2, [0, 1]), (5, [1, 1]), (6, [1, 2])])
        tree.fromstring(bmp.draw(answer))

    def test_kl(self):
        # of D4's word of seven letters the polynomial at vertex 0 is 1 + 2q
        answer = bmp.kl((EXAMPLES / "d4-1342134-p2-d2.job").read_text())
        self.assertEqual((answer["status"], answer["self_dual"], answer["table"][0]), (0, True, {5: 2, 7: 1}))
        ranks = bmp.check((EXAMPLES / "d4-1342134-p2-d2.cert").read_text())["ranks"]
        polynomials = bmp.polynomials(answer["table"], bmp.graph((EXAMPLES / "d4-1342134-p2-d2.job").read_text()))
        self.assertEqual(bmp.differing(ranks, polynomials), [x for x, counts in enumerate(ranks) if counts[2]])
        self.assertEqual(bmp.kl((EXAMPLES / "infinite.job").read_text())["line"], "job finite pairs 18 19")

    def test_gkm(self):
        cartan = bmp.cartan_matrix("B", 2)
        answer = bmp.gkm(bmp.job_text(cartan, 3, [1, 2, 1, 2], 0))
        self.assertEqual((answer["status"], answer["vertices"], answer["edges"]), (0, 8, 16))
        answer = bmp.gkm(bmp.job_text(cartan, 2, [1, 2, 1, 2], 0))
        self.assertEqual((answer["status"], answer["vertex"], answer["edges"]), (4, 0, [0, 3]))
        self.assertEqual(bmp.gkm(bmp.job_text([[2, -2], [-2, 2]], 2, [1], 0))["line"], "job finite pairs 18 19")

    def test_build(self):
        job = (EXAMPLES / "a3-2132-d1.job").read_text()
        built = bmp.build(job)
        self.assertEqual(built["status"], 0)
        checked = bmp.check((EXAMPLES / "a3-2132-d1.cert").read_text())["ranks"]
        self.assertEqual(bmp.check(built["text"])["ranks"], checked)
        self.assertEqual(bmp.ranks(job)["ranks"], checked)

    def test_compare(self):
        # the eight vertices with torsion at 2, where the third count is 1 and P is 1 + 2q
        answer = bmp.compare((EXAMPLES / "d4-1342134-p2-d2.job").read_text())
        ranks = bmp.read_ranks((EXAMPLES / "d4-1342134-p2-d2.ranks").read_text())["ranks"]
        differing = [
            {"vertex": x, "degree": 2, "count": 1, "coefficient": 0} for x, counts in enumerate(ranks) if counts[2]
        ]
        self.assertEqual((answer["status"], answer["self_dual"], answer["agree"]), (0, True, 64))
        self.assertEqual(answer["differing"], differing)
        self.assertEqual(bmp.compare((EXAMPLES / "b2-modulo-2.job").read_text())["edges"], [0, 3])

    def test_listing(self):
        lines = bmp.listing((EXAMPLES / "d4-1342134-p2-d2.job").read_text())
        self.assertEqual((len(lines), lines[0].split()), (73, ["vertex", "word", "ranks", "P"]))
        self.assertEqual(lines[1].split(), ["0", "e", "1", "2", "1", "1", "2", "*"])
        self.assertEqual(lines[5].split(), ["4", "2", "1", "0", "0", "1"])
        self.assertEqual(sum(line.endswith("*") for line in lines), 8)
        self.assertEqual(bmp.listing((EXAMPLES / "infinite.job").read_text()), ["job finite pairs 18 19"])

    def test_tabulate(self):
        with tempfile.TemporaryDirectory() as folder:
            path = Path(folder) / "a2"
            bmp.tabulate("A", 2, 2, 1, path, progress=io.StringIO())
            lines = path.read_text().splitlines(keepends=True)
            self.assertEqual([len(json.loads(line)["ranks"]) for line in lines], [1, 2, 2, 4, 4, 6])
            self.assertFalse(any(json.loads(line)["differing"] for line in lines))
            # cut off in the fifth line, and gone on with
            path.write_text("".join(lines[:4]) + lines[4][:7])
            bmp.tabulate("A", 2, 2, 1, path, progress=io.StringIO())
            self.assertEqual(path.read_text().splitlines(keepends=True), lines)


if __name__ == "__main__":
    unittest.main()
