"""Jobs, runs and pictures of the program `bmp`, for Python and Sage.

Nothing here is proved, and no proof trusts it. A mistake in a Cartan matrix or a word gives another job, which the
program judges as it stands; what `check` says with status 0 is said of the job in the certificate, so look at that.

    cartan_matrix, longest_word, reduced_word, is_reduced    groups by type, Bourbaki's numbering
    job_text, job_of                                         job texts
    check, build, ranks, compare, graph, gkm, kl             the program run on a text; plain dictionaries
    read_ranks, read_compare, read_graph, read_kl, read_fault    what it prints, as plain dictionaries
    polynomials, differing                                   a table's polynomials, and where ranks differ from them
    listing                                                  the ranks of a job by reduced words, beside the polynomials
    elements, tabulate                                       all elements of a type, and their ranks in a file
    draw                                                     a moment graph as SVG

Letters, simple roots and variables count from 1, vertices and edges from 0, as in the program's texts.
"""

import json
import os
import shutil
import subprocess
import sys
from pathlib import Path

__all__ = [
    "cartan_matrix", "longest_word", "reduced_word", "is_reduced", "element", "elements", "right_descents",
    "job_text", "job_of", "check", "build", "ranks", "compare", "graph", "gkm", "kl", "run", "find_program",
    "read_ranks", "read_compare", "read_graph", "read_kl", "read_fault", "polynomials", "differing", "listing",
    "tabulate", "draw",
]  # fmt: skip


# ---- Cartan matrices


def cartan_matrix(letter, rank):
    """The rows of a Cartan matrix by type and rank, simple roots numbered as in Bourbaki.

    Entry j of row i is the value of the simple coroot i on the simple root j, as the program (and Sage) has it.
    Bourbaki's tables print the transpose. So B2 is [[2, -1], [-2, 2]]: its root 1 is long.

    letter  "A" (rank 1 up), "B", "C" (2 up), "D" (4 up), "E" (6 to 8), "F" (4), "G" (2)
    """
    known = {"A": rank >= 1, "B": rank >= 2, "C": rank >= 2, "D": rank >= 4, "E": 6 <= rank <= 8}
    if not known.get(letter, (letter, rank) in [("F", 4), ("G", 2)]):
        raise ValueError(f"no type {letter}{rank}")
    rows = [[2 if i == j else 0 for j in range(rank)] for i in range(rank)]

    def join(i, j, of_j=-1, of_i=-1):
        """Coroot i takes the value of_j on root j, coroot j the value of_i on root i."""
        rows[i - 1][j - 1], rows[j - 1][i - 1] = of_j, of_i

    if letter == "E":
        chain = [1, 3, 4, 5, 6, 7, 8][: rank - 1]
        join(2, 4)
    else:
        chain = list(range(1, rank + 1 if letter != "D" else rank))
    for i, j in zip(chain, chain[1:]):
        join(i, j)
    if letter == "B":
        join(rank - 1, rank, -1, -2)
    elif letter == "C":
        join(rank - 1, rank, -2, -1)
    elif letter == "D":
        join(rank - 2, rank)
    elif letter == "F":
        join(2, 3, -1, -2)
    elif letter == "G":
        join(1, 2, -3, -1)
    return rows


# ---- elements and words


def _times_simple(cartan, matrix, letter):
    """The product with a simple reflection on the right."""
    k = letter - 1
    return [[entry - row[k] * cartan[k][j] for j, entry in enumerate(row)] for row in matrix]


def element(cartan, word):
    """The product of a word from left to right, as the matrix whose column j is the image of the simple root j."""
    matrix = [[int(i == j) for j in range(len(cartan))] for i in range(len(cartan))]
    for letter in word:
        matrix = _times_simple(cartan, matrix, letter)
    return matrix


def right_descents(matrix):
    """The letters whose product on the right is shorter: those with a negative entry in their column."""
    return [k + 1 for k in range(len(matrix)) if any(row[k] < 0 for row in matrix)]


def reduced_word(cartan, matrix):
    """A reduced word of an element: its last letter is the least right descent, and so on from the right."""
    word = []
    while descents := right_descents(matrix):
        word.append(descents[0])
        matrix = _times_simple(cartan, matrix, descents[0])
    return word[::-1]


def is_reduced(cartan, word):
    return len(reduced_word(cartan, element(cartan, word))) == len(word)


def longest_word(cartan):
    """A reduced word of the longest element: letter by letter the least one that makes the product longer."""
    word, matrix, letters = [], element(cartan, []), range(1, len(cartan) + 1)
    while longer := sorted(set(letters) - set(right_descents(matrix))):
        word.append(longer[0])
        matrix = _times_simple(cartan, matrix, longer[0])
    return word


def elements(cartan):
    """A reduced word of each element of the group, shorter ones first. The group has to be finite."""
    level, letters = {_key(element(cartan, [])): []}, range(1, len(cartan) + 1)
    while level:
        yield from level.values()
        longer = {}
        for key, word in level.items():
            matrix = [list(row) for row in key]
            for letter in sorted(set(letters) - set(right_descents(matrix))):
                longer.setdefault(_key(_times_simple(cartan, matrix, letter)), [*word, letter])
        level = longer


def _key(matrix):
    return tuple(map(tuple, matrix))


# ---- job texts


LATTICES = ["root", "weight"]


def job_text(cartan, prime, word, degree, lattice=None):
    """A job text. The lattice is None (plain), "root" or "weight". Nothing is tested: the program does that."""
    lines = [["bmp-job", 1]] if lattice is None else [["bmp-job", 2], ["lattice", LATTICES.index(lattice)]]
    lines += [["rank", len(cartan)], *(["row", *row] for row in cartan)]
    lines += [["prime", prime], ["word", len(word), *word], ["degree", degree], ["end"]]
    return "".join(" ".join(map(str, line)) + "\n" for line in lines)


def job_of(text):
    """The job in a job text or a certificate text: a dictionary with cartan, prime, word, degree, lattice."""
    lines = text.split("\n", 32)
    lattice = LATTICES[int(lines.pop(1).split(" ")[1])] if lines[1].startswith("lattice ") else None
    rank = int(lines[1].split(" ")[1])
    rows = [[int(n) for n in line.split(" ")[1:]] for line in lines[2 : 5 + rank]]
    job = {"cartan": rows[:rank], "prime": rows[rank][0], "word": rows[rank + 1][1:], "degree": rows[rank + 2][0]}
    return {**job, "lattice": lattice}


# ---- the program


class NoProgram(Exception):
    """The built program is nowhere to be found."""


def find_program():
    """The built program: $BMP, else crates/bmp/out/bmp of this repository, else `bmp` on the path."""
    built = Path(__file__).resolve().parent.parent / "crates" / "bmp" / "out" / "bmp"
    for path in (os.environ.get("BMP"), built, shutil.which("bmp")):
        if path and Path(path).is_file():
            return str(path)
    raise NoProgram("no built program: run `rt run` in crates/bmp, or set BMP to its path")


STATUS_NAMES = {
    0: "done", 1: "refused", 2: "bad text", 3: "bad job", 4: "GKM failed", 5: "read fault",
    6: "write fault", 7: "no memory", 8: "too long", 9: "table limit", 64: "usage",
}  # fmt: skip


def run(command, text, program=None):
    """Runs `bmp COMMAND` on a text. A dictionary with status, its name, and the text that was written."""
    words = [program or find_program(), command]
    done = subprocess.run(words, input=text.encode("ascii"), stdout=subprocess.PIPE, check=False)
    name = STATUS_NAMES.get(done.returncode, "unknown")
    return {"status": done.returncode, "name": name, "text": done.stdout.decode("ascii")}


def _answer(result, read):
    """The result with what was read from its text: of the command's own text, or of a line that tells a fault."""
    return {**result, **(read(result["text"]) if result["status"] == 0 else read_fault(result["text"]))}


def check(text, program=None):
    """The check of a certificate text. With status 0 also `ranks`: for each vertex the counts of degree 0 to D."""
    return _answer(run("check", text, program), read_ranks)


def build(text, program=None):
    """A certificate of a job text, under `text` where the status is 0. Nothing is said of it until it is checked."""
    return _answer(run("build", text, program), lambda cert: {})


def ranks(text, program=None):
    """The counts of a job text, from a certificate that the program builds and checks; as `check` gives them."""
    return _answer(run("ranks", text, program), read_ranks)


def compare(text, program=None):
    """The counts of a job text beside its Kazhdan-Lusztig table. With status 0 also `self_dual`, `differing`, for
    each count that isn't the coefficient its `vertex`, `degree`, `count` and `coefficient`, and `agree`, at how many
    vertices none differs."""
    return _answer(run("compare", text, program), read_compare)


def kl(text, program=None):
    """The Kazhdan-Lusztig table of a job text. With status 0 also `table`, for each vertex x the coefficients of h_x
    by exponent, and `self_dual`."""
    return _answer(run("kl", text, program), read_kl)


def graph(text, program=None):
    """The moment graph of a job text. With status 0 also `vertices` (length, matrix, word) and `edges` (lower,
    upper, label)."""
    result = _answer(run("graph", text, program), read_graph)
    cartan = job_of(text)["cartan"] if result["status"] == 0 else None
    for vertex in result.get("vertices", []):
        vertex["word"] = reduced_word(cartan, vertex["matrix"])
    return result


def gkm(text, program=None):
    """Whether a job has the GKM condition. With status 0 also the numbers of `vertices` and `edges`; with status 4
    the `vertex` and the two `edges` with parallel labels."""

    def read(line):
        words = line.split()
        return {"vertices": int(words[3]), "edges": int(words[5])}

    return _answer(run("gkm", text, program), read)


# ---- what the program prints


def _numbers(line):
    return [int(word) for word in line.split(" ") if word.lstrip("-").isdigit()]


def read_ranks(text):
    """The lines `rank x n_0 .. n_D`."""
    return {"ranks": [_numbers(line)[1:] for line in text.splitlines()]}


def read_kl(text):
    """The text of `kl`: for each vertex a dictionary from exponents to coefficients, and whether it is self-dual."""
    *lines, last = text.splitlines()
    pairs = [[word.split(":") for word in line.split(" ")[2:]] for line in lines]
    return {
        "table": [{int(exponent): int(number) for exponent, number in words} for words in pairs],
        "self_dual": last == "self-dual yes",
    }


def read_compare(text):
    """The text of `compare`: of self-duality, lines `differ x d` with count and coefficient, then `agree A of n`."""
    dual, *lines, last = text.splitlines()
    names = ["vertex", "degree", "count", "coefficient"]
    return {
        "self_dual": dual == "self-dual yes",
        "differing": [dict(zip(names, _numbers(line))) for line in lines],
        "agree": _numbers(last)[0],
    }


def read_graph(text):
    """The text of `graph`."""
    vertices, edges = [], []
    for line in text.splitlines():
        numbers = _numbers(line)
        if line.startswith("vertex "):
            entries = numbers[2:]
            rank = round(len(entries) ** 0.5)
            matrix = [entries[i : i + rank] for i in range(0, len(entries), rank)]
            vertices.append({"length": numbers[1], "matrix": matrix})
        elif line.startswith("edge "):
            edges.append({"lower": numbers[0], "upper": numbers[1], "label": numbers[2:]})
    return {"vertices": vertices, "edges": edges}


def read_fault(text):
    """The line of a fault: its fields by name where it has names, and the bare line."""
    words = text.split()
    fault = {"line": text.rstrip("\n")}
    if words[:1] == ["refused"] or words[:2] == ["text", "line"]:
        start = 1
    elif words[:2] == ["gkm", "vertex"]:
        return fault | {"vertex": int(words[2]), "edges": [int(words[4]), int(words[5])]}
    else:
        return fault
    for name, word in zip(words[start::2], words[start + 1 :: 2]):
        fault["at_line" if name == "line" else name] = int(word) if word.isdigit() else word
    return fault


# ---- comparing


def polynomials(table, graph):
    """For each vertex x the coefficients of P_{x,w} from degree 0 on, of a table as `kl` gives it, with the graph."""
    lengths = [vertex["length"] for vertex in graph["vertices"]]
    answer = []
    for length, terms in zip(lengths, table):
        gap = lengths[-1] - length
        numbers = [terms.get(gap - 2 * d, 0) for d in range(gap // 2 + 1)]
        while numbers[-1:] == [0]:
            numbers.pop()
        answer.append(numbers)
    return answer


def differing(ranks, polynomials):
    """The vertices at which some count isn't the coefficient in its degree. It says nothing of degrees above the
    counts."""

    def coefficients(numbers, counts):
        return [numbers[d] if d < len(numbers) else 0 for d in range(len(counts))]

    pairs = zip(ranks, polynomials)
    return [x for x, (counts, numbers) in enumerate(pairs) if counts != coefficients(numbers, counts)]


def listing(job, program=None):
    """The ranks of a job text beside its Kazhdan-Lusztig polynomials, a line for each vertex: its number, its reduced
    word, the counts, the coefficients of P_{x,w} from degree 0 on, and a star where they differ in a degree up to D.
    Where the job is refused it is the line that says so."""
    answers = [call(job, program) for call in (ranks, kl, graph)]
    for answer in answers:
        if answer["status"] != 0:
            return [answer["line"]]
    counts, of = answers[0]["ranks"], polynomials(answers[1]["table"], answers[2])
    words = ["".join(map(str, vertex["word"])) or "e" for vertex in answers[2]["vertices"]]
    different = set(differing(counts, of))
    columns = [[str(x), word, *(" ".join(map(str, n)) for n in (counts[x], of[x]))] for x, word in enumerate(words)]
    wide = [max(map(len, column)) for column in zip(["vertex", "word", "ranks", "P"], *columns)]
    lines = [["vertex", "word", "ranks", "P", ""]] + [[*row, "*" * (x in different)] for x, row in enumerate(columns)]
    return ["  ".join(cell.ljust(width) for cell, width in zip(line, [*wide, 0])).rstrip() for line in lines]


# ---- tables of all elements


def tabulate(letter, rank, prime, degree, path, lattice=None, program=None, progress=None):
    """Appends one line of JSON to a file for each element w of a type that isn't there yet: its `word`, the status
    and, where that is 0, the `ranks` of its job and the vertices `differing` from its Kazhdan-Lusztig polynomials.

    A run that was cut off goes on where it ended; a last line without an end is taken away. Words are those of
    `elements`. Progress goes to standard error, or to the stream that is given.
    """
    cartan, path = cartan_matrix(letter, rank), Path(path)
    text = path.read_text("ascii") if path.exists() else ""
    whole = text[: text.rfind("\n") + 1]
    if whole != text:
        path.write_text(whole, "ascii")
    there = {tuple(json.loads(line)["word"]) for line in whole.splitlines()}
    words = [word for word in elements(cartan) if tuple(word) not in there]
    with path.open("a", encoding="ascii") as file:
        for i, word in enumerate(words):
            job = job_text(cartan, prime, word, degree, lattice)
            print(f"{i + 1} of {len(words)}: {' '.join(map(str, word))}", file=progress or sys.stderr)
            print(json.dumps({"word": word, **_compared(job, program)}), file=file, flush=True)


def _compared(job, program):
    answer = ranks(job, program)
    if answer["status"] != 0:
        return {"status": answer["status"], "line": answer["line"]}
    of = polynomials(kl(job, program)["table"], graph(job, program))
    return {"status": 0, "ranks": answer["ranks"], "differing": differing(answer["ranks"], of)}


# ---- pictures

COLOURS = ["#0b6e99", "#b3541e", "#3b7a3a", "#8a3ffc", "#b01e5f", "#6b6b00", "#00726b", "#7a4b2a", "#44519e"]


def _linear_form(label):
    """A label as a form, such as a1+2a2."""
    parts = [(f"{c}" if c > 1 else "") + f"a{i}" for i, c in enumerate(label, 1) if c]
    return "+".join(parts)


def _box(x, y, text, size):
    """The rectangle that a centred text takes: left, top, right, bottom."""
    half = 0.31 * size * len(text) + 2
    return (x - half, y - 0.62 * size, x + half, y + 0.62 * size)


def _overlap(a, b):
    return max(0, min(a[2], b[2]) - max(a[0], b[0])) * max(0, min(a[3], b[3]) - max(a[1], b[1]))


def _crosses(p, q, box):
    """Whether the line from p up to q meets a rectangle between whose heights it runs."""
    left, top, right, bottom = box
    low, high = min(bottom, p[1]), max(top, q[1])
    if low <= high:
        return False
    ends = [p[0] + (q[0] - p[0]) * (y - p[1]) / (q[1] - p[1]) for y in (low, high)]
    return max(ends) > left - 3 and min(ends) < right + 3


def _places(graph, wide, high, half):
    """The centres of the vertices: one row a length, the greatest at the top, each row centred; where there are few
    edges rows are moved or spread a little so that edges don't run behind vertices."""
    vertices, edges = graph["vertices"], graph["edges"]
    rows = {}
    for x, vertex in enumerate(vertices):
        rows.setdefault(vertex["length"], []).append(x)
    top = max(rows)

    def row_places(height, shift, spread):
        row = rows[height]
        middle = (len(row) - 1) / 2
        y = high * (top - height + 0.5)
        return {x: (wide * (spread * (i - middle) + shift), y) for i, x in enumerate(row)}

    def hidden(places):
        """How many pairs there are of an edge and a vertex that it runs behind."""
        lines = [(places[edge["lower"]], places[edge["upper"]], edge["lower"], edge["upper"]) for edge in edges]
        boxes = [(z, (x - half[0], y - half[1], x + half[0], y + half[1])) for z, (x, y) in places.items()]
        return sum(_crosses(p, q, box) for p, q, x, y in lines for z, box in boxes if z not in (x, y))

    places = {}
    for height in rows:
        places.update(row_places(height, 0, 1))
    choices = [(shift, spread) for spread in (1, 1.2) for shift in (0, 0.1, -0.1, 0.2, -0.2, 0.3, -0.3)]
    for height in 2 * sorted(rows) if len(edges) <= 40 else []:
        tried = [row_places(height, *choice) for choice in choices]
        places.update(min(tried, key=lambda row: hidden({**places, **row})))
    margin = half[0] + 40
    left, right = (end(x for x, _ in places.values()) for end in (min, max))
    places = {z: (x - left + margin, y) for z, (x, y) in places.items()}
    return places, right - left + 2 * margin, high * (top + 1)


def _edge_texts(edges, places, boxes, size):
    """Where the text of each edge stands: on its line, at the place that meets the fewest others."""
    taken = list(boxes)
    for number, edge in enumerate(edges):
        (x0, y0), (x1, y1) = places[edge["lower"]], places[edge["upper"]]
        text = f"{number}: {_linear_form(edge['label'])}"
        spots = []
        for step in range(15, 86, 5):
            t = step / 100
            box = _box(x0 + t * (x1 - x0), y0 + t * (y1 - y0), text, size)
            spots.append((sum(_overlap(box, other) for other in taken), abs(t - 0.4), box))
        box = min(spots)[2]
        taken.append(box)
        yield text, box


def draw(graph, ranks=None, marked=(), edge_texts=None):
    """The moment graph as SVG text: vertices by length, the greatest at the top, edges coloured by their labels.

    graph       a dictionary as `graph` or `read_graph` gives it
    ranks       generator counts, as `check` gives them under "ranks": a line more at each vertex
    marked      numbers of vertices to mark
    edge_texts  whether edges show number and label; where it isn't given, they do up to 40 edges
    """
    vertices, edges = graph["vertices"], graph["edges"]
    edge_texts = len(edges) <= 40 if edge_texts is None else edge_texts
    names = []
    for x, vertex in enumerate(vertices):
        word = "".join(map(str, vertex["word"])) or "e" if "word" in vertex else ""
        names.append([f"{x}: {word}" if word else f"{x}"] + ([" ".join(map(str, ranks[x]))] if ranks else []))
    longest = max(len(line) for lines in names for line in lines)
    wide = max(60, 7.5 * longest + 22) * (2.1 if edge_texts else 1)
    rows = 1 + max(vertex["length"] for vertex in vertices)
    half = (3.75 * longest + 6, 10 if ranks is None else 18)
    high = 120 if edge_texts else max(80, min(160, 900 / rows))
    places, width, height = _places(graph, wide, high, half)
    boxes = [(x - half[0], y - half[1], x + half[0], y + half[1]) for x, y in places.values()]
    labels = sorted({tuple(edge["label"]) for edge in edges})
    colour = {label: COLOURS[i % len(COLOURS)] for i, label in enumerate(labels)}

    out = [
        f'<svg xmlns="http://www.w3.org/2000/svg" viewBox="0 0 {width:.0f} {height:.0f}" width="{width:.0f}"'
        f' height="{height:.0f}" font-family="monospace" font-size="12" text-anchor="middle">',
        f'<rect width="{width:.0f}" height="{height:.0f}" fill="white"/>',
    ]
    for edge in edges:
        (x0, y0), (x1, y1) = places[edge["lower"]], places[edge["upper"]]
        stroke = colour[tuple(edge["label"])]
        out.append(f'<path d="M{x0:.1f} {y0:.1f}L{x1:.1f} {y1:.1f}" stroke="{stroke}" stroke-width="1.3"/>')
    if edge_texts:
        for edge, (text, box) in zip(edges, _edge_texts(edges, places, boxes, 11)):
            left, top, right, bottom = box
            size = f'width="{right - left:.1f}" height="{bottom - top:.1f}"'
            out.append(f'<rect x="{left:.1f}" y="{top:.1f}" {size} fill="white" fill-opacity="0.9"/>')
            fill = colour[tuple(edge["label"])]
            at = f'x="{(left + right) / 2:.1f}" y="{(top + bottom) / 2 + 4:.1f}"'
            out.append(f'<text {at} font-size="11" fill="{fill}">{text}</text>')
    for x, lines in enumerate(names):
        cx, cy = places[x]
        fill = "#ffe3b3" if x in marked else "#f4f4f4"
        size = f'width="{2 * half[0]:.1f}" height="{2 * half[1]:.1f}" rx="5"'
        out.append(f'<rect x="{cx - half[0]:.1f}" y="{cy - half[1]:.1f}" {size} fill="{fill}" stroke="#333"/>')
        for i, line in enumerate(lines):
            y = cy + 4 + 15 * (i - (len(lines) - 1) / 2)
            weight = ' font-weight="bold"' if i else ""
            out.append(f'<text x="{cx:.1f}" y="{y:.1f}"{weight}>{line}</text>')
    return "\n".join(out + ["</svg>\n"])


def main(words):
    """python3 -m bmp JOB [CERTIFICATE] > PICTURE       the moment graph of a job; with the ranks of a certificate of it
    python3 -m bmp list JOB                          the ranks of a job by reduced words, beside the polynomials
    python3 -m bmp table TYPE PRIME DEGREE FILE      the ranks of all elements of a type, such as A3, in a file

    In a picture with ranks, the vertices are marked at which they differ from the Kazhdan-Lusztig coefficients."""
    if words[:1] == ["table"] and len(words) == 5:
        tabulate(words[1][0], int(words[1][1:]), int(words[2]), int(words[3]), words[4])
        return 0
    if words[:1] == ["list"] and len(words) == 2:
        lines = listing(Path(words[1]).read_text("ascii"))
        print("\n".join(lines))
        return 0 if lines[0].startswith("vertex ") else 1
    if len(words) not in (1, 2) or words[0] in ("table", "list"):
        print(main.__doc__, file=sys.stderr)
        return 64
    job = Path(words[0]).read_text("ascii")
    answers = [graph(job)]
    answers += [answer for word in words[1:] for answer in (check(Path(word).read_text("ascii")), kl(job))]
    for answer in answers:
        if answer["status"] != 0:
            print(answer["line"], file=sys.stderr)
            return answer["status"]
    if len(answers) == 1:
        print(draw(answers[0]), end="")
        return 0
    of, counts, table = answers
    marked = differing(counts["ranks"], polynomials(table["table"], of))
    print(draw(of, counts["ranks"], marked), end="")
    return 0


if __name__ == "__main__":
    sys.exit(main(sys.argv[1:]))
