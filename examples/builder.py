"""A builder of certificates of every version, to read beside the documents.

    python3 examples/builder.py < JOB > CERTIFICATE              version 1; version 3 for a job with a lattice
    python3 examples/builder.py levels < JOB > CERTIFICATE       version 2; version 3 for a job with a lattice
    python3 examples/builder.py VERTEX DEGREE < JOB

It reads a job text and writes a certificate that `bmp check` accepts; with a vertex and a degree it lists what the
places in that block stand for: stalk coordinates, boundary coordinates, positions and equations.

It was written from docs/CONVENTIONS.md and docs/FORMATS.md, for someone who writes a builder in another language: each
part says in which section its rule stands. It is plain and slow (seconds for an interval of 70 vertices), tests no rule
of jobs, and is trusted by nobody: what its certificates are worth is what `bmp check` says of them.
"""

import functools
import itertools
import sys


# ---- the job (docs/FORMATS.md, "Job lines")


class Job:
    def __init__(self, text):
        lines = [line.split(" ") for line in text.splitlines()]
        assert lines[0] in (["bmp-job", "1"], ["bmp-job", "2"]) and lines[-1] == ["end"], "not a job text"
        self.is_plain = lines[0][1] == "1"
        self.text = "\n".join(text.splitlines()[1:-1])
        self.by_weights = not self.is_plain and lines.pop(1) == ["lattice", "1"]
        numbers = [[int(word) for word in line[1:]] for line in lines]
        self.rank = numbers[1][0]
        self.cartan = numbers[2 : 2 + self.rank]
        self.prime = numbers[2 + self.rank][0]
        self.word = numbers[3 + self.rank][1:]
        self.degree = numbers[4 + self.rank][0]


# ---- roots and elements (docs/CONVENTIONS.md, "Matrices, roots and coroots" and "Words, elements and sides")


def root_pairs(cartan):
    """The root pairs in the order of the list: the simple ones, then what simple reflections make that is new."""
    rank = len(cartan)
    unit = [tuple(int(i == k) for i in range(rank)) for k in range(rank)]
    pairs = [(unit[k], unit[k]) for k in range(rank)]
    for root, coroot in pairs:  # the list grows while it is gone through
        for k in range(rank):
            value_of_root = sum(cartan[k][j] * root[j] for j in range(rank))
            value_of_coroot = sum(cartan[j][k] * coroot[j] for j in range(rank))
            image = (
                tuple(b - value_of_root * (i == k) for i, b in enumerate(root)),
                tuple(c - value_of_coroot * (i == k) for i, c in enumerate(coroot)),
            )
            if image not in pairs:
                pairs.append(image)
    return pairs


def reflection(cartan, root, coroot):
    """The matrix of the reflection of a root pair: column j is the image of the simple root j, which is that root
    less the root times the value of the coroot on it."""
    rank = len(cartan)
    value = [sum(coroot[i] * cartan[i][j] for i in range(rank)) for j in range(rank)]
    return tuple(tuple(int(i == j) - value[j] * root[i] for j in range(rank)) for i in range(rank))


def product(a, b):
    rank = range(len(a))
    return tuple(tuple(sum(a[i][k] * b[k][j] for k in rank) for j in rank) for i in rank)


def length(element, positive):
    """The number of positive roots that the element makes negative."""
    rank = range(len(element))
    images = ([sum(row[j] * root[j] for j in rank) for row in element] for root, _ in positive)
    return sum(min(image) < 0 for image in images)


# ---- the moment graph (docs/CONVENTIONS.md, "Vertices and edges")


def weights(cartan, root):
    """A root's coordinates by the fundamental weights: the values of the simple coroots on it."""
    return [sum(a * b for a, b in zip(row, root)) for row in cartan]


class Graph:
    """vertices: matrices; edges: (lower, upper, label); up[x]: the numbers of the edges going up from x;
    above[x]: the vertices above x, rising."""

    def __init__(self, job):
        pairs = root_pairs(job.cartan)
        positive = [(root, coroot) for root, coroot in pairs if min(root) >= 0]
        elements = {tuple(tuple(int(i == j) for j in range(job.rank)) for i in range(job.rank))}  # the identity
        for letter in job.word:
            simple = reflection(job.cartan, *pairs[letter - 1])
            elements |= {product(e, simple) for e in elements}
        order = sorted((length(e, positive), e) for e in elements)
        self.vertices = [e for _, e in order]
        self.lengths = [n for n, _ in order]
        number = {e: x for x, e in enumerate(self.vertices)}
        self.edges = []
        for x, element in enumerate(self.vertices):
            for root, coroot in positive:
                y = number.get(product(reflection(job.cartan, root, coroot), element))
                if y is not None and self.lengths[x] < self.lengths[y]:
                    form = weights(job.cartan, root) if job.by_weights else root
                    self.edges.append((x, y, tuple(b % job.prime for b in form)))
        self.edges.sort(key=lambda edge: edge[:2])
        count = len(self.vertices)
        self.up = [[e for e, edge in enumerate(self.edges) if edge[0] == x] for x in range(count)]
        reached = [set() for _ in range(count)]
        for x in reversed(range(count)):
            for e in self.up[x]:
                y = self.edges[e][1]
                reached[x] |= {y} | reached[y]
        self.above = [sorted(ys) for ys in reached]


# ---- polynomials (docs/CONVENTIONS.md, "Degrees, monomials and coordinates")


@functools.lru_cache(maxsize=None)
def monomials(rank, degree):
    """Exponents of the given sum, compared from the first on, the larger first."""
    if rank == 1:
        return [(degree,)]
    return [(e,) + rest for e in range(degree, -1, -1) for rest in monomials(rank - 1, degree - e)]


@functools.lru_cache(maxsize=None)
def normal_form(label, prime, monomial):
    """The normal form of a monomial modulo a label, as pairs (monomial, coefficient)."""
    lead = next(i for i, c in enumerate(label) if c)
    if monomial[lead] == 0:
        return [(monomial, 1)]
    inverse = pow(label[lead], -1, prime)
    total = {}
    for j, c in enumerate(label):
        if j != lead and c:
            changed = tuple(e - (i == lead) + (i == j) for i, e in enumerate(monomial))
            for m, v in normal_form(label, prime, changed):
                total[m] = (total.get(m, 0) - inverse * c * v) % prime
    return [(m, v) for m, v in total.items() if v]


# ---- vectors are dictionaries from places to numbers that aren't 0


def add_multiple(into, factor, vector, prime):
    for place, value in vector.items():
        total = (into.get(place, 0) + factor * value) % prime
        if total:
            into[place] = total
        else:
            into.pop(place, None)


class Echelon:
    """Rows in reduced echelon form, each with the combination of the handed-in rows that it is."""

    def __init__(self, prime):
        self.prime = prime
        self.rows = {}  # from pivots to (row, combination)

    def reduce(self, row, combination):
        """The row and its combination, less multiples of rows so that it is 0 at all pivots."""
        row, combination = dict(row), dict(combination)
        for pivot in [place for place in row if place in self.rows]:
            factor = -row[pivot]
            add_multiple(row, factor, self.rows[pivot][0], self.prime)
            add_multiple(combination, factor, self.rows[pivot][1], self.prime)
        return row, combination

    def insert(self, row, combination):
        """Takes a row in where it is no combination of those before, and gives None; else gives the combination of
        rows taken in and this one that is 0."""
        row, combination = self.reduce(row, combination)
        if not row:
            return combination
        pivot = min(row)
        inverse = pow(row[pivot], -1, self.prime)
        new = {}, {}
        add_multiple(new[0], inverse, row, self.prime)
        add_multiple(new[1], inverse, combination, self.prime)
        for other_row, other_combination in self.rows.values():
            factor = -other_row.get(pivot, 0)
            if factor:
                add_multiple(other_row, factor, new[0], self.prime)
                add_multiple(other_combination, factor, new[1], self.prime)
        self.rows[pivot] = new
        return None

    def form(self, number):
        """The linear form that is 1 on the row taken in under this number and 0 on all others taken in."""
        return {pivot: combination[number] for pivot, (_, combination) in self.rows.items() if number in combination}


# ---- the sheaf, from the greatest vertex down (docs/FORMATS.md, "How a builder goes")


class Builder:
    """degrees[x]: the generator degrees; lifts[e][g]: the lift of generator g of the lower end, an element of the
    upper stalk. An element is a vector whose places are pairs (generator, monomial). A tuple is a dictionary from
    vertices to elements; family[d] has the members of degree d, known[d] tells how many are over longer vertices."""

    def __init__(self, job, by_levels):
        self.job, self.graph, self.by_levels = job, Graph(job), by_levels
        top = len(self.graph.vertices) - 1
        self.degrees = {top: [0]}
        self.lifts = {}
        self.family = [[{top: {s: 1}} for s in self.stalk(top, d)] for d in range(job.degree + 1)]
        version = 3 if not job.is_plain else 2 if by_levels else 1
        self.lines = [f"bmp-cert {version}", job.text, f"vertices {top + 1}", f"vertex {top} 1 0"]
        for x in reversed(range(top)):
            if self.graph.lengths[x] < self.graph.lengths[x + 1]:
                self.known = [len(members) for members in self.family]
            self.build_vertex(x)
        self.lines.append("end")

    # coordinates

    def stalk(self, x, degree):
        """The stalk coordinates: generator after generator, for each the monomials of the degree that is left."""
        rank = self.job.rank
        degrees = self.degrees[x]
        return [(g, m) for g, e in enumerate(degrees) if e <= degree for m in monomials(rank, degree - e)]

    def edge_coordinates(self, e, degree):
        """As at the upper end, but only the monomials without the label's leading variable."""
        _, y, label = self.graph.edges[e]
        lead = next(i for i, c in enumerate(label) if c)
        return [(g, m) for g, m in self.stalk(y, degree) if m[lead] == 0]

    def on_edge(self, e, element):
        """An element of the upper stalk in normal form."""
        image = {}
        for (g, m), value in element.items():
            form = {(g, pure): v for pure, v in normal_form(self.graph.edges[e][2], self.job.prime, m)}
            add_multiple(image, value, form, self.job.prime)
        return image

    def lift_of(self, e, coordinate):
        """The lift of the element that is 1 at one stalk coordinate: the monomial times the generator's lift."""
        g, m = coordinate
        return {(h, tuple(map(sum, zip(m, n)))): v for (h, n), v in self.lifts[e][g].items()}

    # the two matrices of a block, row after row

    def equations(self, x, degree):
        """The edge equations over the vertices above x: the lift of the lower value less the upper value, for the edges
        with both ends above x by number, coordinate after coordinate. A row's places are positions."""
        above = self.graph.above[x]
        position = {c: i for i, c in enumerate((y, *s) for y in above for s in self.stalk(y, degree))}
        rows = []
        for e, (lower, upper, _) in enumerate(self.graph.edges):
            if lower not in above:
                continue
            at = {c: {} for c in self.edge_coordinates(e, degree)}
            for end, sign, image_of in ((lower, 1, self.lift_of), (upper, -1, lambda e, c: {c: 1})):
                for s in self.stalk(end, degree):
                    for c, value in self.on_edge(e, image_of(e, s)).items():
                        add_multiple(at[c], sign, {position[(end, *s)]: value}, self.job.prime)
            rows.extend(at.values())
        return list(position), rows

    def boundary(self, x, degree, image_of):
        """The boundary coordinates of what has the value image_of(e) at the upper end of each edge e going up."""
        vector, start = {}, 0
        for e in self.graph.up[x]:
            coordinates = self.edge_coordinates(e, degree)
            image = self.on_edge(e, image_of(e))
            vector.update({start + i: image[c] for i, c in enumerate(coordinates) if c in image})
            start += len(coordinates)
        return vector

    # the vertex

    def build_vertex(self, x):
        self.degrees[x] = []
        self.lifts.update({e: [] for e in self.graph.up[x]})
        blocks = [self.build_block(x, degree) for degree in range(self.job.degree + 1)]
        degrees = self.degrees[x]
        self.lines.append(" ".join(map(str, ["vertex", x, len(degrees), *degrees])))
        self.lines.append(f"edges {len(self.graph.up[x])}")
        for e in self.graph.up[x]:
            for g, lift in enumerate(self.lifts[e]):
                places = self.stalk(self.graph.edges[e][1], degrees[g])
                self.push_vector("lift", {places.index(c): value for c, value in lift.items()})
        for block in blocks:
            self.lines.append(block[0])
            for keyword, vectors in block[1]:
                for vector in vectors:
                    self.push_vector(keyword, vector)

    def build_block(self, x, degree):
        """Finds the generators of x of this degree, and the lines of the block."""
        if self.by_levels:
            return self.level_block(x, degree)
        positions, tuples, pivots, rows = self.sections(x, degree)
        values = []
        for t in tuples:
            value = {y: {} for y in self.graph.above[x]}
            for position, v in t.items():
                y, g, m = positions[position]
                value[y][(g, m)] = v
            values.append(value)
        covers, sources, duals, _, _ = self.covers(x, degree, values)
        head = f"block {degree} {len(pivots)} {len(tuples)}\n" + " ".join(map(str, ["pivots", *pivots]))
        return head, [("tuple", tuples), ("row", rows), ("cover", covers), ("source", sources), ("dual", duals)]

    def sections(self, x, degree):
        """The positions; a section for each free position, 1 there and 0 at the other free positions; the pivots, and
        for each the combination of equations that is 1 there and 0 at the other pivots."""
        positions, rows = self.equations(x, degree)
        solved = Echelon(self.job.prime)
        for i, row in enumerate(rows):
            solved.insert(row, {i: 1})
        pivots = sorted(solved.rows)
        tuples = []
        for free in range(len(positions)):
            if free not in solved.rows:
                rows_there = [(p, solved.rows[p][0]) for p in pivots if free in solved.rows[p][0]]
                tuples.append({free: 1, **{p: -row[free] % self.job.prime for p, row in rows_there}})
        return positions, tuples, pivots, [solved.rows[p][1] for p in pivots]

    def covers(self, x, degree, values):
        """Covers of the tuples with the given values, by as many new generators as they need, whose sources and dual
        forms come behind; then the combinations of stalk coordinates whose boundary is 0, by free coordinate, and the
        echelon form of the boundaries of the other coordinates."""
        kernel, spanned = {}, Echelon(self.job.prime)
        for i, s in enumerate(self.stalk(x, degree)):
            zero = spanned.insert(self.boundary(x, degree, lambda e: self.lift_of(e, s)), {i: 1})
            if zero is not None:
                kernel[i] = zero
        boundaries = [self.boundary(x, degree, lambda e: value.get(self.graph.edges[e][1], {})) for value in values]
        sources, new = [], []
        for j, value in enumerate(values):
            number = len(self.stalk(x, degree))
            if spanned.insert(boundaries[j], {number: 1}) is None:  # no element had this boundary: a generator
                self.degrees[x].append(degree)
                for e in self.graph.up[x]:
                    self.lifts[e].append(value.get(self.graph.edges[e][1], {}))
                sources.append({j: 1})
                new.append(number)
        covers = []
        for bound in boundaries:
            left, combination = spanned.reduce(bound, {})
            assert not left
            covers.append({place: -v % self.job.prime for place, v in combination.items()})
        return covers, sources, [spanned.form(number) for number in new], kernel, spanned

    def level_block(self, x, degree):
        """The block by levels; the members go on to x by their covers, and the kernel's vectors are new members."""
        members = self.family[degree][: self.known[degree]]
        covers, sources, duals, kernel, spanned = self.covers(x, degree, members)
        stalk = self.stalk(x, degree)
        pivots = [i for i in range(len(stalk)) if i not in kernel]
        basis = [kernel[i] for i in sorted(kernel)]
        for member, cover in zip(members, covers):
            member[x] = {stalk[place]: v for place, v in cover.items()}
        self.family[degree] += [{x: {stalk[place]: v for place, v in vector.items()}} for vector in basis]
        head = f"block {degree} {len(members)} {len(pivots)} {len(basis)}\n" + " ".join(map(str, ["pivots", *pivots]))
        evidence = [("cover", covers), ("source", sources), ("dual", duals), ("basis", basis)]
        return head, evidence + [("row", [spanned.form(i) for i in pivots])]

    def push_vector(self, keyword, vector):
        """A vector: how many entries, and then place and value of each, the places rising."""
        entries = itertools.chain.from_iterable(sorted(vector.items()))
        self.lines.append(" ".join(map(str, [keyword, len(vector), *entries])))


# ---- what the places of a block stand for


def monomial_text(monomial):
    powers = [f"a_{i}" + (f"^{e}" if e > 1 else "") for i, e in enumerate(monomial, 1) if e]
    return " ".join(powers) or "1"


def listing(builder, x, degree):
    """A line for each place: its number, and the vertex or edge, the generator and the monomial."""
    edges, above = builder.graph.edges, builder.graph.above[x]
    at_vertices = [(f"vertex {y}", c) for y in above for c in builder.stalk(y, degree)]
    named = [(e, f"edge {e} from {lower} up to {upper}") for e, (lower, upper, _) in enumerate(edges)]
    on_edges = [(name, c) for e, name in named if edges[e][0] in above for c in builder.edge_coordinates(e, degree)]
    going_up = [(name, c) for e, name in named if edges[e][0] == x for c in builder.edge_coordinates(e, degree)]
    kinds = [
        ("stalk coordinate", [(f"vertex {x}", c) for c in builder.stalk(x, degree)]),
        ("boundary coordinate", going_up),
        ("position", at_vertices),
        ("equation", on_edges),
    ]
    for kind, places in kinds:
        for number, (where, (generator, monomial)) in enumerate(places):
            yield f"{kind} {number}: {where}, generator {generator}, {monomial_text(monomial)}"


def main(words):
    job = Job(sys.stdin.read())
    builder = Builder(job, by_levels=words == ["levels"] or not job.is_plain)
    lines = listing(builder, *map(int, words)) if len(words) == 2 else builder.lines
    print("\n".join(lines))


if __name__ == "__main__":
    main(sys.argv[1:])
