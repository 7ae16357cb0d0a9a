#!/usr/bin/env python3
"""Kazhdan-Lusztig elements by another road: by products with the elements of the simple reflections, and no bar.

    independent.py            prints, for A3, B3, D4 and G2, the checksum over the tables of all elements that the tests hold
    independent.py TYPE WORD  prints the table of a word, a line for each vertex

C_w C_s = C_ws + the sum of m(z) C_z, over the z below w with zs < z, where m(z) is the coefficient of v in h_z of C_w."""
import sys

TYPES = {
    "A2": [[2, -1], [-1, 2]],
    "A3": [[2, -1, 0], [-1, 2, -1], [0, -1, 2]],
    "B3": [[2, -1, 0], [-1, 2, -2], [0, -1, 2]],
    "D4": [[2, -1, 0, 0], [-1, 2, -1, -1], [0, -1, 2, 0], [0, -1, 0, 2]],
    "B2": [[2, -1], [-2, 2]],
    "G2": [[2, -1], [-3, 2]],
    "A4": [[2, -1, 0, 0], [-1, 2, -1, 0], [0, -1, 2, -1], [0, 0, -1, 2]],
}


def columns_times(matrix, x, k):
    """The matrix x with the simple reflection k behind it: column j loses matrix[k][j] times column k."""
    n = len(matrix)
    return tuple(tuple(x[i][j] - matrix[k][j] * x[i][k] for j in range(n)) for i in range(n))


def positive_roots(matrix):
    n = len(matrix)
    roots = [tuple(int(i == j) for j in range(n)) for i in range(n)]
    for root in roots:
        for k in range(n):
            value = sum(matrix[k][j] * root[j] for j in range(n))
            image = tuple(root[j] - (value if j == k else 0) for j in range(n))
            if min(image) >= 0 and image not in roots:
                roots.append(image)
    return roots


def length(x, roots):
    n = len(x)
    return sum(any(sum(x[i][j] * root[j] for j in range(n)) < 0 for i in range(n)) for root in roots)


def group(matrix):
    """All elements, sorted by length and then by matrix, with a reduced word of each."""
    n = len(matrix)
    one = tuple(tuple(int(i == j) for j in range(n)) for i in range(n))
    words = {one: []}
    queue = [one]
    for x in queue:
        for k in range(n):
            y = columns_times(matrix, x, k)
            if y not in words:
                words[y] = words[x] + [k]
                queue.append(y)
    roots = positive_roots(matrix)
    lengths = {x: length(x, roots) for x in words}
    return sorted(words, key=lambda x: (lengths[x], x)), words, lengths


def add(poly, other, factor=1, shift=0):
    for exponent, value in other.items():
        total = poly.get(exponent + shift, 0) + factor * value
        if total:
            poly[exponent + shift] = total
        else:
            poly.pop(exponent + shift, None)


def elements(matrix):
    """For each element w its combination: x to the polynomial h_x, exponent to coefficient."""
    order, words, lengths = group(matrix)
    one = order[0]
    tables = {one: {one: {0: 1}}}
    for w in order[1:]:
        s = words[w][-1]
        shorter = columns_times(matrix, w, s)
        before = tables[shorter]
        table = {}
        for x, h in before.items():
            y = columns_times(matrix, x, s)
            add(table.setdefault(y, {}), h)
            add(table.setdefault(x, {}), h, 1, 1 if lengths[y] > lengths[x] else -1)
        for z, h in before.items():
            m = h.get(1, 0)
            if m and lengths[columns_times(matrix, z, s)] < lengths[z]:
                for x, g in tables[z].items():
                    add(table.setdefault(x, {}), g, -m)
        tables[w] = {x: h for x, h in table.items() if h}
    return order, words, lengths, tables


def checksum(name):
    order, words, lengths, tables = elements(TYPES[name])
    total = 0
    for y, w in enumerate(order):
        vertices = [x for x in order if x in tables[w]]
        for x, element in enumerate(vertices):
            for exponent, value in tables[w][element].items():
                total += (y + 1) * (x + 1) * (exponent + 1) ** 2 * value
    return len(order), total


if __name__ == "__main__":
    if len(sys.argv) == 1:
        for name in ("A3", "B3", "D4", "G2"):
            print(name, *checksum(name))
    else:
        matrix = TYPES[sys.argv[1]]
        order, words, lengths, tables = elements(matrix)
        w = order[0]
        for letter in sys.argv[2].split():
            w = columns_times(matrix, w, int(letter) - 1)
        vertices = [x for x in order if x in tables[w]]
        for x, element in enumerate(vertices):
            h = tables[w][element]
            print(x, lengths[element], " ".join(f"{e}:{h[e]}" for e in sorted(h)))
