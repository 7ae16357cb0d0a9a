"""Writes a matrix modulo a prime as bytes: the prime, two bytes each for how many rows and columns, the greater first, and the numbers row
after row.

    python3 matrix.py PRIME ROWS COLUMNS [few | chain]
    python3 matrix.py PRIME edges TYPE DEGREE

The matrix is random; with the word `few` its rows have eight entries each, so that elimination fills them, and with the word `chain` each
row compares two places and stays short. With the word `edges` its rows are the edge equations at vertex 0 of a certificate of the whole
group of that type in that degree (docs/CONVENTIONS.md), where each vertex has one generator, of degree 0. On the standard error it says
how many rows, columns and entries there are, and of edge equations, how many sums of entries reduce them, over how many entries at most."""

import pathlib
import random
import sys

TOP = pathlib.Path(__file__).resolve().parents[2]


def filled(chance, p, rows, cols):
    return [[chance.randrange(p) for _ in range(cols)] for _ in range(rows)]


def few(chance, p, rows, cols):
    matrix = []
    for _ in range(rows):
        row = [0] * cols
        for place in chance.sample(range(cols), 8):
            row[place] = chance.randrange(1, p)
        matrix.append(row)
    return matrix


def chain(chance, p, rows, cols):
    matrix = []
    for i in range(rows):
        row = [0] * cols
        row[i % cols] = 1
        row[(i + 1 + chance.randrange(3)) % cols] = p - 1
        matrix.append(row)
    return matrix


def edges(p, name, degree):
    sys.path[:0] = [str(TOP / "examples"), str(TOP / "python")]
    import bmp
    import builder

    cartan = bmp.cartan_matrix(name[0], int(name[1:]))
    built = builder.Builder(builder.Job(bmp.job_text(cartan, p, bmp.longest_word(cartan), 0)), False)
    assert all(degrees == [0] for degrees in built.degrees.values())
    positions, rows = built.equations(0, degree)
    return [[row.get(place, 0) % p for place in range(len(positions))] for row in rows]


def reduced(p, matrix):
    """How many entries the rows have at most while they are reduced, how many in the end, and how many sums of entries that takes."""
    rows = [{place: number for place, number in enumerate(row) if number} for row in matrix]
    entries = most = sum(map(len, rows))
    rank = sums = 0
    for col in range(len(matrix[0])):
        found = next((i for i in range(rank, len(rows)) if col in rows[i]), None)
        if found is None:
            continue
        rows[rank], rows[found] = rows[found], rows[rank]
        inverse = pow(rows[rank][col], -1, p)
        pivot = rows[rank] = {place: number * inverse % p for place, number in rows[rank].items()}
        for row in rows:
            if row is not pivot and col in row:
                factor = p - row[col]
                entries -= len(row)
                for place, number in pivot.items():
                    row[place] = (row.get(place, 0) + factor * number) % p
                    if row[place] == 0:
                        del row[place]
                entries += len(row)
                sums += len(pivot)
        most = max(most, entries)
        rank += 1
    return most, entries, sums


def main():
    p, words = int(sys.argv[1]), sys.argv[2:]
    if words[0] == "edges":
        matrix = edges(p, words[1], int(words[2]))
    else:
        kind = {"few": few, "chain": chain}.get(" ".join(words[2:]), filled)
        matrix = kind(random.Random(1), p, int(words[0]), int(words[1]))
    rows, cols = len(matrix), len(matrix[0])
    entries = sum(number != 0 for row in matrix for number in row)
    said = f"{rows} rows, {cols} columns, {entries} entries"
    if words[0] == "edges":
        most, last, sums = reduced(p, matrix)
        said += f", reduced by {sums} sums over at most {most} to {last}"
    print(said, file=sys.stderr)
    numbers = bytes(number for row in matrix for number in row)
    sys.stdout.buffer.write(bytes([p]) + rows.to_bytes(2, "big") + cols.to_bytes(2, "big") + numbers)


main()
