"""Writes a random matrix modulo a prime and its kernel evidence, as bytes, for program.txt."""

import random
import sys

ROWS, COLS = 400, 800


def reduced(p, rows):
    """The reduced rows, each followed by its row of the trace, and the pivots."""
    remainders = bytes(n % p for n in range(256))
    width = COLS + ROWS

    def combined(x, c, y):
        total = int.from_bytes(x, "big") + c * int.from_bytes(y, "big")
        return total.to_bytes(width, "big").translate(remainders)

    zero = bytes(width)
    whole = [row + bytes(i == j for j in range(ROWS)) for i, row in enumerate(rows)]
    pivots = []
    for col in range(COLS):
        rank = len(pivots)
        found = next((i for i in range(rank, ROWS) if whole[i][col]), None)
        if found is None:
            continue
        whole[rank], whole[found] = whole[found], whole[rank]
        whole[rank] = combined(zero, pow(whole[rank][col], -1, p), whole[rank])
        for i in range(ROWS):
            if i != rank and whole[i][col]:
                whole[i] = combined(whole[i], p - whole[i][col], whole[rank])
        pivots.append(col)
    return whole, pivots


def main():
    p = int(sys.argv[1])
    chance = random.Random(1)
    rows = [bytes(chance.randrange(p) for _ in range(COLS)) for _ in range(ROWS)]
    whole, pivots = reduced(p, rows)
    out = bytearray([p])
    for row in rows:
        out += row
    for number in [len(pivots)] + pivots:
        out += number.to_bytes(2, "big")
    for free in sorted(set(range(COLS)) - set(pivots)):
        vector = bytearray(COLS)
        vector[free] = 1
        for k, pivot in enumerate(pivots):
            vector[pivot] = -whole[k][free] % p
        out += vector
    for k in range(len(pivots)):
        out += whole[k][COLS:]
    sys.stdout.buffer.write(out)


main()
