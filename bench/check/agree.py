"""Compares two checkers on altered certificates.

    agree.py BMP PLAIN COUNT CERTIFICATE..

Each text is one of the certificates with an entry, a line or a count changed; both programs have to end with one status and one text.
"""
import random
import subprocess
import sys

KEYWORDS = ("lift", "tuple", "row", "cover", "source", "dual")


def changed_number(lines, pick):
    """One number of one line a little larger or smaller, or another one."""
    i = pick.randrange(len(lines))
    words = lines[i].split(" ")
    places = [k for k, word in enumerate(words) if word.lstrip("-").isdigit()]
    if places:
        k = pick.choice(places)
        n = int(words[k])
        words[k] = str(pick.choice([n + 1, n - 1, 0, 1, 2, n + 2, pick.randrange(300), 4294967295, 2**63]))
        lines[i] = " ".join(words)
    return lines


def changed_entry(lines, pick):
    """One value or place of a vector changed, or an entry left out or added."""
    rows = [i for i, line in enumerate(lines) if line.split(" ")[0] in KEYWORDS]
    if not rows:
        return changed_number(lines, pick)
    i = pick.choice(rows)
    words = lines[i].split(" ")
    entries = [words[k:k + 2] for k in range(2, len(words), 2)]
    what = pick.randrange(4)
    if what == 0 and entries:
        entries.pop(pick.randrange(len(entries)))
    elif what == 1:
        last = int(entries[-1][0]) if entries else -1
        entries.append([str(last + 1 + pick.randrange(3)), "1"])
    elif entries:
        entry = pick.choice(entries)
        k = pick.randrange(len(entry))
        entry[k] = str(max(int(entry[k]) + pick.choice([-1, 1]), 0))
    lines[i] = " ".join([words[0], str(len(entries))] + [word for entry in entries for word in entry])
    return lines


def changed_value(lines, pick):
    """One entry with another number of the field, or moved by one place where that is free, so that the text stays one."""
    prime = next((int(line.split(" ")[1]) for line in lines if line.startswith("prime ")), 2)
    rows = [i for i, line in enumerate(lines) if line.split(" ")[0] in KEYWORDS and len(line.split(" ")) > 3]
    if not rows:
        return changed_number(lines, pick)
    i = pick.choice(rows)
    words = lines[i].split(" ")
    k = pick.randrange(2, len(words) - 1, 2)
    if not all(word.isdigit() for word in words[1:]):
        return lines
    places = [int(words[j]) for j in range(2, len(words), 2)]
    moved = int(words[k]) + pick.choice([-1, 1])
    if prime > 2 and pick.randrange(2):
        words[k + 1] = str(int(words[k + 1]) % (prime - 1) + 1)
    elif moved >= 0 and moved not in places:
        words[k] = str(moved)
    else:
        words[1:2], words[k:k + 2] = [str(int(words[1]) - 1)], []
    lines[i] = " ".join(words)
    return lines


def changed_lines(lines, pick):
    """A line left out, doubled, or exchanged with the next, or a word more."""
    i = pick.randrange(len(lines))
    what = pick.randrange(5)
    if what == 0:
        lines.pop(i)
    elif what == 1:
        lines.insert(i, lines[i])
    elif what == 2 and i + 1 < len(lines):
        lines[i], lines[i + 1] = lines[i + 1], lines[i]
    elif what == 3:
        lines[i] += pick.choice([" ", " 1", " x", "\t"])
    else:
        lines = lines[:i]
    return lines


def altered(text, pick):
    lines = text.split("\n")[:-1]
    for _ in range(pick.choice([1, 1, 1, 2])):
        change = pick.choice([changed_value] * 5 + [changed_entry] * 2 + [changed_number, changed_lines])
        if lines:
            lines = change(lines, pick)
    end = pick.choice(["\n"] * 8 + ["", "\nx"])
    return "\n".join(lines) + end


def answer(program, text):
    run = subprocess.run(program, input=text.encode(), capture_output=True, timeout=600)
    return run.returncode, run.stdout.decode()


def main():
    bmp, plain, count = sys.argv[1], sys.argv[2], int(sys.argv[3])
    texts = [open(path).read() for path in sys.argv[4:]]
    pick = random.Random(2026)
    statuses = {}
    for _ in range(count):
        text = altered(pick.choice(texts), pick)
        first, second = answer([bmp, "check"], text), answer([plain, "check"], text)
        if first != second:
            print("they differ on", repr(text), first, second, sep="\n")
            sys.exit(1)
        statuses[first[0]] = statuses.get(first[0], 0) + 1
    print("the same answers on", count, "altered texts; by status:", dict(sorted(statuses.items())))


if __name__ == "__main__":
    main()
