"""Compares the check of altered certificates by 1, 2, 7 and 32 workers.

    workers.py BMP COUNT CERTIFICATE..

Each text is one of the certificates with an entry, a line or a count changed, as in agree.py; all four checks have to end with
one status and one text.
"""
import random
import sys

from agree import altered, answer

WORKERS = ("1", "2", "7", "32")


def main():
    program, count, paths = sys.argv[1], int(sys.argv[2]), sys.argv[3:]
    texts = [open(path, encoding="ascii").read() for path in paths]
    pick = random.Random(19)
    seen = {}
    for number in range(count):
        text = altered(pick.choice(texts), pick)
        answers = [answer([program, "check", "--workers", n], text) for n in WORKERS]
        if any(one != answers[0] for one in answers):
            print(text)
            sys.exit(f"text {number}: {answers}")
        seen[answers[0][0]] = seen.get(answers[0][0], 0) + 1
    print(f"{count} texts, one answer by {', '.join(WORKERS)} workers; by status: {dict(sorted(seen.items()))}")


if __name__ == "__main__":
    main()
