"""Random jobs: what `bmp build` makes of them has to be accepted by `bmp check` and by a plain checker, with one table.

    random_jobs.py job TYPE PRIME DEGREE         prints the job of a type's longest element
    random_jobs.py agree BMP PLAIN COUNT [SEED]  builds COUNT accepted jobs

Jobs are of every irreducible type of rank at most 4, the three lattices and degrees up to 3; words are reduced and
random, with at most 14 letters. What the job rules refuse has to be refused by both programs with one line.
"""
import random
import subprocess
import sys
from pathlib import Path

sys.path.insert(0, str(Path(__file__).resolve().parents[2] / "python"))
import bmp as jobs  # noqa: E402

TYPES = ["A1", "A2", "A3", "A4", "B2", "B3", "B4", "C3", "C4", "D4", "F4", "G2"]
PRIMES = [p for p in range(2, 62) if all(p % q for q in range(2, p))]


def cartan_of(name):
    return jobs.cartan_matrix(name[0], int(name[1]))


def random_word(pick, cartan, most):
    """A reduced word of a random length, made letter by letter."""
    word = []
    for _ in range(pick.randrange(most + 1)):
        letters = [s for s in range(1, len(cartan) + 1) if jobs.is_reduced(cartan, word + [s])]
        if not letters:
            break
        word.append(pick.choice(letters))
    return word


def random_job(pick):
    name = pick.choice(TYPES)
    cartan = cartan_of(name)
    prime = pick.choice(PRIMES if pick.randrange(2) else PRIMES[:4])
    degree = pick.randrange(4)
    word = random_word(pick, cartan, 14 if degree < 3 else 10)
    return name, jobs.job_text(cartan, prime, word, degree, pick.choice([None, None, "root", "weight"]))


def answer(program, command, text):
    done = subprocess.run([program, command], input=text, stdout=subprocess.PIPE, check=False)
    return done.returncode, done.stdout


def agree(bmp, plain, count, seed):
    """The number of refused jobs that were met while `count` were built and accepted."""
    pick = random.Random(seed)
    built = refused = 0
    while built < count:
        name, text = random_job(pick)
        text = text.encode("ascii")
        status, cert = answer(bmp, "build", text)
        if status != 0:
            if (status, cert) != answer(plain, "build", text):
                sys.exit(f"refused in two ways: {name}\n{text.decode()}")
            refused += 1
            continue
        table = answer(plain, "ranks", text)
        for program in (bmp, plain):
            if answer(program, "check", cert) != table or table[0] != 0:
                sys.exit(f"not accepted, or another table, by {program}: {name}\n{text.decode()}")
        built += 1
    return refused


def main(words):
    if words[0] == "job":
        name, prime, degree = words[1], int(words[2]), int(words[3])
        cartan = cartan_of(name)
        print(jobs.job_text(cartan, prime, jobs.longest_word(cartan), degree), end="")
        return
    bmp, plain, count = words[1], words[2], int(words[3])
    seed = int(words[4]) if len(words) > 4 else 1
    refused = agree(bmp, plain, count, seed)
    print(f"{count} certificates of random jobs were accepted by both; {refused} jobs were refused by both in one way")


main(sys.argv[1:])
