"""Certificates of every type within the limits: how large each is, and what `bmp build` and `bmp check` cost.

    by_type.py BMP PLAIN [DEGREE]

For each irreducible type of rank at most 6 the longest word that keeps the limits is taken: the whole of the longest
element's word, or where its interval has more than 4,096 vertices, or more than a bench can wait for, as many letters
of it as the table below says. The prime is the least at which a type keeps the GKM condition on the plain lattice. What
is built is checked by both programs, which must print one table. Prints a line of a table for each type.
"""
import os
import subprocess
import sys
import tempfile
import time
from pathlib import Path

sys.path.insert(0, str(Path(__file__).resolve().parents[2] / "python"))
import bmp as jobs  # noqa: E402

# type, and how many letters of the longest word are taken where not all are
TYPES = [
    ("A1", None), ("A2", None), ("A3", None), ("A4", None), ("A5", None), ("A6", 14),
    ("B2", None), ("B3", None), ("B4", None), ("B5", 16), ("B6", 14),
    ("C3", None), ("C4", None), ("C5", 16), ("C6", 14),
    ("D4", None), ("D5", None), ("D6", 16), ("E6", 16), ("F4", None), ("G2", None),
]
PRIMES = [p for p in range(2, 62) if all(p % q for q in range(2, p))]


def job_of(name, letters, degree, bmp):
    """The job of a type's word, at the least prime at which its graph keeps the GKM condition."""
    cartan = jobs.cartan_matrix(name[0], int(name[1:]))
    word = jobs.longest_word(cartan)[:letters]
    for prime in PRIMES:
        text = jobs.job_text(cartan, prime, word, degree)
        done = subprocess.run([bmp, "gkm"], input=text.encode("ascii"), stdout=subprocess.DEVNULL, check=False)
        if done.returncode == 0:
            return prime, len(word), text
    raise RuntimeError(f"{name}: no prime")


def timed(program, command, path, out):
    """Seconds and megabytes of one run, whose output goes to a file."""
    start = time.monotonic()
    with open(path, "rb") as source, open(out, "wb") as sink:
        task = subprocess.Popen([program, command], stdin=source, stdout=sink)
        _, status, usage = os.wait4(task.pid, 0)
    if status:
        raise RuntimeError(f"{program} {command} {path}: status {status}")
    return time.monotonic() - start, usage.ru_maxrss / 1024


def main(words):
    bmp, plain = words[:2]
    degree = int(words[2]) if len(words) > 2 else 2
    print("| type | letters | p | D | certificate | build | check |")
    print("|---|---|---|---|---|---|---|")
    with tempfile.TemporaryDirectory() as room:
        job, cert, ranks, other = (f"{room}/{it}" for it in ("job", "cert", "ranks", "other"))
        for name, letters in TYPES:
            prime, count, text = job_of(name, letters, degree, bmp)
            Path(job).write_text(text, encoding="ascii")
            built, build_memory = timed(bmp, "build", job, cert)
            checked, check_memory = timed(bmp, "check", cert, ranks)
            timed(plain, "check", cert, other)
            if Path(ranks).read_bytes() != Path(other).read_bytes():
                raise RuntimeError(f"{name}: two tables")
            size = Path(cert).stat().st_size / 1e6
            print(
                f"| {name} | {count} | {prime} | {degree} | {size:.2f} MB "
                f"| {built:.2f} s, {build_memory:.0f} MB | {checked:.2f} s, {check_memory:.0f} MB |",
                flush=True,
            )


if __name__ == "__main__":
    main(sys.argv[1:])
