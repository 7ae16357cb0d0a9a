#!/usr/bin/env python3
"""Prints what the gate costs, crate by crate: processor seconds of the library, its tests and its must-fail edits.

Usage, at the top of the repository: scripts/gate_cost.py [--lanes N] [--each-edit] [NAME ..]

It works on a copy of the tracked files in a temporary folder, so that everything is proved from nothing, and it changes
nothing here. With names it measures those crates alone, after building what they stand on. Seconds are user time, which
other work on the machine changes little; the last lines are the sums, and the longest chain of crates by the seconds of
its libraries. With --each-edit it times the must-fail edits of the crates one by one instead, each over what the check of
the crate kept, as the gate tries them.
"""
import argparse
import os
import shutil
import subprocess
import tempfile
import time
from concurrent.futures import FIRST_COMPLETED, ThreadPoolExecutor, wait

KINDS = ["library", "tests", "edits"]


def crates_of(top):
    """The crates of crates.txt, lowest first: by name, the libraries of the repository below it."""
    below = {}
    with open(f"{top}/crates.txt", encoding="utf-8") as file:
        for line in file:
            head, colon, tail = line.partition("#")[0].partition(":")
            if colon:
                below[head.split()[0]] = tail.split()
    return {name: [it for it in uses if it in below] for name, uses in below.items()}


def copied(top, into):
    """Copies the tracked files of the repository and makes the copy a repository."""
    listed = subprocess.run(["git", "ls-files", "-z"], cwd=top, capture_output=True, check=True).stdout
    for path in filter(None, listed.decode().split("\0")):
        if os.path.isfile(f"{top}/{path}"):
            os.makedirs(os.path.dirname(f"{into}/{path}"), exist_ok=True)
            shutil.copy2(f"{top}/{path}", f"{into}/{path}")
    subprocess.run(["git", "init", "-q"], cwd=into, check=True)


def command_of(room, name, kind):
    """The command that does one task, and the folder where it runs."""
    if kind == "edits":
        return ["rt", "must-fail", name], room
    folder = f"{room}/crates/{name}"
    if kind == "tests":
        return ["rt", "check", "--jobs", "1", "--test"], folder
    is_program = os.path.isfile(f"{folder}/src/main.rt")
    return ["rt", "check" if is_program else "lib", "--jobs", "1"], folder


def measured(room, name, kind):
    """Runs one task and gives its user seconds; stops where it fails."""
    words, folder = command_of(room, name, kind)
    with tempfile.TemporaryFile() as log:
        task = subprocess.Popen(words, cwd=folder, stdin=subprocess.DEVNULL, stdout=log, stderr=subprocess.STDOUT)
        _, status, usage = os.wait4(task.pid, 0)
        if status:
            log.seek(0)
            raise RuntimeError(f"{name}, {kind}: failed\n" + log.read().decode(errors="replace")[-4000:])
    return usage.ru_utime


def edited(folder, path):
    """The texts of the crate's files with an edit applied, by path."""
    texts, file, old = {}, "", ""
    with open(path, encoding="utf-8") as lines:
        for line in lines.read().split("\n"):
            keyword, _, rest = line.partition(": ")
            if keyword == "file":
                file = f"{folder}/{rest.strip()}"
            elif keyword == "old":
                old = rest
            elif keyword == "new":
                if file not in texts:
                    with open(file, encoding="utf-8") as source:
                        texts[file] = source.read()
                texts[file] = texts[file].replace(old, rest)
    return texts


def time_edits(room, name):
    """Prints the user seconds of each must-fail edit of a crate that is built, and of the crate as it is."""
    folder = f"{room}/crates/{name}"
    edits = sorted(os.listdir(f"{folder}/must-fail")) if os.path.isdir(f"{folder}/must-fail") else []
    for edit in [None, *edits]:
        texts = edited(folder, f"{folder}/must-fail/{edit}") if edit else {}
        kept = {}
        for file in texts:
            with open(file, encoding="utf-8") as source:
                kept[file] = source.read()
        for file, text in texts.items():
            with open(file, "w", encoding="utf-8") as source:
                source.write(text)
        words = ["rt", "check", "--jobs", "1"]
        check = subprocess.Popen(words, cwd=folder, stdout=subprocess.DEVNULL, stderr=subprocess.STDOUT)
        _, status, usage = os.wait4(check.pid, 0)
        for file, text in kept.items():
            with open(file, "w", encoding="utf-8") as source:
                source.write(text)
        answer = "proved" if status == 0 else "refused"
        print(f"{name} {edit or 'as it is'}: {usage.ru_utime:.0f} s, {answer}", flush=True)


def has(room, name, kind):
    folder = f"{room}/crates/{name}"
    if kind == "library":
        return True
    if kind == "edits":
        return os.path.isdir(f"{folder}/must-fail")
    return subprocess.run(["grep", "-rqF", "#[test]", f"{folder}/src"]).returncode == 0


def run(room, below, names, lanes):
    """Measures all tasks, as many side by side as there are lanes, each after the libraries that it stands on."""
    waits = {}
    for name in names:
        for kind in KINDS:
            if has(room, name, kind):
                own = [] if kind == "library" else [(name, "library")]
                waits[name, kind] = own + [(it, "library") for it in below[name] if it in names]
    seconds, running = {}, {}
    with ThreadPoolExecutor(lanes) as pool:
        while len(seconds) < len(waits):
            for task in waits:
                is_ready = all(it in seconds for it in waits[task])
                if is_ready and task not in seconds and task not in running.values() and len(running) < lanes:
                    running[pool.submit(measured, room, *task)] = task
            for done in wait(running, return_when=FIRST_COMPLETED).done:
                seconds[running.pop(done)] = done.result()
    return seconds


def chain_of(below, seconds):
    """The chain of crates with the largest sum of library seconds, lowest crate first."""
    longest = {}
    for name in below:
        before = max((longest[it] for it in below[name] if it in longest), key=lambda it: it[0], default=(0, []))
        longest[name] = before[0] + seconds.get((name, "library"), 0), [*before[1], name]
    return max(longest.values(), key=lambda it: it[0])


def table_of(names, seconds):
    """The lines of the table: a row for each crate, and the sums."""
    def cell(name, kind):
        return f"{seconds[name, kind]:.0f}" if (name, kind) in seconds else "-"

    rows = [[f"`{name}`", *[cell(name, kind) for kind in KINDS]] for name in names]
    sums = [sum(it for (_, kind), it in seconds.items() if kind == k) for k in KINDS]
    rows = [["crate", *KINDS], ["---"] * (len(KINDS) + 1), *rows, ["all", *[f"{it:.0f}" for it in sums]]]
    return ["| " + " | ".join(row) + " |" for row in rows]


def main():
    words = argparse.ArgumentParser(description="Prints what the gate costs, crate by crate.")
    words.add_argument("--lanes", type=int, default=1, help="how many checks run side by side (1)")
    words.add_argument("--each-edit", action="store_true", help="time each must-fail edit instead")
    words.add_argument("names", nargs="*", help="measure these crates alone")
    asked = words.parse_args()
    shown = subprocess.run(["git", "rev-parse", "--show-toplevel"], capture_output=True, text=True, check=True)
    top = shown.stdout.strip()
    below = crates_of(top)
    names = asked.names or [*below]
    started = time.time()
    with tempfile.TemporaryDirectory(prefix="gate-cost-") as room:
        copied(top, room)
        for name in asked.names:
            for it in below[name]:
                measured(room, it, "library")
        if asked.each_edit:
            for name in names:
                measured(room, name, "library")
                time_edits(room, name)
            return
        seconds = run(room, below, names, asked.lanes)
    print("\n".join(table_of(names, seconds)))
    minutes = (time.time() - started) / 60
    total = sum(seconds.values()) / 60
    print(f"\n{total:.0f} minutes of processor, {minutes:.0f} minutes of time in {asked.lanes} lanes")
    length, chain = chain_of(below, seconds)
    print(f"longest chain, {length / 60:.1f} minutes:")
    print(", ".join(f"{it} {seconds.get((it, 'library'), 0):.0f}" for it in chain))


if __name__ == "__main__":
    main()
