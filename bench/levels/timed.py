"""Runs a program once on a file and prints the time that passed, the time that it computed and the most memory it had.

    timed.py NAME PROGRAM COMMAND FILE
"""
import resource
import subprocess
import sys
import time

name, program, command, path = sys.argv[1:]
start = time.monotonic()
with open(path, "rb") as text:
    subprocess.run([program, command], stdin=text, stdout=subprocess.DEVNULL, check=True)
passed = time.monotonic() - start
used = resource.getrusage(resource.RUSAGE_CHILDREN)
print(f"{name}: {passed * 1000:.0f} ms, computing {used.ru_utime * 1000:.0f} ms, {used.ru_maxrss / 1024:.0f} MB")
