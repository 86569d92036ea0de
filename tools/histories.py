#!/usr/bin/env python3
"""Runs a program that plays histories on a folder of them, and compares what it prints with what is expected.

usage: python3 tools/histories.py PROGRAM FOLDER

For each NAME.calls in the folder the program gets, as its standard input, the bytes of NAME.calls, one empty line, and the bytes of NAME.papers.
What it prints must be NAME.out, byte for byte.
It prints for each name that differs the first line that does, the slowest history with its time, and how many passed; the exit status is 1 where one differs.
"""

import itertools
import pathlib
import subprocess
import sys
import time


def first_difference(printed, expected):
    lines = itertools.zip_longest(printed.split(b"\n"), expected.split(b"\n"))
    for number, (got, due) in enumerate(lines, 1):
        if got != due:
            return f"line {number} is {got}, and should be {due}"
    return "nothing differs"


def main():
    program, folder = sys.argv[1], pathlib.Path(sys.argv[2])
    passed, failed, slowest = 0, [], (0.0, "")
    for calls in sorted(folder.glob("*.calls")):
        given = calls.read_bytes() + b"\n" + calls.with_suffix(".papers").read_bytes()
        begun = time.monotonic()
        printed = subprocess.run([program], input=given, capture_output=True, timeout=120, check=False).stdout
        slowest = max(slowest, (time.monotonic() - begun, calls.stem))
        expected = calls.with_suffix(".out").read_bytes()
        if printed == expected:
            passed += 1
        else:
            failed.append((calls.stem, first_difference(printed, expected)))
    for name, difference in failed:
        print(f"differs: {name}: {difference}")
    print(f"slowest: {slowest[1]}, {slowest[0] * 1000:.0f} ms")
    print(f"{passed} passed, {len(failed)} failed")
    return 1 if failed or not passed else 0


if __name__ == "__main__":
    sys.exit(main())
