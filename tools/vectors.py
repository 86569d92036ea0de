#!/usr/bin/env python3
"""Runs a program on a folder of inputs, and compares what it prints with what is expected.

usage: python3 tools/vectors.py PROGRAM FOLDER

Each NAME.in in the folder is given to the program as its standard input, and what it prints must be NAME.out, byte for byte.
It prints the names that differ, the slowest input with its time, and how many passed; the exit status is 1 where one differs.
"""

import pathlib
import subprocess
import sys
import time


def main():
    program, folder = sys.argv[1], pathlib.Path(sys.argv[2])
    passed, failed, slowest = 0, [], (0.0, "")
    for given in sorted(folder.glob("*.in")):
        begun = time.monotonic()
        with given.open("rb") as text:
            printed = subprocess.run([program], stdin=text, capture_output=True, timeout=120, check=False).stdout
        slowest = max(slowest, (time.monotonic() - begun, given.stem))
        if printed == given.with_suffix(".out").read_bytes():
            passed += 1
        else:
            failed.append(given.stem)
    for name in failed:
        print("differs:", name)
    print(f"slowest: {slowest[1]}, {slowest[0] * 1000:.0f} ms")
    print(f"{passed} passed, {len(failed)} failed")
    return 1 if failed or not passed else 0


if __name__ == "__main__":
    sys.exit(main())
