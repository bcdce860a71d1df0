#!/usr/bin/env python3
"""Finds the program that a script tests: its argument, or by default the one that ./crsreg runs.

Shell scripts run this file: `tests/program.py [PROGRAM]` prints the program's path. If there is none, it prints the reason to
standard error, and the status is not 0.
"""
import os
import subprocess
import sys
from pathlib import Path

ROOT = Path(__file__).resolve().parent.parent


def program_of(named=None):
    """The path of the named program, or of the one that ./crsreg runs. If there is none, the script ends."""
    if named:
        path = os.path.realpath(named)
        if not (os.path.isfile(path) and os.access(path, os.X_OK)):
            sys.exit(f"{sys.argv[0]}: {named} is not a program")
        return path
    asked = subprocess.run([ROOT / "crsreg", "--which"], stdout=subprocess.PIPE, text=True, check=False)
    if asked.returncode:
        sys.exit(f"{sys.argv[0]}: there is no program to test: name one, or build it")
    return asked.stdout.removesuffix("\n")


if __name__ == "__main__":
    print(program_of(*sys.argv[1:2]))
