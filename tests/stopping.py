"""Code of tests/stops and tests/outputs: runs in which strace kills the program at a system call, or makes a call fail."""
import re
import shutil
import subprocess
import sys
from collections import Counter
from contextlib import contextmanager
from pathlib import Path
from tempfile import TemporaryDirectory

A, B = (f"00000000-0000-4000-8000-00000000000{it}" for it in "ab")
HEIGHT = 'VERTCRS["%s",VDATUM["D"],CS[vertical,1],AXIS["height (H)",up],LENGTHUNIT["metre",1],ID["X",%d]]'

# The calls at which a process begins and ends: there is nothing to stop.
EDGES = {"execve", "exit", "exit_group"}


class Tally:
    """How many tests passed, and how many failed. Prints each failed one."""

    def __init__(self):
        self.passed = self.failed = 0

    def count(self, ok, what):
        if ok:
            self.passed += 1
        else:
            self.failed += 1
            print(f"FAILED: {what}")

    def end(self):
        print(f"{self.passed} passed, {self.failed} failed")
        sys.exit(self.failed != 0)


def run(program, words, folder, inject=None, trace=None):
    """One run, perhaps under strace."""
    command = [program, *words.split()]
    if inject or trace:
        options = ["-o", trace or "/dev/null", "-e", "trace=all"]
        options += ["-e", f"inject={inject}"] if inject else []
        command = ["strace", *options, *command]
    return subprocess.run(command, cwd=folder, capture_output=True, timeout=60, check=False)


def done(program, words, folder):
    """One run that has to succeed."""
    result = run(program, words, folder)
    if result.returncode:
        sys.exit(f"{words}: {result.stderr.decode()}")
    return result.stdout


def can_trace(program, folder):
    """Whether strace can stop a program here; otherwise prints a line that begins with `skipped:`."""
    if shutil.which("strace") is None:
        print("skipped: stops at each system call: needs strace")
        return False
    if run(program, "--version", folder, trace="trace").returncode:
        print("skipped: stops at each system call: the system lets no program be traced")
        return False
    return True


def calls_of(program, folder, words):
    """How often the command makes each system call."""
    run(program, words, folder, trace="trace")
    names = re.findall(r"^(\w+)\(", (folder / "trace").read_text(), re.M)
    return Counter(name for name in names if name not in EDGES)


@contextmanager
def small_file_system(size):
    """A folder on a file system of so many bytes, or None if it cannot be mounted."""
    with TemporaryDirectory() as name:
        mounted = subprocess.run(["mount", "-t", "tmpfs", "-o", f"size={size}", "tmpfs", name], capture_output=True, check=False)
        if mounted.returncode:
            print("skipped: a full file system: the system lets none be mounted")
            yield None
            return
        try:
            yield Path(name)
        finally:
            subprocess.run(["umount", name], check=False)


def fill(folder):
    """Fills the file system."""
    with open(folder / "filler", "wb", buffering=0) as filler:
        try:
            while filler.write(bytes(4096)):
                pass
        except OSError:
            pass
