"""The program of crates/benches, which measures what a crate's calls take, and what it prints."""
import os
import subprocess
import sys

CRATE = os.path.join(os.path.dirname(os.path.dirname(os.path.abspath(__file__))), "crates", "benches")


def built():
    """The program of this checkout."""
    ran = subprocess.run(["rt", "run"], cwd=CRATE, capture_output=True, text=True)
    if ran.returncode:
        sys.exit(ran.stdout + ran.stderr)
    return os.path.join(CRATE, "out", "benches")


def measured(program, *words):
    """Nanoseconds, by what they were taken of."""
    ran = subprocess.run([program, *map(str, words)], capture_output=True, text=True)
    lines = [line.split() for line in ran.stdout.splitlines()]
    if ran.returncode or any(len(line) != 2 for line in lines):
        sys.exit(f"{words}: {ran.stdout}{ran.stderr}")
    return {name: int(tenths) / 10 for name, tenths in lines}
