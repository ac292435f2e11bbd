#!/usr/bin/env python3
"""Runs examples/day.sh, and checks that it prints what is in examples/day.txt.

    checks/day.py [--program FILE]

The day runs with a free port, in a fresh folder. It has to end with status 0 within a minute, to print the lines of day.txt and
nothing else, to print nothing on standard error, and to leave the folder as it was. The program is `./desk`, which is proved and
built first if it isn't current, or with --program the built one in FILE.
"""

import argparse
import itertools
import os
import signal
import subprocess
import sys
import tempfile

from common import ROOT, add_program, ready
from http_client import free_port

DAY = ROOT / "examples" / "day.sh"
WANTED = ROOT / "examples" / "day.txt"
SECONDS = 60


def first_difference(written, wanted):
    for number, (line, other) in enumerate(itertools.zip_longest(written, wanted), 1):
        if line != other:
            return f"{WANTED.name}:{number}: the page has\n  {other}\nand the day has\n  {line}"
    return None


def main():
    words = argparse.ArgumentParser(description=__doc__.splitlines()[0])
    add_program(words)
    program = ready(words.parse_args().program)
    with tempfile.TemporaryDirectory() as folder:
        given = {**os.environ, "DESK": str(program), "PORT": str(free_port()), "TMPDIR": folder}
        pipes = {"stdin": subprocess.DEVNULL, "stdout": subprocess.PIPE, "stderr": subprocess.PIPE}
        day = subprocess.Popen([DAY], env=given, text=True, start_new_session=True, **pipes)
        try:
            written, told = day.communicate(timeout=SECONDS)
        except subprocess.TimeoutExpired:
            # the desk that it started too
            os.killpg(day.pid, signal.SIGKILL)
            sys.exit(f"{DAY.name} hasn't ended after {SECONDS} seconds")
        left = os.listdir(folder)
    difference = first_difference(written.splitlines(), WANTED.read_text().splitlines())
    if difference:
        sys.exit(f"{difference}\nstatus {day.returncode}, standard error:\n{told}")
    if day.returncode or told or left:
        sys.exit(f"{DAY.name} ended with status {day.returncode}, left {left}, and on standard error:\n{told}")
    print(f"{DAY.name}: {len(written.splitlines())} lines, all as in {WANTED.name}")


if __name__ == "__main__":
    main()
