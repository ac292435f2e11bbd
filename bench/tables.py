#!/usr/bin/env python3
"""Measures the desk on lists and on tables in memory: messages a second. files.py measures tables in a file.

    bench/tables.py [--sizes 2000,20000,200000] [--seed 1] [--built]

The streams are those of normal_operation.py. For each size it prints, of the lists and of tables in memory, the lines a second, how
the time grows from size to size, and the peak memory. All answers have to be those of the lists.

The stores are those of the test `stored_lines` of desk_cli, which `rt test` proves and builds first, or with --built the test that it
built last.
"""

import argparse
import os
import re
import subprocess
import sys
import tempfile
import time

from normal_operation import ROOT, normal_operation, peak_of

PROGRAM = ROOT / "crates" / "desk_cli" / "out" / "desk_cli_tests"
TEST = "tests::stored_lines::lines_over_the_named_store"
TIME = re.compile(rb"^lines: (\d+) microseconds", re.M)


def run(store, lines):
    """Its seconds, the kilobytes at its peak, and its answers."""
    with tempfile.TemporaryFile() as given, tempfile.TemporaryFile() as told:
        given.write("".join(line + "\n" for line in lines).encode())
        given.seek(0)
        program = subprocess.Popen([PROGRAM, TEST], env={**os.environ, "DESK_STORE": store}, stdin=given, stdout=told)
        peak = 0
        while program.poll() is None:
            peak = max(peak, peak_of(program))
            time.sleep(0.002)
        told.seek(0)
        octets = told.read()
    if program.returncode != 0:
        sys.exit(f"{store} ended with {program.returncode}\n{octets[-2000:].decode()}")
    return int(TIME.search(octets)[1]) / 1e6, peak, [line for line in octets.splitlines() if line.startswith(b"{")]


def main():
    words = argparse.ArgumentParser(description=__doc__, formatter_class=argparse.RawDescriptionHelpFormatter)
    words.add_argument("--sizes", default="2000,20000,200000")
    words.add_argument("--seed", type=int, default=1)
    words.add_argument("--built", action="store_true", help="take the test that rt test built last")
    given = words.parse_args()
    if not given.built:
        subprocess.run(["rt", "test"], cwd=ROOT / "crates" / "desk_cli", check=True)
    print(f"{'lines':>8} {'store':>8} {'seconds':>9} {'lines/s':>9} {'growth':>8} {'peak MiB':>9}")
    before = {}
    for size in [int(size) for size in given.sizes.split(",")]:
        lines = normal_operation(size, given.seed)
        answers = None
        for store in ["lists", "memory"]:
            took, peak, told = run(store, lines)
            if answers is not None and told != answers:
                sys.exit(f"{store} answers something else")
            answers = told
            growth = f"{(took / before[store][1]) / (size / before[store][0]):.2f}" if store in before else ""
            before[store] = size, took
            print(f"{size:>8} {store:>8} {took:>9.2f} {size / took:>9.0f} {growth:>8} {peak / 1024:>9.1f}", flush=True)


if __name__ == "__main__":
    main()
