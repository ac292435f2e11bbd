#!/usr/bin/env python3
"""Compares the desk with an ordinary Rust program, bench/native/, by answers and by processor time.

    bench/native.py [--program FILE] [--native FILE] [--folder FOLDER] [--sizes 20000] [--seeds 1,2,3] [--rounds 7]

In memory it compares `desk lines`, and with --folder `desk hear` on new files in FOLDER, where the Rust program keeps the same tables
by the real SQLite and makes a commit for each message too. /dev/shm is a folder in memory, where a sync costs nothing.

First both hear mixed operation (checks/mixed_operation.py), as many lines of each seed as the first size: every answer has to be the
same octets, and every row of the two files the same. Then both hear normal operation (normal_operation.py) of each size, in turn,
--rounds times: it prints the processor time that each took, user and system together and user alone, of the best round, and how many
times as long a line takes as at the size before. The clock doesn't count, since the machine may be busy.

The Rust program is built by cargo, from Debian's packages (bench/native/README.md), or is the one in FILE.
"""

import argparse
import os
import subprocess
import sys
import tempfile
from pathlib import Path

ROOT = Path(__file__).resolve().parent.parent
NATIVE = ROOT / "bench" / "native"

sys.path.append(str(ROOT / "checks"))
from common import TABLES, add_program, reading, ready, removed, text_of, wants  # noqa: E402
from mixed_operation import mixed_operation  # noqa: E402
from normal_operation import normal_operation  # noqa: E402


def built():
    """The Rust program, built."""
    subprocess.run(["cargo", "build", "--release", "--offline", "--quiet"], cwd=NATIVE, check=True)
    return NATIVE / "target" / "release" / "native-desk"


class Ran:
    """A program that has ended with status 0: its output, and the seconds of a processor that it took."""

    def __init__(self, words, text):
        with tempfile.TemporaryFile() as given, tempfile.TemporaryFile() as written:
            given.write(text.encode())
            given.seek(0)
            with subprocess.Popen(words, stdin=given, stdout=written) as ran:
                _, status, usage = os.wait4(ran.pid, 0)
                ran.returncode = os.waitstatus_to_exitcode(status)
            wants(ran.returncode == 0, f"{words[0]} ended with {ran.returncode}")
            written.seek(0)
            self.written = written.read()
        self.user = usage.ru_utime
        self.both = usage.ru_utime + usage.ru_stime


class Pair:
    """The two programs, in memory or each on a new file."""

    def __init__(self, desk, native, folder):
        self.words = {"desk": [desk, "lines"], "native": [native]}
        self.files = {}
        if folder:
            self.files = {name: folder / f"{name}.db" for name in self.words}
            self.words = {"desk": [desk, "hear", self.files["desk"]], "native": [native, "--file", self.files["native"]]}
        self.desk = desk

    def run(self, name, text):
        if self.files:
            removed(self.files[name])
            if name == "desk":
                subprocess.run([self.desk, "init", self.files[name]], check=True)
        return Ran(self.words[name], text)

    def rows(self, name):
        if not self.files:
            return {}
        with reading(self.files[name]) as conn:
            return {table: conn.execute(f"SELECT * FROM {table}").fetchall() for table in TABLES}

    def compare(self, text, what):
        """Wants the same octets and rows of both."""
        answers, others = (self.run(name, text).written for name in self.words)
        if answers != others:
            pairs = zip(answers.splitlines(), others.splitlines())
            place, (answer, other) = next(((k, it) for k, it in enumerate(pairs) if it[0] != it[1]), (0, (b"", b"")))
            sys.exit(f"{what}: other answers, from line {place + 1} on\n{answer.decode()}\n{other.decode()}")
        rows, others = map(self.rows, self.words)
        for table, found in rows.items():
            wants(found == others[table], f"{what}: other rows in {table}")
        rows = f", and {sum(map(len, rows.values()))} rows" if rows else ""
        print(f"{what}: {answers.count(10)} answers, the same octets{rows}", flush=True)


def measure(pair, size, rounds, before):
    """Prints the best rounds of both. `before` has the microseconds a line of the size before, and gets those of this one."""
    text = text_of(normal_operation(size, 1))
    ran = {name: [] for name in pair.words}
    for _ in range(rounds):
        for name in ran:
            ran[name].append(pair.run(name, text))
    best = {name: (min(it.both for it in of_name), min(it.user for it in of_name)) for name, of_name in ran.items()}
    for name, (both, user) in best.items():
        line = both / size * 1e6
        growth = f"{line / before[name]:.2f}" if name in before else ""
        before[name] = line
        print(f"{name:>8} {size:>8} {both:>9.3f} {user:>8.3f} {line:>10.2f} {growth:>7}")
    both, user = (best["desk"][place] / best["native"][place] for place in (0, 1))
    print(f"desk by native, {size} lines: {both:.2f}, user alone {user:.2f}", flush=True)


def main():
    words = argparse.ArgumentParser(description=__doc__, formatter_class=argparse.RawDescriptionHelpFormatter)
    add_program(words)
    words.add_argument("--native", type=Path, metavar="FILE")
    words.add_argument("--folder", type=Path, help="compare on files in it")
    words.add_argument("--sizes", default="20000")
    words.add_argument("--seeds", default="1,2,3")
    words.add_argument("--rounds", type=int, default=7)
    given = words.parse_args()
    sizes = [int(size) for size in given.sizes.split(",")]
    desk, native = ready(given.program), given.native.resolve() if given.native else built()
    with tempfile.TemporaryDirectory(dir=given.folder) as folder:
        pair = Pair(desk, native, given.folder and Path(folder))
        for seed in filter(None, given.seeds.split(",")):
            pair.compare(text_of(mixed_operation(sizes[0], int(seed))), f"mixed operation, seed {seed}")
        pair.compare(text_of(normal_operation(sizes[0], 1)), "normal operation")
        print(f"{'':>8} {'lines':>8} {'best, s':>9} {'user, s':>8} {'µs a line':>10} {'growth':>7}")
        before = {}
        for size in sizes:
            measure(pair, size, given.rounds, before)


if __name__ == "__main__":
    main()
