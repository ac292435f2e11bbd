#!/usr/bin/env python3
"""Measures `desk log`, `desk audit`, and a standby that copies the log of a desk that serves.

    bench/log.py [--program PATH] [--folder FOLDER] [--messages 20000,200000] [--only log,audit,follower] [--seed 1]

`desk hear` hears messages of normal operation (normal_operation.py) on a new file, in a folder that is removed at the end; FOLDER names
the disk. `desk log` prints them, and with --answers their answers. `desk lines` hears them in memory, without a file. `desk audit` hears
them anew and compares all rows, once with its second desk in memory, once with it in a new file in /dev/shm. Then the desk serves the
file, and examples/follow.py copies its log to a standby, which it makes, until the standby has all messages: `desk hear` hears them on
the standby, one after another.

The lines of `desk log` have to be the texts in the file's rows, the answers those that `hear` and `lines` printed, and the standby's
rows those of the first file, in the same order. The audit has to find the file in order. Each status has to be 0.

A row has the seconds by the clock, those of a processor, and of these the microseconds for each message, without the start. The start
opens the file: it is `desk hear` on empty input. `its hear` has the commands on the standby that the follower runs. The growth is how
the microseconds grow from the size before: 1 where each message costs the same. The ratio is to those of `desk hear`. Seconds of a
processor depend little on what else runs; those by the clock do.
"""

import argparse
import filecmp
import itertools
import os
import signal
import subprocess
import sys
import tempfile
import time
from pathlib import Path

from normal_operation import ROOT, normal_operation, peak_of

sys.path.append(str(ROOT / "checks"))
from common import TABLES, add_program, log_of, reading, ready, wants  # noqa: E402
from follow import FOLLOWER, child_of, words_to_serve  # noqa: E402
from http_client import free_port  # noqa: E402

CONNECTIONS = 1_000_000
SHARED_MEMORY = "/dev/shm"
# how often the memory of a program is looked at
PAUSE_SECONDS = 0.01
TICKS = os.sysconf("SC_CLK_TCK")


class Program:
    """A program that was started: the seconds and the kilobytes that it takes, and those of programs that it starts one after another."""

    def __init__(self, words, given=subprocess.DEVNULL, written=subprocess.DEVNULL):
        self.words, self.begun = words, time.monotonic()
        self.process = subprocess.Popen(words, stdin=given, stdout=written)
        self.peak = self.childs_peak = 0

    def look(self):
        """Looks at its memory. Returns whether it has ended; its seconds are there until `end`."""
        self.peak = max(self.peak, peak_of(self.process))
        child = child_of(self.process)
        if child is not None:
            # of the last one: before it runs its own program it has the memory of the one that started it
            self.childs_peak = peak_of(argparse.Namespace(pid=child)) or self.childs_peak
        return os.waitid(os.P_PID, self.process.pid, os.WEXITED | os.WNOHANG | os.WNOWAIT) is not None

    def end(self, wanted=0):
        """Waits until it ends, with this status."""
        while not self.look():
            time.sleep(PAUSE_SECONDS)
        self.seconds = time.monotonic() - self.begun
        # the name, in brackets, is followed by the other fields from the third one on
        fields = Path(f"/proc/{self.process.pid}/stat").read_text().rpartition(")")[2].split()
        self.of_children = (int(fields[13]) + int(fields[14])) / TICKS
        _, status, usage = os.wait4(self.process.pid, 0)
        self.process.returncode = os.waitstatus_to_exitcode(status)
        self.processor = usage.ru_utime + usage.ru_stime - self.of_children
        wants(self.process.returncode == wanted, f"{' '.join(map(str, self.words))}: status {self.process.returncode}")
        return self


def ran(words, given=os.devnull, written=os.devnull):
    """A program that has ended. `given` and `written` are the files of its standard input and output."""
    with open(given, "rb") as reader, open(written, "wb") as writer:
        return Program(words, reader, writer).end()


class Table:
    """Prints rows, with how the microseconds of a message grow from the size before, and how many times as long it takes as `hear`."""

    def __init__(self):
        self.micros = {}
        print(f"{'what':<14} {'messages':>8} {'seconds':>9} {'processor':>9} {'µs each':>8} {'growth':>7} {'ratio':>7} {'peak MiB':>9}")

    def row(self, what, size, seconds, processor, peak, start=0.0):
        each = (processor - start) / size * 1e6
        before = max((of for name, of in self.micros if name == what and of < size), default=None)
        growth = f"{each / self.micros[what, before]:.2f}" if before and self.micros[what, before] > 0 else ""
        self.micros[what, size] = each
        ratio = f"{each / self.micros['hear', size]:.3f}"
        seconds = "" if seconds is None else f"{seconds:.2f}"
        print(
            f"{what:<14} {size:>8} {seconds:>9} {processor:>9.2f} {each:>8.1f} {growth:>7} {ratio:>7} {peak / 1024:>9.1f}",
            flush=True,
        )

    @staticmethod
    def size_of(file, size):
        log = log_of(file)
        and_log = f", its log of {log.stat().st_size / 1e6:.1f} MB" if log.exists() else ""
        print(f"{'the file':<14} {size:>8} {file.stat().st_size / 1e6:.1f} MB{and_log}", flush=True)


# ---- what was written


def has_texts(path, file, column):
    """The lines of the text file are those in this column of the heard messages."""
    with reading(file) as conn, path.open("rb") as lines:
        rows = conn.execute("SELECT * FROM reply")
        for number, (line, row) in enumerate(itertools.zip_longest(lines, rows), 1):
            wants(row is not None and line == row[column] + b"\n", f"line {number} of {path.name} isn't the text in {file.name}")


def have_same_rows(file, other):
    for table in TABLES:
        with reading(file) as one, reading(other) as two:
            rows = itertools.zip_longest(*(conn.execute(f"SELECT * FROM {table}") for conn in (one, two)))
            place = next((place for place, (row, like) in enumerate(rows, 1) if row != like), None)
            wants(place is None, f"{other.name} has another row {place} in {table} than {file.name}")


# ---- what is measured


def heard(table, desk, folder, size, seed):
    """A file that has heard `size` messages, and the file of the answers."""
    file, messages, answers = (folder / f"{name}-{size}" for name in ("town.db", "messages", "answers"))
    with messages.open("w") as given:
        given.writelines(line + "\n" for line in normal_operation(size, seed))
    ran([desk, "init", file])
    hear = ran([desk, "hear", file], messages, answers)
    table.row("hear", size, hear.seconds, hear.processor, hear.peak)
    start = ran([desk, "hear", file])
    table.row("start", size, start.seconds, start.processor, start.peak)
    return file, messages, answers, start


def measure_log(table, desk, folder, file, answers, size, start):
    printed = folder / f"printed-{size}"
    for what, options, column in (("log", [], 3), ("log --answers", ["--answers"], 4)):
        log = ran([desk, "log", file, *options], written=printed)
        has_texts(printed, file, column)
        table.row(what, size, log.seconds, log.processor, log.peak, start.processor)
    wants(filecmp.cmp(printed, answers, shallow=False), "log --answers prints other answers than hear did")
    printed.unlink()


def measure_audit(table, desk, folder, file, messages, answers, size, start):
    printed = folder / f"printed-{size}"
    lines = ran([desk, "lines"], messages, printed)
    wants(filecmp.cmp(printed, answers, shallow=False), "lines prints other answers than hear did")
    table.row("lines", size, lines.seconds, lines.processor, lines.peak)
    with reading(file) as conn:
        count = conn.execute("SELECT COUNT(*) FROM reply").fetchone()[0]
    with tempfile.TemporaryDirectory(dir=SHARED_MEMORY) as scratch:
        for what, options in (("audit", []), ("with --scratch", ["--scratch", f"{scratch}/scratch.db"])):
            audit = ran([desk, "audit", file, *options], written=printed)
            wants(printed.read_text() == f"heard: {count}\nin order\n", f"audit prints {printed.read_text()!r}")
            table.row(what, size, audit.seconds, audit.processor, audit.peak, start.processor)
    printed.unlink()


def measure_follower(table, desk, folder, file, size, start):
    standby, port = folder / f"standby-{size}.db", free_port()
    serve = Program(words_to_serve(desk, file, port), written=subprocess.PIPE)
    wants(serve.process.stdout.readline() == f"listening 127.0.0.1:{port}\n".encode(), "serve doesn't listen")
    words = [sys.executable, FOLLOWER, "--desk", f"http://127.0.0.1:{port}", "--program", desk, "--init", "--once", standby]
    follower = Program(words).end()
    serve.look()
    serve.process.terminate()
    serve.end(-signal.SIGTERM)
    serve.process.stdout.close()
    have_same_rows(file, standby)
    table.row("follow.py", size, follower.seconds, follower.processor, follower.peak)
    table.row("its hear", size, None, follower.of_children, follower.childs_peak)
    table.row("serve", size, None, serve.processor, serve.peak, start.processor)


def main():
    words = argparse.ArgumentParser(description=__doc__, formatter_class=argparse.RawDescriptionHelpFormatter)
    add_program(words, metavar="PATH")
    words.add_argument("--folder", type=Path, help="where the files are meanwhile")
    words.add_argument("--messages", default="20000,200000", metavar="COUNT,..", help="how many messages are heard")
    words.add_argument("--only", default="log,audit,follower", metavar="WHAT,..", help="what is measured besides hear")
    words.add_argument("--seed", type=int, default=1)
    given = words.parse_args()
    only = given.only.split(",")
    wants(set(only) <= {"log", "audit", "follower"}, f"--only takes log, audit and follower, not {given.only}")
    desk = ready(given.program)
    table = Table()
    for size in map(int, given.messages.split(",")):
        with tempfile.TemporaryDirectory(dir=given.folder) as name:
            folder = Path(name)
            file, messages, answers, start = heard(table, desk, folder, size, given.seed)
            if "log" in only:
                measure_log(table, desk, folder, file, answers, size, start)
            if "audit" in only:
                measure_audit(table, desk, folder, file, messages, answers, size, start)
            messages.unlink()
            answers.unlink()
            if "follower" in only:
                measure_follower(table, desk, folder, file, size, start)
            table.size_of(file, size)


if __name__ == "__main__":
    main()
