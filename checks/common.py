"""What several scripts share: the program that they run, programs that are killed, lines of text, and a desk's two files.

Those of bench/ find it by the path of checks/, which they put behind their own.
"""

import itertools
import shutil
import signal
import sqlite3
import subprocess
import sys
import threading
from contextlib import closing
from pathlib import Path

ROOT = Path(__file__).resolve().parent.parent

TABLES_OF_SCHEMA_1 = ["meta", "sender", "reply", "owner", "gateway", "device", "session", "uplink", "copy", "booking"]
TABLES = [*TABLES_OF_SCHEMA_1, "band_limit"]
# what sqlite3 does to a desk's file, which is of schema 1 then
TO_SCHEMA_1 = "DROP TABLE band_limit; UPDATE meta SET version = 1"


def wants(holds, what):
    if not holds:
        sys.exit(f"{Path(sys.argv[0]).name}: {what}")


def text_of(lines):
    return "".join(line + "\n" for line in lines)


# ---- the program


def add_program(words, metavar="FILE"):
    """The option that names it."""
    words.add_argument(
        "--program",
        type=Path,
        default=ROOT / "desk",
        metavar=metavar,
        help="the built program, in place of ./desk",
    )


def ready(program):
    """Its whole path, after a first call, which may prove and build it and then prints that."""
    path = program.resolve()
    subprocess.run([path, "lines"], stdin=subprocess.DEVNULL, check=True)
    return path


class Running:
    """A program that is started again each time that it is killed."""

    def __init__(self, name, words, log):
        self.name, self.words, self.log = name, words, log
        self.lock = threading.Lock()
        self.process = None
        self.kills = 0

    def start(self):
        with self.log.open("ab") as log:
            self.process = subprocess.Popen(self.words, stdin=subprocess.DEVNULL, stdout=subprocess.DEVNULL, stderr=log)

    def kill(self):
        with self.lock:
            if self.process.poll() is None:
                self.process.send_signal(signal.SIGKILL)
            return self.process.wait()

    def is_running(self):
        return self.process.poll() is None


# ---- files


def log_of(file):
    return file.with_name(file.name + "-wal")


def copy_to(file, to):
    """Copies the file, and its log where it has one."""
    shutil.copy(file, to)
    if log_of(file).exists():
        shutil.copy(log_of(file), log_of(to))


def removed(file):
    """Removes the file, and the others in its folder whose names begin with its name."""
    for path in file.parent.glob(f"{file.name}*"):
        path.unlink()


def reading(file):
    """A connection that only reads, and is closed at the end of its block."""
    return closing(sqlite3.connect(f"file:{file}?mode=ro", uri=True))


def same_rows(file, wanted):
    """Wants each of the eleven tables to have the rows of the other file, in the same order. Returns how many rows that are."""
    count = 0
    with reading(file) as conn, reading(wanted) as other:
        for it, name in ((conn, file.name), (other, wanted.name)):
            wants(it.execute("PRAGMA integrity_check").fetchall() == [("ok",)], f"SQLite finds {name} damaged")
        for table in TABLES:
            pairs = itertools.zip_longest(*(it.execute(f"SELECT * FROM {table}") for it in (conn, other)))
            for number, (row, wanted_row) in enumerate(pairs, 1):
                wants(row == wanted_row, f"row {number} of {table} in {file.name} is {row} and not {wanted_row}")
                count += 1
    return count


def execute(file, text):
    """Has sqlite3 run these statements."""
    with closing(sqlite3.connect(file)) as conn:
        conn.executescript(text)
