#!/usr/bin/env python3
"""Asks the real SQLite how it would run each statement of desk_rows: none may look through a table.

    checks/query_plans.py [--program FILE]

It takes the texts of the statements from `crates/desk_rows/src/*.rt`, has the program make a file and hear the day's messages in it,
and asks `EXPLAIN QUERY PLAN` there of each SELECT and UPDATE. What begins with CREATE has to be in the file as it is written,
that of a move from an older schema too. A plan that scans a table or sorts rows fails, but for a look at the first row in the order
of the rowid, which SQLite calls a scan too and ends after one row, for meta, which has one row, for a list of all names or DevEUIs,
which has to come of an index alone, and for the sorts of a device's sessions and of its uplinks in a range of time. It prints a line
for each statement and at the end how many there were, and by which key or index.
"""

import argparse
import re
import sqlite3
import subprocess
import sys
import tempfile
from pathlib import Path

from common import ROOT, add_program, reading, ready, wants

SOURCES = ROOT / "crates" / "desk_rows" / "src"
TEXT = re.compile(r'"((?:SELECT|UPDATE|CREATE) [^"]*)"')
# A text that goes on in the next line: the blanks that begin it aren't its own.
GOES_ON = re.compile(r"\\\n\s*")
# The first row in the order of the rowid, or the last; and the table of one row.
ENDS = re.compile(r"^SELECT (\w+) FROM \w+ ORDER BY \1( DESC)? LIMIT 1$")
ONE_ROW = re.compile(r"^SELECT [^?]* FROM meta$")
# All names or DevEUIs in order: an index has them in that order, so the table isn't read and nothing is sorted.
OF_ALL = re.compile(r"^SELECT (name|eui) FROM \w+ ORDER BY \1, rowid$")
# The uplinks are found by an index session by session, and those of several sessions have to be sorted: as many as are reported.
OF_SESSIONS = re.compile(r"^SELECT [^?]* FROM session JOIN uplink ON uplink\.session = session\.number ")
# The sessions of a device are found by an index in the order of their nonces, and have to be sorted by number.
OF_DEVICE = re.compile(r"^SELECT number FROM session WHERE device = \?1 ORDER BY number$")


def statements():
    """Each text of the sources, with its file."""
    for path in sorted(SOURCES.glob("*.rt")):
        for text in TEXT.findall(GOES_ON.sub("", path.read_text())):
            yield path.name, text


def is_bad(text, step):
    """Whether a step of the plan looks through a table, or puts rows in order."""
    if ENDS.match(text) or ONE_ROW.match(text):
        return False
    if OF_ALL.match(text):
        return " USING COVERING INDEX " not in step
    is_sorted = OF_SESSIONS.match(text) or OF_DEVICE.match(text)
    return step.startswith("SCAN") or ("TEMP B-TREE" in step and not is_sorted)


def made(program, file):
    """A desk in a file, which has heard the examples' messages."""
    subprocess.run([program, "init", file], check=True)
    lines = b"".join(path.read_bytes() for path in sorted((ROOT / "examples").glob("*.jsonl")))
    heard = subprocess.run([program, "hear", file], input=lines, stdout=subprocess.PIPE, check=True)
    wants(b'"ResultCode":"Success"' in heard.stdout, "the file has heard a message")


def main():
    words = argparse.ArgumentParser(description=__doc__.splitlines()[0])
    add_program(words)
    program = ready(words.parse_args().program)
    texts = list(statements())
    creates = [it for _, text in texts if text.startswith("CREATE") for it in text.split("; ")]
    asked = [(name, text) for name, text in texts if not text.startswith("CREATE")]
    failed = 0
    ways = {}
    with tempfile.TemporaryDirectory() as folder:
        file = Path(folder) / "town.db"
        made(program, file)
        with reading(file) as conn:
            standing = {row[0] for row in conn.execute("SELECT sql FROM sqlite_master WHERE sql IS NOT NULL")}
            strange = standing ^ set(creates)
            for text in sorted(strange):
                print("FAILED in the file or in the sources alone |", text)
            for name, text in asked:
                many = len(set(re.findall(r"\?\d", text)))
                steps = [row[3] for row in conn.execute("EXPLAIN QUERY PLAN " + text, [None] * many)]
                bad = [step for step in steps if is_bad(text, step)]
                failed += bool(bad)
                way = re.sub(r" \(.*", "", "; ".join(steps))
                ways[way] = ways.get(way, 0) + 1
                print("FAILED" if bad else "ok", name, "|", text, "|", "; ".join(steps))
    for way, count in sorted(ways.items()):
        print(count, way)
    print(f"SQLite {sqlite3.sqlite_version}: {len(asked) - failed} of {len(asked)} statements look through no table")
    return 1 if failed or strange or not asked else 0


if __name__ == "__main__":
    sys.exit(main())
