#!/usr/bin/env python3
"""Opens a file of an earlier program of the same schema, and checks that nothing of it changes.

    checks/older_files.py --old PROGRAM [--program FILE] [--messages 3000] [--seed 1]

PROGRAM, one of before DR7, makes a file and hears --messages messages of mixed operation as it takes them (mixed_operation.py). The
program that is tried counts what PROGRAM counts, and gives the whole stream once more its first answers; the real SQLite then reads
the same rows. A text with DataRate 7, which PROGRAM refuses and doesn't keep, is heard under its number, and a repeat gets the same answer.

The program is `./desk`, which is proved and built first if it isn't current, or with --program the built one in FILE.
"""

import argparse
import json
import tempfile
from pathlib import Path

from common import TABLES, add_program, reading, ready, text_of, wants
from migrations import LATER, Program
from mixed_operation import mixed_operation

FSK = 7


def rows_of(file):
    with reading(file) as conn:
        return {table: conn.execute(f"SELECT rowid, * FROM {table} ORDER BY rowid").fetchall() for table in TABLES}


def at_fsk(lines):
    """A report of a data frame of the stream, at DR7 and under a number that the stream doesn't use."""
    report = next(json.loads(line) for line in lines if '"FrameHeard"' in line)
    return json.dumps({**report, "DataRate": FSK, "TransactionID": LATER}) + "\n"


def main():
    words = argparse.ArgumentParser(description=__doc__, formatter_class=argparse.RawDescriptionHelpFormatter)
    words.add_argument("--old", type=Path, required=True, metavar="PROGRAM", help="an earlier program, of schema 2")
    add_program(words)
    words.add_argument("--messages", type=int, default=3_000)
    words.add_argument("--seed", type=int, default=1)
    given = words.parse_args()
    old, new = Program(given.old.resolve()), Program(ready(given.program))
    lines = mixed_operation(given.messages, given.seed, old=True)
    with tempfile.TemporaryDirectory() as folder:
        file = Path(folder) / "town.db"
        old.ends(0, "", "init", file)
        _, answers, _ = old.run("hear", file, given=text_of(lines))
        wants(answers.count("\n") == len(lines), f"{old.path} doesn't answer each line")
        fsk = at_fsk(lines)
        _, refused, _ = old.run("hear", file, given=fsk)
        wants('"Description":"body"' in refused, f"{old.path} takes DataRate {FSK}: {refused}")
        _, counted, _ = old.run("check", file)
        before = rows_of(file)
        new.ends(0, "", "check", file, written=counted)
        new.ends(0, "", "hear", file, given=text_of(lines), written=answers)
        wants(rows_of(file) == before, "the stream once more changes the rows")
        status, heard, _ = new.run("hear", file, given=fsk)
        wants(status == 0 and '"ResultCode":"Success"' in heard, f"DataRate {FSK}: {heard}")
        new.ends(0, "", "hear", file, given=fsk, written=heard)
    print(f"{len(lines)} messages: the same answers, counts and rows; then one at DR7, and once more")


if __name__ == "__main__":
    main()
