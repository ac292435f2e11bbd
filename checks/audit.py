#!/usr/bin/env python3
"""Audits a desk's file, and copies of it with one change by the real SQLite: `desk audit` has to find each change.

    checks/audit.py [--program FILE] [--messages 2000] [--seed 1] [--scratch PATH]

A desk hears the examples and some messages more, so that each table has two rows or more, but for meta, which has one. `audit` passes
its file. Then each value of each row is changed in turn: to the next integer and a far one, to another text, to octets with one bit
changed, and to NULL if the column takes it. Each row is left out, and written a second time if the keys allow that. Each two
neighbours exchange their places. `audit` has to end with status 1, print nothing on standard output, and name the place where the
file first differs.

That place is worked out here without `audit`. A new desk is made with the options that meta has, and hears the messages that the
changed file has, by `init` and `hear`; the first table that differs is named with the place of its first row that differs: `reply`
first, then the tables in the order of the schema. So a change of meta is named by the reply that comes out otherwise:

- receiver: `reply 1`, since no message is for a desk of another name;
- operator: `reply 1`, since its sender is unknown;
- base: the reply to the first join, whose answer has the session's address;
- addresses, if there are fewer than sessions: the reply to the first join that finds none left.

A meta that no desk has (two rows, another id, a name or a block out of its form) is `not a desk`, another version is `schema`.

Two changes aren't found, and can't be, since the file is then what another desk writes: another number of addresses that is enough for
the sessions, as a desk that was made with that number; and two replies exchanged whose messages make the same rows in both orders, as a
desk that heard them in the other one. Of all other changes the script demands that they are found.

At last a desk hears a stream of mixed operation (mixed_operation.py: repeats, copies, changed and refused messages, downlinks, limits).
`audit` passes its file, and finds a change in each table. The file's octets are the same before and after each `audit`.

With --scratch each audit has its second desk in a new file at PATH, which isn't there before and after it.

The program is `./desk`, which is proved and built first if it isn't current, or with --program the built one in FILE.
"""

import argparse
import json
import random
import re
import sqlite3
import subprocess
import tempfile
from contextlib import closing
from functools import cache
from pathlib import Path

from common import ROOT, TABLES, add_program, copy_to, log_of, reading, ready, removed, text_of, wants
from mixed_operation import mixed_operation

# the tables in the order in which `audit` compares them
ORDER = ["reply", *(table for table in TABLES if table != "reply")]
NOT_A_DESK = "not a desk"
SCHEMA = "schema"
IN_ORDER = "in order"
NAME = re.compile(r"[A-Za-z0-9._-]{1,32}")
FAR = 1000
# a shorter log has no page
EMPTY_LOG = 512
# changes that may make what another desk writes
CANNOT_BE_FOUND = re.compile(r"meta 1: addresses \d+$|reply \d+ and \d+: exchanged$")

# what the desk hears after the examples
SECOND = {"DevEUI": "0004a30b001a2b3d", "JoinEUI": "70b3d57ed0000001", "Owner": "town"}
AT_A = {"Gateway": "gw-a", "Freq": 868300000, "DataRate": 5}
JOIN = "00010000d07ed5b3703d2b1a000ba304000000a1b2c3d4"
FRAME = "400100a00100000011223344"
DOWN = "600100a00100000055667788"
MORE = [
    ("office", "DeviceAdd", SECOND),
    ("bridge", "JoinHeard", {**AT_A, "Time": 1706745800061696, "PHYPayload": JOIN, "Verdict": "Good"}),
    ("bridge", "FrameHeard", {**AT_A, "Time": 1706745900041216, "PHYPayload": FRAME, "Verdict": 0}),
    ("bridge", "DownBook", {"Uplink": 4, "Gateway": "gw-a", "Window": 1, "PHYPayload": DOWN}),
    ("bridge", "DownDone", {"Booking": 4, "Sent": True}),
    ("office", "LimitSet", {"Gateway": "gw-a", "Band": "B1", "Limit": 1_000_000}),
    ("office", "LimitSet", {"Gateway": "gw-b", "Band": "B5", "Limit": 2_000_000}),
]


class Program:
    """The program, and how often it has audited a file."""

    def __init__(self, path, scratch=None):
        self.path, self.scratch, self.audits = path, scratch, 0

    def run(self, *words, given=b""):
        return subprocess.run([self.path, *map(str, words)], input=given, capture_output=True)

    def made(self, file, settings, messages):
        """A desk made with these settings, which has heard the messages."""
        receiver, operator, base, addresses = settings
        options = ["--receiver", receiver, "--operator", operator, "--base", f"{base:08x}", "--addresses", addresses]
        made = self.run("init", file, *options)
        wants(made.returncode == 0, f"init with {settings}: {made.stderr}")
        heard = self.run("hear", file, given=b"".join(message + b"\n" for message in messages))
        wants(heard.returncode == 0, f"hear of {len(messages)} messages: {heard.stderr}")

    def audit(self, file):
        """What it reports of the file: `in order` with the number of messages, or the place; and that it leaves the file as it is."""
        before = file.read_bytes()
        ran = self.run("audit", file, *(["--scratch", self.scratch] if self.scratch else []))
        self.audits += 1
        wants(not self.scratch or not self.scratch.exists(), f"{self.scratch} is there after audit")
        wants(file.read_bytes() == before, f"{file.name} has other octets after audit")
        wants(log_size(file) < EMPTY_LOG, f"the log of {file.name} has a page after audit")
        printed = ran.stdout.decode(), ran.stderr.decode()
        if ran.returncode == 0:
            found = re.fullmatch(r"heard: (\d+)\nin order\n", printed[0])
            wants(found and not printed[1], f"audit prints {printed} and ends with 0")
            return IN_ORDER, int(found[1])
        line = re.fullmatch(r"desk: (not a desk|schema|differs at [a-z_]+ \d+)\n", printed[1])
        wants(ran.returncode == 1 and not printed[0] and line, f"audit prints {printed} and ends with {ran.returncode}")
        return line[1].removeprefix("differs at "), None


# ---- what a file has, and what it should have


def log_size(file):
    return log_of(file).stat().st_size if log_of(file).exists() else 0


def rows_of(conn, table):
    return conn.execute(f"SELECT rowid, * FROM {table} ORDER BY rowid").fetchall()


def tables_of(file):
    with reading(file) as conn:
        conn.text_factory = bytes
        return {table: rows_of(conn, table) for table in TABLES}


def settings_of(rows):
    """What the desk was made with by the rows of meta, or what is reported instead."""
    if len(rows) != 1:
        return NOT_A_DESK
    _, number, version, receiver, operator, base, addresses = rows[0]
    names = [name.decode() for name in (receiver, operator)]
    is_block = 0 <= base < 2**32 and 0 < addresses < 2**32 and base + addresses <= 2**32
    if number != 1 or not is_block or not all(NAME.fullmatch(name) for name in names):
        return NOT_A_DESK
    return (*names, base, addresses) if version == 2 else SCHEMA


class Wanted:
    """What `audit` has to report of a file."""

    def __init__(self, program, folder):
        self.program, self.folder = program, folder
        self.desk_of = cache(self.desk_of)

    def desk_of(self, settings, messages):
        """The tables of a new desk that has heard the messages."""
        file = self.folder / "anew.db"
        removed(file)
        self.program.made(file, settings, messages)
        return tables_of(file)

    def of(self, file):
        found = tables_of(file)
        settings = settings_of(found["meta"])
        if isinstance(settings, str):
            return settings
        # a row of reply: rowid, seq, sender, number, message, answer
        messages = tuple(row[4] for row in found["reply"])
        anew = self.desk_of(settings, messages)
        for table in ORDER:
            if found[table] != anew[table]:
                same = zip(found[table], anew[table])
                before = next((place for place, (one, other) in enumerate(same) if one != other), None)
                before = min(len(found[table]), len(anew[table])) if before is None else before
                return f"{table} {before + 1}"
        return IN_ORDER


# ---- changes


def other_values(value):
    """Values of the same type, and NULL."""
    yield None
    if isinstance(value, int):
        yield from (value + 1, value - 1, value + FAR)
    elif isinstance(value, bytes):
        yield from (value[:-1] + bytes([value[-1] ^ 1]), value[:-1], value + b"x")
    elif isinstance(value, str):
        yield from (value[:-1] + chr(ord(value[-1]) ^ 1), value[:-1], value + "x", "two words")
    else:
        yield 0


def values_changed(conn, table):
    columns = [row[1] for row in conn.execute(f"PRAGMA table_info({table})")]
    for row in rows_of(conn, table):
        for column, value in zip(columns, row[1:]):
            for other in other_values(value):
                yield f"{table} {row[0]}: {column} {other!r}", f"UPDATE {table} SET {column} = ? WHERE rowid = {row[0]}", [other]


def rows_left_out(conn, table):
    for row in rows_of(conn, table):
        yield f"{table} {row[0]}: left out", f"DELETE FROM {table} WHERE rowid = {row[0]}", []


def rows_doubled(conn, table):
    """A row once more, with another number if it has one."""
    key = next(row[1] for row in conn.execute(f"PRAGMA table_info({table})"))
    for row in rows_of(conn, table):
        columns = [row[1] for row in conn.execute(f"PRAGMA table_info({table})")]
        is_number = isinstance(row[1], int) and row[0] == row[1]
        others = ", ".join(columns[1:] if is_number else columns)
        into, of = (f"{key}, {others}", f"{FAR}, {others}") if is_number and others else (others, others)
        yield f"{table} {row[0]}: doubled", f"INSERT INTO {table} ({into}) SELECT {of} FROM {table} WHERE rowid = {row[0]}", []


def rows_exchanged(conn, table):
    numbers = [row[0] for row in rows_of(conn, table)]
    for one, other in zip(numbers, numbers[1:]):
        steps = [(one, -FAR), (other, one), (-FAR, other)]
        yield f"{table} {one} and {other}: exchanged", "; ".join(f"UPDATE {table} SET rowid = {to} WHERE rowid = {of}" for of, to in steps), None


KINDS = {"values": values_changed, "rows left out": rows_left_out, "rows doubled": rows_doubled, "neighbours exchanged": rows_exchanged}


def changed(whole, file, statement, values):
    """Whether sqlite3 makes the change in a copy: it doesn't if a key or a column's type forbids it, or if nothing changes."""
    removed(file)
    copy_to(whole, file)
    with closing(sqlite3.connect(file)) as conn:
        try:
            if values is None:
                conn.executescript(statement)
            else:
                conn.execute(statement, values)
                conn.commit()
        except sqlite3.IntegrityError:
            return False
    return True


# ---- the cases


def messages_of(examples, more):
    """The lines of the examples, and of the messages after them."""
    lines = [line for path in sorted(examples.glob("*.jsonl")) for line in path.read_bytes().splitlines()]
    head = {"ProtocolVersion": "1.0", "ReceiverID": "desk"}
    for number, (sender, kind, members) in enumerate(more, 100):
        message = {**head, "SenderID": sender, "TransactionID": number, "MessageType": kind, **members}
        lines.append(json.dumps(message).encode())
    return lines


def small_desk(program, folder):
    whole, file = folder / "whole.db", folder / "town.db"
    program.made(whole, ("desk", "office", 0x01A00000, 65_536), messages_of(ROOT / "examples", MORE))
    tables = tables_of(whole)
    for table in TABLES:
        wants(len(tables[table]) >= (1 if table == "meta" else 2), f"{table} has {len(tables[table])} rows")
    found = program.audit(whole)
    wants(found == (IN_ORDER, len(tables["reply"])), f"of the file as it is audit reports {found}")
    wanted = Wanted(program, folder)
    for kind, changes in KINDS.items():
        tried = passed = 0
        for table in TABLES:
            with reading(whole) as conn:
                cases = list(changes(conn, table))
            for what, statement, values in cases:
                if not changed(whole, file, statement, values):
                    continue
                should, found = wanted.of(file), program.audit(file)[0]
                wants(found == should, f"{what}: audit reports {found!r}, and the place is {should!r}")
                tried += 1
                if found == IN_ORDER:
                    wants(CANNOT_BE_FOUND.match(what), f"{what}: audit finds no difference")
                    passed += 1
        print(f"{kind}: {tried} changes, {tried - passed} found" + (f"; {passed} make what another desk writes" if passed else ""), flush=True)


def stream(program, folder, size, seed):
    """A file of a generated stream, and one change in each table."""
    whole, file = folder / "stream.db", folder / "town.db"
    lines = mixed_operation(size, seed)
    subprocess.run([program.path, "init", whole], check=True)
    subprocess.run([program.path, "hear", whole], input=text_of(lines), stdout=subprocess.DEVNULL, check=True, text=True)
    tables = tables_of(whole)
    found = program.audit(whole)
    wants(found == (IN_ORDER, len(tables["reply"])), f"of a stream of {size} lines audit reports {found}")
    chosen, wanted = random.Random(seed), Wanted(program, folder)
    with_rows = [table for table in TABLES if tables[table]]
    for table in with_rows:
        with reading(whole) as conn:
            cases = [case for changes in KINDS.values() for case in changes(conn, table)]
        what = should = None
        while should in (None, IN_ORDER):
            what, statement, values = chosen.choice(cases)
            should = wanted.of(file) if changed(whole, file, statement, values) else None
        found = program.audit(file)[0]
        wants(found == should, f"stream, {what}: audit reports {found!r}, and the place is {should!r}")
    print(f"{size} generated lines, {len(tables['reply'])} heard: in order; a change in each of {len(with_rows)} tables is found", flush=True)


def main():
    words = argparse.ArgumentParser(description=__doc__, formatter_class=argparse.RawDescriptionHelpFormatter)
    add_program(words)
    words.add_argument("--messages", type=int, default=2000, help="lines of the stream")
    words.add_argument("--seed", type=int, default=1, help="of the stream")
    words.add_argument("--scratch", type=Path, metavar="PATH", help="where the second desk is, in place of memory")
    given = words.parse_args()
    program = Program(ready(given.program), given.scratch)
    with tempfile.TemporaryDirectory() as folder:
        small_desk(program, Path(folder))
        stream(program, Path(folder), given.messages, given.seed)
    print(f"{program.audits} audits, all as they should be; SQLite {sqlite3.sqlite_version}")


if __name__ == "__main__":
    main()
