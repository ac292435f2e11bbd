#!/usr/bin/env python3
"""Opens files that are not a desk of this version: each is refused, and left as it was, but for an empty one.

    checks/not_desks.py [--program FILE]

A text, a file of zeros, somebody's database, and a desk's file: of version 7, of schema 1, with the tables of the one
schema and the version of the other, without its row of meta, with a bad name in it, with a table more, and of version
7 with a table more. `desk check`, `audit`, `hear`, `import`, `report`, `bands`, `list`, `device`, `receptions`,
`downlinks` and `serve` get each of them. The port of `serve` is taken, so that it would report that if it bound the port before it has
opened the file. An empty file is refused too, and is a database without tables then. `desk init` makes no desk in somebody's database, whether or not an index or
a view of it has a name of the desk's, in other letters.

Then a desk's file with one value out of its range, in the columns that messages and reports read: a message or a
report that needs the row ends with `not a desk`, and leaves all rows as they are.

`desk migrate` gets files of schema 1 that are changed so that it can't move them, the numbers by which it counts their
rows among it: it reports why, and the file is as it was.

The program is `./desk`, which is proved and built first if it isn't current, or with --program the built one in
FILE.
"""

import argparse
import json
import socket
import sqlite3
import subprocess
import sys
import tempfile
from pathlib import Path

from common import ROOT, TABLES, TO_SCHEMA_1, add_program, copy_to, execute, reading, ready, removed

# a status, and what is on standard error
NOT_A_DESK = 1, "desk: not a desk\n"
EXISTS = 1, "desk: exists\n"
SCHEMA = 1, "desk: schema\n"
FILE = 3, "desk: file\n"

# what sqlite3 does to a desk's file, and what the program then reports
CHANGED = [
    ("another version", "UPDATE meta SET version = 7", SCHEMA),
    ("schema 1", TO_SCHEMA_1, SCHEMA),
    ("version 1 with the tables of schema 2", "UPDATE meta SET version = 1", SCHEMA),
    ("version 2 with the tables of schema 1", "DROP TABLE band_limit", NOT_A_DESK),
    ("no row of meta", "DELETE FROM meta", NOT_A_DESK),
    ("a receiver that is no name", "UPDATE meta SET receiver = 'the desk'", NOT_A_DESK),
    ("a table more", "CREATE TABLE note (id INTEGER PRIMARY KEY) STRICT", NOT_A_DESK),
    ("another version and a table more", "UPDATE meta SET version = 7; CREATE TABLE note (id INTEGER) STRICT", SCHEMA),
]

# what sqlite3 does to a file of schema 1 that has heard messages, and what `migrate` then reports
UNMOVED = [
    ("a table `band_limit`", "CREATE TABLE band_limit (id INTEGER PRIMARY KEY)", EXISTS),
    ("a table more", "CREATE TABLE note (id INTEGER PRIMARY KEY) STRICT", NOT_A_DESK),
    ("no row of meta", "DELETE FROM meta", NOT_A_DESK),
    ("version 7", "UPDATE meta SET version = 7", SCHEMA),
    ("a reply with another number", "UPDATE reply SET seq = -seq", NOT_A_DESK),
    ("a session with another number", "UPDATE session SET number = -number", NOT_A_DESK),
    ("an uplink with another number", "UPDATE uplink SET number = -number", NOT_A_DESK),
    ("a booking with another number", "UPDATE booking SET number = -number", NOT_A_DESK),
]

# what is in somebody's database apart from its table, and what `init` reports
UNMADE = [
    ("nothing", "", NOT_A_DESK),
    ("an index with a name of the desk's", "CREATE INDEX Booking_Start ON note (id)", EXISTS),
    ("a view with a name of the desk's", "CREATE VIEW Owner AS SELECT id FROM note", EXISTS),
]

# without `serve`, whose arguments have a port
COMMANDS = [
    ["check", "town.db"],
    ["audit", "town.db"],
    ["hear", "town.db"],
    ["import", "town.db", "--sender", "office"],
    ["report", "town.db", "town", "2024-02"],
    ["bands", "town.db", "gw-a"],
    ["list", "town.db", "senders"],
    ["device", "town.db", "0004a30b001a2b3c"],
    ["receptions", "town.db", "0004a30b001a2b3c", "2024-02"],
    ["downlinks", "town.db", "gw-a", "2024-02"],
]


# what the desk has heard before one of its values is out of range
HEARD = ["1-registry.jsonl", "2-joins.jsonl", "3-data-frames.jsonl", "4-downlinks.jsonl"]

# a message of each kind that reads rows: a new join, a copy of one that was heard, so of data frames, and so on
AT_A = {"Gateway": "gw-a", "Freq": 868300000, "DataRate": 5}
NEW_JOIN = "00010000d07ed5b3703c2b1a000ba304000100a1b2c3d4"
HEARD_JOIN = "00010000d07ed5b3703c2b1a000ba304000000a1b2c3d4"
JOIN = ("JoinHeard", {**AT_A, "Time": 1706745800061696, "PHYPayload": NEW_JOIN, "Verdict": "Good"})
JOIN_COPY = ("JoinHeard", {**AT_A, "Time": 1706745600061696, "PHYPayload": HEARD_JOIN, "Verdict": "Good"})
FRAME = ("FrameHeard", {**AT_A, "Time": 1706745900041216, "PHYPayload": "400000a00100010011223344", "Verdict": 0})
COPY = ("FrameHeard", {**AT_A, "Time": 1706745700041216, "PHYPayload": "400000a00100000011223344", "Verdict": 0})
DOWN = ("DownBook", {"Uplink": 2, "Gateway": "gw-a", "Window": 1, "PHYPayload": "600000a00100010055667788"})
DONE = ("DownDone", {"Booking": 3, "Sent": True})
MOVE = ("DeviceMove", {"DevEUI": "0004a30b001a2b3c", "Owner": "town"})
REPORT = ["report", "town.db", "town", "2024-02"]
BANDS = ["bands", "town.db", "gw-b"]

# what sqlite3 does to a row, and what needs the row
OUT_OF_RANGE = [
    ("UPDATE meta SET operator = 'two words'", FRAME),
    ("UPDATE meta SET base = 4294967296", FRAME),
    ("UPDATE meta SET addresses = -1", FRAME),
    ("UPDATE sender SET role = 2 WHERE name = 'bridge'", FRAME),
    ("UPDATE sender SET role = -1 WHERE name = 'bridge'", FRAME),
    ("UPDATE device SET eui = x'00'", REPORT),
    ("UPDATE device SET join_eui = x'00'", JOIN),
    ("UPDATE device SET owner = 'two words'", MOVE),
    ("UPDATE device SET floor = -1", FRAME),
    ("UPDATE session SET number = -1", JOIN_COPY),
    ("UPDATE session SET device = x'0004a30b001a2b'", FRAME),
    ("UPDATE session SET nonce = 65536", JOIN),
    ("UPDATE session SET nonce = -1", FRAME),
    ("UPDATE session SET next_down = -1", DOWN),
    ("UPDATE uplink SET counter = 4294967296 WHERE number = 2", FRAME),
    ("UPDATE uplink SET number = -1 WHERE number = 2", COPY),
    ("UPDATE uplink SET session = -1 WHERE number = 2", DOWN),
    ("UPDATE uplink SET kind = 2 WHERE number = 2", DOWN),
    ("UPDATE uplink SET counter = -1 WHERE number = 2", DOWN),
    ("UPDATE uplink SET octets = zeroblob(256) WHERE number = 2", COPY),
    ("UPDATE uplink SET start = -1 WHERE number = 2", COPY),
    ("UPDATE uplink SET start = 9007199254740992 WHERE number = 2", DOWN),
    ("UPDATE uplink SET airtime = 4294967296 WHERE number = 2", DOWN),
    ("UPDATE uplink SET airtime = -1", REPORT),
    ("UPDATE uplink SET band = 0 WHERE number = 2", DOWN),
    ("UPDATE uplink SET band = 7 WHERE number = 2", DOWN),
    ("UPDATE copy SET ended = -1", DOWN),
    ("UPDATE copy SET freq = 4294967296", DOWN),
    ("UPDATE copy SET dr = 8", DOWN),
    ("UPDATE booking SET uplink = -1 WHERE number = 3", DONE),
    ("UPDATE booking SET gateway = 'two words' WHERE number = 3", DONE),
    ("UPDATE booking SET band = 7 WHERE number = 3", DONE),
    ("UPDATE booking SET start = 9223372036854775807 WHERE number = 3", DONE),
    ("UPDATE booking SET airtime = 4294967296", BANDS),
    ("UPDATE booking SET state = 3 WHERE number = 3", DONE),
    ("UPDATE booking SET state = -1 WHERE number = 3", DONE),
    ("INSERT INTO band_limit VALUES ('gw-b', 5, -1)", BANDS),
]


def is_as_it_was(file, before):
    """Whether the file has these octets, or, where it had none, is a database without tables."""
    if before:
        return file.read_bytes() == before
    conn = sqlite3.connect(file)
    tables = conn.execute("SELECT count(*) FROM sqlite_master").fetchone()[0]
    conn.close()
    return tables == 0


def refused(program, commands, what, file, wanted):
    for words in commands:
        before = file.read_bytes()
        ran = subprocess.run(
            [program, *words], cwd=file.parent, stdin=subprocess.DEVNULL, capture_output=True, text=True
        )
        if (ran.returncode, ran.stderr) != wanted or ran.stdout:
            sys.exit(f"{what}: {words[0]} ends with {ran.returncode} {ran.stdout!r} {ran.stderr!r}")
        if not is_as_it_was(file, before):
            sys.exit(f"{what}: {words[0]} has changed the file")
    print(f"{what}: refused by {len(commands)} commands")


def rows_of(file):
    with reading(file) as conn:
        return [conn.execute(f"SELECT * FROM {table} ORDER BY rowid").fetchall() for table in TABLES]


def asked(program, file, needs):
    """How the program ends where this message or command needs a row of the file."""
    words, text = needs, ""
    if isinstance(needs, tuple):
        kind, members = needs
        sender = "office" if kind == "DeviceMove" else "bridge"
        head = {"ProtocolVersion": "1.0", "SenderID": sender, "ReceiverID": "desk", "TransactionID": 900}
        words, text = ["hear", "town.db"], json.dumps({**head, "MessageType": kind, **members}) + "\n"
    return subprocess.run([program, *words], cwd=file.parent, input=text, capture_output=True, text=True)


def heard(program, folder):
    """A desk's file that has heard messages."""
    whole = Path(folder) / "whole.db"
    subprocess.run([program, "init", whole], check=True)
    lines = "".join((ROOT / "examples" / name).read_text() for name in HEARD)
    subprocess.run([program, "hear", whole], input=lines, stdout=subprocess.DEVNULL, check=True, text=True)
    return whole


def unmoved(program, whole, folder):
    file = Path(folder) / "town.db"
    for what, change, wanted in UNMOVED:
        removed(file)
        copy_to(whole, file)
        execute(file, f"{TO_SCHEMA_1}; {change}")
        refused(program, [["migrate", "town.db"]], f"of schema 1, {what}", file, wanted)


def out_of_range(program, whole, folder):
    file = Path(folder) / "town.db"
    for change, needs in OUT_OF_RANGE:
        removed(file)
        copy_to(whole, file)
        if asked(program, file, needs).returncode:
            sys.exit(f"{needs[0]}: the desk as it is doesn't answer it")
        removed(file)
        copy_to(whole, file)
        execute(file, change)
        before, ran = rows_of(file), asked(program, file, needs)
        if (ran.returncode, ran.stderr) != NOT_A_DESK or ran.stdout:
            sys.exit(f"{change}: {needs[0]} ends with {ran.returncode} {ran.stdout!r} {ran.stderr!r}")
        if rows_of(file) != before:
            sys.exit(f"{change}: {needs[0]} has changed a row")
    print(f"{len(OUT_OF_RANGE)} values out of range: each reported, and nothing changed")


def main():
    words = argparse.ArgumentParser(description=__doc__, formatter_class=argparse.RawDescriptionHelpFormatter)
    add_program(words)
    program = ready(words.parse_args().program)
    with tempfile.TemporaryDirectory() as folder, socket.create_server(("127.0.0.1", 0)) as taken:
        commands = [*COMMANDS, ["serve", "town.db", "--port", str(taken.getsockname()[1]), "--count", "1"]]
        file = Path(folder) / "town.db"
        for what, octets, wanted in [
            ("an empty file", b"", NOT_A_DESK),
            ("a text", b"no database at all\n" * 100, FILE),
            ("zeros", bytes(8192), FILE),
        ]:
            file.write_bytes(octets)
            refused(program, commands, what, file, wanted)
            removed(file)
        execute(file, "CREATE TABLE note (id INTEGER PRIMARY KEY, text TEXT)")
        refused(program, commands, "somebody's database", file, NOT_A_DESK)
        for what, text, wanted in UNMADE:
            removed(file)
            execute(file, f"CREATE TABLE note (id INTEGER PRIMARY KEY); {text}")
            refused(program, [["init", "town.db"]], f"init with a table and {what}", file, wanted)
        for what, text, wanted in CHANGED:
            removed(file)
            subprocess.run([program, "init", file], check=True)
            execute(file, text)
            refused(program, commands, what, file, wanted)
        whole = heard(program, folder)
        unmoved(program, whole, folder)
        out_of_range(program, whole, folder)


if __name__ == "__main__":
    main()
