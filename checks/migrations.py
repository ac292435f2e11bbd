#!/usr/bin/env python3
"""Moves a file of schema 1 to schema 2, and checks that nothing of it is lost, kills included.

    checks/migrations.py --old PROGRAM [--program FILE] [--messages 200000] [--kills 50] [--seed 1] [--folder FOLDER]

PROGRAM is one of before there were limits. It makes a file of schema 1, which hears --messages messages of mixed operation
as it takes them (mixed_operation.py), answered as a plain Python program answers them (bench/dictionaries.py). Copies of
that file go to the program that is tried:

- `hear` and `migrate` refuse what they have to refuse, and leave the file as it was, octet for octet. In its
  log they leave no transaction; each opening writes its head anew.
- `migrate` moves a copy, and is timed. The real SQLite finds that file whole, with the schema of a file that the program
  makes itself, with each row of the ten tables as it was, but for meta's version, and with no limit. `check` counts what
  PROGRAM counts. The whole stream delivered again gets the first answers, octet for octet, and changes no row. Then
  limits are set, and each row of the eleven tables is that of the plain program.
- `migrate` is killed so often (SIGKILL): at random moments, and now and then as soon as its log holds something. What is
  there then is of schema 1 or 2, with the same rows, and `migrate` once more leaves schema 2. Every second copy is of a
  file whose program was killed too, so that its log holds the last messages.

The program is `./desk`, which is proved and built first if it isn't current, or with --program the built one in
FILE. The copies are in FOLDER, so that it names the disk.
"""

import argparse
import itertools
import json
import random
import signal
import subprocess
import tempfile
import time
from pathlib import Path

from both_stores import compare_rows
from common import TABLES_OF_SCHEMA_1, add_program, copy_to, execute, log_of, reading, ready, removed, text_of, wants
from mixed_operation import MALFORMED, mixed_operation
from dictionaries import BANDS, most_in_an_hour
from normal_operation import GATEWAYS

BAND_LIMIT = "CREATE TABLE band_limit (gateway TEXT NOT NULL, band INTEGER NOT NULL, value INTEGER NOT NULL, PRIMARY KEY (gateway, band)) STRICT"
# a shorter log holds no page
EMPTY_LOG = 512
# messages that only the log has, of a program that was killed
IN_LOG = 50
# transaction numbers that the stream doesn't use
LATER = 1_000_000


class Program:
    def __init__(self, path):
        self.path = path

    def run(self, *words, given=""):
        """Its status, standard output and standard error."""
        ran = subprocess.run([self.path, *map(str, words)], input=given, capture_output=True, text=True)
        return ran.returncode, ran.stdout, ran.stderr

    def ends(self, status, told, *words, given="", written=""):
        ended, lines, said = self.run(*words, given=given)
        command = " ".join(map(str, words))
        wants((ended, said) == (status, told), f"{command}: wanted {status} {told!r}, and it ends with {ended} {said!r}")
        for line, other in itertools.zip_longest(lines.splitlines(), written.splitlines()):
            wants(line == other, f"{command} writes\n{line}\nand not\n{other}")
        wants(lines == written, f"{command} ends its lines otherwise")

    def timed(self, *words):
        begun = time.monotonic()
        self.ends(0, "", *words)
        return time.monotonic() - begun


# ---- files


def log_size(file):
    try:
        return log_of(file).stat().st_size
    except FileNotFoundError:
        return 0


def copied(file, name):
    """A copy of the file and of its log."""
    copy = file.with_name(name)
    removed(copy)
    copy_to(file, copy)
    return copy


def is_left(file, before):
    """Whether the file is as before, and its log holds nothing."""
    return file.read_bytes() == before and log_size(file) < EMPTY_LOG


def schema_of(conn):
    return conn.execute("SELECT type, name, tbl_name, sql FROM sqlite_schema ORDER BY rowid").fetchall()


def rows_of(conn, table, version):
    """Its rows with their rowids, of meta as if it had this version."""
    columns = f"id, {version}, receiver, operator, base, addresses" if table == "meta" else "*"
    return conn.execute(f"SELECT rowid, {columns} FROM {table} ORDER BY rowid")


def same_rows(first, file, made):
    """The version of the schema, where the file is whole, of this schema, and has the first one's rows."""
    with reading(first) as wanted, reading(file) as found:
        (version,) = found.execute("SELECT version FROM meta").fetchone()
        wants(version in (1, 2), f"{file.name} is of schema {version}")
        schema = schema_of(wanted) if version == 1 else made
        wants(schema_of(found) == schema, f"{file.name}: version {version}, and other tables: {schema_of(found)}")
        for table in TABLES_OF_SCHEMA_1:
            pairs = itertools.zip_longest(rows_of(wanted, table, version), rows_of(found, table, "version"))
            for row, other in pairs:
                wants(row == other, f"{file.name}: a row of {table} was {row}, and is {other}")
        if version == 2:
            wants(found.execute("SELECT count(*) FROM band_limit").fetchone() == (0,), f"{file.name} has limits")
        wants(found.execute("PRAGMA integrity_check").fetchall() == [("ok",)], f"SQLite finds {file.name} damaged")
    return version


# ---- files of schema 1


def heard_by(old, folder, lines):
    """A file of schema 1 that has heard the lines, and their answers."""
    file = folder / "town.db"
    old.ends(0, "", "init", file)
    answers = text_of(MALFORMED if answer is None else answer for answer in lines.answers)
    old.ends(0, "", "hear", file, given=text_of(lines), written=answers)
    return file, answers


def heard_and_killed(old, file):
    """A copy that has heard some messages more, which only its log has: its program was killed."""
    copy = copied(file, "killed.db")
    adds = [{"MessageType": "OwnerAdd", "Owner": f"owner-{n}", "TransactionID": LATER + n} for n in range(IN_LOG)]
    head = {"ProtocolVersion": "1.0", "SenderID": "office", "ReceiverID": "desk"}
    with subprocess.Popen([old.path, "hear", copy], stdin=subprocess.PIPE, stdout=subprocess.PIPE) as program:
        program.stdin.write(text_of(json.dumps({**head, **add}) for add in adds).encode())
        program.stdin.flush()
        answers = [program.stdout.readline() for _ in adds]
        program.kill()
    wants(all(b'"ResultCode":"Success"' in answer for answer in answers), f"{old.path} adds no owners: {answers[0]}")
    wants(log_size(copy) > EMPTY_LOG, "the log of a killed program holds nothing")
    return copy


# ---- what is tried


def refused(new, command, told, file):
    before = file.read_bytes()
    new.ends(1, f"desk: {told}\n", command, file)
    wants(is_left(file, before), f"{command} reports {told}, and changes the file")


def refusals(new, first):
    """What `migrate` doesn't move, and what `hear` doesn't open, stays as it was."""
    text, other = first.with_name("text.db"), first.with_name("other.db")
    text.write_text("no database at all\n" * 1000)
    execute(other, "CREATE TABLE note (id INTEGER PRIMARY KEY)")
    new.ends(3, "desk: file\n", "migrate", first.with_name("nothing.db"))
    new.ends(3, "desk: file\n", "migrate", text)
    # the command, what it reports, and what sqlite3 does to a copy before
    cases = [
        ("hear", "schema", ""),
        ("migrate", "exists", BAND_LIMIT),
        ("migrate", "exists", "CREATE TABLE band_limit (id INTEGER PRIMARY KEY)"),
        ("migrate", "schema", "UPDATE meta SET version = 7"),
        ("migrate", "not a desk", "DELETE FROM meta"),
    ]
    for command, told, change in cases:
        file = copied(first, "refused.db")
        execute(file, change)
        refused(new, command, told, file)
    refused(new, "migrate", "not a desk", other)
    print(f"{len(cases) + 3} files are refused and left as they were", flush=True)


def moves(old, new, first, lines, answers, made):
    """Moves a copy, and returns the seconds that it took."""
    file = copied(first, "moved.db")
    seconds = new.timed("migrate", file)
    wants(same_rows(first, file, made) == 2, "migrate leaves schema 1")
    opening = new.timed("hear", file)
    size = file.stat().st_size / 1e6
    print(f"a file of {size:.1f} MB with {len(lines)} messages is moved in {seconds:.3f} s, and opened in {opening:.3f} s", flush=True)
    refused(new, "migrate", "schema", file)
    _, counted, _ = old.run("check", first)
    counted = counted.replace("schema: 1\n", "schema: 2\n").replace("sessions: ", "limits: 0\nsessions: ")
    new.ends(0, "", "check", file, written=counted)
    new.ends(0, "", "hear", file, given=text_of(lines), written=answers)
    wants(same_rows(first, file, made) == 2, "the stream delivered again leaves schema 1")
    print("its rows are those of before, and the stream delivered again gets its first answers", flush=True)
    limits = list(limits_for(lines.desk))
    new.ends(0, "", "hear", file, given=text_of(limits), written=text_of(map(lines.desk.deliver, limits)))
    compare_rows(file, lines.desk)
    removed(file)
    return seconds


def limits_for(desk):
    """For each gateway's bands just what the band holds, which is taken, and one less, which is refused unless that is 0."""
    head = {"ProtocolVersion": "1.0", "SenderID": "office", "ReceiverID": "desk", "MessageType": "LimitSet"}
    for place, (gateway, band) in enumerate(itertools.product(range(GATEWAYS), BANDS)):
        members = {"Gateway": f"gw-{gateway}", "Band": band}
        held = most_in_an_hour(desk.downlinks(members["Gateway"], band))
        for late, limit in enumerate([held, max(0, held - 1)]):
            yield json.dumps({**head, **members, "Limit": limit, "TransactionID": LATER + 2 * place + late})


def is_killed(new, file, moment):
    """Kills a run of `migrate` at this moment, or as soon as the log has something new, unless it has ended by then."""
    before = log_size(file)
    words = [new.path, "migrate", file]
    program = subprocess.Popen(words, stdin=subprocess.DEVNULL, stdout=subprocess.PIPE, stderr=subprocess.PIPE)
    if moment is None:
        while program.poll() is None and (log_size(file) < EMPTY_LOG or log_size(file) == before):
            pass
    else:
        time.sleep(moment)
    program.kill()
    written, told = program.communicate()
    ended = program.returncode, written, told
    wants(ended in ((0, b"", b""), (-signal.SIGKILL, b"", b"")), f"migrate ends with {ended}")
    return program.returncode != 0


def kills(new, firsts, made, count, seconds, chance):
    killed, left = 0, {1: 0, 2: 0}
    for place in range(count):
        first = firsts[place % len(firsts)]
        file = copied(first, "copy.db")
        moment = None if place // len(firsts) % 3 == 2 else chance.uniform(0, 1.2 * seconds)
        was_killed = is_killed(new, file, moment)
        version = same_rows(first, file, made)
        wants(was_killed or version == 2, "migrate ended with status 0, and the file is of schema 1")
        killed += was_killed
        left[version] += 1
        new.ends(*((0, "") if version == 1 else (1, "desk: schema\n")), "migrate", file)
        wants(same_rows(first, file, made) == 2, "migrate once more leaves schema 1")
    print(f"{count} runs, {killed} of them killed before they ended: {left[1]} left schema 1 and {left[2]} schema 2, each with the same rows")


def main():
    words = argparse.ArgumentParser(description=__doc__, formatter_class=argparse.RawDescriptionHelpFormatter)
    words.add_argument("--old", type=Path, required=True, metavar="PROGRAM", help="a program that makes files of schema 1")
    add_program(words)
    words.add_argument("--messages", type=int, default=200_000)
    words.add_argument("--kills", type=int, default=50)
    words.add_argument("--seed", type=int, default=1)
    words.add_argument("--folder", type=Path, help="where the files are meanwhile")
    given = words.parse_args()
    old, new = Program(given.old.resolve()), Program(ready(given.program))
    begun = time.monotonic()
    lines = mixed_operation(given.messages, given.seed, old=True)
    with tempfile.TemporaryDirectory(dir=given.folder) as folder:
        first, answers = heard_by(old, Path(folder), lines)
        fresh = Path(folder) / "fresh.db"
        new.ends(0, "", "init", fresh)
        with reading(fresh) as conn:
            made = schema_of(conn)
        refusals(new, first)
        seconds = moves(old, new, first, lines, answers, made)
        kills(new, [first, heard_and_killed(old, first)], made, given.kills, seconds, random.Random(given.seed))
    print(f"in {time.monotonic() - begun:.0f} s")


if __name__ == "__main__":
    main()
