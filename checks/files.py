#!/usr/bin/env python3
"""Checks that the commands on a file end as docs/HANDBOOK.md describes, over real files, sockets and signals.

    checks/files.py [--program FILE] [--only NAME,..]

Each part is a function below, with what it does, and begins in a folder of its own. All parts are run, and what isn't as in the
handbook is printed; then the status is 1. `slow_clients` takes a minute and a half. The program is `./desk`, which is proved
and built first if it isn't current, or with --program the built one in FILE.
"""

import argparse
import json
import os
import re
import resource
import shutil
import signal
import socket
import sqlite3
import subprocess
import sys
import tempfile
import time
from collections import Counter
from pathlib import Path

from common import ROOT, TABLES, add_program, ready, text_of
from http_client import asked, body, free_port, get, post, posted, received
from mixed_operation import mixed_operation

EXAMPLES = ROOT / "examples"
REGISTRY = (EXAMPLES / "1-registry.jsonl").read_text()
MESSAGES = "".join(path.read_text() for path in sorted(EXAMPLES.glob("[1-4]-*.jsonl")))
ANSWERS = "".join((EXAMPLES / "day.txt").read_text().splitlines(keepends=True)[: MESSAGES.count("\n")])
REPORT = (EXAMPLES / "evening-report.csv").read_text()
HEADER = REPORT.splitlines(keepends=True)[0]
# commands that print a report or a list, without FILE
READING = [
    ["report", "town", "2024-02"],
    ["bands", "gw-a"],
    ["list", "owners"],
    ["device", "0004a30b001a2b3c"],
    ["receptions", "0004a30b001a2b3c", "2024-02"],
    ["downlinks", "gw-a", "2024-02"],
]
LIMIT = '{"ProtocolVersion":"1.0","SenderID":"office","ReceiverID":"desk","TransactionID":6,"MessageType":"LimitSet","Gateway":"gw-a","Band":"B1","Limit":0}\n'
LIMIT_ANSWER = '{"MessageType":"LimitSetAns","ProtocolVersion":"1.0","ReceiverID":"office","Result":{"Description":"","ResultCode":"Success"},"SenderID":"desk","TransactionID":6}\n'
REFUSED_SENDER = '"ResultCode":"UnknownSender"'
SIZE = 16_777_216
ENDED = 20


class Desk:
    """The program, and what wasn't as in the handbook."""

    def __init__(self, program):
        self.program = program
        self.faults = []

    def wants(self, holds, what):
        if not holds:
            print(f"  NOT SO: {what}")
            self.faults.append(what)

    def run(self, *words, given="", **more):
        """Its status, standard output and standard error."""
        ran = subprocess.run([self.program, *map(str, words)], input=given, capture_output=True, text=True, timeout=600, **more)
        return ran.returncode, ran.stdout, ran.stderr

    def ends(self, status, told, *words, given="", written=""):
        found = self.run(*words, given=given)
        self.wants(found == (status, written, told), f"{' '.join(map(str, words))}: wanted {status} {told!r}, and it ends with {found!r}"[:600])

    def made(self, name="town.db", given=MESSAGES):
        """A file with these messages."""
        file = Path(name)
        self.ends(0, "", "init", file)
        if given:
            self.ends(0, "", "hear", file, given=given, written=ANSWERS[: nth(ANSWERS, given.count("\n"))])
        return file

    def serving(self, file, count):
        """A program that listens, and its port."""
        port = free_port()
        words = [self.program, "serve", str(file), "--port", str(port), "--count", str(count)]
        program = subprocess.Popen(words, stdout=subprocess.PIPE, stderr=subprocess.PIPE, text=True)
        line = program.stdout.readline()
        self.wants(line == f"listening 127.0.0.1:{port}\n", f"serve prints {line!r} first")
        return program, port

    def ended(self, program):
        try:
            _, told = program.communicate(timeout=ENDED)
        except subprocess.TimeoutExpired:
            program.kill()
            program.communicate()
            return self.wants(False, f"serve hasn't ended after {ENDED} seconds")
        return self.wants((program.returncode, told) == (0, ""), f"serve ends with {program.returncode} {told!r}")


def nth(text, count):
    """Where that many lines of the text end."""
    return sum(map(len, text.splitlines(keepends=True)[:count]))


def octets_of(file):
    return {path.name: path.read_bytes() for path in Path().glob(f"{file.name}*") if not path.name.endswith("-shm")}


def execute(file, text, words=""):
    conn = sqlite3.connect(f"file:{file}{words}", uri=True, timeout=0)
    try:
        found = conn.execute(text).fetchall()
        conn.commit()
        return found
    finally:
        conn.close()


def rows_of(file, words="?mode=ro"):
    tables = execute(file, "SELECT name FROM sqlite_schema WHERE type = 'table' ORDER BY rowid", words)
    return {table: execute(file, f"SELECT * FROM {table} ORDER BY rowid", words) for (table,) in tables}


def replies(file):
    return execute(file, "SELECT count(*) FROM reply", "?mode=ro")[0][0]


def making(desk):
    """A file is made once, and a desk's stays as it is."""
    file = desk.made(given="")
    desk.ends(0, "", "hear", file)
    desk.ends(0, "", "hear", file, given=MESSAGES, written=ANSWERS)
    before = octets_of(file)
    desk.ends(1, "desk: exists\n", "init", file)
    desk.wants(octets_of(file)["town.db"] == before["town.db"], "init of a desk's file leaves it as it was")
    desk.ends(0, "", "hear", file, given=MESSAGES, written=ANSWERS)
    desk.wants(replies(file) == MESSAGES.count("\n"), "messages sent again are stored once")


def options(desk):
    """The four options are kept in the file."""
    desk.ends(0, "", "init", "port.db", "--receiver", "desk-2", "--operator", "harbour", "--base", "01B00000", "--addresses", "7")
    found = execute(Path("port.db"), "SELECT version, receiver, operator, base, addresses FROM meta", "?mode=ro")
    desk.wants(found == [(2, "desk-2", "harbour", 0x01B0_0000, 7)], f"the file has {found}")


def missing(desk):
    """A file that isn't there is refused, and not made."""
    for words in (["hear"], ["import", "--sender", "bridge"], *READING, ["check"], ["audit"], ["migrate"]):
        desk.ends(3, "desk: file\n", words[0], "nothing.db", *words[1:], given=HEADER)
    desk.ends(3, "desk: file\n", "serve", "nothing.db", "--port", str(free_port()), "--count", "1")
    desk.wants(not list(Path().iterdir()), f"no file is made: {list(Path().iterdir())}")
    desk.ends(3, "desk: file\n", "init", "nowhere/town.db")


def not_desks(desk):
    """Files that are not a desk are refused, and left as they are."""
    Path("text.db").write_text("no database at all\n" * 1000)
    execute("other.db", "CREATE TABLE note (id INTEGER PRIMARY KEY)")
    version = desk.made("version.db", REGISTRY)
    execute(version, "UPDATE meta SET version = 7")
    without = desk.made("without.db", REGISTRY)
    execute(without, "DELETE FROM meta")
    for name, status, told in [
        ("text.db", 3, "desk: file\n"),
        ("other.db", 1, "desk: not a desk\n"),
        ("without.db", 1, "desk: not a desk\n"),
        ("version.db", 1, "desk: schema\n"),
    ]:
        before = Path(name).read_bytes()
        desk.ends(status, told, "hear", name, given=REGISTRY)
        desk.ends(status, told, "report", name, "town", "2024-02")
        desk.ends(status, told, "check", name)
        desk.ends(status, told, "migrate", name)
        desk.ends(status, told, "serve", name, "--port", str(free_port()), "--count", "1")
        desk.wants(Path(name).read_bytes() == before, f"{name} is left as it was")
    desk.ends(1, "desk: not a desk\n", "init", "other.db")
    desk.ends(3, "desk: file\n", "init", "text.db")


def schema_1(desk, name):
    """A file with the messages, as one has them that was made before there were limits."""
    file = desk.made(name)
    execute(file, "DROP TABLE band_limit")
    execute(file, "UPDATE meta SET version = 1")
    return file


def without_room():
    """The log is out of space for a transaction, and the first file has none at all."""
    signal.signal(signal.SIGXFSZ, signal.SIG_IGN)
    resource.setrlimit(resource.RLIMIT_FSIZE, (8_192, 8_192))


def with_little_room():
    """A new database can be opened, and a desk with some hundred messages doesn't fit."""
    signal.signal(signal.SIGXFSZ, signal.SIG_IGN)
    resource.setrlimit(resource.RLIMIT_FSIZE, (307_200, 307_200))


def earlier(desk):
    """A file of schema 1 is refused by every command but `migrate`, by that one where the disk is full, and left as it is."""
    file = schema_1(desk, "town.db")
    before = file.read_bytes()
    for words in (["hear"], ["import", "--sender", "bridge"], *READING, ["check"], ["audit"]):
        desk.ends(1, "desk: schema\n", words[0], file, *words[1:], given=HEADER)
    desk.ends(1, "desk: schema\n", "serve", file, "--port", str(free_port()), "--count", "1")
    desk.ends(1, "desk: exists\n", "init", file)
    status, _, told = desk.run("migrate", file, preexec_fn=without_room)
    desk.wants((status, told) == (3, "desk: unavailable\n"), f"migrate without room ends with {status} {told!r}")
    taken = schema_1(desk, "taken.db")
    execute(taken, "CREATE TABLE band_limit (id INTEGER PRIMARY KEY)")
    taken_before = taken.read_bytes()
    desk.ends(1, "desk: exists\n", "migrate", taken)
    desk.wants((file.read_bytes(), taken.read_bytes()) == (before, taken_before), "what isn't moved is left as it was")
    desk.ends(0, "", "migrate", file)


def migrating(desk):
    """A file of schema 1 is moved by `migrate` once, with what it has, and then has limits."""
    file = schema_1(desk, "town.db")
    rows = rows_of(file)
    desk.ends(0, "", "migrate", file)
    desk.wants(rows_of(file) == {**rows, "meta": [(1, 2, *rows["meta"][0][2:])], "band_limit": []}, "all rows are moved")
    desk.ends(0, "", "hear", file, given=MESSAGES + LIMIT, written=ANSWERS + LIMIT_ANSWER)
    desk.ends(0, "", "report", file, "town", "2024-02", written=(EXAMPLES / "owner-report.csv").read_text())
    desk.ends(0, "", "bands", file, "gw-a", written=(EXAMPLES / "band-report.csv").read_text().replace("B1,3600000", "B1,0"))
    counted = {line.partition(": ")[0]: line.partition(": ")[2] for line in desk.run("check", file)[1].splitlines()}
    desk.wants((counted.get("schema"), counted.get("limits")) == ("2", "1"), f"check counts {counted}")
    desk.ends(0, "", "audit", file, written=f"heard: {counted.get('replies')}\nin order\n")
    before = file.read_bytes()
    desk.ends(1, "desk: schema\n", "migrate", file)
    desk.wants(file.read_bytes() == before, "a file that was moved is left as it is")


def links(desk):
    """A link is followed, to the log too; a file with two names is refused."""
    file = desk.made(given=REGISTRY)
    os.symlink(file, "link.db")
    wanted = desk.run("bands", file, "gw-a")
    desk.wants(wanted[0] == 0 and desk.run("bands", "link.db", "gw-a") == wanted, "by a link it is the same desk")
    desk.wants(sorted(path.name for path in Path().iterdir()) == ["link.db", "town.db", "town.db-wal"], "a link has no log of its own")
    os.link(file, "second.db")
    desk.ends(3, "desk: file\n", "bands", file, "gw-a")
    os.unlink("second.db")
    desk.wants(desk.run("bands", file, "gw-a")[0] == 0, "with one name it is read again")


def usage(desk):
    """Words that name no command: status 2, and nothing on standard output."""
    for words in (
        [],
        ["hear"],
        ["serve", "town.db"],
        ["serve", "town.db", "--port", "0", "--count", "1"],
        ["serve", "town.db", "--port", "65536", "--count", "1"],
        ["serve", "town.db", "--port", "8080", "--count", "1000001"],
        ["import", "town.db"],
        ["import", "town.db", "--sender", "a b"],
        ["report", "town.db", "town"],
        ["migrate"],
        ["migrate", "town.db", "--base", "01b00000"],
        ["--help"],
        ["serve", "--help"],
    ):
        status, written, told = desk.run(*words)
        desk.wants((status, written) == (2, "") and told, f"{words} ends with {status} {written!r} {told!r}")
    desk.wants(not list(Path().iterdir()), "no file is made by words that are wrong")


def reports(desk):
    """Both reports, and what is refused of them."""
    file = desk.made()
    desk.ends(0, "", "report", file, "town", "2024-02", written=(EXAMPLES / "owner-report.csv").read_text())
    desk.ends(0, "", "bands", file, "gw-a", written=(EXAMPLES / "band-report.csv").read_text())
    desk.ends(1, "desk: owner\n", "report", file, "nobody", "2024-02")
    desk.ends(1, "desk: month\n", "report", file, "nobody", "2024-13")
    desk.ends(1, "desk: gateway\n", "bands", file, "gw-z")


def importing(desk):
    """What is refused of a report imports nothing; an unknown sender is reported in the answers."""
    file = desk.made()
    words = "import", file, "--sender", "bridge"
    for fault, given in [
        ("end", REPORT[:-1]),
        ("end", ""),
        ("header", REPORT.replace("transaction", "number", 1)),
        ("header", REPORT[len(HEADER) :]),
        ("record 3", REPORT.replace("13,FrameHeard", "13,FrameSeen")),
        ("record 5", REPORT + "15,FrameHeard,gw-b\n"),
        ("size", REPORT + "\n" * SIZE),
        ("size", HEADER + REPORT[len(HEADER) :].splitlines(keepends=True)[0] * 100_001),
    ]:
        desk.ends(1, f"desk: csv {fault}\n", *words, given=given)
    desk.wants(replies(file) == MESSAGES.count("\n"), "a report that is refused imports nothing")
    status, written, told = desk.run("import", file, "--sender", "roof", given=REPORT)
    desk.wants((status, told, written.count(REFUSED_SENDER)) == (0, "", 3), f"an unknown sender: {status} {told!r} {written}")
    first = desk.run(*words, given=REPORT)
    desk.wants(first[0] == 0 and first[1].count('"ResultCode":"Success"') == 3, f"the report: {first}")
    desk.wants(desk.run(*words, given=REPORT) == first, "the same report once more gets the same answers")
    desk.ends(0, "", *words, given=HEADER)


def held(desk):
    """A file is one program's: others are refused, and reports are asked of the one that serves."""
    file = desk.made()
    program, port = desk.serving(file, 3)
    for words in (["hear"], *READING, ["check"], ["audit"], ["migrate"], ["import", "--sender", "bridge"]):
        desk.ends(3, "desk: file\n", words[0], file, *words[1:], given=HEADER)
    desk.ends(3, "desk: file\n", "init", file)
    try:
        execute(file, "SELECT * FROM meta", "?mode=ro")
        desk.wants(False, "sqlite3 reads a file that a program has")
    except sqlite3.OperationalError as error:
        desk.wants(str(error) == "database is locked", f"sqlite3 prints {error}")
    other = subprocess.run(["sqlite3", f"file:{file}?mode=ro", ".backup copy.db"], capture_output=True, text=True)
    desk.wants("locked" in other.stderr, f"sqlite3's .backup prints {other.stderr!r}")
    desk.ends(3, "desk: network\n", "serve", desk.made("other.db", ""), "--port", str(port), "--count", "1")
    desk.wants(body(asked(port, get("/v1/bands/gw-a"))) == (EXAMPLES / "band-report.csv").read_text(), "the bands by HTTP")
    desk.wants(body(asked(port, get("/v1/reports/town/2024-02"))) == (EXAMPLES / "owner-report.csv").read_text(), "the report by HTTP")
    desk.wants(asked(port, get("/v1/reports/town/2024-13")).startswith(b"HTTP/1.1 400 "), "no month by HTTP")
    desk.ended(program)
    desk.ends(0, "", "hear", file, given=MESSAGES, written=ANSWERS)


def responses(desk):
    """Statuses, and a body that stays unread: the client gets its 413 and isn't reset."""
    file = desk.made(given="")
    first, answer = MESSAGES.splitlines()[0], ANSWERS.splitlines()[0]
    long = b"POST /v1/messages HTTP/1.1\r\ncontent-length: 65537\r\n\r\n" + b" " * 65_537
    cases = [
        (post(first), b"200", answer),
        (post(first), b"200", answer),
        (post(first.replace("bridge", "roof")), b"409", None),
        (post("{"), b"400", None),
        (long, b"413", "size\n"),
        (get("/v1/else"), b"404", "route\n"),
        (get("/v1/messages"), b"405", "method\n"),
        (b"POST /v1/messages HTTP/1.1\r\n\r\n", b"411", "length\n"),
        (b"no head\r\n\r\n", b"400", "head\n"),
        (get("/v1/bands/gw-z"), b"404", "gateway\n"),
        (get("/v1/reports/town/2024-02"), b"404", "owner\n"),
        (get("/v1/owners"), b"200", "owner,devices\n"),
        (get("/v1/devices/0004a30b001a2b3c"), b"404", "device\n"),
        (get("/v1/devices/"), b"404", "route\n"),
        (get("/v1/receptions/0004a30b001a2b3c/2024-02"), b"404", "device\n"),
        (get("/v1/downlinks/gw-z/2024-02"), b"404", "gateway\n"),
        (get("/v1/downlinks/gw-z/2024-13"), b"400", "time\n"),
        (get("/v1/answers/1"), b"200", answer + "\n"),
        (get("/v1/log/02"), b"200", ""),
        (get("/v1/log/0"), b"400", "number\n"),
    ]
    program, port = desk.serving(file, len(cases) + 2)
    for octets, status, wanted in cases:
        response = asked(port, octets)
        agrees = response.startswith(b"HTTP/1.1 " + status + b" ") and wanted in (None, body(response))
        desk.wants(agrees, f"{octets[:60]}: {response[:300]}")
    response = asked(port, post(first)[:-1], shut=True)
    desk.wants(response.startswith(b"HTTP/1.1 400 ") and body(response) == "body\n", f"a body that is cut off: {response}")
    desk.wants(asked(port, b"", shut=True) == b"", "no octets get no response")
    desk.ended(program)


def killed(desk):
    """What was answered before a kill is there, and the file is sound; the copy of the two files too."""
    for count in (1, 5, 16):
        file = desk.made(f"killed-{count}.db", "")
        program, port = desk.serving(file, 100)
        bodies = [posted(port, line) + "\n" for line in MESSAGES.splitlines()[:count]]
        program.send_signal(signal.SIGKILL)
        program.communicate()
        desk.wants("".join(bodies) == ANSWERS[: nth(ANSWERS, count)], "the answers before the kill")
        for path in Path().glob(f"{file}*"):
            shutil.copy(path, f"copy-of-{path}")
        for name in (str(file), f"copy-of-{file}"):
            desk.wants(replies(name) == count, f"{name}: sqlite3 finds the {count} messages")
            desk.ends(0, "", "hear", name, given=MESSAGES, written=ANSWERS)
            desk.wants(execute(name, "PRAGMA integrity_check", "?mode=ro") == [("ok",)], f"{name} is sound")
            desk.wants(replies(name) == MESSAGES.count("\n"), f"{name}: each message is kept once")


def backups(desk):
    """A copy of both files, and sqlite3's .backup, are desks; the first file alone is too, after the program has ended."""
    file = desk.made()
    files = sorted(path.name for path in Path().iterdir())
    desk.wants(files == ["town.db", "town.db-wal"], f"after the program the folder has {files}")
    for name in files:
        shutil.copy(name, name.replace("town", "copied"))
    shutil.copy(file, "alone.db")
    made = subprocess.run(["sqlite3", f"file:{file}?mode=ro", ".backup backup.db"], capture_output=True, text=True)
    desk.wants((made.returncode, made.stderr) == (0, ""), f"sqlite3's .backup: {made}")
    for name in ("copied.db", "backup.db", "alone.db", "town.db"):
        desk.ends(0, "", "hear", name, given=MESSAGES, written=ANSWERS)
        desk.ends(0, "", "report", name, "town", "2024-02", written=(EXAMPLES / "owner-report.csv").read_text())
    desk.wants(not Path("town.db-shm").exists() or desk.run("bands", file, "gw-a")[0] == 0, "a -shm that sqlite3 left is no hindrance")


def moved(desk, file, count):
    """sqlite3 finds all rows in a copy of the file alone."""
    shutil.copy(file, "alone.db")
    alone = rows_of("alone.db", "?immutable=1")
    desk.wants(len(alone["reply"]) == count, f"{file} alone holds {len(alone['reply'])} messages, and not {count}")
    desk.wants(alone == rows_of(file), f"{file} alone holds what it does with its log")


def page_size(file):
    return int.from_bytes(file.read_bytes()[16:18], "big")


def has_nameless(program, name):
    """Whether the running program has a file open that had this name and has none now."""
    if program.poll() is not None:
        raise RuntimeError(f"it ended with {program.returncode} before it had opened {name}")
    folder = Path(f"/proc/{program.pid}/fd")
    for number in os.listdir(folder):
        try:
            if os.readlink(folder / number).endswith(f"/{name} (deleted)"):
                return True
        except FileNotFoundError:
            pass
    return False


def scratch_files(desk):
    """`audit --scratch` makes a new file and removes its name once it is open. Where something is, it does nothing."""
    file, other = desk.made(), desk.made("other.db")
    status, _, told = desk.run("hear", file, given=more_messages(500))
    desk.wants((status, told) == (0, ""), f"hear ends with {status} {told!r}")
    execute(other, "UPDATE device SET floor = NULL WHERE rowid = 1")
    in_order = f"heard: {replies(file)}\nin order\n"
    # An audit leaves the audited file's log, empty.
    desk.ends(0, "", "audit", file, written=in_order)
    desk.ends(1, "desk: differs at device 1\n", "audit", other)
    Path("text").write_text("no database\n")
    Path("folder").mkdir()
    os.symlink("nothing", "link")
    Path("log.db-wal").write_text("a log alone\n")

    def contents():
        """Of each file by its name. The empty log of a desk that is opened has other octets each time."""
        logs = {f"{file}-wal", f"{other}-wal"}
        return {path.name: path.name in logs or path.is_file() and path.read_bytes() for path in Path().iterdir()}

    before = contents()

    def is_as_before(what):
        after = contents()
        desk.wants(after == before, f"after {what}: {[name for name in after | before if after.get(name) != before.get(name)]} differ")

    desk.ends(0, "", "audit", file, "--scratch", "scratch.db", written=in_order)
    desk.ends(1, "desk: differs at device 1\n", "audit", other, "--scratch", "scratch.db")
    desk.ends(3, "desk: file\n", "audit", "nothing.db", "--scratch", "scratch.db")
    desk.ends(3, "desk: file\n", "audit", file, "--scratch", "nowhere/scratch.db")
    for name in ("text", "folder", "link", "log.db", file, other):
        desk.ends(1, "desk: exists\n", "audit", file, "--scratch", name)
        desk.ends(1, "desk: exists\n", "audit", "nothing.db", "--scratch", name)
    # Without room the scratch file can't be opened, and with little room the second desk can't be stored in it.
    for limits, line in ((without_room, "desk: file\n"), (with_little_room, "desk: unavailable\n")):
        ended = desk.run("audit", file, "--scratch", "scratch.db", preexec_fn=limits)
        desk.wants(ended == (3, "", line), f"where the disk is full the audit ends with {ended!r}")
    is_as_before("audits")
    for delay in (0, 0.02, 0.05):
        program = subprocess.Popen([desk.program, "audit", file, "--scratch", "scratch.db"], stdout=subprocess.DEVNULL)
        while not has_nameless(program, "scratch.db"):
            pass
        time.sleep(delay)
        program.kill()
        desk.wants(program.wait() < 0, "the audit ended before it was killed")
        is_as_before(f"an audit that was killed {delay} s after its file lost its name")


def smaller_pages(desk):
    """A desk in an empty file that sqlite3 made with pages of 2,048 octets keeps them, and is the same desk otherwise."""
    usual, file = desk.made("usual.db"), Path("town.db")
    made = subprocess.run(["sqlite3", file, "PRAGMA page_size = 2048; VACUUM"], capture_output=True, text=True)
    desk.wants((made.returncode, made.stderr, page_size(file)) == (0, "", 2_048), f"sqlite3 makes an empty file: {made}")
    desk.ends(0, "", "init", file)
    desk.ends(1, "desk: exists\n", "init", file)
    desk.ends(0, "", "hear", file, given=MESSAGES, written=ANSWERS)
    for words, given in [
        (["import", "--sender", "bridge"], REPORT),
        (["report", "town", "2024-02"], ""),
        (["bands", "gw-a"], ""),
        (["list", "devices"], ""),
        (["device", "0004a30b001a2b3c"], ""),
        (["receptions", "0004a30b001a2b3c", "2024-02"], ""),
        (["downlinks", "gw-a", "2024-02"], ""),
        (["check"], ""),
        (["audit"], ""),
        (["log"], ""),
        (["log", "--answers"], ""),
        (["hear"], more_messages(500)),
    ]:
        found, wanted = (desk.run(words[0], name, *words[1:], given=given) for name in (file, usual))
        desk.wants(found == wanted and found[0] == 0, f"{words}: {found[0]} {found[2]!r}, and {wanted[0]} {wanted[2]!r} on usual pages")
    program, port = desk.serving(file, 10)
    desk.wants(posted(port, LIMIT) + "\n" == LIMIT_ANSWER, "a message over HTTP")
    program.send_signal(signal.SIGKILL)
    program.communicate()
    desk.ends(0, "", "hear", usual, given=LIMIT, written=LIMIT_ANSWER)
    desk.ends(0, "", "hear", file, given=LIMIT, written=LIMIT_ANSWER)
    desk.wants(rows_of(file) == rows_of(usual), "the rows are those of the file with usual pages")
    made = subprocess.run(["sqlite3", f"file:{file}?mode=ro", ".backup backup.db"], capture_output=True, text=True)
    desk.wants((made.returncode, made.stderr) == (0, ""), f"sqlite3's .backup: {made}")
    desk.wants(desk.run("check", "backup.db") == desk.run("check", usual), "the backup is the same desk")
    execute(file, "DROP TABLE band_limit")
    execute(file, "UPDATE meta SET version = 1")
    desk.ends(0, "", "migrate", file)
    desk.ends(0, "", "hear", file, given=MESSAGES, written=ANSWERS)
    sizes = [page_size(Path(name)) for name in (file, "backup.db", usual)]
    desk.wants(sizes == [2_048, 2_048, 4_096], f"the files have pages of {sizes} octets")


def town_of_its_own():
    """The four options of a town's desk, and lines for it: messages of all types, refused, repeated and copied ones among them."""
    options = ["--receiver", "town-desk", "--operator", "clerk", "--base", "01b00000", "--addresses", "150"]
    lines = []
    for line in mixed_operation(3_200, seed=7, devices=100):
        line = line.replace('"ReceiverID":"desk"', '"ReceiverID":"town-desk"').replace('"SenderID":"office"', '"SenderID":"clerk"')
        # the address of a data frame, its last octet first
        lines.append(re.sub(r'("PHYPayload":"[46]0....)a001', r"\1b001", line))
    return options, text_of(lines)


def copied_by_log(desk):
    """What `log` prints makes the same desk in a new file, as a whole and in three parts that overlap."""
    options, lines = town_of_its_own()
    file = Path("town.db")
    desk.ends(0, "", "init", file, *options)
    desk.run("hear", file, given=lines)
    wanted = rows_of(file)
    desk.wants(sorted(wanted) == sorted(TABLES), f"the file has the tables {sorted(wanted)}")
    _, messages, _ = desk.run("log", file)
    _, answers, _ = desk.run("log", file, "--answers")
    results = Counter((answer["MessageType"], answer["Result"]["Description"]) for answer in map(json.loads, answers.splitlines()))
    heard, types = results.total(), {name for name, refusal in results if not refusal}
    refusals = {refusal for _, refusal in results if refusal}
    desk.wants(heard >= 3_000 and len(types) == 10 and len(refusals) >= 15, f"of {heard} messages {types} succeed, refused by {refusals}")
    parts = {"whole": [(1, heard)], "parts": [(1, 1_200), (1_000, 1_200), (2_000, heard)]}
    for name, ranges in parts.items():
        other = Path(f"{name}.db")
        desk.ends(0, "", "init", other, *options)
        for first, count in ranges:
            given, written = ("".join(text.splitlines(keepends=True)[first - 1 :][:count]) for text in (messages, answers))
            desk.ends(0, "", "log", file, "--from", str(first), "--count", str(count), written=given)
            desk.ends(0, "", "hear", other, given=given, written=written)
        for table, rows in rows_of(other).items():
            desk.wants(rows == wanted[table], f"{other} has other rows in {table}")
        for log, options_of_log in ((messages, []), (answers, ["--answers"])):
            desk.ends(0, "", "log", other, *options_of_log, written=log)


def moved_logs(desk):
    """When a command has ended, its log has been moved into the file."""
    file, count = desk.made(given=""), MESSAGES.count("\n")
    moved(desk, file, 0)
    desk.ends(0, "", "hear", file, given=MESSAGES, written=ANSWERS)
    moved(desk, file, count)
    records = REPORT.count("\n") - 1
    desk.wants(desk.run("import", file, "--sender", "bridge", given=REPORT)[0] == 0, "import")
    moved(desk, file, count + records)
    program, port = desk.serving(file, 1)
    desk.wants(posted(port, LIMIT.replace('"TransactionID":6,', '"TransactionID":9000,')).find("Success") > 0, "a message over HTTP")
    desk.ended(program)
    moved(desk, file, count + records + 1)
    first = schema_1(desk, "first.db")
    desk.ends(0, "", "migrate", first)
    moved(desk, first, replies(first))


def full_disk(desk):
    """No file may grow: what can't be kept isn't answered, and the same lines again are heard once there is room."""

    def limited():
        signal.signal(signal.SIGXFSZ, signal.SIG_IGN)
        # of each file: some of the log, which is emptied into the other file only when it has 4 MB
        room = sum(path.stat().st_size for path in Path().iterdir()) + 1_000_000
        resource.setrlimit(resource.RLIMIT_FSIZE, (room, room))

    file = desk.made(given=REGISTRY)
    status, written, told = desk.run("hear", file, given=MESSAGES * 2 + more_messages(2000), preexec_fn=limited)
    desk.wants((status, told) == (3, "desk: unavailable\n"), f"without room it ends with {status} {told!r}")
    desk.wants(written.startswith(ANSWERS * 2), "the answers before are there")
    answered = written.count("\n")
    desk.wants(answered < 2000, f"{answered} answers were written")
    status, again, told = desk.run("hear", file, given=MESSAGES * 2 + more_messages(2000))
    desk.wants((status, told) == (0, "") and again.startswith(written), "with room the same lines get the same answers, and go on")
    desk.wants(replies(file) == MESSAGES.count("\n") + 2000, "each message is kept once")


def more_messages(count):
    owner = '{{"ProtocolVersion":"1.0","SenderID":"office","ReceiverID":"desk","TransactionID":{n},"MessageType":"OwnerAdd","Owner":"owner-{n}"}}\n'
    return "".join(owner.format(n=n) for n in range(1000, 1000 + count))


def full_output(desk):
    """Where standard output fails, the message is heard all the same, and its line again gets its answer."""
    file = desk.made(given="")
    with open("/dev/full", "w") as full:
        ran = subprocess.run([desk.program, "hear", str(file)], input=MESSAGES, stdout=full, stderr=subprocess.PIPE, text=True)
    desk.wants((ran.returncode, ran.stderr) == (3, "desk: file\n"), f"a full output: {ran.returncode} {ran.stderr!r}")
    desk.ends(0, "", "hear", file, given=MESSAGES, written=ANSWERS)


def this_machine_alone(desk):
    """The port is listened at on 127.0.0.1, and on no other address of the machine."""
    program, port = desk.serving(desk.made(given=""), 1)
    lines = [line.split() for name in ("tcp", "tcp6") for line in Path(f"/proc/net/{name}").read_text().splitlines()[1:]]
    # of each socket that listens: its address, in hexadecimal digits, and its port
    at = [address for address, _, found in (line[1].partition(":") for line in lines if line[3] == "0A") if int(found, 16) == port]
    desk.wants(at == ["0100007F"], f"serve listens at {at}")
    desk.wants(posted(port, MESSAGES.splitlines()[0]) + "\n" == ANSWERS[: nth(ANSWERS, 1)], "a client of this machine is served")
    desk.ended(program)


def slow_clients(desk):
    """Who sends nothing is let go after one second, and who sends an octet now and then after ten; then others are served."""
    file = desk.made(given="")
    program, port = desk.serving(file, 4)
    begun = time.monotonic()
    with socket.create_connection(("127.0.0.1", port), timeout=60) as connection:
        desk.wants(received(connection) == b"", "who sends nothing gets no response")
    took = time.monotonic() - begun
    desk.wants(0.9 < took < 3, f"who sends nothing is let go after {took:.1f} s")
    desk.wants(posted(port, MESSAGES.splitlines()[0]) + "\n" == ANSWERS[: nth(ANSWERS, 1)], "the next is served")
    begun = time.monotonic()
    with socket.create_connection(("127.0.0.1", port), timeout=0.1) as connection:
        for octet in post(MESSAGES.splitlines()[1]):
            try:
                connection.sendall(bytes([octet]))
                if connection.recv(1) == b"":
                    break
            except TimeoutError:
                time.sleep(2)
            except OSError:
                break
    took = time.monotonic() - begun
    desk.wants(9 < took < 15, f"who sends an octet every two seconds is let go after {took:.1f} s")
    second = ANSWERS[nth(ANSWERS, 1) : nth(ANSWERS, 2)]
    desk.wants(posted(port, MESSAGES.splitlines()[1]) + "\n" == second, "the next is served")
    desk.ended(program)


PARTS = [
    making,
    options,
    missing,
    not_desks,
    earlier,
    migrating,
    links,
    usage,
    reports,
    importing,
    held,
    responses,
    killed,
    backups,
    scratch_files,
    smaller_pages,
    copied_by_log,
    moved_logs,
    full_disk,
    full_output,
    this_machine_alone,
    slow_clients,
]


def main():
    words = argparse.ArgumentParser(description=__doc__, formatter_class=argparse.RawDescriptionHelpFormatter)
    add_program(words)
    words.add_argument("--only", default=",".join(part.__name__ for part in PARTS), metavar="NAME,..")
    given = words.parse_args()
    desk = Desk(ready(given.program))
    chosen = [part for part in PARTS if part.__name__ in given.only.split(",")]
    for part in chosen:
        print(f"{part.__name__}: {part.__doc__}", flush=True)
        with tempfile.TemporaryDirectory() as folder:
            os.chdir(folder)
            try:
                part(desk)
            except Exception as error:  # a part that can't go on counts as failed, and the next ones are run
                desk.wants(False, f"{part.__name__} can't go on: {error!r}")
            os.chdir(ROOT)
    print(f"{len(chosen)} parts, {len(desk.faults)} errors")
    sys.exit(bool(desk.faults))


if __name__ == "__main__":
    main()
