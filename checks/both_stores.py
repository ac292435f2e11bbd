#!/usr/bin/env python3
"""Compares the store in memory, tables in memory, and tables in a file, message by message.

    checks/both_stores.py [--size 20000] [--seed 1] [--built] [--program FILE]
    checks/both_stores.py --parts N [--first 1] [--size 20000] [--folder FOLDER] [--program FILE]

--size messages of mixed operation (mixed_operation.py) go to each store: to the file in two runs of `desk hear`, and the
second opens what the first one closed. All answers, and both reports on all owners, months and gateways, have
to be the same octets. Then the real SQLite reads the file, and each row of its eleven tables has to be that of a plain
Python program that heard the same messages (bench/dictionaries.py).

The stores in memory are those of the test `stored_lines` of desk_cli, which `rt test` proves and builds first, or with
--built the test that it built last. The program for the file is `./desk`, or with --program the built one in FILE.

With --parts this is done N times, with the seeds from --first on: 500 parts of 20,000 are ten million messages. The
store in memory is that of `desk lines` then. All answers have to be those of the plain program, which hears each message as it is
generated, and each row in the file has to be its row. Reports aren't compared. Every tenth file also passes `desk check` and
`desk audit`. It prints a line for each part, and at the end how many messages got which answer. --folder names where the files are
meanwhile: in memory there are no waits for the disk.
"""

import argparse
import json
import os
import re
import subprocess
import sys
import tempfile
import time
from collections import Counter
from pathlib import Path

from common import ROOT, add_program, reading, ready, removed, text_of, wants
from mixed_operation import MALFORMED, mixed_operation

sys.path.insert(0, str(ROOT / "bench"))
import dictionaries

TESTS = ROOT / "crates" / "desk_cli" / "out" / "desk_cli_tests"
TEST = "tests::stored_lines::lines_over_the_named_store"
TIMES = re.compile(r"^lines: .*microseconds")
RESULT = re.compile(rb'"Description":"(\w*)","ResultCode":"(\w+)"')
PARTS_AN_AUDIT = 10

# what `stored_lines` asks for, in its order
OWNERS = ["town", "city"]
MONTHS = ["2024-01", "2024-02", "2024-03"]
GATEWAYS = [f"gw-{number}" for number in range(9)]

ROLES = {"operator": 0, "radio": 1}
KINDS = {"join": 0, "data": 1}


def told_by(store, lines):
    """What the store in memory answers and reports."""
    ran = subprocess.run(
        [TESTS, TEST],
        env={**os.environ, "DESK_STORE": store},
        input=text_of(lines),
        capture_output=True,
        text=True,
    )
    if ran.returncode != 0:
        sys.exit(f"{store}: {ran.returncode}\n{ran.stdout[-2000:]}{ran.stderr}")
    told = ran.stdout.splitlines()
    # the times come after all of it, and the test's own last lines after them
    return told[: next(place for place, line in enumerate(told) if TIMES.match(line))]


def printed_by(program, *words, lines=(), statuses=(0,)):
    ran = subprocess.run([program, *map(str, words)], input=text_of(lines), capture_output=True, text=True)
    if ran.returncode not in statuses:
        sys.exit(f"{' '.join(map(str, words))}: {ran.returncode} {ran.stderr}")
    return ran.stdout.splitlines()


def reports_in(program, file):
    """Both reports of the file, for all owners, months and gateways that it has."""
    told = []
    for owner in OWNERS:
        for month in MONTHS:
            told += printed_by(program, "report", file, owner, month, statuses=(0, 1))
    for gateway in GATEWAYS:
        told += printed_by(program, "bands", file, gateway, statuses=(0, 1))
    return told


def answers_of(told):
    return [line for line in told if line.startswith("{")]


def rows_of(desk):
    """The rows of the eleven tables, as the plain program's dictionaries have them."""
    nonces = {uplink["number"]: nonce for (_, nonce), uplink in desk.joins.items()}
    counters = {uplink["number"]: counter for (_, counter), uplink in desk.frames.items()}
    of_session = {uplink["session"]: nonces[uplink["number"]] for uplink in desk.joins.values()}
    gateways = {number: gateway for gateway, starts in desk.starts.items() for _, number in starts}
    uplinks, copies = [], []
    for uplink in desk.uplinks:
        number = uplink["number"]
        counter = nonces[number] if uplink["kind"] == "join" else counters[number]
        first = next(iter(uplink["copies"].values()))
        row = number, uplink["session"], KINDS[uplink["kind"]], counter, uplink["octets"], first[0] - uplink["airtime"], uplink["airtime"]
        uplinks.append((*row, int(uplink["band"][1])))
        copies += [(number, gateway, *heard) for gateway, heard in uplink["copies"].items()]
    bookings = [
        (
            number,
            booking["uplink"]["number"],
            gateways[number],
            booking["uplink"]["session"],
            KINDS[booking["uplink"]["kind"]],
            int(booking["band"][1]),
            booking["start"],
            booking["end"] - booking["start"],
            booking["state"],
        )
        for number, booking in enumerate(desk.bookings, 1)
    ]
    write = dictionaries.write
    return {
        "meta": [(1, 2, "desk", "office", dictionaries.BASE, dictionaries.ADDRESSES)],
        "sender": [(name, ROLES[role]) for name, role in desk.senders.items()],
        "reply": [(n, *pair, write(m).encode(), answer.encode()) for n, (pair, (m, answer)) in enumerate(desk.heard.items(), 1)],
        "owner": [(name,) for name in desk.owners],
        "gateway": [(name,) for name in desk.gateways],
        "device": [
            (bytes.fromhex(eui), bytes.fromhex(device["join"]), device["owner"], device["floor"] or None)
            for eui, device in desk.devices.items()
        ],
        "session": [
            (number, bytes.fromhex(session["device"]), of_session[number], session["downlinks"])
            for number, session in enumerate(desk.sessions, 1)
        ],
        "uplink": uplinks,
        "copy": copies,
        "booking": bookings,
        "band_limit": [(gateway, int(band[1]), limit) for (gateway, band), limit in desk.limits.items()],
    }


def rows_that_agree(file, desk):
    """Wants each table to have the plain program's rows. Returns how many rows each has."""
    counts = {}
    with reading(file) as conn:
        for table, wanted in rows_of(desk).items():
            found = conn.execute(f"SELECT * FROM {table}").fetchall()
            if found != wanted and (rows := Counter(found)) != (wanted_rows := Counter(wanted)):
                other, missing = list((rows - wanted_rows).elements())[:3], list((wanted_rows - rows).elements())[:3]
                sys.exit(f"{table}: {len(found)} rows, and {len(wanted)} are wanted; in the file, and wanted: {(other, missing)}")
            counts[table] = len(found)
        wants(conn.execute("PRAGMA integrity_check").fetchall() == [("ok",)], f"SQLite finds {file.name} damaged")
    return counts


def compare_rows(file, desk):
    for table, count in rows_that_agree(file, desk).items():
        print(f"{table}: {count} rows agree")
    print("integrity: ok")


# ---- parts


def run_parts(program, parts, first, size, folder):
    begun, messages, results = time.monotonic(), 0, Counter()
    with tempfile.TemporaryDirectory(dir=folder) as name:
        for seed in range(first, first + parts):
            since = time.monotonic()
            lines = mixed_operation(size, seed)
            generated = time.monotonic()
            answers, rows, audited = run_part(program, Path(name) / "desk.db", lines, seed % PARTS_AN_AUDIT == 0)
            messages += len(lines)
            results.update(RESULT.findall(answers))
            took = f"{generated - since:.1f} s to generate, {time.monotonic() - generated:.1f} s to hear"
            print(f"seed {seed}: {len(lines)} messages, {len(lines.desk.heard)} heard, {rows} rows agree{audited}; {took}", flush=True)
    names = {key: b" ".join(filter(None, reversed(key))).decode() for key in results}
    print(f"{parts} parts from seed {first} on, {messages} messages:", ", ".join(f"{count} {names[key]}" for key, count in results.most_common()))
    print(f"memory, file and the plain program give the same answers, in {(time.monotonic() - begun) / 60:.1f} minutes")


def run_part(program, file, lines, is_audited):
    """The answers, how many rows the file has, and what is printed of an audit."""
    wanted = text_of(answer or MALFORMED for answer in lines.answers).encode()
    half = len(lines) // 2
    output_of(program, "init", file)
    by_file = [output_of(program, "hear", file, given=text_of(part).encode()) for part in (lines[:half], lines[half:])]
    same_answers("lines", output_of(program, "lines", given=text_of(lines).encode()), wanted, lines)
    same_answers("hear", b"".join(by_file), wanted, lines)
    rows, heard = sum(rows_that_agree(file, lines.desk).values()), len(lines.desk.heard)
    if is_audited:
        checked, audited = output_of(program, "check", file), output_of(program, "audit", file)
        wants(f"replies: {heard}\n".encode() in checked, f"check prints {checked}, and {heard} messages were heard")
        wants(audited == f"heard: {heard}\nin order\n".encode(), f"an audit of {heard} messages prints {audited}")
    removed(file)
    return wanted, rows, ", the audit passes" if is_audited else ""


def output_of(program, *words, given=b""):
    ran = subprocess.run([program, *words], input=given, capture_output=True)
    wants((ran.returncode, ran.stderr) == (0, b""), f"{words} ends with {ran.returncode} {ran.stderr}")
    return ran.stdout


def same_answers(command, found, wanted, lines):
    if found != wanted:
        found, wanted = found.splitlines(), wanted.splitlines()
        for line, answer, told in zip(lines, found, wanted):
            wants(answer == told, f"{command} answers\n{line}\nby\n{answer.decode()}\nand the plain program by\n{told.decode()}")
        sys.exit(f"{command} gives {len(found)} answers to {len(wanted)} messages")


def main():
    words = argparse.ArgumentParser(description=__doc__, formatter_class=argparse.RawDescriptionHelpFormatter)
    words.add_argument("--size", type=int, default=20_000)
    words.add_argument("--seed", type=int, default=1)
    words.add_argument("--built", action="store_true", help="take the test that rt test built last")
    words.add_argument("--parts", type=int, metavar="N", help="do it N times, with `desk lines` and without reports")
    words.add_argument("--first", type=int, default=1, metavar="SEED", help="the seed of the first part")
    words.add_argument("--folder", type=Path, help="where the files of the parts are meanwhile")
    add_program(words)
    given = words.parse_args()
    if given.parts:
        run_parts(ready(given.program), given.parts, given.first, given.size, given.folder)
        return
    program = given.program.resolve()
    if not given.built:
        subprocess.run(["rt", "test"], cwd=ROOT / "crates" / "desk_cli", check=True)
    lines = mixed_operation(given.size, given.seed)
    wanted = told_by("lists", lines)
    if any(plain not in (None, answer) for plain, answer in zip(lines.answers, answers_of(wanted), strict=True)):
        sys.exit("the plain program answers something else")
    codes = {}
    for answer in answers_of(wanted):
        result = json.loads(answer)["Result"]
        code = result["ResultCode"] + (" " + result["Description"] if result["Description"] else "")
        codes[code] = codes.get(code, 0) + 1
    print(f"{len(lines)} messages, seed {given.seed}:", ", ".join(f"{count} {code}" for code, count in sorted(codes.items(), key=lambda x: -x[1])))
    if told_by("memory", lines) != wanted:
        sys.exit("tables in memory answer something else")
    print("tables in memory: all answers and reports agree")
    with tempfile.TemporaryDirectory() as folder:
        file = Path(folder) / "desk.db"
        half = len(lines) // 2
        printed_by(program, "init", file)
        first = printed_by(program, "hear", file, lines=lines[:half])
        second = printed_by(program, "hear", file, lines=lines[half:])
        if first + second + reports_in(program, file) != wanted:
            sys.exit("tables in a file answer something else")
        print("tables in a file, opened again in the middle: all answers and reports agree")
        compare_rows(file, lines.desk)


if __name__ == "__main__":
    main()
