#!/usr/bin/env python3
"""Gives the desk changed messages, requests and reports, over a file.

    checks/mutations.py [--program FILE] [--messages 100000] [--requests 20000] [--reports 2000] [--seed 1]

Messages of mixed operation (mixed_operation.py), the requests that post them, and reports of their frames are changed at
random: octets changed, dropped, doubled and exchanged; numbers at the edges of their ranges, limits of bands among them;
other bands, and texts that name none; members doubled; names escaped; values nested; texts as long as a message may be,
and longer. The desk gets some of them as they are, and the changed ones between them: messages by `desk hear` in one run,
requests by `desk serve` one a connection, and reports by `desk import` one a run.

It must never end by a signal or by itself, and has to answer each message and each whole request, with no more memory
than MEMORY to be had. What it reports as heard is then delivered alone to a new desk: its answers are the same, and each row of
the eleven tables is the same. The program is `./desk`, which is proved and built first if it isn't current, or with
--program the built one in FILE.
"""

import argparse
import json
import random
import re
import resource
import subprocess
import tempfile
import time
from pathlib import Path

from common import TABLES, add_program, reading, ready, text_of, wants
from http_client import asked, free_port, post
from mixed_operation import NO_MESSAGE, mixed_operation
from dictionaries import BANDS

# the most of memory that a run is given, in MiB: of addresses, so the program itself and the C library are in it
MEMORY = 64

# what isn't heard, by its ResultCode and Description
UNHEARD = {
    ("Other", "malformed"),
    ("InvalidProtocolVersion", ""),
    ("UnknownReceiver", ""),
    ("UnknownSender", ""),
    ("Other", "transaction"),
    ("Other", "type"),
    ("Other", "body"),
}
EDGES = ["0", "1", "-1", "-0", "1.0", "1e0", "255", "65535", "65536", "4294967295", "4294967296", "9007199254740991", "9007199254740992"]
EDGES += ["946684799999999", "4102444800000001", "18446744073709551615", "18446744073709551616", "1e400", "00", "null", "true", '""', "[]", "{}"]
# a band's own limit, and one above it
EDGES += [str(limit + more) for limit in sorted({limit for _, _, limit in BANDS.values()}) for more in (0, 1)]
BAND_TEXTS = [f'"{band}"' for band in BANDS] + ['"B0"', '"B7"', '"b1"', '"B"', '"B11"', '" B1"', '"B1\\u0000"', "1", "null"]
LONGEST = 65_536


# ---- changes


def octet_changed(text, chance):
    at = chance.randrange(len(text))
    return text[:at] + bytes([chance.choice([chance.randrange(256), text[at] ^ (1 << chance.randrange(8))])]) + text[at + 1 :]


def dropped(text, chance):
    at = chance.randrange(len(text))
    return text[:at] + text[at + chance.choice([1, 1, 1, 8, len(text)]) :]


def doubled(text, chance):
    at = chance.randrange(len(text))
    count = chance.choice([1, 1, 4, 40])
    return text[: at + count] + text[at:]


def exchanged(text, chance):
    at, other = sorted(chance.randrange(len(text)) for _ in range(2))
    return text[:at] + text[other : other + 1] + text[at + 1 : other] + text[at : at + 1] + text[other + 1 :] if at < other else text


def number_at_an_edge(text, chance):
    numbers = list(re.finditer(rb"\b\d+\b", text))
    if not numbers:
        return text
    number = chance.choice(numbers)
    return text[: number.start()] + chance.choice(EDGES).encode() + text[number.end() :]


def band_exchanged(text, chance):
    return re.sub(rb'(?<="Band":)"B\d"', lambda _: chance.choice(BAND_TEXTS).encode(), text)


def member_doubled(text, chance):
    members = re.findall(rb'"\w+":(?:"[^"]*"|[\w.]+)', text)
    if not members:
        return text
    first, second = chance.choice(members), chance.choice(members)
    name = second.partition(b":")[0]
    value = first.partition(b":")[2]
    return text[:-1] + b"," + name + b":" + value + b"}"


def escaped(text, chance):
    letters = list(re.finditer(rb"[A-Za-z0-9]", text))
    if not letters:
        return text
    at = chance.choice(letters).start()
    return text[:at] + b"\\u%04x" % text[at] + text[at + 1 :]


def nested(text, chance):
    depth = chance.choice([1, 126, 127, 128, 1000])
    return text[:-1] + b',"X":' + b"[" * depth + b"]" * chance.choice([depth, depth, depth - 1]) + b"}"


def lengthened(text, chance):
    return text + b" " * (chance.choice([LONGEST, LONGEST + 1, 70_000]) - len(text))


CHANGES = [octet_changed, octet_changed, dropped, doubled, exchanged, number_at_an_edge, number_at_an_edge, member_doubled, escaped, nested]
CHANGES_OF_LIMITS = [*CHANGES, band_exchanged, band_exchanged]


def changed(text, chance):
    """The text with one to three changes."""
    if chance.random() < 0.002:
        return lengthened(text, chance)
    for _ in range(chance.choice([1, 1, 1, 2, 3])):
        if text:
            text = chance.choice(CHANGES_OF_LIMITS if b'"Band"' in text else CHANGES)(text, chance)
    return text


# ---- runs


def limited():
    resource.setrlimit(resource.RLIMIT_AS, (MEMORY << 20, MEMORY << 20))


class Ran:
    """A run of the program that ended by itself with this status, and its answers."""

    def __init__(self, words, given=b""):
        with tempfile.TemporaryFile() as stdin, tempfile.TemporaryFile() as stdout, tempfile.TemporaryFile() as stderr:
            stdin.write(given)
            stdin.seek(0)
            self.status = subprocess.run([str(word) for word in words], stdin=stdin, stdout=stdout, stderr=stderr, preexec_fn=limited).returncode
            wants(self.status >= 0, f"{words} ended by signal {-self.status}")
            stdout.seek(0)
            stderr.seek(0)
            self.written, self.told = stdout.read(), stderr.read().decode()


def made(program, folder, name):
    file = Path(folder) / name
    wants(Ran([program, "init", file]).status == 0, "a file is made")
    return file


def rows_in(file):
    with reading(file) as conn:
        rows = {table: conn.execute(f"SELECT * FROM {table} ORDER BY rowid").fetchall() for table in TABLES}
        wants(conn.execute("PRAGMA integrity_check").fetchall() == [("ok",)], "SQLite finds the file damaged")
    return rows


def is_heard(answer):
    result = json.loads(answer)["Result"]
    return (result["ResultCode"], result["Description"]) not in UNHEARD


def with_changed(lines, count, chance):
    """The lines in order, and between them changed ones, as many as `count`."""
    each = count // len(lines) + 1
    texts = []
    for line in lines:
        plain = line.encode()
        texts += [changed(plain, chance).replace(b"\n", b"?") for _ in range(each)]
        if chance.random() < 0.8:
            texts.append(plain)
    return [text for text in texts if text]


def told_again(program, folder, name, lines, answers, file):
    """What was heard, delivered alone to a new desk."""
    alone = made(program, folder, name)
    ran = Ran([program, "hear", alone], b"".join(line + b"\n" for line in lines))
    told = ran.written.splitlines()
    wants(ran.status == 0 and len(told) == len(answers), f"{len(told)} answers to {len(answers)} texts that were heard")
    for line, answer, other in zip(lines, answers, told):
        wants(answer == other, f"{line[:400]} is answered\n{answer}, and alone\n{other}")
    wants(rows_in(alone) == rows_in(file), "what was heard leaves other rows alone")


def messages(program, folder, lines, count, chance):
    file = made(program, folder, "messages.db")
    texts = with_changed(lines, count, chance)
    ran = Ran([program, "hear", file], b"".join(text + b"\n" for text in texts))
    wants((ran.status, ran.told) == (0, ""), f"hear ends with {ran.status} {ran.told}")
    answers = ran.written.split(b"\n")
    wants(answers.pop() == b"" and len(answers) == len(texts), f"{len(answers)} answers to {len(texts)} messages")
    heard = [(text, answer) for text, answer in zip(texts, answers) if is_heard(answer)]
    told_again(program, folder, "messages-alone.db", *map(list, zip(*heard)), file)
    codes = {tuple(json.loads(answer)["Result"].values()) for answer in answers}
    print(f"{len(texts)} messages, {len(heard)} of them heard or repeated, answered in {len(codes)} ways")


def body_of(request):
    """The body of a request that was taken: empty lines may come before its head, and a line of the head may end with LF alone."""
    parts = re.match(rb"(?:\r?\n)*(.*?\n)\r?\n(.*)$", request, re.S)
    length = int(re.search(rb"^content-length:[ \t]*(\d+)", parts[1], re.I | re.M)[1])
    return parts[2][:length]


def requests(program, folder, lines, count, chance):
    file = made(program, folder, "requests.db")
    texts = []
    for line in lines:
        request = post(line)
        if chance.random() < 0.8:
            texts.append(request)
        texts += [changed(request, chance) for _ in range(count // len(lines) + 1)]
        texts.append(b"GET /v1/bands/gw-0 HTTP/1.1\r\n\r\n" if chance.random() < 0.5 else changed(b"GET /v1/reports/town/2024-02 HTTP/1.1\r\n\r\n", chance))
    port = free_port()
    program_run = subprocess.Popen([program, "serve", str(file), "--port", str(port), "--count", str(len(texts))], stdout=subprocess.PIPE, stderr=subprocess.PIPE, preexec_fn=limited)
    wants(program_run.stdout.readline() == f"listening 127.0.0.1:{port}\n".encode(), "serve listens")
    statuses, heard, answers = {}, [], []
    for text in texts:
        response = asked(port, text, shut=True)
        head, _, text_told = response.partition(b"\r\n\r\n")
        status = head.split(b" ")[1] if head else b"none"
        statuses[status] = statuses.get(status, 0) + 1
        wants(status != b"503", f"{text[:200]} gets 503")
        wants(response or not text, f"no response to {text[:200]}")
        if status == b"200" and b"application/json" in head:
            heard.append(body_of(text))
            answers.append(text_told)
    _, told = program_run.communicate(timeout=60)
    wants((program_run.returncode, told) == (0, b""), f"serve ends with {program_run.returncode} {told}")
    lines_alone = [line.replace(b"\n", b" ") for line in heard]
    told_again(program, folder, "requests-alone.db", lines_alone, answers, file)
    print(f"{len(texts)} requests, by status: {dict(sorted((key.decode(), many) for key, many in statuses.items()))}")


def record_of(line):
    message = json.loads(line)
    verdict = message.get("Verdict")
    fields = message["TransactionID"], message["MessageType"], message["Gateway"], message["Time"], message["Freq"], message["DataRate"], message["PHYPayload"]
    return ",".join(map(str, (*fields, "" if verdict is None else verdict))) + "\n"


def reports(program, folder, lines, count, chance):
    heads = [line for line in lines if line != NO_MESSAGE]
    adds = [line for line in heads if json.loads(line)["MessageType"].endswith("Add")]
    frames = [line for line in heads if json.loads(line)["MessageType"] in ("JoinHeard", "FrameHeard")]
    file, alone = made(program, folder, "reports.db"), made(program, folder, "reports-alone.db")
    for desk in (file, alone):
        wants(Ran([program, "hear", desk], text_of(adds).encode()).status == 0, "the names are added")
    header = "transaction,type,gateway,time_us,freq_hz,dr,phy,verdict\n"
    words = ["--sender", "bridge"]
    ends = {}
    for _ in range(count):
        begun = chance.randrange(len(frames))
        text = (header + "".join(map(record_of, frames[begun : begun + chance.randrange(6)]))).encode()
        if chance.random() < 0.8:
            for _ in range(chance.choice([1, 1, 2])):
                text = chance.choice([octet_changed, dropped, doubled, exchanged, number_at_an_edge])(text, chance) if text else text
        ran = Ran([program, "import", file, *words], text)
        told = re.sub(r"\d+", "N", ran.told)
        ends[told] = ends.get(told, 0) + 1
        wants((ran.status == 0) == (told == "") and (ran.status == 0 or not ran.written), f"an import ends with {ran.status} {told} {ran.written[:200]}")
        if ran.status == 0:
            again = Ran([program, "import", alone, *words], text)
            wants((again.status, again.written) == (0, ran.written), "a report is answered otherwise alone")
        else:
            wants(ran.status == 1 and told.startswith("desk: csv "), f"an import ends with {ran.status} {told}")
    wants(rows_in(alone) == rows_in(file), "reports that were refused leave something")
    print(f"{count} reports, by how they ended: {dict(sorted((key.strip() or 'heard', many) for key, many in ends.items()))}")


def main():
    words = argparse.ArgumentParser(description=__doc__, formatter_class=argparse.RawDescriptionHelpFormatter)
    add_program(words)
    words.add_argument("--messages", type=int, default=100_000)
    words.add_argument("--requests", type=int, default=20_000)
    words.add_argument("--reports", type=int, default=2_000)
    words.add_argument("--seed", type=int, default=1)
    given = words.parse_args()
    program = ready(given.program)
    chance = random.Random(given.seed)
    lines = list(mixed_operation(2000, given.seed))
    with tempfile.TemporaryDirectory() as folder:
        for part, count in ((messages, given.messages), (requests, given.requests), (reports, given.reports)):
            begun = time.monotonic()
            if count:
                part(program, folder, lines, count, chance)
                print(f"  in {time.monotonic() - begun:.0f} s")


if __name__ == "__main__":
    main()
