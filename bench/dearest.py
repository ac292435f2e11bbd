#!/usr/bin/env python3
"""Measures the dearest input of the greatest length that is allowed: texts, heads, gateway reports.

    bench/dearest.py [--program FILE] [--runs 5]

Texts of 65,536 octets go through `desk lines`, many copies of one in a run, and the time of a run of one copy is taken off. Heads of
8,192 octets go to `desk serve` octet by octet, each sent alone, and at once. Reports of 16,777,216 octets go to `desk import`, and end
in a record that is none, so that nothing is heard. Each has to be answered as it should be.

It prints milliseconds of a processor, in the program and in the kernel for it, the least of the runs, and the dearest of each kind.
"""

import argparse
import os
import socket
import subprocess
import sys
import tempfile
import time
from pathlib import Path

from normal_operation import ROOT

sys.path.append(str(ROOT / "checks"))
from common import add_program, ready  # noqa: E402
from http_client import free_port, received  # noqa: E402

TEXT, HEAD, REPORT = 65_536, 8_192, 16_777_216
COPIES = 21
REQUESTS = 10
MESSAGE = '{"ProtocolVersion":"1.0","SenderID":"office","ReceiverID":"desk","TransactionID":1,"MessageType":"OwnerAdd","Owner":"town"'
HEADER = "transaction,type,gateway,time_us,freq_hz,dr,phy,verdict\n"
TICK = 1 / os.sysconf("SC_CLK_TCK")


def repeated(begin, part, end, length):
    """The beginning, as many parts as there is room for, the end."""
    return begin + part * ((length - len(begin) - len(end)) // len(part)) + end


def listed(begin, part_of, end, length):
    """The beginning, the parts of 0, 1, 2 .. with a comma between them, the end."""
    parts, room, place = [], length - len(begin) - len(end) + 1, 0
    while (part := part_of(place)) and len(part) < room:
        parts.append(part)
        room -= len(part) + 1
        place += 1
    return begin + ",".join(parts) + end


# ---- texts


def texts():
    more = MESSAGE + ',"More":'
    deep = "[" * 100 + "]" * 100
    kinds = {
        "spaces": MESSAGE + "}",
        "a string": repeated(more + '"', "a", '"}', TEXT),
        "escapes": repeated(more + '"', "\\u00e9", '"}', TEXT),
        "digits": repeated(more, "7", "}", TEXT),
        "digits of a fraction": repeated(more + "0.", "7", "}", TEXT),
        "an exponent": repeated(more + "1e", "0", "1}", TEXT),
        "numbers": listed(more + "[", lambda place: "7", "]}", TEXT),
        "fractions": listed(more + "[", lambda place: f"{place}.7e-9", "]}", TEXT),
        "empty arrays": listed(more + "[", lambda place: "[]", "]}", TEXT),
        "deep arrays": listed(more + "[", lambda place: deep, "]}", TEXT),
        "members": listed(more + "{", lambda place: f'"{place}":0', "}}", TEXT),
        "one member again": listed(more + "{", lambda place: '"a":0', "}}", TEXT),
        "members of the message": listed(MESSAGE + ",", lambda place: f'"{place}":0', "}", TEXT),
        "long names": listed(more + "{", lambda place: f'"{place:01000}":0', "}}", TEXT),
        "no end": listed(more + "[", lambda place: "[]", "", TEXT),
    }
    return {kind: text.ljust(TEXT) for kind, text in kinds.items()}


def processor_of(words, given):
    """Seconds of a processor, status and output of a command that has this input."""
    with tempfile.TemporaryFile() as input_file, tempfile.TemporaryFile() as output_file:
        input_file.write(given)
        input_file.seek(0)
        program = subprocess.Popen(words, stdin=input_file, stdout=output_file, stderr=subprocess.PIPE)
        said = program.stderr.read().decode()
        _, status, used = os.wait4(program.pid, 0)
        program.returncode = os.waitstatus_to_exitcode(status)
        output_file.seek(0)
        return used.ru_utime + used.ru_stime, program.returncode, output_file.read().decode(), said


def lines_of(desk, text, copies):
    took, status, written, said = processor_of([desk, "lines"], (text + "\n").encode() * copies)
    if status or said or written.count("\n") != copies:
        sys.exit(f"desk lines ended with {status}: {said}{written[:200]}")
    return took, written.partition("\n")[0]


def measure_texts(desk, runs):
    for kind, text in texts().items():
        took = []
        for _ in range(runs):
            once, answer = lines_of(desk, text, 1)
            many, _ = lines_of(desk, text, COPIES)
            took.append((many - once) / (COPIES - 1))
        heard = '"ResultCode":"Success"' in answer
        yield f"text: {kind}", len(text), min(took), "heard" if heard else "malformed"


# ---- heads


def heads():
    end = " HTTP/1.1\r\n\r\n"
    first = "GET /v1/bands/a HTTP/1.1\r\n"
    kinds = {
        "a long method": repeated("", "A", " /" + end, HEAD),
        "a long target": repeated("GET /", "a", end, HEAD),
        "empty lines": repeated("", "\r\n", first + "\r\n", HEAD),
        "empty lines without CR": repeated("", "\n", first + "\r\n", HEAD),
        "a long field": repeated(first + "a:", "b", "\r\n\r\n", HEAD),
        "a long name": repeated(first, "a", ":b\r\n\r\n", HEAD),
        "fields": first + ("a" * 240 + ":b\r\n") * 32 + "\r\n",
        "spaces": repeated(first + "a:", " ", "\r\n\r\n", HEAD),
        "no end": "A" * (HEAD + 1),
    }
    return {kind: head.encode() for kind, head in kinds.items()}


def used_by(program):
    fields = Path(f"/proc/{program.pid}/stat").read_text().rpartition(")")[2].split()
    return (int(fields[11]) + int(fields[12])) * TICK


def asked_in(port, pieces):
    with socket.create_connection(("127.0.0.1", port), timeout=60) as connection:
        connection.setsockopt(socket.IPPROTO_TCP, socket.TCP_NODELAY, 1)
        for piece in pieces:
            connection.sendall(piece)
        return received(connection)


def measure_heads(desk, file, runs):
    kinds = heads()
    port = free_port()
    count = len(kinds) * 2 * runs * REQUESTS
    words = [desk, "serve", file, "--port", str(port), "--count", str(count)]
    program = subprocess.Popen(words, stdout=subprocess.PIPE, text=True)
    program.stdout.readline()
    for kind, head in kinds.items():
        for how, pieces in [("octet by octet", [bytes([octet]) for octet in head]), ("at once", [head])]:
            took = []
            for _ in range(runs):
                before = used_by(program)
                told = {asked_in(port, pieces).partition(b"\r\n")[0].decode() for _ in range(REQUESTS)}
                took.append((used_by(program) - before) / REQUESTS)
            if len(told) != 1 or not told <= {"HTTP/1.1 400 Bad Request", "HTTP/1.1 404 Not Found"}:
                sys.exit(f"head: {kind}: {told}")
            yield f"head: {kind}, {how}", len(head), min(took), told.pop()[9:12]
    if program.wait() != 0:
        sys.exit(f"desk serve ended with {program.returncode}")


# ---- reports


def record(place, octets):
    return f"{place + 1},FrameHeard,gw-a,1706745600000000,868100000,5,{'40' * octets},0\n"


def reports():
    bad = "0,FrameHeard\n"
    records = [record(place, 56) for place in range(99_999)]
    kinds = {
        "100,000 records, the last one bad": HEADER + "".join(records) + bad,
        "one long field": repeated(HEADER, "a", "\n", REPORT),
        "one long quoted field": repeated(HEADER + '"', '""', '"\n', REPORT),
        "one record of many fields": repeated(HEADER, ",", "\n", REPORT),
        "empty lines": repeated(HEADER, "\n", bad, REPORT),
        "a long header": repeated("", "a", "\n", REPORT),
        "a quote that isn't ended": repeated(HEADER + '"', "\n", "\n", REPORT),
    }
    return {kind: report.encode() for kind, report in kinds.items()}


def measure_reports(desk, file, runs):
    for kind, report in reports().items():
        if len(report) > REPORT:
            sys.exit(f"{kind}: {len(report)} octets")
        took = []
        for _ in range(runs):
            seconds, status, written, said = processor_of([desk, "import", file, "--sender", "bridge"], report)
            if status != 1 or written or not said.startswith("desk: csv "):
                sys.exit(f"{kind}: desk import ended with {status}: {said}{written[:200]}")
            took.append(seconds)
        yield f"report: {kind}", len(report), min(took), said.strip()


def main():
    words = argparse.ArgumentParser(description=__doc__, formatter_class=argparse.RawDescriptionHelpFormatter)
    add_program(words, metavar="PATH")
    words.add_argument("--runs", type=int, default=5)
    given = words.parse_args()
    desk = ready(given.program)
    dearest = {}
    begun = time.monotonic()
    with tempfile.TemporaryDirectory() as name:
        file = Path(name) / "town.db"
        subprocess.run([desk, "init", file], check=True)
        for measured in (
            measure_texts(desk, given.runs),
            measure_heads(desk, file, given.runs),
            measure_reports(desk, file, given.runs),
        ):
            for what, octets, seconds, told in measured:
                print(f"{what:<48} {octets:>10,} octets {1000 * seconds:>9.2f} ms  {told}", flush=True)
                sort = what.partition(":")[0]
                dearest[sort] = max(dearest.get(sort, (0.0, "")), (seconds, what))
    for seconds, what in dearest.values():
        print(f"the dearest: {1000 * seconds:.2f} ms, {what}")
    print(f"in {time.monotonic() - begun:.0f} s")


if __name__ == "__main__":
    main()
