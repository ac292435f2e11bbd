#!/usr/bin/env python3
"""Measures the desk on a file: `desk hear`, `serve`, `import` and `report`, and what a start takes.

    bench/files.py [--program PATH] [--folder FOLDER] [--seed 1] [--sizes 20000,200000] [--runs 1] [--only hear,serve,import,report]

The messages are those of normal operation (normal_operation.py), on new files in a folder that is removed at the end; FOLDER names
the disk. Each message is one commit, which is on the disk before its answer. `hear` is compared with a plain Python program over the
sqlite3 module with the same tables, which makes as many commits (peer.py). A command's start, which opens the file, is measured apart:
it is what the same command takes on the same file with nothing to do, `hear` on empty input and `import` of a header alone.
`report` is compared with the same report of a desk that serves, which has opened the file already.
All answers and reports have to be those of the plain program over dictionaries (dictionaries.py), and each status 0.

The growth is how the time without the start grows from the size above it, by how the size does: 1 where each message costs the same.
Speeds depend on the disk and on what else runs: compare only figures of one run. --sizes are those of `hear` and of `report`'s uplinks.
"""

import argparse
import json
import subprocess
import sys
import tempfile
import time
from pathlib import Path

import dictionaries
from dictionaries import BANDS, most_in_an_hour
from normal_operation import DEVICES, ROOT, Stream, normal_operation, peak_of

sys.path.append(str(ROOT / "checks"))
from common import add_program, log_of, ready, text_of  # noqa: E402
from http_client import asked, body, free_port, get, posted  # noqa: E402

REQUESTS = [2_000, 20_000]
RECORDS = [2_000, 20_000, 100_000]
MONTH = "2024-02"
# how many reports one serving desk is asked for
SERVED = 3
HEADER = "transaction,type,gateway,time_us,freq_hz,dr,phy,verdict"
COLUMNS = ["TransactionID", "MessageType", "Gateway", "Time", "Freq", "DataRate", "PHYPayload", "Verdict"]


class Ran:
    """A command that has ended with status 0: its seconds, its kilobytes at the peak, and what it wrote."""

    def __init__(self, words, given=""):
        with tempfile.TemporaryFile() as input_file, tempfile.TemporaryFile() as output_file:
            input_file.write(given.encode())
            input_file.seek(0)
            begun = time.monotonic()
            program = subprocess.Popen(words, stdin=input_file, stdout=output_file)
            self.peak = 0
            while program.poll() is None:
                self.peak = max(self.peak, peak_of(program))
                time.sleep(0.002)
            self.seconds = time.monotonic() - begun
            output_file.seek(0)
            self.written = output_file.read().decode()
        if program.returncode != 0:
            sys.exit(f"{' '.join(map(str, words))}: status {program.returncode}")


class Table:
    """Prints rows, and with each how its seconds have grown from the least of the size before."""

    def __init__(self):
        self.times = {}
        print(f"{'what':<16} {'size':>8} {'seconds':>9} {'start':>7} {'a second':>9} {'growth':>7} {'peak MiB':>9}")

    def row(self, what, size, seconds, start=None, peak=None, more=""):
        took = max(seconds - (start or 0.0), 1e-9)
        times = self.times.setdefault(what, {})
        before = [other for other in times if other < size]
        growth = f"{(took / times[max(before)]) / (size / max(before)):.2f}" if before else ""
        times[size] = min(took, times.get(size, took))
        start = "" if start is None else f"{start:.3f}"
        peak = "" if peak is None else f"{peak / 1024:.1f}"
        print(f"{what:<16} {size:>8} {seconds:>9.2f} {start:>7} {size / took:>9.0f} {growth:>7} {peak:>9}  {more}".rstrip(), flush=True)

    @staticmethod
    def start(what, size, ran, file):
        files = f"{file.name} of {file.stat().st_size / 1e6:.1f} MB"
        log = log_of(file)
        if log.exists():
            files += f", its log of {log.stat().st_size / 1e6:.1f} MB"
        print(f"{what:<16} {size:>8} {ran.seconds:>9.3f} {'':>7} {'':>9} {'':>7} {ran.peak / 1024:>9.1f}  {files}", flush=True)


def plain(lines):
    """The plain program that has heard the lines, and its answers."""
    desk = dictionaries.Desk()
    return desk, [desk.deliver(line) for line in lines]


def agrees(what, found, wanted):
    if found != wanted:
        sys.exit(f"{what}: another answer than the plain program's")


def made(desk, folder, name):
    file = folder / name
    Ran([desk, "init", file])
    return file


def measure_hear(table, desk, folder, sizes, seed, runs):
    for size, run in [(size, run) for size in sizes for run in range(runs)]:
        lines = normal_operation(size, seed)
        _, answers = plain(lines)
        file = made(desk, folder, f"hear-{size}-{run}.db")
        start = Ran([desk, "hear", file])
        heard = Ran([desk, "hear", file], text_of(lines))
        agrees("hear", heard.written, text_of(answers))
        other = folder / f"peer-{size}-{run}.db"
        words = [sys.executable, ROOT / "bench" / "peer.py", other]
        peer_start = Ran(words)
        peer = Ran(words, text_of(lines))
        agrees("peer.py", peer.written, text_of(answers))
        ratio = (peer.seconds - peer_start.seconds) / (heard.seconds - start.seconds)
        table.row("hear", size, heard.seconds, start.seconds, heard.peak, f"peer.py takes {ratio:.2f} times as long")
        table.row("peer.py", size, peer.seconds, peer_start.seconds, peer.peak)
        again = Ran([desk, "hear", file], text_of(lines))
        agrees("hear again", again.written, text_of(answers))
        opened = Ran([desk, "hear", file])
        table.row("hear again", size, again.seconds, opened.seconds, again.peak, "repeats: nothing is committed")
        table.start("start", size, opened, file)
        for left in folder.iterdir():
            left.unlink()


def serving(desk, file, count):
    """A desk that serves `count` connections, its port, and the seconds until it listened."""
    port = free_port()
    begun = time.monotonic()
    words = [desk, "serve", file, "--port", str(port), "--count", str(count)]
    program = subprocess.Popen(words, stdout=subprocess.PIPE, text=True)
    told = program.stdout.readline()
    start = time.monotonic() - begun
    if told != f"listening 127.0.0.1:{port}\n":
        sys.exit(f"serve: {told!r}, status {program.wait()}")
    return program, port, start


def ends(program):
    if program.wait() != 0:
        sys.exit(f"serve ended with status {program.returncode}")


def posted_all(port, lines, answers):
    begun = time.monotonic()
    bodies = [posted(port, line) for line in lines]
    seconds = time.monotonic() - begun
    agrees("serve", bodies, answers)
    return seconds


def measure_serve(table, desk, folder, seed):
    for size in REQUESTS:
        lines = normal_operation(size, seed)
        _, answers = plain(lines)
        file = made(desk, folder, f"serve-{size}.db")
        program, port, start = serving(desk, file, 2 * size)
        first = posted_all(port, lines, answers)
        again = posted_all(port, lines, answers)
        ends(program)
        table.row("serve", size, first, more=f"listens after {start:.3f} s")
        table.row("serve again", size, again, more="repeats: nothing is committed")


def record_of(message):
    """A message as a record of a gateway's report. A frame without a counter has nothing there."""
    return ",".join("" if message.get(column) is None else str(message[column]) for column in COLUMNS)


def measure_import(table, desk, folder, seed):
    for size in RECORDS:
        # a tenth of the data frames is answered: more lines than records
        messages = [json.loads(line) for line in normal_operation(2 * size, seed)]
        register = [message for message in messages if message["SenderID"] == "office"]
        reports = [message for message in messages if message["MessageType"] in ("JoinHeard", "FrameHeard")][:size]
        _, answers = plain([json.dumps(message) for message in register + reports])
        file = made(desk, folder, f"import-{size}.db")
        Ran([desk, "hear", file], text_of(json.dumps(message) for message in register))
        words = [desk, "import", file, "--sender", "bridge"]
        start = Ran(words, HEADER + "\n")
        ran = Ran(words, text_of([HEADER, *map(record_of, reports)]))
        agrees("import", ran.written, text_of(answers[len(register) :]))
        table.row("import", size, ran.seconds, start.seconds, ran.peak)


class OneReport(Stream):
    """Every frame is heard by one gateway alone: as many messages as uplinks."""

    def hearing(self):
        return [0]


def uplinks_alone(size, seed):
    stream = OneReport(seed)
    stream.register()
    for device in range(DEVICES):
        stream.join(device)
    for place in range(size - DEVICES):
        stream.data(place % DEVICES, place // DEVICES)
    return stream.lines


def owner_report_of(desk):
    """The owner's report, where all uplinks lie in one month."""
    spans = {eui: {band: [] for band in BANDS} for eui in desk.devices}
    for uplink in desk.uplinks:
        start = next(iter(uplink["copies"].values()))[0] - uplink["airtime"]
        device = desk.sessions[uplink["session"] - 1]["device"]
        spans[device][uplink["band"]].append((start, start + uplink["airtime"]))
    lines = ["dev_eui,uplinks," + ",".join(f"{band.lower()}_us,{band.lower()}_peak_us" for band in BANDS)]
    for eui, by_band in sorted(spans.items()):
        numbers = [sum(map(len, by_band.values()))]
        for of_band in by_band.values():
            numbers += [sum(end - start for start, end in of_band), most_in_an_hour(of_band)]
        lines.append(",".join([eui, *map(str, numbers)]))
    return text_of(lines)


def measure_report(table, desk, folder, sizes, seed):
    for size in sizes:
        lines = uplinks_alone(size, seed)
        heard, _ = plain(lines)
        file = made(desk, folder, f"report-{size}.db")
        Ran([desk, "hear", file], text_of(lines))
        start = Ran([desk, "hear", file])
        ran = Ran([desk, "report", file, "town", MONTH])
        wanted = owner_report_of(heard)
        agrees("report", ran.written, wanted)
        table.row("report", size, ran.seconds, start.seconds, ran.peak, f"{DEVICES} devices, {size} uplinks")
        table.start("start", size, start, file)
        measure_served(table, desk, file, size, wanted)


def measure_served(table, desk, file, size, wanted):
    """The same report of a desk that serves, which opens the file once for all of them."""
    program, port, start = serving(desk, file, SERVED)
    begun = time.monotonic()
    for _ in range(SERVED):
        agrees("report served", body(asked(port, get(f"/v1/reports/town/{MONTH}"))), wanted)
    seconds = (time.monotonic() - begun) / SERVED
    ends(program)
    table.row("report served", size, seconds, more=f"each of {SERVED}, of a desk that listens after {start:.3f} s")


def main():
    words = argparse.ArgumentParser(description=__doc__, formatter_class=argparse.RawDescriptionHelpFormatter)
    add_program(words, metavar="PATH")
    words.add_argument("--folder", type=Path, help="where the files are meanwhile")
    words.add_argument("--seed", type=int, default=1)
    words.add_argument("--sizes", default="20000,200000")
    words.add_argument("--runs", type=int, default=1, help="of `hear` and peer.py by turns, on new files")
    words.add_argument("--only", default="hear,serve,import,report")
    given = words.parse_args()
    sizes = [int(size) for size in given.sizes.split(",")]
    wanted = given.only.split(",")
    desk = ready(given.program)
    table = Table()
    with tempfile.TemporaryDirectory(dir=given.folder) as name:
        folder = Path(name)
        if "hear" in wanted:
            measure_hear(table, desk, folder, sizes, given.seed, given.runs)
        if "serve" in wanted:
            measure_serve(table, desk, folder, given.seed)
        if "import" in wanted:
            measure_import(table, desk, folder, given.seed)
        if "report" in wanted:
            measure_report(table, desk, folder, sizes, given.seed)


if __name__ == "__main__":
    main()
