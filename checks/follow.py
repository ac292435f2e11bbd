#!/usr/bin/env python3
"""Has a standby follow a desk while everything is killed now and then, and compares the two files.

    checks/follow.py [--program FILE] [--messages 2000] [--kills 40] [--seed 1]

A desk serves a new file, a client posts messages of mixed operation (mixed_operation.py), and examples/follow.py follows the desk into
a second file, which it makes. The desk, the client, the follower and the program that the follower runs on the second file are ended
by SIGKILL at random moments, alone or together, and started again. Each answer that the client gets has to be that of the plain Python
program (bench/dictionaries.py).

At the end the follower runs once more, until it has all messages. Then both files have to have the same rows in each of the eleven
tables, and in the same order. `desk log` has to print the messages and the answers that are in the rows, for both files alike. The
second file and a new one hear that log: each answer has to be the first desk's, and then both have its rows. `desk audit` has to find
all three files in order. The program is `./desk`, which is proved and built first if it isn't current, or with --program the built one
in FILE.

For the whole run `--messages 20000 --kills 200`.
"""

import argparse
import multiprocessing
import os
import random
import signal
import subprocess
import sys
import tempfile
import time
from collections import Counter
from contextlib import suppress
from pathlib import Path

from common import ROOT, Running, add_program, log_of, ready, same_rows, wants
from http_client import answer_of, free_port
from kills import replies_in
from mixed_operation import MALFORMED, mixed_operation

FOLLOWER = ROOT / "examples" / "follow.py"
# what is killed together; `hear` is the program that the follower runs
TURNS = [["desk"], ["client"], ["follower"], ["hear"], ["hear", "follower"], ["desk", "follower"], ["desk", "client", "hear", "follower"]]
LONGEST_WAIT = 0.06
# so long nothing may come of a program that runs, or is started again
PATIENCE_SECONDS = 60


# ---- the programs, which are killed and started again


class Client:
    """Posts the lines in their order, in a process of its own. A line that got no answer is posted again."""

    name = "the client"

    def __init__(self, port, lines):
        self.port, self.lines = port, lines
        # in memory that the process shares: the lines before this place are answered
        self.place = multiprocessing.RawValue("l", 0)
        self.kills = 0
        self.process = None

    def start(self):
        self.process = multiprocessing.Process(target=self.post_all, daemon=True)
        self.process.start()

    def post_all(self):
        while (place := self.place.value) < len(self.lines):
            answer = answer_of(self.port, self.lines[place])
            if answer is None:
                time.sleep(0.01)
                continue
            wanted = self.lines.answers[place] or MALFORMED
            wants(answer == wanted, f"line {place} gets\n{answer}\nand not\n{wanted}")
            self.place.value = place + 1

    def kill(self):
        self.process.kill()
        self.process.join()
        return self.process.exitcode


def child_of(process):
    """The process that this one started, if it runs."""
    with suppress(OSError):
        for child in Path(f"/proc/{process.pid}/task/{process.pid}/children").read_text().split():
            return int(child)
    return None


def words_to_serve(program, file, port):
    return [program, "serve", file, "--port", str(port), "--count", "1000000"]


def words_to_follow(program, port, *words):
    return [sys.executable, FOLLOWER, "--desk", f"http://127.0.0.1:{port}", "--program", program, *words]


def follows(program, port, *words):
    """The follower, which ends by itself."""
    words = words_to_follow(program, port, *words)
    return subprocess.run(words, stdin=subprocess.DEVNULL, capture_output=True, text=True, timeout=10 * PATIENCE_SECONDS)


class Town:
    """A desk, a client that posts to it, and a follower."""

    def __init__(self, program, folder, lines, chance):
        self.program, self.chance, self.port = program, chance, free_port()
        self.file, self.standby, self.errors = folder / "town.db", folder / "standby.db", folder / "errors"
        self.running = {
            "desk": Running("the desk", words_to_serve(program, self.file, self.port), self.errors),
            "client": Client(self.port, lines),
            "follower": Running("the follower", words_to_follow(program, self.port, "--init", "--every", "0.05", self.standby), self.errors),
        }
        self.client, self.follower = self.running["client"], self.running["follower"]
        self.kills = Counter()

    def run(self, kills):
        """Kills them so often, about as often in each part of the messages. Returns once all messages are answered."""
        subprocess.run([self.program, "init", self.file], check=True)
        try:
            for it in self.running.values():
                it.start()
            for number in range(1, kills + 1):
                self.waits_for(number * len(self.client.lines) // (kills + 1))
                self.kill_some()
            self.waits_for(len(self.client.lines))
            self.end("follower")
            ran = follows(self.program, self.port, "--init", "--once", self.standby)
            wants((ran.returncode, ran.stdout) == (0, ""), f"follow.py --once ends with {ran}")
            refuses_to_follow(self)
        finally:
            for it in self.running.values():
                it.kill()

    def waits_for(self, place):
        """Until the lines before this place are answered."""
        seen, since = self.client.place.value, time.monotonic()
        while self.client.place.value < place:
            time.sleep(0.002)
            if self.client.place.value > seen:
                seen, since = self.client.place.value, time.monotonic()
            wants(time.monotonic() < since + PATIENCE_SECONDS, f"line {seen} gets no answer{self.seen_errors()}")

    def kill_some(self):
        turn = self.chance.choice(TURNS)
        if "follower" in turn or "hear" in turn:
            self.waits_for_standby()
        time.sleep(self.chance.uniform(0, LONGEST_WAIT))
        for name in turn:
            self.kill(name)
        time.sleep(self.chance.uniform(0, LONGEST_WAIT))
        for name in turn:
            if name != "hear":
                self.running[name].start()

    def waits_for_standby(self):
        """Until the standby hears something new, or for a second."""
        since, end = changed(self.standby), time.monotonic() + 1
        while changed(self.standby) == since and time.monotonic() < end:
            time.sleep(0.002)

    def kill(self, name):
        if name == "hear":
            child = child_of(self.follower.process)
            if child is None:
                return
            with suppress(ProcessLookupError):
                os.kill(child, signal.SIGKILL)
        else:
            self.end(name)
        self.kills[name] += 1

    def end(self, name):
        """Ends it by SIGKILL. The client may be done."""
        running = self.running[name]
        status = running.kill()
        wants(status == -signal.SIGKILL or (running is self.client and status == 0), f"{running.name} ended by itself, with {status}{self.seen_errors()}")

    def seen_errors(self):
        return f"\n{self.errors.read_text()[-2000:]}" if self.errors.exists() else ""


def changed(file):
    """When the file's log was written last."""
    with suppress(OSError):
        return log_of(file).stat().st_mtime_ns
    return None


# ---- what the follower refuses


def refuses_to_follow(town):
    """Runs it where it has to end with an error, or to wait."""
    folder, program = town.file.parent, town.program
    other, fresh = folder / "other.db", folder / "fresh.db"
    subprocess.run([program, "init", other, "--base", "01b00000"], check=True)
    subprocess.run([program, "init", fresh], check=True)
    cases = {
        "there is no ": [folder / "nowhere.db"],
        "standby.db was made with --addresses 65536, and not 7": ["--addresses", "7", town.standby],
        "other.db was made with --base 01b00000, and not 01a00000": ["--init", other],
        " has two answers, ": [other],
    }
    for told, words in cases.items():
        ends_with(follows(program, town.port, "--once", *words), told)
    port = free_port()
    waiting = subprocess.Popen(words_to_follow(program, port, town.standby), stderr=subprocess.PIPE, text=True)
    time.sleep(2)
    lacking = subprocess.Popen(words_to_serve(program, fresh, port), stdout=subprocess.DEVNULL)
    try:
        first, last = waiting.communicate(timeout=PATIENCE_SECONDS)[1].splitlines(keepends=True)
        wants(first.startswith("follow: waiting: the desk doesn't answer: "), f"with no desk it prints {first}")
        ends_with(subprocess.CompletedProcess(waiting.args, waiting.returncode, "", last), "the desk lacks the last of them")
    finally:
        for it in (waiting, lacking):
            it.kill()
            it.wait()


def ends_with(ran, told):
    is_line = ran.stderr.startswith("follow: ") and ran.stderr.count("\n") == 1 and told in ran.stderr
    wants((ran.returncode, ran.stdout, is_line) == (1, "", True), f"follow.py ends with {ran}, and not with {told!r}")


# ---- what the files have


def texts_of(rows):
    """The messages, and the answers, as rows of the table reply have them: a line for each."""
    return [b"".join(row[column] + b"\n" for row in rows) for column in (3, 4)]


def printed(program, *words, given=b""):
    ran = subprocess.run([program, *words], input=given, capture_output=True)
    wants((ran.returncode, ran.stderr) == (0, b""), f"{words}: status {ran.returncode}, {ran.stderr}")
    return ran.stdout


def compare(program, town, folder):
    """Compares the two files, and a third one that hears the log of the first. Returns how many messages and rows they have."""
    replies = replies_in(town.file)
    rows = same_rows(town.standby, town.file)
    messages, answers = texts_of(replies)
    for file in (town.file, town.standby):
        wants(printed(program, "log", file) == messages, f"log prints other messages than are in {file.name}")
        wants(printed(program, "log", file, "--answers") == answers, f"log prints other answers than are in {file.name}")
    moved = folder / "moved.db"
    printed(program, "init", moved)
    for file in (town.standby, moved):
        wants(printed(program, "hear", file, given=messages) == answers, f"{file.name} answers the log otherwise than the desk did")
        same_rows(file, town.file)
    in_order = f"heard: {len(replies)}\nin order\n".encode()
    for file in (town.file, town.standby, moved):
        wants(printed(program, "audit", file) == in_order, f"an audit of {file.name} prints something else than {in_order}")
    return len(replies), rows


def main():
    words = argparse.ArgumentParser(description=__doc__, formatter_class=argparse.RawDescriptionHelpFormatter)
    add_program(words)
    words.add_argument("--messages", type=int, default=2000)
    words.add_argument("--kills", type=int, default=40)
    words.add_argument("--seed", type=int, default=1)
    given = words.parse_args()
    program = ready(given.program)
    lines = mixed_operation(given.messages, given.seed)
    begun = time.monotonic()
    with tempfile.TemporaryDirectory() as folder:
        town = Town(program, Path(folder), lines, random.Random(given.seed))
        town.run(given.kills)
        replies, rows = compare(program, town, Path(folder))
    kills = ", ".join(f"{name} {count}" for name, count in sorted(town.kills.items()))
    print(
        f"{len(lines)} lines, {replies} messages heard, {given.kills} times something was killed ({kills}), in"
        f" {time.monotonic() - begun:.0f} s: the standby has the same {rows} rows, and gives each answer that the desk gave"
    )


if __name__ == "__main__":
    main()
