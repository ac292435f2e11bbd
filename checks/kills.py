#!/usr/bin/env python3
"""Kills the desk at random moments, and checks that what was answered is in the file.

    checks/kills.py [--program FILE] [--kills 300] [--seed 1]

One file hears a stream of mixed operation (mixed_operation.py), by `desk hear` and by `desk serve` in turns. Each run is ended by
SIGKILL at a random moment, mostly while messages are being answered, sometimes while the file is being opened. Now and then a second
program opens the file meanwhile, and ends with `desk: file`. After each kill the real SQLite reads the file: the messages that were
heard, in their order and with their answers, are those that a plain Python program (bench/dictionaries.py) has heard of the lines
that were answered, or these and that of the next line. The next run goes on behind the last answer that was read.

At the end the rest is delivered, and then the whole stream once more. All answers have to be those of the plain program,
and each row of the eleven tables has to be its row. The program is `./desk`, which is proved and built first if it
isn't current, or with --program the built one in FILE.
"""

import argparse
import random
import signal
import subprocess
import tempfile
import threading
import time
from pathlib import Path

from both_stores import rows_of
from common import add_program, reading, ready, text_of, wants
from http_client import answer_of, free_port
from mixed_operation import MALFORMED, NO_MESSAGE, mixed_operation
import dictionaries

LINES_A_KILL = 40
LONGEST_RUN = 0.06


class Model:
    """What a desk that isn't killed answers, and what it has heard after each number of lines."""

    def __init__(self, lines):
        self.desk = dictionaries.Desk()
        self.answers, self.heard = [], [0]
        for line in lines:
            self.answers.append(MALFORMED if line == NO_MESSAGE else self.desk.deliver(line))
            self.heard.append(len(self.desk.heard))
        self.replies = rows_of(self.desk)["reply"]


def replies_in(file):
    with reading(file) as conn:
        return conn.execute("SELECT * FROM reply ORDER BY seq").fetchall()


class Runs:
    """Runs on one file. Each ends by a kill."""

    def __init__(self, program, file, lines, model, chance):
        self.program, self.file, self.lines, self.model, self.chance = program, file, lines, model, chance
        # lines before this one are answered
        self.place = 0
        self.kills = self.unanswered = self.unopened = self.turned_away = 0

    def starts(self, *words):
        return subprocess.Popen([self.program, *map(str, words)], stdin=subprocess.PIPE, stdout=subprocess.PIPE, stderr=subprocess.PIPE)

    def meets(self, answer):
        wants(answer == self.model.answers[self.place], f"line {self.place} gets\n{answer}\nand not\n{self.model.answers[self.place]}")
        self.place += 1

    def ends(self, program):
        """What is there after the kill."""
        program.communicate()
        wants(program.returncode == -signal.SIGKILL, f"the program ended by itself: {program.returncode}")
        self.kills += 1
        found = replies_in(self.file)
        least, most = self.model.heard[self.place], self.model.heard[self.place + 1]
        wants(least <= len(found) <= most, f"after line {self.place} {len(found)} messages are heard, and not {least} to {most}")
        wants(found == self.model.replies[: len(found)], f"after line {self.place} other messages are heard")
        self.unanswered += len(found) - least

    def asks_meanwhile(self, program):
        """A second program on the same file, which harms nothing."""
        second = subprocess.run([self.program, "check", str(self.file)], capture_output=True, text=True)
        if program.poll() is None:
            wants((second.returncode, second.stdout, second.stderr) == (3, "", "desk: file\n"), f"a second program ends with {second}")
            self.turned_away += 1

    def by_hear(self, seconds):
        program = self.starts("hear", self.file)
        given = text_of(self.lines[self.place : self.place + 4 * LINES_A_KILL]).encode()
        feeder = threading.Thread(target=feed, args=(program.stdin, given))
        feeder.start()
        first = program.stdout.readline() if self.chance.random() < 0.9 else b""
        if first and self.chance.random() < 0.1:
            self.asks_meanwhile(program)
        time.sleep(seconds)
        program.kill()
        feeder.join()
        program.stdin = None
        *answers, cut = (first + program.stdout.read()).split(b"\n")
        self.unopened += not answers
        for answer in answers:
            self.meets(answer.decode())
        self.ends(program)

    def by_serve(self, seconds):
        port = free_port()
        program = self.starts("serve", self.file, "--port", port, "--count", 1_000_000)
        wants(program.stdout.readline() == f"listening 127.0.0.1:{port}\n".encode(), "serve listens")
        if self.chance.random() < 0.1:
            self.asks_meanwhile(program)
        killer = threading.Timer(seconds, program.kill)
        killer.start()
        while answer := answer_of(port, self.lines[self.place]):
            self.meets(answer)
        killer.join()
        self.ends(program)

    def finish(self):
        """The rest, and the whole once more, without a kill."""
        for lines in (self.lines[self.place :], self.lines):
            words = [self.program, "hear", str(self.file)]
            ran = subprocess.run(words, input=text_of(lines), capture_output=True, text=True)
            wants((ran.returncode, ran.stderr) == (0, ""), f"the rest ends with {ran.returncode} {ran.stderr}")
            answers = ran.stdout.splitlines()
            if lines is self.lines:
                again = dictionaries.Desk()
                for line in lines:
                    line == NO_MESSAGE or again.deliver(line)
                wanted = [MALFORMED if line == NO_MESSAGE else again.deliver(line) for line in lines]
                rows = rows_of(again)
            else:
                wanted = self.model.answers[self.place :]
            wants(len(answers) == len(wanted), f"{len(answers)} answers to {len(wanted)} lines of the rest")
            for place, (answer, told) in enumerate(zip(answers, wanted)):
                wants(answer == told, f"line {place} of the rest gets\n{answer}\nand not\n{told}")
        with reading(self.file) as conn:
            for table, wanted in rows.items():
                found = conn.execute(f"SELECT * FROM {table}").fetchall()
                wants(sorted(found, key=repr) == sorted(wanted, key=repr), f"the rows of {table} are others")
            wants(conn.execute("PRAGMA integrity_check").fetchall() == [("ok",)], "SQLite finds the file damaged")


def feed(pipe, given):
    """Writes what the program takes until it is killed."""
    try:
        pipe.write(given)
        pipe.flush()
    except BrokenPipeError:
        pass


def main():
    words = argparse.ArgumentParser(description=__doc__, formatter_class=argparse.RawDescriptionHelpFormatter)
    add_program(words)
    words.add_argument("--kills", type=int, default=300)
    words.add_argument("--seed", type=int, default=1)
    given = words.parse_args()
    program = ready(given.program)
    lines = mixed_operation(LINES_A_KILL * given.kills, given.seed)
    model = Model(lines)
    chance = random.Random(given.seed)
    begun = time.monotonic()
    with tempfile.TemporaryDirectory() as folder:
        file = Path(folder) / "town.db"
        subprocess.run([program, "init", file], check=True)
        runs = Runs(program, file, lines, model, chance)
        while runs.kills < given.kills and runs.place + 8 * LINES_A_KILL < len(lines):
            run = runs.by_hear if runs.kills % 2 == 0 else runs.by_serve
            run(chance.uniform(0, LONGEST_RUN))
        runs.finish()
    print(
        f"{runs.kills} kills in {time.monotonic() - begun:.0f} s, {runs.place} lines answered between them: all that was answered is there; "
        f"{runs.unanswered} times the next message too; {runs.unopened} runs were killed before an answer; "
        f"{runs.turned_away} times a second program was turned away; the rows at the end are those of a run without kills"
    )


if __name__ == "__main__":
    main()
