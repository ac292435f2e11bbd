#!/usr/bin/env python3
"""Runs the program with arguments that name a command and with arguments that name none, and checks what it does with them.

    checks/words.py [--program FILE]

It has the text of each help, letter for letter; the version, held against CHANGELOG.md and the kit that `./desk` names; arguments
that a command takes, and what `init` then makes of its values; arguments that clap refuses, with the beginning of clap's error; and
values out of their form or their range, with the program's own line. A run that names no command ends with status 2, writes nothing
to standard output, and leaves no file. Which arguments name which command with which values is proved; what is printed of them
isn't.

The program is `./desk`, which is proved and built first if it isn't current, or with --program the built one in FILE.
"""

import argparse
import re
import subprocess
import tempfile
from pathlib import Path

from common import ROOT, add_program, ready, wants

SEE_HELP = "\n\nFor more information, try '--help'.\n"
LONGEST_NAME = "abcdefghijklmnopqrstuvwxyz-_.012"

# ---- what is printed, letter for letter

HELPS = {
    "--help": """\
A LoRaWAN device registry and airtime desk

Usage: desk [COMMAND]

Commands:
  lines       Answers the messages of standard input, one a line, for a new desk in memory
  init        Makes a file for a new desk
  migrate     Moves a desk's file from schema 1 to schema 2
  hear        Answers the messages of standard input, one a line, for the desk in a file
  import      Answers the records of a gateway's CSV report on standard input, one a line
  serve       Serves messages, reports and the log over HTTP on 127.0.0.1
  report      Prints the report of an owner's month
  bands       Prints the bands of a gateway
  room        Prints how long a downlink of a gateway may be that begins at a time
  list        Prints the senders, the owners, the gateways or the devices of a desk
  device      Prints one device: its owner, its latest session and its counters
  receptions  Prints the receptions of a device in a month
  downlinks   Prints the downlinks of a gateway in a month
  log         Prints the messages that the desk has heard, or their answers, one a line
  check       Prints what a desk's file was made with, and how much it holds
  audit       Checks that a desk's file has exactly the rows that its messages make
  help        Print this message or the help of the given subcommand(s)

Options:
      --version  Prints which desk this is
  -h, --help     Print help

Example:
  desk init town.db --base 01a00000
  desk serve town.db --port 8080 --count 100
""",
    "lines --help": """\
Answers the messages of standard input, one a line, for a new desk in memory

Usage: desk lines [OPTIONS]

Options:
      --receiver <NAME>    The desk's own name [default: desk]
      --operator <NAME>    The first operator [default: office]
      --base <HEX8>        The first device address [default: 01a00000]
      --addresses <COUNT>  How many device addresses [default: 65536]
  -h, --help               Print help

Example:
  desk lines --receiver town < messages.txt
""",
    "init --help": """\
Makes a file for a new desk

Usage: desk init [OPTIONS] <FILE>

Arguments:
  <FILE>  The file, which isn't there yet

Options:
      --receiver <NAME>    The desk's own name [default: desk]
      --operator <NAME>    The first operator [default: office]
      --base <HEX8>        The first device address [default: 01a00000]
      --addresses <COUNT>  How many device addresses [default: 65536]
  -h, --help               Print help

Example:
  desk init town.db --base 01a00000
""",
    "migrate --help": """\
Moves a desk's file from schema 1 to schema 2

Usage: desk migrate <FILE>

Arguments:
  <FILE>  The desk's file

Options:
  -h, --help  Print help

Nothing is printed. All commands but this one take files of schema 2 alone.

Example:
  desk migrate town.db
""",
    "hear --help": """\
Answers the messages of standard input, one a line, for the desk in a file

Usage: desk hear <FILE>

Arguments:
  <FILE>  The desk's file

Options:
  -h, --help  Print help

Example:
  desk hear town.db < messages.txt
""",
    "import --help": """\
Answers the records of a gateway's CSV report on standard input, one a line

Usage: desk import --sender <NAME> <FILE>

Arguments:
  <FILE>  The desk's file

Options:
      --sender <NAME>  Who sends the report
  -h, --help           Print help

Example:
  desk import town.db --sender office < report.csv
""",
    "serve --help": """\
Serves messages, reports and the log over HTTP on 127.0.0.1

Usage: desk serve [OPTIONS] --port <P> --count <N> <FILE>

Arguments:
  <FILE>  The desk's file

Options:
      --port <P>   The port, 1 to 65535
      --count <N>  How many connections, one after another, 1 to 1000000
      --log        Writes a line for each connection to standard error
  -h, --help       Print help

A connection's first octet has one second, each further read and each write five, and a
request ten as a whole. A request with a header field Origin, as a browser sends it for a
page of another place, is answered 403.

Example:
  desk serve town.db --port 8080 --count 100
""",
    "report --help": """\
Prints the report of an owner's month

Usage: desk report <FILE> <OWNER> <MONTH>

Arguments:
  <FILE>   The desk's file
  <OWNER>  The owner
  <MONTH>  The month, as 2024-02

Options:
  -h, --help  Print help

Example:
  desk report town.db town 2024-02
""",
    "bands --help": """\
Prints the bands of a gateway

Usage: desk bands <FILE> <GATEWAY>

Arguments:
  <FILE>     The desk's file
  <GATEWAY>  The gateway

Options:
  -h, --help  Print help

Example:
  desk bands town.db gw-a
""",
    "room --help": """\
Prints how long a downlink of a gateway may be that begins at a time

Usage: desk room <FILE> <GATEWAY> <TIME>

Arguments:
  <FILE>     The desk's file
  <GATEWAY>  The gateway
  <TIME>     The time, in microseconds since 1970

Options:
  -h, --help  Print help

Example:
  desk room town.db gw-a 1706745601061696
""",
    "list --help": """\
Prints the senders, the owners, the gateways or the devices of a desk

Usage: desk list <FILE> <WHAT>

Arguments:
  <FILE>  The desk's file
  <WHAT>  What to list: senders, owners, gateways or devices

Options:
  -h, --help  Print help

Example:
  desk list town.db devices
""",
    "device --help": """\
Prints one device: its owner, its latest session and its counters

Usage: desk device <FILE> <DEVEUI>

Arguments:
  <FILE>    The desk's file
  <DEVEUI>  The device's DevEUI

Options:
  -h, --help  Print help

Example:
  desk device town.db 0004a30b001a2b3c
""",
    "receptions --help": """\
Prints the receptions of a device in a month

Usage: desk receptions <FILE> <DEVEUI> <MONTH>

Arguments:
  <FILE>    The desk's file
  <DEVEUI>  The device's DevEUI
  <MONTH>   The month, as 2024-02

Options:
  -h, --help  Print help

Example:
  desk receptions town.db 0004a30b001a2b3c 2024-02
""",
    "downlinks --help": """\
Prints the downlinks of a gateway in a month

Usage: desk downlinks <FILE> <GATEWAY> <MONTH>

Arguments:
  <FILE>     The desk's file
  <GATEWAY>  The gateway
  <MONTH>    The month, as 2024-02

Options:
  -h, --help  Print help

Example:
  desk downlinks town.db gw-a 2024-02
""",
    "log --help": """\
Prints the messages that the desk has heard, or their answers, one a line

Usage: desk log [OPTIONS] <FILE>

Arguments:
  <FILE>  The desk's file

Options:
      --from <N>   The number of the first message [default: 1]
      --count <N>  How many messages at most; all to the last if it is left out
      --answers    Prints the answers, and not the messages
  -h, --help       Print help

Example:
  desk log town.db > messages.txt
  desk log town.db --from 9 --count 1 --answers
""",
    "check --help": """\
Prints what a desk's file was made with, and how much it holds

Usage: desk check <FILE>

Arguments:
  <FILE>  The desk's file

Options:
  -h, --help  Print help

Example:
  desk check town.db
""",
    "audit --help": """\
Checks that a desk's file has exactly the rows that its messages make

Usage: desk audit [OPTIONS] <FILE>

Arguments:
  <FILE>  The desk's file

Options:
      --scratch <PATH>  A new file for the second desk, which is removed; else it is in memory
  -h, --help            Print help

Example:
  desk audit town.db
  desk audit town.db --scratch /dev/shm/scratch.db
""",
}

# Other names for the first of them.
WHOLE_HELP = ["-h", "help"]

USAGES = {
    "": f"error: a command is needed\n\nUsage: desk [COMMAND]{SEE_HELP}",
    "serve town.db": "error: the following required arguments were not provided:\n  --port <P>\n  --count <N>\n\n"
    f"Usage: desk serve --port <P> --count <N> <FILE>{SEE_HELP}",
    "lines --file x": f"error: unexpected argument '--file' found\n\nUsage: desk lines [OPTIONS]{SEE_HELP}",
}

# ---- arguments that a command takes

# If a file isn't there a command reports that, and not that its arguments are wrong.
TAKEN = [
    "migrate town.db",
    "hear town.db",
    "hear lines",
    "hear -",
    "hear ",
    "import town.db --sender office",
    "import --sender=-._A été.db",
    "import --sender abcdefghijklmnopqrstuvwxyz-_.012 town.db",
    "serve town.db --port 8080 --count 100",
    "serve --count=1 --port=1 town.db",
    "serve --port 65535 town.db --count 1000000",
    "serve town.db --port 00080 --count 0000000001",
    "serve town.db --port=0000065535 --count=0001000000",
    "serve --log town.db --port 8080 --count 100",
    "report town.db town 2024-02",
    "report 2024-02 town.db town",
    "report town.db  ",
    "report town.db -- -a --b",
    "bands town.db gw-a",
    "bands gw-a town.db",
    "room town.db gw-a 1706745601061696",
    "room town.db gw-a x",
    "list town.db senders",
    "list town.db owners",
    "list owners gateways",
    "list -- -a devices",
    "device town.db 0004a30b001a2b3c",
    "device town.db x",
    "receptions town.db 0004a30b001a2b3c 2024-02",
    "receptions town.db x y",
    "downlinks town.db gw-a 2024-02",
    "downlinks 2024-02 town.db gw-a",
    "downlinks -- -a --b -c",
    "log town.db",
    "log --answers town.db --from 1",
    "log --count=9007199254740991 town.db --from=0000000000000001",
    "log log --count 1 --answers",
    "check town.db",
    "check -- --help",
    "audit town.db",
    "audit audit",
    "audit town.db --scratch scratch.db",
    "audit --scratch=scratch.db town.db",
]

# Words behind `init FILE`, and the names and numbers that the desk is made with.
OFFICE = "desk", "office"
MADE = [
    ("", (*OFFICE, "01a00000", "65536")),
    ("--base 00000001 --addresses=7", (*OFFICE, "00000001", "7")),
    ("--addresses 1 --base=FFFFffff", (*OFFICE, "ffffffff", "1")),
    ("--receiver town --operator op.1 --base 00000001 --addresses 7", ("town", "op.1", "00000001", "7")),
    ("--addresses=0000000008 --base=fFaB09cD --operator=-._A --receiver=Z", ("Z", "-._A", "ffab09cd", "8")),
    ("--base 01A00000", (*OFFICE, "01a00000", "65536")),
    ("--base 00000001 --addresses 4294967295", (*OFFICE, "00000001", "4294967295")),
    (f"--receiver {LONGEST_NAME}", (LONGEST_NAME, "office", "01a00000", "65536")),
    ("--operator desk", ("desk", "desk", "01a00000", "65536")),
]

# ---- arguments that clap refuses, by how its error begins

REFUSED = {
    "error: a command is needed": ["", "--"],
    "error: unrecognized subcommand": ["line", "Lines"],
    "error: the following required arguments were not provided:": [
        "init",
        "init --base 01a00000",
        "migrate",
        "hear",
        "import town.db",
        "import --sender a",
        "serve --port 1 --count 1",
        "serve town.db --count 1",
        "serve town.db --port 0",
        "report town.db town",
        "bands town.db",
        "room town.db gw-a",
        "list town.db",
        "device town.db",
        "receptions town.db 0004a30b001a2b3c",
        "downlinks town.db gw-a",
        "log --from 1",
        "check",
        "audit",
        "audit --scratch a",
    ],
    "error: unexpected argument": [
        "init a b",
        "migrate a b",
        "init town.db --sender a",
        "hear a b",
        "hear town.db --base 01a00000",
        "import a b --sender a",
        "serve a b --port 1 --count 1",
        "serve town.db -p 1 --count 1",
        "hear town.db --log",
        "report town.db town 2024-02 x",
        "bands town.db gw-a x",
        "room town.db gw-a 1 x",
        "list town.db owners devices",
        "device town.db 0004a30b001a2b3c x",
        "receptions town.db 0004a30b001a2b3c 2024-02 x",
        "downlinks town.db gw-a 2024-02 x",
        "log town.db 9",
        "check town.db x",
        "audit a b",
        "check town.db --scratch a",
        "--port 1 serve town.db --count 1",
        "lines --port 1",
        "lines lines",
        "lines --version",
        "-V",
        "--base 01a00000 lines",
    ],
    "error: a value is required for": [
        "import town.db --sender",
        "lines --base",
        "log town.db --from",
        "audit town.db --scratch",
    ],
    "error: the argument": [
        "import town.db --sender a --sender a",
        "serve town.db --port 1 --port 1 --count 1",
        "serve town.db --port 1 --count 1 --log --log",
        "log town.db --from 1 --from 1",
        "log town.db --answers --answers",
        "audit town.db --scratch a --scratch b",
        "--version --version",
        "lines --base 01a00000 --base 01a00000",
    ],
}

# ---- values out of their form or range: the first one is reported

BAD = {
    "WHAT is senders, owners, gateways or devices": [
        "list town.db device",
        "list town.db Devices",
        "list town.db devices,owners",
        "list devices town.db",
        "list town.db ",
    ],
    "--receiver takes 1 to 32 ASCII letters, digits, '-', '_' and '.'": [
        "lines --receiver abcdefghijklmnopqrstuvwxyz-_.0123",
        "lines --receiver=",
        "lines --operator bad/ --receiver bad/",
    ],
    "--operator takes 1 to 32 ASCII letters, digits, '-', '_' and '.'": [
        "lines --operator bad/",
    ],
    "--base takes eight hexadecimal digits": [
        "lines --base 1a00000",
        "lines --base 001a00000",
        "lines --base +1a00000",
        "lines --base=-1a00000",
        "lines --base 0x01a000",
        "lines --base 0x01a00000",
        "lines --base 01a0000g",
        "lines --base 01a0000é",
        "lines --base=",
        "lines --base 0",
        "init town.db --base 1a00000",
    ],
    "--addresses takes a number up to 4294967295, in digits": [
        "lines --addresses=",
        "lines --addresses +1",
        "lines --addresses=-1",
        "lines --addresses 0x10",
        "lines --addresses 1a",
        "lines --addresses 00000000001",
        "lines --addresses 4294967296",
    ],
    "--addresses is at least 1, and ends at address ffffffff or before": [
        "lines --addresses 0",
        "lines --base ffffffff --addresses 2",
        "lines --base 00000002 --addresses 4294967295",
        "init town.db --addresses 0",
    ],
    "--sender takes 1 to 32 ASCII letters, digits, '-', '_' and '.'": [
        "import town.db --sender=",
        "import town.db --sender of/fice",
        "import town.db --sender été",
        "import town.db --sender abcdefghijklmnopqrstuvwxyz-_.0123",
    ],
    "--port takes a number from 1 to 65535, in digits": [
        "serve town.db --port 0 --count 1",
        "serve town.db --port 65536 --count 1",
        "serve town.db --port +1 --count 1",
        "serve town.db --port=-1 --count 1",
        "serve town.db --port= --count 1",
        "serve town.db --port 80a --count 1",
        "serve town.db --port 00000000080 --count 1",
        "serve town.db --port 4294967376 --count 1",
        "serve town.db --count 0 --port 0",
    ],
    "--count takes a number from 1 to 1000000, in digits": [
        "serve town.db --port 80 --count 0",
        "serve town.db --port 80 --count 1000001",
        "serve town.db --port 80 --count +1",
        "serve town.db --port 80 --count=",
        "serve town.db --port 80 --count 1e3",
        "serve town.db --port 80 --count 00000000001",
        "serve town.db --port 80 --count 4294967297",
    ],
    "--from takes a number from 1 to 9007199254740991, in digits": [
        "log town.db --from 0",
        "log town.db --from 9007199254740992",
        "log town.db --from 00000000000000001",
        "log town.db --from +1",
        "log town.db --from=-1",
        "log town.db --from=",
        "log town.db --from x",
        "log town.db --count 0 --from 0",
    ],
    "--count takes a number from 1 to 9007199254740991, in digits": [
        "log town.db --count 0",
        "log town.db --count 9007199254740992",
        "log town.db --count 00000000000000001",
        "log town.db --count 1e3",
        "log town.db --count=",
    ],
}

# What no line of arguments can have: a value with a space, and an argument that is no text.
ODD = [
    (["lines", "--addresses", " 1"], f"error: --addresses takes a number up to 4294967295, in digits{SEE_HELP}"),
    (["lines", "--operator", "a b"], f"error: --operator takes 1 to 32 ASCII letters, digits, '-', '_' and '.'{SEE_HELP}"),
    (["import", "town.db", "--sender", "a b"], f"error: --sender takes 1 to 32 ASCII letters, digits, '-', '_' and '.'{SEE_HELP}"),
    (["lines", b"\xff"], "error: a word isn't UTF-8\n"),
]


class Desk:
    """The program, run in a folder of its own."""

    def __init__(self, program, folder):
        self.program = program
        self.folder = folder
        self.runs = 0

    def run(self, words):
        """Its status, and what it wrote to standard output and to standard error."""
        self.runs += 1
        ran = subprocess.run(["desk", *words], executable=self.program, cwd=self.folder, stdin=subprocess.DEVNULL, capture_output=True, timeout=60)
        return ran.returncode, ran.stdout.decode(), ran.stderr.decode()

    def is_refused(self, words, is_told):
        status, written, told = self.run(words)
        wants(status == 2 and written == "" and is_told(told), f"{words}: status {status}, {written!r}, {told!r}")
        wants(not list(self.folder.iterdir()), f"{words}: it leaves a file")


def words_of(line):
    """The arguments of a line, which are separated by single spaces. An empty line has none."""
    return line.split(" ") if line else []


def sees_what_is_printed(desk):
    for line, text in {**HELPS, **USAGES}.items():
        desk.is_refused(words_of(line), lambda told, text=text: told == text)
    for line in WHOLE_HELP:
        desk.is_refused(words_of(line), lambda told: told == HELPS["--help"])
    for words, text in ODD:
        desk.is_refused(words, lambda told, text=text: told == text)


def sees_the_version(desk):
    newest = re.search(r"^## (.+)$", (ROOT / "CHANGELOG.md").read_text(), re.M)[1]
    kit = re.search(r"logic [0-9a-f]{16}", (ROOT / "desk").read_text())[0]
    for line in ["--version", "--version lines", "--version report town.db town 2024-02"]:
        ran = desk.run(words_of(line))
        wants(ran == (0, f"desk {newest}\nschema 2\nRattle kit, {kit}\n", ""), f"{line}: {ran}")


def sees_what_is_refused(desk):
    for begins, lines in REFUSED.items():
        for line in lines:
            desk.is_refused(words_of(line), lambda told, begins=begins: told.startswith(begins))
    for text, lines in BAD.items():
        for line in lines:
            desk.is_refused(words_of(line), lambda told, text=text: told == f"error: {text}{SEE_HELP}")


def sees_what_is_taken(desk):
    for line in TAKEN:
        ran = desk.run(words_of(line))
        wants(ran == (3, "", "desk: file\n"), f"{line}: {ran}")
    for line, (receiver, operator, base, addresses) in MADE:
        for file in ["town.db", "--base", "lines"]:
            made = desk.run(["init", *words_of(line), "--", file])
            wants(made == (0, "", ""), f"init {line}: {made}")
            status, written, told = desk.run(["check", "--", file])
            begins = f"schema: 2\nreceiver: {receiver}\noperator: {operator}\nbase: {base}\naddresses: {addresses}\n"
            wants(status == 0 and written.startswith(begins), f"init {line}: {written!r}, {told!r}")
            for left in desk.folder.iterdir():
                left.unlink()


def main():
    words = argparse.ArgumentParser(description=__doc__.splitlines()[0])
    add_program(words)
    given = words.parse_args()
    with tempfile.TemporaryDirectory() as folder:
        desk = Desk(ready(given.program), Path(folder))
        sees_what_is_printed(desk)
        sees_the_version(desk)
        sees_what_is_refused(desk)
        sees_what_is_taken(desk)
        print(f"{desk.runs} runs, all as they should be")


if __name__ == "__main__":
    main()
