#!/usr/bin/env python3
"""Checks what a terminal shows: which file can't be opened, and why; how many lines a command has read, how many records it has
answered, and how many messages it has heard.

    checks/terminal.py [--program FILE]

Elsewhere standard error has the one line of an error, or nothing, and standard output is the same.

The program is `./desk`, which is proved and built first if it isn't current, or with --program the built one in FILE.
"""

import argparse
import os
import pty
import re
import signal
import subprocess
import tempfile
import time
from concurrent.futures import ThreadPoolExecutor
from pathlib import Path

from common import ROOT, add_program, ready, wants

NOBODY = 65_534
TOLD = "desk: file\n"
LINES = b"".join(path.read_bytes() for path in sorted((ROOT / "examples").glob("[1-4]-*.jsonl"))).splitlines(keepends=True)
FIRST = 5  # how many of them come before the pause
# above the second after which a number is shown
PAUSE_SECONDS = 1.2
CLEARED = "\r\x1b[K"
# a program goes on this long between two pauses
RUN_SECONDS = 0.05
PAUSES = 3
RECORDS = 3000
# the frames of a gateway that nobody added: each is heard, and refused
REPORT = "transaction,type,gateway,time_us,freq_hz,dr,phy,verdict\n" + "".join(
    f"{number},FrameHeard,gw-none,1706745700041216,868300000,5,400000a00100000011223344,0\n" for number in range(1, RECORDS + 1)
)


def as_nobody():
    """To root every file may be read and written."""
    if os.geteuid() == 0:
        os.setuid(NOBODY)


def at_terminal(program, *words, **more):
    """The status, and what a terminal shows of standard error."""
    ours, theirs = pty.openpty()
    ran = subprocess.run([program, *words], stdin=subprocess.DEVNULL, stdout=subprocess.PIPE, stderr=theirs, **more)
    os.close(theirs)
    told = shown_at(ours)
    wants(not ran.stdout, f"{words} prints {ran.stdout}")
    return ran.returncode, told


def shown_at(ours):
    """What a terminal has shown that no program has open any more. It is closed."""
    told = b""
    try:
        while octets := os.read(ours, 4096):
            told += octets
    except OSError:
        pass  # the end of a terminal that nobody has open
    os.close(ours)
    return told.decode().replace("\r\n", "\n")


def cases(program):
    Path("folder.db").mkdir()
    Path("text.db").write_text("no database at all\n" * 1000)
    for name in ("named.db", "shut.db", "held.db"):
        subprocess.run([program, "init", name], check=True)
    os.link("named.db", "second.db")
    Path("shut.db").chmod(0)
    yield ["check", "nothing.db"], '"nothing.db": there is no such file or folder', None
    yield ["init", "nowhere/town.db"], '"nowhere/town.db": there is no such file or folder', None
    yield ["check", "folder.db"], '"folder.db": it is a folder', None
    yield ["init", "folder.db"], '"folder.db": it is a folder', None
    yield ["check", "text.db"], '"text.db": it is no SQLite database, or it is damaged', None
    yield ["check", "named.db"], '"named.db": it can\'t be opened, or its log beside it can\'t', None
    yield ["check", "shut.db"], '"shut.db": it may not be read and written', as_nobody
    yield ["check", "a\x1b[31mb.db"], '"a\\u{1b}[31mb.db": there is no such file or folder', None
    with subprocess.Popen([program, "hear", "held.db"], stdin=subprocess.PIPE, stdout=subprocess.PIPE) as holding:
        holding.stdin.write(b"{\n")
        holding.stdin.flush()
        holding.stdout.readline()
        yield ["check", "held.db"], '"held.db": another program has it open', None
        holding.stdin.close()


# ---- how many lines were read


def lines_from(stream, count):
    """Reads `count` lines from a file descriptor, which has no more now."""
    text = b""
    while text.count(b"\n") < count:
        octets = os.read(stream, 65_536)
        wants(octets, f"{count} lines don't come: {text}")
        text += octets
    return text


def hears(program, file, stdout=None, stderr=subprocess.PIPE, is_cut=False):
    """Runs `hear`, and writes the first lines to it, then, more than a second later, the others. `stdout` is a terminal's two ends, if
    it isn't a pipe. With `is_cut` nobody reads the answers after that to the first of the later lines. Returns its status, its
    answers, and what came to a pipe of standard error."""
    subprocess.run([program, "init", file], check=True)
    ours, theirs = stdout or os.pipe()
    # a write to a pipe without a reader fails then, in place of a signal
    ran = subprocess.Popen([program, "hear", file], stdin=subprocess.PIPE, stdout=theirs, stderr=stderr, restore_signals=False)
    os.close(theirs)
    ran.stdin.write(b"".join(LINES[:FIRST]))
    ran.stdin.flush()
    answers = lines_from(ours, FIRST)
    time.sleep(PAUSE_SECONDS)
    rest = LINES[FIRST:]
    if is_cut:
        ran.stdin.write(rest.pop(0))
        ran.stdin.flush()
        answers += lines_from(ours, 1)
        os.close(ours)
    told = ran.communicate(b"".join(rest))[1]
    if not is_cut:
        answers += shown_at(ours).encode()
    return ran.returncode, answers.replace(b"\r\n", b"\n"), told


def hears_at_terminal(program, file, **more):
    """The same with a terminal as standard error, and what that shows."""
    ours, theirs = pty.openpty()
    status, answers, _ = hears(program, file, stderr=theirs, **more)
    os.close(theirs)
    return status, answers, shown_at(ours)


def shows_progress(program):
    """A terminal shows how many lines were read, but not if the answers come to a terminal too."""
    status, answers, told = hears(program, "piped.db")
    wants((status, answers.count(b"\n"), told) == (0, len(LINES), b""), f"hear ends with {status} {answers} {told}")
    found = hears_at_terminal(program, "shown.db")
    wants(found == (0, answers, f"\rdesk: {len(LINES)} lines{CLEARED}"), f"hear at a terminal ends with {found}")
    found = hears_at_terminal(program, "both.db", stdout=pty.openpty())
    wants(found == (0, answers, ""), f"hear with its answers at a terminal ends with {found}")
    found = hears_at_terminal(program, "cut.db", is_cut=True)
    first = b"".join(answers.splitlines(keepends=True)[: FIRST + 1])
    wants(found == (3, first, f"\rdesk: {FIRST + 1} lines{CLEARED}{TOLD}"), f"hear whose answers are cut ends with {found}")


# ---- how many records were answered, and messages heard


def paused(program, *words, answers=os.pipe, faults=os.pipe, **more):
    """Runs the program, and stops it some times for more than a second, early in its work. `answers` and `faults` open two ends for
    standard output and error. Returns its status, its answers, and what came to standard error."""
    ends = [answers(), faults()]
    ran = subprocess.Popen([program, *words], stdout=ends[0][1], stderr=ends[1][1], **more)
    with ThreadPoolExecutor() as readers:
        read = [readers.submit(shown_at, ours) for ours, _ in ends]
        for _, theirs in ends:
            os.close(theirs)
        for _ in range(PAUSES):
            time.sleep(RUN_SECONDS)
            ran.send_signal(signal.SIGSTOP)
            time.sleep(PAUSE_SECONDS)
            ran.send_signal(signal.SIGCONT)
        return ran.wait(), *(text.result() for text in read)


def is_progress(told, these, most):
    """Whether a terminal showed rising numbers of these, `most` at most, and cleared the last."""
    if not re.fullmatch(rf"(\rdesk: [0-9,]+ {these})+" + re.escape(CLEARED), told):
        return False
    numbers = [int(number.replace(",", "")) for number in re.findall(r"[0-9,]+", told)]
    return numbers == sorted(set(numbers)) and numbers[-1] <= most


def imports(program, file, **more):
    """Imports the report into a new file. Leaves out the lines that are shown if the first pause comes while the report is read."""
    subprocess.run([program, "init", file], check=True)
    with open("report.csv") as report:
        status, answers, told = paused(program, "import", file, "--sender", "office", stdin=report, **more)
    return status, answers, re.sub(r"^(\rdesk: [0-9,]+ lines)+" + re.escape(CLEARED), "", told)


def shows_records(program):
    """A terminal shows how many records were answered, also if the answers come to a terminal too."""
    Path("report.csv").write_text(REPORT)
    status, answers, told = imports(program, "import-piped.db")
    wants((status, answers.count("\n"), told) == (0, RECORDS, ""), f"import ends with {status} {told}")
    status, found, told = imports(program, "import-shown.db", faults=pty.openpty)
    wants((status, found) == (0, answers), f"import at a terminal ends with {status} {told}")
    wants(is_progress(told, "records", RECORDS), f"import at a terminal shows {told!r}")
    status, found, told = imports(program, "import-both.db", answers=pty.openpty, faults=pty.openpty)
    wants((status, found) == (0, answers), f"import with its answers at a terminal ends with {status} {told}")
    wants(is_progress(told, "records", RECORDS), f"import with its answers at a terminal shows {told!r}")


def audits(program, **more):
    """Audits the file that the import without a terminal has made."""
    return paused(program, "audit", "import-piped.db", **more)


def shows_messages(program):
    """A terminal shows how many messages were heard, whatever standard input and output are."""
    passed = f"heard: {RECORDS}\nin order\n"
    found = audits(program, stdin=subprocess.DEVNULL)
    wants(found == (0, passed, ""), f"audit ends with {found}")
    ours, theirs = pty.openpty()
    for stdin in (subprocess.DEVNULL, theirs):
        status, found, told = audits(program, stdin=stdin, faults=pty.openpty)
        wants((status, found) == (0, passed), f"audit at a terminal ends with {status} {found}")
        wants(is_progress(told, "messages", RECORDS), f"audit at a terminal shows {told!r}")
    os.close(ours)
    os.close(theirs)
    status, found, told = audits(program, stdin=subprocess.DEVNULL, answers=pty.openpty, faults=pty.openpty)
    wants((status, found) == (0, passed), f"audit with its answers at a terminal ends with {status} {found}")
    wants(is_progress(told, "messages", RECORDS), f"audit with its answers at a terminal shows {told!r}")


def main():
    words = argparse.ArgumentParser(description=__doc__, formatter_class=argparse.RawDescriptionHelpFormatter)
    add_program(words)
    program = ready(words.parse_args().program)
    tried = 0
    with tempfile.TemporaryDirectory() as folder:
        os.chmod(folder, 0o755)
        os.chdir(folder)
        for command, cause, before in cases(program):
            found = at_terminal(program, *command, preexec_fn=before)
            wants(found == (3, f"{TOLD}{cause}\n"), f"{command} at a terminal ends with {found}")
            ran = subprocess.run([program, *command], stdin=subprocess.DEVNULL, capture_output=True, text=True, preexec_fn=before)
            wants((ran.returncode, ran.stderr, ran.stdout) == (3, TOLD, ""), f"{command} ends with {ran}")
            tried += 1
        shows_progress(program)
        shows_records(program)
        shows_messages(program)
    print(f"{tried} files can't be opened: a terminal shows why, and standard error has one line elsewhere")
    print("it shows how many lines were read, how many records were answered, and how many messages were heard")


if __name__ == "__main__":
    main()
