#!/usr/bin/env python3
"""Runs the gate from nothing, and prints where its processor time goes.

    checks/gate_minutes.py [--jobs 1] [--log FILE] [--huge-pages]

It clones the commit that is checked out into a folder of its own, runs `rt ci` there with --jobs checks side by side, and looks four
times a second at what each process has taken. Nothing that earlier runs kept is taken over, if rt has an option for that. What rt prints goes
to the log. With --huge-pages, for which it has to be run by root, the kernel gives every program huge pages until the run ends, and
then has its former setting again.

It prints minutes of a processor, crate by crate: of the first check, the check with its tests, the check before its first edit, and the
edits; and then what the run took in all, as the system counted it. Where rt tries a crate's first edit from nothing no check is listed
before it, and the edits took that much more. A machine whose processors others share takes up to twice as long as one that is alone.
It fails where the gate does.
"""

import argparse
import os
import re
import resource
import subprocess
import sys
import tempfile
import time
from collections import Counter
from contextlib import contextmanager
from pathlib import Path

ROOT = Path(__file__).resolve().parent.parent
TICK = os.sysconf("SC_CLK_TCK")
FIRST, TESTS, BEFORE, EDITS = KINDS = ["first check", "with its tests", "before its first edit", "its edits"]
OTHER = "building and running programs, and rt itself"
CRATE = re.compile(r"--crate-name (\S+)")
KEPT = re.compile(r"--incremental (\S+)")
HUGE_PAGES = Path("/sys/kernel/mm/transparent_hugepage/enabled")


def part_of(words, folder):
    """Which part of the gate a process belongs to, by its command line and its folder: a crate and a kind of check, or the rest."""
    crate = CRATE.search(words)
    if not crate or not re.match(r"\S*rattle (build|check) ", words):
        return OTHER, ""
    if Path(folder).name.startswith("rt-edit-"):
        kept = KEPT.search(words)
        return crate[1], BEFORE if kept and kept[1].endswith("/seed") else EDITS
    return crate[1], TESTS if " --test" in words else FIRST


def taken_by(process, session):
    """The part that a process of the run belongs to, and the seconds that it has taken so far; None of others."""
    try:
        stat = (process / "stat").read_text()
        fields = stat[stat.rindex(")") + 2 :].split()
        if int(fields[3]) != session:
            return None
        words = (process / "cmdline").read_text().replace("\0", " ")
        return part_of(words, os.readlink(process / "cwd")), (int(fields[11]) + int(fields[12])) / TICK
    except (OSError, ValueError):
        # it has just ended
        return None


def watched(run):
    """Waits for the run, and returns the seconds of each part. What a process takes after the last look at it is missed."""
    taken = {}
    while run.poll() is None:
        for process in Path("/proc").glob("[0-9]*"):
            found = taken_by(process, run.pid)
            if found:
                part, seconds = found
                taken[process.name, part] = seconds
        time.sleep(0.25)
    seconds = Counter()
    for (_, part), count in taken.items():
        seconds[part] += count
    return seconds


def words_of_gate():
    said = subprocess.run(["rt", "help"], stdin=subprocess.DEVNULL, capture_output=True, text=True)
    return ["rt", "ci", "--anew"] if "--anew" in said.stdout + said.stderr else ["rt", "ci"]


@contextmanager
def huge_pages(are_wanted):
    """The kernel gives every program huge pages meanwhile, where they are wanted."""
    if not are_wanted:
        yield
        return
    before = re.search(r"\[(\w+)\]", HUGE_PAGES.read_text())[1]
    HUGE_PAGES.write_text("always")
    try:
        yield
    finally:
        HUGE_PAGES.write_text(before)


def main():
    words = argparse.ArgumentParser(description=__doc__.splitlines()[0])
    words.add_argument("--jobs", type=int, default=1, help="how many checks run side by side (default: 1)")
    words.add_argument("--log", type=Path, default=Path("gate.log"), help="the file for what rt prints (default: gate.log)")
    words.add_argument("--huge-pages", action="store_true", help="have the kernel give every program huge pages meanwhile")
    given = words.parse_args()
    with huge_pages(given.huge_pages), tempfile.TemporaryDirectory(prefix="gate-") as folder, given.log.open("w") as log:
        subprocess.run(["git", "clone", "-q", ROOT, f"{folder}/desk"], check=True)
        how = {"cwd": f"{folder}/desk", "stdin": subprocess.DEVNULL, "stdout": log, "stderr": log, "start_new_session": True}
        began, before = time.monotonic(), resource.getrusage(resource.RUSAGE_CHILDREN)
        with subprocess.Popen(words_of_gate(), env={**os.environ, "RT_JOBS": str(given.jobs)}, **how) as run:
            seconds = watched(run)
        after = resource.getrusage(resource.RUSAGE_CHILDREN)
    user, system = after.ru_utime - before.ru_utime, after.ru_stime - before.ru_stime
    crates = list(dict.fromkeys(crate for crate, _ in seconds if crate != OTHER))
    print("| Crate |", " | ".join([*KINDS, "in all"]), "|")
    for crate in crates:
        of_crate = [seconds[crate, kind] for kind in KINDS]
        print(f"| {crate} |", " | ".join(f"{it / 60:.1f}" for it in [*of_crate, sum(of_crate)]), "|")
    print(f"{OTHER}, and what was missed: {(user + system - sum(seconds[it] for it in seconds if it[0] != OTHER)) / 60:.1f}")
    print(f"{(time.monotonic() - began) / 60:.0f} minutes, {user / 60:.1f} of a processor in the programs and {system / 60:.1f} in the system")
    print(given.log.read_text().rstrip().rpartition("\n")[2])
    sys.exit(run.returncode)


if __name__ == "__main__":
    main()
