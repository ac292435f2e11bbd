#!/usr/bin/env python3
"""Measures the first call of `./desk`, which proves and builds the program from nothing, in one commit and in another.

    checks/first_call.py [--folder FOLDER] [COMMIT ..]

It clones each commit into a folder of its own and runs `./desk lines` there, with no input; without COMMIT it takes the one that is
checked out. The clones are in FOLDER, each needs 5 GB, and they are removed at the end. Commits are run one after
another, each on all processors, so measure on a machine that does nothing else.

rt keeps what passed in a folder next to its kit, and every checkout on the machine uses it. So each run gets a kit of its own, which
is made of links to the kit and has an empty folder next to it. Nothing that earlier runs kept is used.

It prints what `./desk` prints, and for each commit the minutes by the clock and of a processor, and how they compare with the first
commit's. The processor's minutes miss some seconds of a check of desk_cli that `./desk` ends itself. It fails if a call fails. Half an
hour a commit on four processors.
"""

import argparse
import os
import resource
import shutil
import signal
import subprocess
import sys
import tempfile
import time
from pathlib import Path

ROOT = Path(__file__).resolve().parent.parent
LARGE = 1_000_000  # octets from which a file of the kit's bin/ is linked: rt looks for the kit where its own scripts are


def kit_of_links(folder):
    """Makes a kit that is like the one on the PATH, in a folder of its own, and returns the folder of its commands."""
    rt = shutil.which("rt")
    if not rt:
        sys.exit("first_call.py: there is no rt on the PATH")
    commands = Path(rt).resolve().parent
    made = folder / "kit"
    (made / "bin").mkdir(parents=True)
    for it in commands.parent.iterdir():
        if it.name != "bin":
            (made / it.name).symlink_to(it)
    for it in commands.iterdir():
        if it.is_file() and it.stat().st_size < LARGE:
            shutil.copy(it, made / "bin")
        else:
            (made / "bin" / it.name).symlink_to(it)
    return made / "bin"


def first_call(commit, folder):
    """Returns the minutes by the clock and of a processor that a first call takes in this commit."""
    clone = folder / "desk"
    subprocess.run(["git", "clone", "-q", ROOT, clone], check=True)
    subprocess.run(["git", "checkout", "-q", "--detach", commit], cwd=clone, check=True)
    environment = {**os.environ, "PATH": f"{kit_of_links(folder)}:{os.environ['PATH']}"}
    began, before = time.monotonic(), resource.getrusage(resource.RUSAGE_CHILDREN)
    ran = subprocess.run(["./desk", "lines"], cwd=clone, env=environment, stdin=subprocess.DEVNULL)
    clock, after = time.monotonic() - began, resource.getrusage(resource.RUSAGE_CHILDREN)
    if ran.returncode:
        sys.exit(f"first_call.py: the first call of {commit} ended with {ran.returncode}")
    return clock / 60, (after.ru_utime + after.ru_stime - before.ru_utime - before.ru_stime) / 60


def main():
    words = argparse.ArgumentParser(description=__doc__, formatter_class=argparse.RawDescriptionHelpFormatter)
    words.add_argument("commits", nargs="*", default=["HEAD"], metavar="COMMIT", help="the commits to measure, the older one first")
    words.add_argument("--folder", type=Path, help="where the clones are meanwhile")
    given = words.parse_args()
    for number in (signal.SIGINT, signal.SIGTERM):
        signal.signal(number, lambda *_: sys.exit("first_call.py: interrupted"))
    hashes = []
    for commit in given.commits:
        ran = subprocess.run(["git", "rev-parse", "--verify", "--short", f"{commit}^{{commit}}"], cwd=ROOT, capture_output=True, text=True)
        if ran.returncode:
            sys.exit(f"first_call.py: there is no commit {commit}")
        hashes.append(ran.stdout.strip())
    found = []
    for commit in hashes:
        print(f"{commit}:", flush=True)
        with tempfile.TemporaryDirectory(prefix="first-call-", dir=given.folder) as folder:
            found.append(first_call(commit, Path(folder)))
    print("| Commit | Minutes by the clock | of a processor | Clock, to the first | Processor, to the first |")
    print("|---|---|---|---|---|")
    for commit, (clock, processor) in zip(hashes, found, strict=True):
        print(f"| {commit} | {clock:.1f} | {processor:.1f} | {clock / found[0][0]:.2f} | {processor / found[0][1]:.2f} |")


if __name__ == "__main__":
    main()
