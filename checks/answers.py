#!/usr/bin/env python3
"""Tries each proof by hand of a function without it: does the prover's own search prove the function?

    checks/answers.py [--together] [--seconds 300] [--jobs 1] [CRATE ..] [--only WORD]

A function's proof by hand is `crates/CRATE/proofs/PATH/Answers.antt`. For each one, or those whose path has the word, the function is
checked twice in a copy of the crate: with the file, so that its proof is made anew, and without it. The other functions keep theirs,
since a function is judged by the contracts of those that it calls.

It prints a line for each function: the seconds of a processor with the file and without it, or that the file is needed. Both times
contain what every check takes before its first function, so their difference is what the file saves. A check that takes longer
than --seconds by the clock counts as not proved. The repository is only read.

With --together all of a crate's files are taken away at once, and the crate is checked once. It prints for each file whether the
search leaves a goal of the function open, and the answers of the file whose goals it proves. What a file saves isn't measured then.
"""

import argparse
import os
import re
import signal
import subprocess
import sys
import tempfile
from concurrent.futures import ThreadPoolExecutor
from pathlib import Path

from wrong_bodies import ROOT, copied, crates

MOST_MORE = 10  # seconds of a processor that the search may take beyond the file, for the file to be called needless


def answers_of(crate, word):
    folder = ROOT / "crates" / crate / "proofs"
    return [it.relative_to(folder) for it in sorted(folder.rglob("Answers.antt")) if word in it.parent.as_posix()]


def seconds_of_children(ran):
    """The seconds of a processor that a process and its children took, once it has ended."""
    _, status, usage = os.wait4(ran.pid, 0)
    ran.returncode = os.waitstatus_to_exitcode(status)
    return usage.ru_utime + usage.ru_stime


def checked(folder, function, limit):
    """Returns whether the function is proved, and the seconds of a processor that it took."""
    words = ["timeout", "--kill-after=5", str(limit), "rt", "check", "--jobs", "1", "--only", function]
    with subprocess.Popen(words, cwd=folder, stdin=subprocess.DEVNULL, stdout=subprocess.DEVNULL, stderr=subprocess.STDOUT) as ran:
        seconds = seconds_of_children(ran)
    return ran.returncode == 0, seconds


def try_one(folder, answers, limit):
    """Returns whether the proof by hand is needed, and what to print of it."""
    function, file = "::".join(answers.parent.parts), folder / "proofs" / answers
    text = file.read_text()
    # another text, so that nothing is taken over from an earlier check
    file.write_text(text + "-- again\n")
    is_proved, with_it = checked(folder, function, limit)
    if not is_proved:
        sys.exit(f"answers.py: {function} isn't proved with its proof by hand")
    try:
        file.unlink()
        is_proved, without = checked(folder, function, limit)
    finally:
        file.write_text(text)
    if not is_proved:
        return True, f"needed (with it {with_it:.1f} s)"
    said = "needless" if without - with_it < MOST_MORE else "saves time"
    return said != "needless", f"{said}: {with_it:.1f} s with it, {without:.1f} s without"


# fn NAME: no proof: expected answers in FILE; `search` did not prove `GOAL`, `GOAL`
LEFT_OPEN = re.compile(r"^\w+ \w+::(\S+): no proof: .*`search` did not prove (.*?)(?:; .*)?$", re.M)
ANSWER = re.compile(r"^(?:pub )?\S+ : goal\.(\S+)$", re.M)


def goals_left(told, function):
    """Returns the goals of the function that the check left open, those of its closures among them."""
    of_function = [goals for name, goals in LEFT_OPEN.findall(told) if f"{name.replace('fn::', '')}::".startswith(f"{function}::")]
    return [goal for goals in of_function for goal in re.findall(r"`([^`]+)`", goals)]


def is_answer_to(answered, goal):
    """A goal and its clauses are answered whole or one by one."""
    return answered == goal or answered.startswith(f"{goal}-clause-") or goal.startswith(f"{answered}-clause-")


def try_together(crate, known, word, limit):
    """Tries all of the crate's proofs by hand at once. Returns how many the search does without."""
    tried = answers_of(crate, word)
    needless = 0
    with tempfile.TemporaryDirectory(prefix="answers-") as temporary:
        folder = copied(crate, known, Path(temporary))
        texts = {answers: (folder / "proofs" / answers).read_text() for answers in tried}
        for answers in tried:
            (folder / "proofs" / answers).unlink()
        words = ["timeout", "--kill-after=5", str(limit), "rt", "check", "--jobs", "1"]
        ran = subprocess.run(words, cwd=folder, stdin=subprocess.DEVNULL, stdout=subprocess.PIPE, stderr=subprocess.STDOUT, text=True)
    if not re.search(r"^logic=", ran.stdout, re.M):
        sys.exit(f"answers.py: {crate} wasn't judged within {limit} s\n{ran.stdout[-1000:]}")
    for answers, text in texts.items():
        function = "::".join(answers.parent.parts)
        left = goals_left(ran.stdout, function)
        proved = [it for it in ANSWER.findall(text) if not any(is_answer_to(it, goal) for goal in left)]
        needless += not left
        said = "needed" if left else "needless"
        print(f"{crate}::{function}: {said}" + (f"; the search proves {', '.join(proved)}" if left and proved else ""), flush=True)
    print(f"{crate}: {len(tried)} proofs by hand, {needless} needless", flush=True)
    return needless


def try_crate(crate, known, word, limit):
    """Tries the crate's proofs by hand. Returns how many are needless."""
    tried = answers_of(crate, word)
    needless = 0
    with tempfile.TemporaryDirectory(prefix="answers-") as temporary:
        folder = copied(crate, known, Path(temporary))
        for answers in tried:
            is_needed, said = try_one(folder, answers, limit)
            needless += not is_needed
            print(f"{crate}::{'::'.join(answers.parent.parts)}: {said}", flush=True)
    print(f"{crate}: {len(tried)} proofs by hand, {needless} needless", flush=True)
    return needless


def main():
    words = argparse.ArgumentParser(description=__doc__.splitlines()[0])
    words.add_argument("crates", nargs="*", metavar="CRATE", help="the crates to take, of all where none is named")
    words.add_argument("--only", default="", metavar="WORD", help="take the functions whose path has this word")
    words.add_argument("--together", action="store_true", help="take all files of a crate away at once, and check it once")
    words.add_argument("--seconds", type=int, default=300, help="how long a check may take, by the clock (default: 300)")
    words.add_argument("--jobs", type=int, default=1, help="how many crates to try side by side (default: 1)")
    given, known = words.parse_args(), crates()
    unknown = [crate for crate in given.crates if crate not in known]
    if unknown:
        sys.exit(f"crates.txt names no crate {', '.join(unknown)}")
    signal.signal(signal.SIGTERM, lambda *_: sys.exit(1))
    with ThreadPoolExecutor(given.jobs) as pool:
        try_one_crate = try_together if given.together else try_crate
        counts = list(pool.map(lambda crate: try_one_crate(crate, known, given.only, given.seconds), given.crates or list(known)))
    print(f"{sum(counts)} needless in all")


if __name__ == "__main__":
    main()
