#!/usr/bin/env python3
"""Checks that the answers in docs/PROTOCOL.md are those of the desk.

    checks/messages.py [--program FILE]

The page's blocks `request` are handed, in their order, to one run of the command that the page names. What the program prints has to be
the lines of the page's blocks `answer`, in order, and nothing else; and the run has to end with status 0. Below a heading of a refusal
one of the answers has to have its ResultCode and Description. There has to be such a heading for each refusal that has an answer, and a
success of each message.

The program is `./desk`, which is proved and built first if it isn't current, or with --program the built one in FILE.
"""

import argparse
import json
import re
import subprocess
import sys

from common import ROOT, add_program, text_of

PAGE = ROOT / "docs" / "PROTOCOL.md"
MESSAGES = ["SenderAdd", "OwnerAdd", "GatewayAdd", "DeviceAdd", "DeviceMove", "JoinHeard", "FrameHeard", "DownBook", "DownDone", "LimitSet"]
ANSWERED_REFUSALS = range(1, 32)

COMMAND = re.compile(r"    \./desk (.+)")
# ### 18: `JoinReqFailed`, `nonce`
REFUSAL = re.compile(r"### (\d+): `(\w+)`(?:, `(\w+)`)?")


def read_page(lines):
    """Returns the program's words, the requests, the answers with their lines' numbers, and each heading's answers."""
    words, requests, answers, told, heading, block = None, [], [], {}, None, None
    for number, line in enumerate(lines, 1):
        if line.startswith("```"):
            block = line[3:] if block is None else None
        elif block == "request":
            requests.append(line)
        elif block == "answer":
            answers.append((number, line))
            if heading:
                told.setdefault(heading, []).append(json.loads(line)["Result"])
        elif line.startswith("#"):
            found = REFUSAL.fullmatch(line)
            heading = found and (int(found[1]), found[2], found[3] or "")
        elif words is None and COMMAND.fullmatch(line):
            words = COMMAND.fullmatch(line)[1].split()
    return words, requests, answers, told


def run(program, words, requests):
    given = text_of(requests)
    ran = subprocess.run(["desk", *words], executable=program, input=given, stdout=subprocess.PIPE, text=True)
    if ran.returncode:
        sys.exit(f"{program} ended with status {ran.returncode}")
    return ran.stdout.splitlines()


def differences(answers, written):
    """Prints where the answers aren't the lines that were written."""
    for (number, answer), line in zip(answers, written):
        if answer != line:
            yield f"{PAGE.name}:{number}: the page has\n  {answer}\nand the desk answers\n  {line}"
    if len(answers) != len(written):
        yield f"the page has {len(answers)} answers, and the desk wrote {len(written)}"


def untrue_headings(told):
    for (number, code, description), results in told.items():
        if {"ResultCode": code, "Description": description} not in results:
            yield f"refusal {number}: the heading has {code} and {description or 'nothing'}, and no answer below it does"


def missing(answers, told):
    for number in sorted(set(ANSWERED_REFUSALS) - {number for number, _, _ in told}):
        yield f"there is no answer below a heading of refusal {number}"
    results = {(answer.get("MessageType"), answer["Result"]["ResultCode"]) for answer in (json.loads(line) for _, line in answers)}
    for message in MESSAGES:
        if (message + "Ans", "Success") not in results:
            yield f"there is no success of {message}"


def main():
    words = argparse.ArgumentParser(description=__doc__.splitlines()[0])
    add_program(words)
    program = words.parse_args().program.resolve()
    given, requests, answers, told = read_page(PAGE.read_text().splitlines())
    if not given or not requests:
        sys.exit(f"{PAGE.name} has no command or no requests")
    faults = [*differences(answers, run(program, given, requests)), *untrue_headings(told), *missing(answers, told)]
    for fault in faults:
        print(fault)
    outcome = f"{len(faults)} errors" if faults else "all as on the page"
    print(f"{len(requests)} requests, {len(answers)} answers, {len(told)} refusals: {outcome}")
    sys.exit(bool(faults))


if __name__ == "__main__":
    main()
