#!/usr/bin/env python3
"""Checks the script `dev`: what each command prints and runs, and its exit status.

    checks/dev.py

Most of it happens in a copy of the repository with a fake rt, which notes its arguments and ends with a given status: so nothing is
proved there. Then, in the repository itself, the real rt proves one function of radio_core, lint runs, and the
scripts of a release are compared with the folder checks/. It prints how many cases there are, and fails at the first that is wrong.
"""

import argparse
import os
import re
import shutil
import subprocess
import sys
import tempfile
from pathlib import Path

from common import ROOT, wants

RT = """#!/usr/bin/env bash
echo "$(basename "$PWD") $*" >>"$CALLS"
exit "${STATUS:-0}"
"""
tried = 0


def holds(condition, what):
    global tried
    tried += 1
    wants(condition, what)


def tracked():
    said = subprocess.run(["git", "ls-files", "-co", "--exclude-standard"], cwd=ROOT, capture_output=True, text=True, check=True)
    return [name for name in said.stdout.splitlines() if (ROOT / name).is_file()]


class Copy:
    """A copy of the repository, with a fake rt."""

    def __init__(self, folder):
        self.folder, self.calls = folder / "desk", folder / "calls"
        for name in tracked():
            to = self.folder / name
            to.parent.mkdir(parents=True, exist_ok=True)
            shutil.copy(ROOT / name, to)
        (folder / "bin").mkdir()
        (folder / "bin/rt").write_text(RT)
        (folder / "bin/rt").chmod(0o755)
        self.environment = {**os.environ, "PATH": f"{folder}/bin:{os.environ['PATH']}", "CALLS": str(self.calls), "TMPDIR": str(folder)}
        who = ["-c", "user.name=check", "-c", "user.email=check@localhost"]
        for words in (["init", "-q"], ["add", "-A"], [*who, "commit", "-qm", "a copy"]):
            subprocess.run(["git", *words], cwd=self.folder, check=True)

    def run(self, *words, **more):
        self.calls.write_text("")
        return subprocess.run([self.folder / "dev", *words], cwd="/", env={**self.environment, **more}, capture_output=True, text=True)

    def called(self):
        return self.calls.read_text().splitlines()


def wrong_arguments(copy):
    cases = [
        [], ["nothing"], ["check"], ["check", "no_crate"], ["check", "radio_core", "no_function"], ["check", "radio_core", "a", "b"],
        ["mutants"], ["mutants", "no_crate"], ["mutants", "radio_core", "no_function"], ["find"], ["find", "no_function"], ["rename", "duty_core", "use_at", "sum"], ["rename", "duty_core", "use_at", "nowhere", "total"],
        ["rename", "duty_core", "use_at", "at", "begin"], ["rename", "duty_core", "use_at", "sum", "span"], ["test", "a", "b"], ["format", "a"], ["lint", "a"],
        ["quick", "a"], ["gate", "a"], ["scripts", "a"], ["scripts", "--only", "no script"], ["scripts", "--program", "/nowhere", "--only", "day"],
    ]  # fmt: skip
    for words in cases:
        ran = copy.run(*words)
        holds((ran.returncode, ran.stdout, copy.called()) == (2, "", []) and ran.stderr, f"{words} ends with {ran}, after {copy.called()}")
    ran = copy.run("--help")
    holds(ran.returncode == 0 and "./dev scripts" in ran.stdout, f"--help ends with {ran}")


def commands_of_rt(copy):
    """What rt is called with, and that its status counts."""
    crates = re.findall(r"^(\w+):", (ROOT / "crates.txt").read_text(), re.M)
    by_name = ["radio_core check --only bands::band_of"]
    cases = [
        (["check", "radio_core"], ["radio_core check"]),
        (["check", "radio_core", "band_of"], by_name),
        (["check", "radio_core", "bands::band_of"], by_name),
        (["check", "radio_core", "Name::new"], ["radio_core check --only names::Name::new"]),
        (["test"], ["desk_cli try --test --seconds 600"]),
        (["test", "hours"], ["desk_cli try --test --seconds 600 -- hours"]),
        (["format"], [f"{crate} fmt" for crate in crates]),
        (["gate"], ["desk ci"]),
        (["quick"], [f"{crate} fmt" for crate in crates]),
    ]
    for words, calls in cases:
        ran = copy.run(*words)
        holds(ran.returncode == 0 and sorted(copy.called()) == sorted(calls), f"{words} ends with {ran}, and calls rt for {copy.called()}")
        ran = copy.run(*words, STATUS="1")
        holds(ran.returncode == 1, f"{words} ends with {ran}, though rt fails")
    ran = copy.run("check", "radio_core", "band_of", STATUS="1")
    holds("radio_core bands::band_of: NOT PROVED in " in ran.stdout, f"a check that fails prints {ran.stdout}")


def changed_sources(copy):
    """quick checks the crates that changed, and lint finds what is wrong."""
    source = copy.folder / "crates/radio_core/src/data_rates.rt"
    text = source.read_text()
    source.write_text(text + "// a change\n")
    ran = copy.run("quick")
    holds(ran.returncode == 0 and copy.called()[-1] == "radio_core check", f"quick ends with {ran}, after {copy.called()}")
    source.write_text(text)
    broken = {
        "HANDLES": "Handles allowed: none.\n",
        "crates.txt": (ROOT / "crates.txt").read_text().replace("duty_core:", "duty_core opt_level=1:"),
        "docs/GLOSSARY.md": "[nowhere](nowhere.md)\n",
        "checks/common.py": "def (\n",
        "crates/radio_core/src/data_rates.rt": "\n",
        "crates/duty_core/src/lib.rt": (ROOT / "crates/duty_core/src/lib.rt").read_text() + "/// A stranger.\n",
        "crates/radio_core/src/lib.rt": (ROOT / "crates/radio_core/src/lib.rt").read_text().replace("#![tactic(auto)]", ""),
    }
    for name, wrong in broken.items():
        file = copy.folder / name
        text = file.read_text()
        file.write_text(wrong)
        ran = copy.run("lint")
        holds(ran.returncode == 1 and "dev: lint: " in ran.stderr, f"lint with a wrong {name} ends with {ran}")
        file.write_text(text)
    stray = copy.folder / "docs/stray.rt"
    stray.write_text("")
    subprocess.run(["git", "add", "-A"], cwd=copy.folder, check=True)
    ran = copy.run("lint")
    holds(ran.returncode == 1 and "docs/stray.rt" in ran.stderr, f"lint with a stray source ends with {ran}")
    stray.unlink()
    subprocess.run(["git", "add", "-A"], cwd=copy.folder, check=True)


def mutants(copy):
    ran = copy.run("mutants", "radio_core", "max_phy")
    holds("checks/wrong-bodies/radio_core/a_greater_length_at_dr3.edit" in ran.stdout.splitlines(), f"mutants of max_phy are {ran.stdout}")
    ran = copy.run("mutants", "radio_core")
    files = (copy.folder / "checks/wrong-bodies/radio_core").glob("*.edit")
    holds(sorted(ran.stdout.splitlines()) == sorted(it.relative_to(copy.folder).as_posix() for it in files), f"mutants of radio_core are {ran.stdout}")


def found(copy):
    """A function's place, proof by hand, mutants, and the tests that call it; a method whose type is in another file too."""
    of_deliver = [
        "desk_engine::delivering::deliver: crates/desk_engine/src/delivering.rt:",
        "proof by hand crates/desk_engine/proofs/delivering/deliver/Answers.antt",
        "mutant checks/wrong-bodies/desk_engine/a_text_delivered_twice.edit",
        "called by the test crates/desk_cli/src/tests/room.rt:",
    ]
    of_near = ["crates/desk_tables/src/looks.rt:", "proof by hand crates/desk_tables/proofs/looks/TablesLooks/near/Answers.antt"]
    for function, parts in (("deliver", of_deliver), ("TablesLooks::near", of_near)):
        ran = copy.run("find", function)
        for part in parts:
            holds(part in ran.stdout, f"find {function} prints {ran.stdout}, without {part}")


def renamed(copy):
    """A local variable gets another name in the code, the proof by hand and the mutants; none of it if the function then isn't proved."""
    parts = {
        "crates/duty_core/src/hours.rt": ("for span in spans", "for booked in spans"),
        "crates/duty_core/proofs/hours/use_at/Answers.antt": ("loop-span", "loop-booked"),
        "crates/duty_core/proofs/hours/use_at/Invariants.antt": ("l.span-index", "l.booked-index"),
        "checks/wrong-bodies/duty_core/use_counts_overlaps_once.edit": ("span", "booked"),
    }
    before = {name: (copy.folder / name).read_text() for name in parts}
    ran = copy.run("rename", "duty_core", "use_at", "span", "booked", STATUS="1")
    holds(ran.returncode == 1 and all((copy.folder / name).read_text() == text for name, text in before.items()), f"rename ends with {ran}")
    ran = copy.run("rename", "duty_core", "use_at", "span", "booked")
    holds((ran.returncode, copy.called()) == (0, ["duty_core check --only hours::use_at"]), f"rename ends with {ran}")
    for name, (old, new) in parts.items():
        text = (copy.folder / name).read_text()
        holds(text == before[name].replace(old, new) or new in text and old in before[name], f"rename makes of {name}\n{text}")
    ran = copy.run("lint")
    holds(ran.returncode == 0, f"lint after a rename ends with {ran}")
    ran = copy.run("rename", "duty_core", "use_at", "booked", "span")
    holds(all((copy.folder / name).read_text() == text for name, text in before.items()), f"the first name again ends with {ran}")


def scripts(copy):
    """The scripts of a release are those of checks/, but for those that measure."""
    ran = copy.run("scripts", "--list")
    listed = set(re.findall(r"minutes: (\w+\.py)", ran.stdout))
    there = {it.name for it in (ROOT / "checks").glob("*.py") if os.access(it, os.X_OK)}
    holds(listed == there - {"gate_minutes.py", "first_call.py"}, f"a release runs {sorted(listed ^ there)} or doesn't")
    for status in (0, 1):
        (copy.folder / "checks/day.py").write_text(f"import sys\nprint(sys.argv[1:])\nsys.exit({status})\n")
        ran = copy.run("scripts", "--only", "day.py", "--program", sys.executable)
        word = "FAILED (1)" if status else "passed"
        line = rf"{re.escape(word)} in \d+\.\d minutes: day.py --program PROGRAM: \['--program', '{re.escape(str(Path(sys.executable).resolve()))}'\]\n"
        holds(ran.returncode == status and re.search(line, ran.stdout), f"scripts with a script of status {status} ends with {ran}")
        holds(f"{1 - status} passed, {status} failed, 0 not run" in ran.stdout, f"scripts ends with {ran}")
    ran = copy.run("scripts", "--only", "older_files")
    holds(ran.returncode == 0 and "not run, since it needs --old" in ran.stdout, f"scripts without --old ends with {ran}")


def in_the_repository():
    ran = subprocess.run([ROOT / "dev", "check", "radio_core", "band_of"], capture_output=True, text=True, stdin=subprocess.DEVNULL)
    said = [line for line in ran.stdout.splitlines() if line.startswith(("dev: ", "    "))]
    holds(ran.returncode == 0 and re.fullmatch(r"dev: radio_core bands::band_of: proved in \d+\.\d minutes", said[0]), f"check ends with {ran}")
    files = [line.split()[-1] for line in said if line.startswith("    ")]
    by_hand = sorted(it.relative_to(ROOT).as_posix() for it in (ROOT / "crates/radio_core/proofs/bands/band_of").glob("*.antt"))
    holds(("dev: bands::band_of: proof files" in said) == bool(by_hand) and files[: len(by_hand)] == by_hand, f"check prints {said}")
    holds(all((ROOT / it).is_file() for it in files), f"check prints {said}")
    ran = subprocess.run([ROOT / "dev", "lint"], capture_output=True, text=True, stdin=subprocess.DEVNULL)
    holds(ran.returncode == 0 and ran.stdout.splitlines()[-1].endswith("kinds, 0 errors"), f"lint ends with {ran}")


def main():
    argparse.ArgumentParser(description=__doc__, formatter_class=argparse.RawDescriptionHelpFormatter).parse_args()
    with tempfile.TemporaryDirectory(prefix="dev-") as folder:
        copy = Copy(Path(folder))
        for part in (wrong_arguments, commands_of_rt, changed_sources, mutants, found, renamed, scripts):
            part(copy)
    in_the_repository()
    print(f"dev: {tried} cases are as they should be")


if __name__ == "__main__":
    main()
