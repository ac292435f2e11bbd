#!/usr/bin/env python3
"""Tries wrong bodies outside the gate: the prover has to refuse each.

    checks/wrong_bodies.py [--must-fail] [--list | --write] [--together] [--jobs 1] [CRATE ..]

The wrong bodies of a crate are in `checks/wrong-bodies/CRATE/`, each an edit:

    gate                      the gate tries it too, in each run
    file: src/x.rt
    function: Name::new       a function of this file, by its name, or its type's and its name
    old: TEXT
    new: TEXT

Each old text has to be exactly once in what the lines before it made of the function, or of the file where no function is named.
`--write` writes the edits that the gate tries to `crates/CRATE/must-fail/`, in the form that `rt must-fail` reads: whole lines, without
functions. Never change those by hand.

The repository is only read: its crates are copied into a folder that is removed at the end. There each crate that is named, or
each, is proved, over the work that earlier checks kept in `out/`, and then each of its edits is made in turn, `rt check` is run,
and the edit is taken back. A line for each edit reports that it was refused, and at which function and goal, or that a proof by hand
no longer fits, and where; that it was PROVED; or that it was NOT TRIED, since it doesn't apply or compile.

With --together edits of different functions are made in one copy, and `rt check --only` proves these functions alone. An edit is
refused there where a goal of a function that it changes isn't proved, or an error is in the function's own proof. A function whose
goals wait for the proof of one that it calls is tried once more without those that were refused. What isn't refused so is tried by
itself afterwards, by a whole check: it changes no function's body, or has to be refused where the function is called.

With --must-fail the edits that the gate tries are taken too. With --list it only checks that each edit applies, and that what the gate
reads is what --write would write. With --jobs N N crates are tried side by side. It fails where an edit isn't refused, or with --list
doesn't apply.
"""

import argparse
import re
import shutil
import subprocess
import sys
import tempfile
import time
from concurrent.futures import ThreadPoolExecutor
from contextlib import contextmanager
from pathlib import Path

ROOT = Path(__file__).resolve().parent.parent

# fn NAME: no proof: expected answers in FILE; `search` did not prove `GOAL`
NO_PROOF = re.compile(r"^\w+ (\S+): no proof: .*did not prove (.*)$", re.M)
NO_PROOF_BY_HAND = re.compile(r"^(?:\./)?(proofs/\S+:\d+):\d+: error: (`[^`]*`|.{1,100})", re.M)
# An error of the source, and not one of a goal, which would be named first.
UNREAD = re.compile(r"^(?:\./)?((?:src|specs)/\S+:\d+:\d+: error(?!: `).*)$", re.M)


class NotTried(Exception):
    """Why no contract was tried with an edit."""


def all_below(crate, named):
    below = [it for it in named[crate] if it in named]
    return set(below).union(*(all_below(it, named) for it in below))


def crates():
    """Returns all of the repository's crates that each crate depends on, by its name, lowest first."""
    named = {}
    for line in (ROOT / "crates.txt").read_text().splitlines():
        if ":" in line and not line.startswith("#"):
            name, _, below = line.partition(":")
            named[name.split()[0]] = below.split()
    return {name: all_below(name, named) for name in named}


def edits_of(crate, with_must_fail):
    edits = sorted((ROOT / "checks" / "wrong-bodies" / crate).glob("*.edit"))
    return [edit for edit in edits if with_must_fail or not is_of_gate(edit)]


def is_of_gate(edit):
    return edit.read_text().startswith("gate\n")


class Change:
    """What an edit changes: an old text, once in a function or in a file, becomes a new one."""

    def __init__(self, file, function, old, new):
        self.file, self.function, self.old, self.new = file, function, old, new

    def place_in(self, text):
        """Returns the place of the old text."""
        begin, end = span_of(text, self.function) if self.function else (0, len(text))
        where = f"{self.function} in {self.file}" if self.function else self.file
        count = text.count(self.old, begin, end)
        if count != 1:
            raise NotTried(f"an old text is there {count} times in {where}, not once: {self.old}")
        return text.index(self.old, begin)

    def made(self, text):
        place = self.place_in(text)
        return text[:place] + self.new + text[place + len(self.old) :]


def changes_of(edit):
    """Returns the changes that the edit makes, in order."""
    changes, file, function, old = [], None, None, None
    for line in edit.read_text().removeprefix("gate\n").splitlines():
        word, _, text = line.partition(":")
        text = text.removeprefix(" ")
        if word == "file":
            file, function = text, None
        elif word == "function" and file and text:
            function = text
        elif word == "old" and file and text:
            old = text
        elif word == "new" and old:
            changes.append(Change(file, function, old, text))
            old = None
        else:
            raise NotTried(f"this line is out of place: {line}")
    if old or not changes:
        raise NotTried("its last line isn't a new text")
    return changes


def steps_of(edit, folder, before={}):
    """Returns the edit's changes, each with the text of its file before it and after it."""
    texts, steps = {}, []
    for change in changes_of(edit):
        if not (folder / change.file).is_file():
            raise NotTried(f"there is no file {change.file}")
        text = texts.get(change.file, before.get(change.file)) or (folder / change.file).read_text()
        texts[change.file] = change.made(text)
        steps.append((change, text, texts[change.file]))
    return steps


def edited(edit, folder, before={}):
    """Returns the texts that the edit makes of the crate's files, by their names; or of what other edits made of them before."""
    texts = {change.file: after for change, _, after in steps_of(edit, folder, before)}
    if all(text == (folder / file).read_text() for file, text in texts.items()):
        raise NotTried("it changes nothing")
    return texts


# ---- what the gate reads


def lines_for_gate(edit, folder):
    """Returns the edit in the form that `rt must-fail` reads: whole lines, each once in its file."""
    written, file = [], None
    for change, text, after in steps_of(edit, folder):
        place = change.place_in(text)
        begin, end = text.rfind("\n", 0, place) + 1, text.find("\n", place + len(change.old))
        end = len(text) if end < 0 else end
        old, new = text[begin:end], after[begin : end + len(after) - len(text)]
        if text.count(old.strip()) == 1:
            old, new = old.strip(), new.strip()
        if text.count(old) != 1 or "\n" in old or "\n" in new:
            raise NotTried(f"the gate can't take it, since its line isn't there once: {old}")
        written += [f"file: {change.file}"] * (change.file != file) + [f"old: {old}", f"new: {new}"]
        file = change.file
    return "\n".join(written) + "\n"


def gate_files(crate):
    """Returns what the files that the gate reads have to be, by their paths."""
    folder = ROOT / "crates" / crate
    return {folder / "must-fail" / edit.name: lines_for_gate(edit, folder) for edit in edits_of(crate, True) if is_of_gate(edit)}


def write_for_gate(crate):
    """Writes the edits that the gate reads. Returns how many."""
    files = gate_files(crate)
    for file in (ROOT / "crates" / crate / "must-fail").glob("*.edit"):
        if file not in files:
            file.unlink()
    for file, text in files.items():
        file.parent.mkdir(exist_ok=True)
        file.write_text(text)
    return len(files)


def count_others(crate):
    """Prints which files that the gate reads aren't what --write would write. Returns how many."""
    try:
        files = gate_files(crate)
    except NotTried as why:
        print(f"{crate}: {why}", flush=True)
        return 1
    there = set((ROOT / "crates" / crate / "must-fail").glob("*.edit"))
    others = [it for it in sorted(there | set(files)) if it not in there or it.read_text() != files.get(it)]
    for file in others:
        print(f"{file.relative_to(ROOT)}: it isn't what checks/wrong_bodies.py --write would write", flush=True)
    return len(others)


def copied(crate, known, folder):
    """Copies the crates, with what was built of this one and of those that it depends on. Returns the crate's folder there."""
    shutil.copy(ROOT / "crates.txt", folder)
    for name in known:
        built = {crate: [], **{below: ["incremental"] for below in known[crate]}}
        left_out = shutil.ignore_patterns("must-fail", *built.get(name, ["out"]))
        shutil.copytree(ROOT / "crates" / name, folder / "crates" / name, ignore=left_out)
    return folder / "crates" / crate


def check(folder, only=()):
    words = [word for function in only for word in ("--only", function)]
    return subprocess.run(
        ["rt", "check", *words], cwd=folder, stdin=subprocess.DEVNULL, stdout=subprocess.PIPE, stderr=subprocess.STDOUT, text=True
    )


def refusal(ran):
    """Returns what the prover refused, or None where it proved all."""
    if ran.returncode == 0:
        return None
    unread = UNREAD.search(ran.stdout)
    if unread or not re.search(r"^logic=not-proved", ran.stdout, re.M):
        first = unread[1] if unread else next((it for it in ran.stdout.splitlines() if "error" in it), "rt check printed no error")
        raise NotTried(f"it doesn't compile: {first[:200]}")
    refused = [f"{function} at {goals}" for function, goals in NO_PROOF.findall(ran.stdout)]
    refused += [f"a proof by hand no longer fits, {line} at {goal}" for line, goal in NO_PROOF_BY_HAND.findall(ran.stdout)]
    if not refused:
        raise NotTried("the check failed, and no goal was printed")
    return refused[0] + (f", and {len(refused) - 1} more" if len(refused) > 1 else "")


@contextmanager
def changed(folder, texts):
    """The crate's files are these, until the block ends."""
    were = {file: (folder / file).read_text() for file in texts}
    try:
        for file, text in texts.items():
            (folder / file).write_text(text)
        yield
    finally:
        for file, text in were.items():
            (folder / file).write_text(text)


def try_edit(edit, folder):
    """Returns whether the prover refuses the edit, and what to print of it."""
    try:
        with changed(folder, edited(edit, folder)):
            refused = refusal(check(folder))
        return bool(refused), f"refused: {refused}" if refused else "PROVED: no contract refuses it"
    except NotTried as why:
        return False, f"NOT TRIED: {why}"


# ---- many at a time


def in_brackets(text):
    """Returns what is in the angle brackets that the text begins with, and what follows them."""
    depth = 0
    for at, letter in enumerate(text):
        depth += (letter == "<") - (letter == ">" and text[at - 1] not in "-=")
        if not depth:
            return (text[1:at], text[at + 1 :]) if at else ("", text)
    return "", text


def owner_of(line):
    """Returns by which name a check prints what is in an `impl` or a `trait`; None where the line begins neither."""
    begins = re.match(r"(?:pub )?(impl|trait)\b", line)
    if not begins:
        return None
    parameters, named = in_brackets(line[begins.end() :].rstrip(" {").lstrip())
    left_out = {it.split(":")[0].strip() for it in parameters.split(",")} | {"dyn", "mut"}
    of_trait, _, of_type = named.partition(" for ") if begins[1] == "impl" else (named.partition(":")[0], "", "")
    tuple_of = f"Tuple{of_type.count(',') + 1}" if of_type.startswith("(") else ""
    words = re.findall(r"(?<![\w'])\w+", of_type) + re.findall(r"(?<![\w'])\w+", of_trait)[: None if of_type else 1]
    return tuple_of + "".join(word[0].upper() + word[1:] for word in words if word not in left_out and word != "_")


def functions_in(text):
    """Returns each function of a file's text: by its type's name and its own, and where it begins and ends."""
    lines, owner, found = text.split("\n"), None, []
    starts = [0]
    for line in lines:
        starts.append(starts[-1] + len(line) + 1)
    for at, line in enumerate(lines):
        owner = owner_of(line) or (None if line == "}" else owner)
        begins = re.match(r"( *)(?:pub(?:\(.*?\))? )?(?:const )?fn (\w+)", line)
        if begins:
            end = next((k for k in range(at, len(lines)) if lines[k] == begins[1] + "}"), at)
            inside = [owner] if owner and begins[1] else []
            found.append(("::".join([*inside, begins[2]]), starts[at], starts[end + 1]))
    return found


def span_of(text, function):
    """Returns where the function with this name begins and ends in a file's text."""
    spans = [(begin, end) for name, begin, end in functions_in(text) if f"::{name}".endswith(f"::{function}")]
    if len(spans) != 1:
        raise NotTried(f"there are {len(spans)} functions {function} in the file, not one")
    return spans[0]


def function_at(file, text, place, names):
    """Returns the function in whose body the place is, by the one of the names that is its; None where there is none."""
    path = [part for part in Path(file).with_suffix("").parts[1:] if part not in ("lib", "main")]
    lines, last = text.splitlines(), text[:place].count("\n")
    for at in range(last, -1, -1):
        begins = re.match(r"( *)(?:pub(?:\(.*?\))? )?(?:const )?fn (\w+)", lines[at])
        if not begins:
            continue
        end = next((k for k in range(at, len(lines)) if lines[k] == begins[1] + "}"), at)
        inside = [it for it in map(owner_of, lines[:at]) if it][-1:] if begins[1] else []
        # methods of a type are under its own module, whatever file they are in
        whole, short = "::".join([*path, *inside, begins[2]]), "::".join([*inside, begins[2]])
        found = [it for it in names if it == whole] or [it for it in names if inside and it.endswith("::" + short)]
        return found[0] if end >= last and len(found) == 1 else None
    return None


def functions_of(edit, folder, names):
    """Returns the functions that the edit changes, or None where it changes more than bodies."""
    functions = set()
    for change, text, _ in steps_of(edit, folder):
        if not change.file.startswith("src/"):
            return None
        functions.add(function_at(change.file, text, change.place_in(text), names))
    return None if None in functions else functions


def batches_of(edits, folder, names):
    """Returns batches of the edits that change bodies alone, with the functions of each. No two edits of a batch change the same function."""
    batches = []
    for edit in edits:
        try:
            functions = functions_of(edit, folder, names)
        except NotTried:
            functions = None
        if functions is None:
            continue
        batch = next((it for it in batches if not any(functions & others_of for others_of in it.values())), None)
        if batch is None:
            batches.append(batch := {})
        batch[edit] = functions
    return batches


def refusals(told):
    """Returns at what each function was refused, by its path below the crate, of what a check of some functions printed."""
    at = {}
    for file, goal in NO_PROOF_BY_HAND.findall(told):
        path = Path(file.partition(":")[0]).parts[1:-1]
        at.setdefault("::".join(path), f"a proof by hand no longer fits, {file} at {goal}")
    for name, goals in NO_PROOF.findall(told):
        function = name.partition("::")[2]
        at.setdefault(function, f"{function} at {goals}")
    return {name.replace("fn::", ""): said for name, said in at.items()}


def try_batch(batch, folder):
    """Makes the edits in one copy. Returns which are refused, and what to print of each; None where the copy doesn't compile."""
    texts, made = {}, {}
    for edit, functions in batch.items():
        try:
            texts |= edited(edit, folder, texts)
            made[edit] = functions
        except NotTried:
            # one before it made its old text once more, or it doesn't apply at all, which is seen when it is tried by itself
            continue
    with changed(folder, texts):
        told = check(folder, sorted(set().union(*made.values()))).stdout
    if not re.search(r"^only=", told, re.M):
        return None
    at = refusals(told)
    # a closure of a function is below it
    refused = {edit: [at[it] for it in at if any((it + "::").startswith(f + "::") for f in made[edit])] for edit in made}
    return {edit: f"refused: {said[0]}" for edit, said in refused.items() if said}


def try_together(batch, folder):
    """Tries the edits of a batch. Returns those that were refused, and what to print of each."""
    refused = try_batch(batch, folder)
    if refused is None:
        # one of them doesn't compile
        half, edits = len(batch) // 2, list(batch.items())
        return try_together(dict(edits[:half]), folder) | try_together(dict(edits[half:]), folder) if half else {}
    # the goals of a function may wait for the proof of one that it calls, so the rest is tried until none is refused
    rest = {edit: functions for edit, functions in batch.items() if edit not in refused}
    return refused | try_together(rest, folder) if refused and rest else refused


def try_all(crate, known, edits, together):
    """Tries the edits. Returns how many were refused."""
    with tempfile.TemporaryDirectory(prefix="wrong-bodies-") as temporary:
        folder = copied(crate, known, Path(temporary))
        began = time.monotonic()
        ran = check(folder)
        if ran.returncode:
            print(f"{crate}: it isn't proved without an edit, so none was tried\n{ran.stdout[-3000:]}", flush=True)
            return 0
        print(f"{crate}: proved without an edit, in {time.monotonic() - began:.0f} s", flush=True)
        began = time.monotonic()
        well = {}
        names = set(re.findall(rf"^fn {crate}::(\S+): proved", ran.stdout, re.M))
        for batch in batches_of(edits, folder, names) if together else []:
            refused = try_together(batch, folder)
            for edit, said in refused.items():
                print(f"{crate}/{edit.stem}: {said}", flush=True)
            well |= refused
        if together:
            print(f"{crate}: {len(well)} refused together, in {time.monotonic() - began:.0f} s", flush=True)
        refused = len(well)
        for edit in edits:
            if edit in well:
                continue
            began = time.monotonic()
            is_refused, said = try_edit(edit, folder)
            refused += is_refused
            print(f"{crate}/{edit.stem}: {said} ({time.monotonic() - began:.0f} s)", flush=True)
        return refused


def count_applying(crate, edits):
    """Prints which of the edits don't apply. Returns how many do."""
    applying = 0
    for edit in edits:
        try:
            edited(edit, ROOT / "crates" / crate)
            applying += 1
        except NotTried as why:
            print(f"{edit.relative_to(ROOT)}: {why}", flush=True)
    return applying


def main():
    words = argparse.ArgumentParser(description=__doc__.splitlines()[0])
    words.add_argument("crates", nargs="*", metavar="CRATE", help="the crates to take, of all where none is named")
    words.add_argument("--must-fail", action="store_true", help="take the edits that the gate tries too")
    words.add_argument("--write", action="store_true", help="write the edits that the gate reads, and try none")
    words.add_argument("--list", action="store_true", help="only check that each edit applies")
    words.add_argument("--together", action="store_true", help="make edits of different functions in one copy")
    words.add_argument("--jobs", type=int, default=1, help="how many crates to try side by side")
    given, known = words.parse_args(), crates()
    unknown = [crate for crate in given.crates if crate not in known]
    if unknown:
        sys.exit(f"crates.txt names no crate {', '.join(unknown)}")

    def is_well(crate):
        edits = edits_of(crate, given.must_fail)
        if given.write:
            print(f"{crate}: {write_for_gate(crate)} edits for the gate", flush=True)
            return True
        if given.list:
            well = count_applying(crate, edits) - count_others(crate)
            print(f"{crate}: {well} of {len(edits)} edits apply", flush=True)
        elif edits:
            well = try_all(crate, known, edits, given.together)
            print(f"{crate}: {well} of {len(edits)} wrong bodies refused", flush=True)
        else:
            well = 0
            print(f"{crate}: no edits", flush=True)
        return well == len(edits)

    with ThreadPoolExecutor(given.jobs) as side_by_side:
        sys.exit(not all(list(side_by_side.map(is_well, given.crates or known))))


if __name__ == "__main__":
    main()
