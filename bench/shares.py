#!/usr/bin/env python3
"""Counts the instructions of a message, and whose they are.

    bench/shares.py [--program FILE] [--native FILE] [--size 5000] [--folder /dev/shm] [--most 0] [WHAT..]

WHAT is of `lines`, `hear` and `import`; all three if none is named. Valgrind's callgrind counts the instructions of the desk and of
the ordinary Rust program (bench/native/) on the same messages of normal operation (normal_operation.py), `import` on the joins and
data frames among them as a gateway's report; files are in FOLDER. The counts are repeatable, whatever else runs; instructions of the
kernel aren't among them. What a start takes is counted apart and taken away.

It prints the instructions a message, and the share of each group of functions, by their names: a function that the compiler built into
another one counts as that one's. For files it then prints what some calls take with all that they call. With --most N it prints the N
functions that take most by themselves, too.

It needs valgrind. The Rust program is built by cargo, or is the one in FILE.
"""

import argparse
import json
import re
import subprocess
import sys
import tempfile
from collections import defaultdict
from pathlib import Path

from files import HEADER, record_of
from native import built
from normal_operation import ROOT, normal_operation

sys.path.append(str(ROOT / "checks"))
from common import add_program, ready, text_of, wants  # noqa: E402

WHATS = ["lines", "hear", "import"]
NAMED = re.compile(r"\((\d+)\)(?: (.*))?")
# the first that fits decides
GROUPS = [
    ("the desk's crates", r"(radio_core|duty_core|registry_core|desk_\w+)::"),
    ("JSON and hexadecimal", r"(json|serde_json|fast_float|hex|core::slice::words|core::dec2flt|itoa)::"),
    ("CSV", r"csv\w*::"),
    ("SQLite: digests of pages", r"(sqlite_disk::digest|core::hash::sip)::"),
    ("SQLite: the log", r"sqlite_wal::"),
    ("SQLite: the rest", r"sqlite\w*::"),
    ("clearing memory", r"(__)?memset"),
    ("copying and comparing memory", r"(__)?(mem(cpy|move|cmp)|bcmp)"),
    ("allocating", r"(_?_?(libc_)?(malloc|free|realloc|calloc)|_int_|rattle_(re|de)?alloc|std_heap::|\w*sbrk|systrim|\w*morecore|sysmalloc|unlink_chunk)"),
    ("std, maps and the C library", r""),
]
# what is printed with all that it calls
CALLS = {
    "reading messages": r"(desk_wire::(reading|heads|bodies)|json::value)::|desk_engine::delivering::read_delivery",
    "writing texts": r"desk_wire::(writing|answers|objects)::",
    "reading the report": r"desk_wire::csv_reports::",
    "SELECTs": r"desk_rows::queries::",
    "INSERTs and UPDATEs": r"desk_rows::writes::",
    "commits": r"sqlite::(connection::Connection|transaction::Transaction)::commit::",
}


class Profile:
    """What callgrind has written: of each function what it takes by itself, and of each pair what one takes when another calls it."""

    def __init__(self, path):
        self.own = defaultdict(int)
        self.calls = defaultdict(int)
        names = {}
        function = callee = None
        for line in path.read_text(errors="replace").splitlines():
            key, _, value = line.partition("=")
            if key == "fn":
                function = self.named(names, value)
            elif key == "cfn":
                callee = self.named(names, value)
            elif line[:1] and line[0] in "0123456789+-*":
                cost = int(line.split()[1])
                if callee is None:
                    self.own[function] += cost
                else:
                    self.calls[function, callee] += cost
                    callee = None
        self.total = sum(self.own.values())

    @staticmethod
    def named(names, value):
        number, name = NAMED.fullmatch(value).groups()
        return names.setdefault(number, name)

    def groups(self):
        found = {name: 0 for name, _ in GROUPS}
        for function, cost in self.own.items():
            found[next(name for name, pattern in GROUPS if re.match(pattern, function))] += cost
        return found

    def within(self, pattern):
        """What functions take with all that they call, if others call them."""
        is_meant = {function: bool(re.match(pattern, function)) for pair in self.calls for function in pair}
        return sum(cost for (caller, callee), cost in self.calls.items() if is_meant[callee] and not is_meant[caller])


def profiled(words, text, folder):
    """The profile of a program that hears the text."""
    out = folder / "callgrind.out"
    with tempfile.TemporaryFile() as given:
        given.write(text.encode())
        given.seek(0)
        words = ["valgrind", "--quiet", "--tool=callgrind", f"--callgrind-out-file={out}", *map(str, words)]
        ran = subprocess.run(words, stdin=given, stdout=subprocess.DEVNULL, stderr=subprocess.PIPE)
    wants(ran.returncode == 0, f"{words}: {ran.returncode} {ran.stderr.decode()[-2000:]}")
    return Profile(out)


def messages_of(what, size):
    """What is heard before it is counted, the text that is counted, and the text of a start alone."""
    if what != "import":
        return [], text_of(normal_operation(size, 1)), ""
    messages = [json.loads(line) for line in normal_operation(2 * size, 1)]
    register = [json.dumps(message) for message in messages if message["SenderID"] == "office"]
    reports = [message for message in messages if message["MessageType"] in ("JoinHeard", "FrameHeard")][:size]
    return register, text_of([HEADER, *map(record_of, reports)]), HEADER + "\n"


def words_of(what, desk, file):
    return {"lines": [desk, "lines"], "hear": [desk, "hear", file], "import": [desk, "import", file, "--sender", "bridge"]}[what]


def measure(what, desk, native, size, folder, most):
    before, text, nothing = messages_of(what, size)
    file = folder / "desk.db"
    if what != "lines":
        subprocess.run([desk, "init", file], check=True)
        subprocess.run([desk, "hear", file], input=text_of(before).encode(), stdout=subprocess.DEVNULL, check=True)
    start = profiled(words_of(what, desk, file), nothing, folder)
    profile = profiled(words_of(what, desk, file), text, folder)
    taken = profile.total - start.total
    print(f"desk {what}: {taken / size:,.0f} instructions a message ({size} messages)")
    started = start.groups()
    for name, cost in profile.groups().items():
        cost -= started[name]
        if cost > taken / 1000:
            print(f"  {name:<30} {cost / size:>10,.0f} {cost / taken:>7.1%}")
    for name, pattern in CALLS.items():
        cost = profile.within(pattern)
        if cost:
            print(f"  with all they call: {name:<25} {cost / size:>10,.0f} {cost / taken:>7.1%}")
    for function, cost in sorted(profile.own.items(), key=lambda it: -it[1])[:most]:
        print(f"    {cost / size:>10,.0f} {cost / taken:>7.1%}  {function[:110]}")
    if what != "import":
        ran = [native] if what == "lines" else [native, "--file", folder / "native.db"]
        start = profiled(ran, "", folder)
        other = profiled(ran, text, folder).total - start.total
        print(f"native: {other / size:,.0f} instructions a message; the desk by it {taken / other:.2f}", flush=True)


def main():
    words = argparse.ArgumentParser(description=__doc__, formatter_class=argparse.RawDescriptionHelpFormatter)
    add_program(words)
    words.add_argument("--native", type=Path, metavar="FILE")
    words.add_argument("--size", type=int, default=5_000)
    words.add_argument("--folder", type=Path, default=Path("/dev/shm"))
    words.add_argument("--most", type=int, default=0, metavar="N")
    words.add_argument("what", nargs="*", metavar="WHAT")
    given = words.parse_args()
    whats = given.what or WHATS
    wants(set(whats) <= set(WHATS), f"{' '.join(whats)}: not of {', '.join(WHATS)}")
    desk, native = ready(given.program), given.native.resolve() if given.native else built()
    for what in whats:
        with tempfile.TemporaryDirectory(dir=given.folder) as folder:
            measure(what, desk, native, given.size, Path(folder), given.most)


if __name__ == "__main__":
    main()
