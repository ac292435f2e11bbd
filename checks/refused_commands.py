#!/usr/bin/env python3
"""Refuses each request for memory of the commands on a file in turn, or crashes the machine at each call of a desk's two files.

    checks/refused_commands.py [--what memory | log | file] [--program FILE] [--jobs 2] [--seed 1] [--only NAME,..] [--folder FOLDER]

Each case is a command on a file, and what it writes where nothing is refused. It is run for N = 1, 2, 3 .. on a copy of the file with
its Nth request for memory refused, or with the calls of its log, or of the file itself, refused from the Nth on (refusing.py), until
it makes fewer than N. Each run has to end as it does where nothing is refused, or with status 3: with `desk: file` where the file
couldn't be opened for it, whose rows are then as they were, and else with `desk: unavailable`, after the first lines of what it
writes or none. The real SQLite then reads the file: its rows are those of before the message under way or those with it, and what was
answered is in it; where memory is refused `migrate` has moved nothing. The command once more, with nothing refused, writes what it
writes where nothing ever was, and leaves those rows.

After calls are refused the files are taken twice: as a process leaves them that has ended, and as a machine does that has lost all
that wasn't synced.

The cases are `init`, `hear` of no message, which is an opening, and then, of the requests or calls after it, `hear` of each request of
docs/PROTOCOL.md on a file that has heard those before it, which are of all ten messages and answered in all ways, `import`, `report`,
`bands`, `check`, `audit`, `migrate` of a file of schema 1, and `serve`: a message and both reports, each by two connections. A request by HTTP
is answered, by 503 too, or its connection ends; if memory was refused the second connection is then answered, and after a call that is
refused it gets 503 too. If memory is refused there is one case more, `lines` of all of the page's requests, where no file is left to
be read; after calls that are refused it is `hear` of a stream of mixed operation (mixed_operation.py: repeats, copies, changed and
refused messages, downlinks, limits), at every third call.

The program is the one that `./desk` proves and builds, or with --program the built one in FILE.
"""

import argparse
import subprocess
import tempfile
from concurrent.futures import ThreadPoolExecutor
from pathlib import Path

from common import ROOT, TO_SCHEMA_1, copy_to, execute, reading, ready, text_of
from http_client import asked, body, free_port, get, post
from messages import PAGE, read_page
from mixed_operation import mixed_operation
from refusing import Calls, Memory, requests_of

BUILT = ROOT / "crates" / "desk_cli" / "out" / "desk_cli"
EXAMPLES = ROOT / "examples"
# the cases whose requests are refused one by one
WHOLE = ["init", "opening", "lines"]
# a stream of mixed operation, of so few devices that it is more than their joins
SIZE, DEVICES = 60, 3
# one call in as many is refused, since each run hears the stream
STREAM_STEP = 3
# of a database's first page, which the program writes with its first octet last
FIRST_OCTETS = b"SQLite format 3\0"
UNAVAILABLE = "desk: unavailable\n"
UNOPENED = "desk: file\n"
HELD = "desk: exists\n"
UNANSWERED = b""
REFUSED = b"HTTP/1.1 503 "


def wants(holds, what):
    if not holds:
        raise AssertionError(what)


def rows_of(file):
    """Each table's rows as the real SQLite reads them; none where there is no file, or one that has no table, or no whole first page."""
    if not file.exists() or not file.read_bytes().startswith(FIRST_OCTETS):
        return {}
    with reading(file) as conn:
        tables = conn.execute("SELECT name FROM sqlite_schema WHERE type = 'table' ORDER BY rowid").fetchall()
        return {table: conn.execute(f"SELECT rowid, * FROM {table} ORDER BY rowid").fetchall() for (table,) in tables}


# ---- a run


class Program:
    """The program, and what of its requests is refused."""

    def __init__(self, path, refusal):
        self.path, self.refusal = path, refusal

    def run(self, words, given, refused=0):
        """Its status, standard output, standard error, and how many requests it made."""
        command, file, *options = words
        words = [self.path, *map(str, words)]
        environment = self.refusal.refusing(file, refused)
        ran = subprocess.run(words, input=given, capture_output=True, text=True, env=environment, timeout=60)
        self.refusal.ended(file, refused)
        requests, told = requests_of(ran.stderr)
        wants(requests is not None, f"{words} with request {refused} refused ends with {ran.returncode} {told!r}")
        return ran.returncode, ran.stdout, told, requests

    def ends(self, words, given, written, told="", status=0):
        found = self.run(words, given)
        wants(found[:3] == (status, written, told), f"{words}: {found}")


class Case:
    """A command on a copy of this file, or on none, the lines that it is given, and what it writes."""

    def __init__(self, name, file, command, *options, given="", written="", again=None, stays=False):
        self.name, self.file, self.command, self.options = name, file, command, options
        self.given, self.written = given, written
        # whether a refused request for memory leaves the rows of before
        self.stays = stays
        # how it ends once more where it has done all
        self.again = again or (0, "", written)
        # those before this request are of an opening, which has its own case
        self.first, self.step = 1, 1

    def begins(self, folder):
        file = folder / "town.db"
        if self.file:
            copy_to(self.file, file)
        return file, [self.command, file, *self.options]

    def rows(self, program, folder):
        """The rows before, and after each line that it writes, or after all where it writes none; and how many requests it made."""
        file, words = self.begins(folder)
        states = [rows_of(file)]
        status, written, told, requests = program.run(words, self.given)
        wants((status, written, told) == (0, self.written, ""), f"{words}: {status} {written!r} {told!r}")
        states.append(rows_of(file))
        return states, requests

    def refuse(self, program, states, place, folder):
        """What came of the command with this request refused: it was `answered`, the file `unopened`, or it was `unavailable`, or `kept`
        where the message was heard all the same."""
        file, words = self.begins(folder)
        status, written, told, _ = program.run(words, self.given, place)
        what = f"{self.name}, request {place} refused: {status} {written!r} {told!r}"
        if (status, told) == (0, ""):
            wants(written == self.written, what)
            outcome = "answered"
        elif (status, told, written) == (3, UNOPENED, ""):
            outcome = "unopened"
        else:
            wants((status, told) == (3, UNAVAILABLE) and self.written.startswith(written), what)
            outcome = "unavailable"
        left = rows_of(file)
        wants(self.is_between(left, states, written, outcome), f"{what}: the rows are {left}")
        if outcome == "unavailable" and left == states[-1] != states[0]:
            wants(not self.stays or program.refusal.lasts, f"{what}: it was done all the same")
            outcome = "kept"
        status, written, told, _ = program.run(words, self.given)
        done = self.again if left == states[-1] else (0, "", self.written)
        wants((status, told, written) == done, f"{what}; once more it ends with {status} {told!r} {written!r}")
        wants(rows_of(file) == states[-1], f"{what}; once more it leaves other rows")
        return outcome

    def is_between(self, left, states, written, outcome):
        """Whether these are the rows of before or after, and after where it has ended or answered."""
        if outcome == "unopened":
            return left == states[0]
        return left == states[-1] or outcome != "answered" and not written and left == states[0]


class Several(Case):
    """Its messages are heard one after another, so that the first of them may be there."""

    # before the messages
    header = ""

    def rows(self, program, folder):
        states, requests = super().rows(program, folder)
        lines = self.given.removeprefix(self.header).splitlines(keepends=True)
        for count in range(1, len(lines)):
            part = folder / f"part-{count}"
            part.mkdir()
            file, words = self.begins(part)
            program.run(words, self.header + "".join(lines[:count]))
            states.insert(-1, rows_of(file))
        return states, requests

    def is_between(self, left, states, written, outcome):
        if outcome == "unopened":
            return left == states[0]
        answered = written.count("\n")
        return left in states[answered : answered + 2] and (outcome != "answered" or left == states[-1])


class Import(Several):
    """It answers once all is heard."""

    def __init__(self, *given, **named):
        super().__init__(*given, **named)
        self.header = self.given.splitlines(keepends=True)[0]

    def is_between(self, left, states, written, outcome):
        if outcome == "unopened":
            return left == states[0]
        return left in states[written.count("\n") :] and (outcome != "answered" or left == states[-1])


class InMemory(Case):
    """`lines`, whose desk is in memory."""

    def __init__(self, name, *options, given, written):
        super().__init__(name, None, "lines", *options, given=given, written=written)
        self.words = [self.command, *self.options]

    def rows(self, program, folder):
        status, written, told, requests = program.run(self.words, self.given)
        wants((status, written, told) == (0, self.written, ""), f"{self.words}: {status} {written!r} {told!r}")
        return [], requests

    def refuse(self, program, states, place, folder):
        status, written, told, _ = program.run(self.words, self.given, place)
        what = f"{self.name}, request {place} refused: {status} {written!r} {told!r}"
        if (status, told) == (0, ""):
            wants(written == self.written, what)
            return "answered"
        wants((status, told) == (3, UNAVAILABLE) and self.written.startswith(written), what)
        return "unavailable"


class Served(Case):
    """A request by two connections, one after the other, of a program that serves two."""

    def __init__(self, name, file, request, wanted):
        super().__init__(name, file, "serve")
        self.request, self.wanted = request, wanted

    def serve(self, program, file, refused):
        """Its status, the two bodies or responses, standard error, and how many requests it made."""
        port = free_port()
        words = [program.path, "serve", str(file), "--port", str(port), "--count", "2"]
        environment = program.refusal.refusing(file, refused)
        with subprocess.Popen(words, stdout=subprocess.PIPE, stderr=subprocess.PIPE, text=True, env=environment) as served:
            responses = []
            if served.stdout.readline():
                try:
                    responses = [self.response(port) for _ in range(2)]
                except OSError:
                    served.kill()
            _, told = served.communicate(timeout=60)
        program.refusal.ended(file, refused)
        requests, told = requests_of(told)
        wants(requests is not None, f"{self.name} with request {refused} refused ends with {served.returncode} {told!r}")
        return served.returncode, responses, told, requests

    def response(self, port):
        try:
            return asked(port, self.request)
        except ConnectionResetError:
            return UNANSWERED

    def answers(self, program, file):
        """Both requests are answered where nothing is refused. How many requests it made."""
        status, responses, told, requests = self.serve(program, file, 0)
        wants((status, told, [body(it) for it in responses]) == (0, "", [self.wanted] * 2), f"{self.name}: {status} {told!r} {responses}")
        return requests

    def rows(self, program, folder):
        file, _ = self.begins(folder)
        before = rows_of(file)
        requests = self.answers(program, file)
        return [before, rows_of(file)], requests

    def refuse(self, program, states, place, folder):
        file, _ = self.begins(folder)
        status, responses, told, _ = self.serve(program, file, place)
        what = f"{self.name}, request {place} refused: {status} {responses} {told!r}"
        left = rows_of(file)
        if not responses:
            wants(status == 3 and told in (UNAVAILABLE, UNOPENED), what)
            wants(left == states[0], f"{what}: the rows are {left}")
            outcome = "unopened" if told == UNOPENED else "unavailable"
        else:
            wants((status, told) == (0, ""), what)
            good = [body(it) == self.wanted for it in responses]
            wants(all(is_good or it == UNANSWERED or it.startswith(REFUSED) for it, is_good in zip(responses, good)), what)
            if program.refusal.lasts:
                wants(good != [False, True], f"{what}: the second connection is answered")
                wants(left == states[-1] or left == states[0] and not good[0], f"{what}: the rows are {left}")
            else:
                wants(any(good) and left == states[-1], f"{what}: what isn't answered is, at the second connection")
            outcome = "answered" if all(good) else "unavailable"
        self.answers(program, file)
        wants(rows_of(file) == states[-1], f"{what}; once more it leaves other rows")
        return outcome


# ---- the cases


def answers_to(requests, answers):
    """Each request with its answer; an empty line has none."""
    left = iter(answers)
    return [(line, next(left) + "\n" if line else "") for line in requests]


def cases_in(program, folder, seed):
    words, requests, answers, _ = read_page(PAGE.read_text().splitlines())
    messages = answers_to(requests, [line for _, line in answers])
    yield Case("init", None, "init", again=(1, HELD, ""))
    file = folder / "opened.db"
    program.ends(["init", file, *words[1:]], "", "")
    for number, (line, answer) in enumerate(messages, 1):
        before = folder / f"before-{number}.db"
        copy_to(file, before)
        yield Case(f"message {number}", before, "hear", given=line + "\n", written=answer)
        program.ends(["hear", file], line + "\n", answer)
    yield Case("opening", file, "hear")
    day = folder / "day.db"
    program.ends(["init", day], "", "")
    lines = "".join(path.read_text() for path in sorted(EXAMPLES.glob("[1-4]-*.jsonl")))
    _, told, _, _ = program.run(["hear", day], lines)
    wants(told.count("\n") == lines.count("\n"), "the examples aren't all answered")
    imported = folder / "imported.db"
    copy_to(day, imported)
    report = (EXAMPLES / "evening-report.csv").read_text()
    _, written, _, _ = program.run(["import", imported, "--sender", "bridge"], report)
    yield Import("import", day, "import", "--sender", "bridge", given=report, written=written)
    yield Case("report", day, "report", "town", "2024-02", written=(EXAMPLES / "owner-report.csv").read_text())
    yield Case("bands", day, "bands", "gw-a", written=(EXAMPLES / "band-report.csv").read_text())
    _, counted, _, _ = program.run(["check", day], "")
    yield Case("check", day, "check", written=counted)
    yield Case("audit", day, "audit", written=f"heard: {lines.count(chr(10))}\nin order\n")
    first = folder / "first.db"
    copy_to(day, first)
    execute(first, TO_SCHEMA_1)
    yield Case("migrate", first, "migrate", again=(1, "desk: schema\n", ""), stays=True)
    line, answer = lines.splitlines()[0], told.splitlines()[0]
    empty = folder / "empty.db"
    program.ends(["init", empty], "", "")
    yield Served("serve, a message", empty, post(line), answer)
    yield Served("serve, a report", day, get("/v1/reports/town/2024-02"), (EXAMPLES / "owner-report.csv").read_text())
    yield Served("serve, bands", day, get("/v1/bands/gw-a"), (EXAMPLES / "band-report.csv").read_text())
    if not program.refusal.lasts:
        told = "".join(answer for _, answer in messages)
        yield InMemory("lines", *words[1:], given=text_of(requests), written=told)
    else:
        stream = text_of(mixed_operation(SIZE, seed, devices=DEVICES))
        heard = folder / "heard.db"
        copy_to(empty, heard)
        _, written, _, _ = program.run(["hear", heard], stream)
        case = Several("a stream", empty, "hear", given=stream, written=written)
        case.step = STREAM_STEP
        yield case


def past_opening(case, program, folder):
    """Of the case the requests after an opening of its file alone are refused."""
    with tempfile.TemporaryDirectory(dir=folder) as room:
        file, _ = case.begins(Path(room))
        case.first = max(1, program.run(["hear", file], "")[3] - program.refusal.apart)


def refuse_each(case, program, folder, jobs):
    """Prints what came of the case with each of its requests refused."""
    with tempfile.TemporaryDirectory(dir=folder) as room:
        states, requests = case.rows(program, Path(room))
    came = dict.fromkeys(["answered", "unopened", "unavailable", "kept"], 0)

    def refuse(place):
        with tempfile.TemporaryDirectory(dir=folder) as room:
            return case.refuse(program, states, place, Path(room))

    with ThreadPoolExecutor(jobs) as pool:
        for outcome in pool.map(refuse, range(case.first, requests + 1, case.step)):
            came[outcome] += 1
    ends = ", ".join(f"{count} {outcome}" for outcome, count in came.items() if count)
    print(f"{case.name}: {sum(came.values())} {program.refusal.name} refused in turn: {ends}", flush=True)


def refusals_in(what, folder):
    if what == "memory":
        return [Memory(folder)]
    return [Calls(folder, what == "log", loses) for loses in (False, True)]


def main():
    words = argparse.ArgumentParser(description=__doc__, formatter_class=argparse.RawDescriptionHelpFormatter)
    words.add_argument("--what", choices=["memory", "log", "file"], default="memory", help="what is refused")
    words.add_argument("--program", type=Path, metavar="FILE", help="the built program, in place of ./desk's")
    words.add_argument("--jobs", type=int, default=2)
    words.add_argument("--seed", type=int, default=1, help="of the stream")
    words.add_argument("--only", default="", metavar="NAME,..", help="the cases whose names begin so")
    words.add_argument("--folder", type=Path, help="where the files are meanwhile")
    given = words.parse_args()
    if not given.program:
        ready(ROOT / "desk")
    wanted = tuple(given.only.split(","))
    with tempfile.TemporaryDirectory(dir=given.folder) as folder:
        folder = Path(folder)
        path = (given.program or BUILT).resolve()
        programs = [Program(path, refusal) for refusal in refusals_in(given.what, folder)]
        for case in cases_in(programs[0], folder, given.seed):
            if not case.name.startswith(wanted):
                continue
            if case.name not in WHOLE:
                past_opening(case, programs[0], folder)
            for program in programs:
                refuse_each(case, program, folder, given.jobs)


if __name__ == "__main__":
    main()
