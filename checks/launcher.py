#!/usr/bin/env python3
"""Checks the script `desk`, which proves and builds the program and then runs it.

    checks/launcher.py

It makes a repository of three crates in a temporary folder, with the script and with a fake rt, which proves nothing and
builds a small program. It checks what the script passes on to the program, `build` and `install` with their errors, builds that fail,
builds that are interrupted by a signal, sources that change, calls at the same time, and what a terminal shows. It prints how many
cases there are, and fails at the first that is wrong. It takes a minute.

It can't see whether the real rt prints and leaves what the fake one does.
"""

import argparse
import os
import pty
import shutil
import signal
import subprocess
import sys
import tempfile
import time
from contextlib import contextmanager
from pathlib import Path

from common import ROOT, wants

# What it does with each crate is the crate's text: `fails`, `slow` or anything else.
RT = """#!/usr/bin/env python3
import os, sys, time
from pathlib import Path

with open(os.environ["CALLS"], "a") as calls:
    print(os.getpid(), *sys.argv[1:], file=calls)

def built(crate):
    text = (crate / "src/text").read_text()
    if text == "slow":
        time.sleep(60)
    if text != "fails":
        (crate / "out/incremental").mkdir(parents=True, exist_ok=True)
        (crate / f"out/rlib/{crate.name}.rlib").mkdir(parents=True, exist_ok=True)
    return text != "fails"

def said_of(crate, is_built):
    return f"fn {crate.name}::f: {'been proved' if is_built else 'not proved'}"

if sys.argv[1] == "all":
    print("a line of the whole", flush=True)
    if "STOPS" in os.environ:
        sys.exit(2)
    for name in ("low", "middle"):
        crate = Path("crates", name)
        is_built = built(crate)
        print(f"== {name}\\n{said_of(crate, is_built)}", flush=True)
        if not is_built:
            print(f"== summary\\n{name}: failed (1)", flush=True)
            sys.exit(1)
    time.sleep(60)
elif sys.argv[1] == "lib":
    is_built = built(Path.cwd())
    print(said_of(Path.cwd(), is_built), flush=True)
    sys.exit(not is_built)
else:
    print("rt: waiting for nothing", file=sys.stderr, flush=True)
    program = Path("out/desk_cli")
    program.unlink(missing_ok=True)
    is_built = built(Path.cwd())
    print(said_of(Path.cwd(), is_built), file=sys.stderr, flush=True)
    if not is_built:
        sys.exit(1)
    program.write_text(Path("src/program").read_text())
    program.chmod(0o755)
    time.sleep(float(os.environ.get("AFTER", "0")))
"""
PROGRAM = """#!/usr/bin/env python3
import sys, time
print(sys.argv[1:], sys.stdin.read())
print("an error", file=sys.stderr)
sys.stdout.flush()
if "sleep" in sys.argv:
    time.sleep(60)
sys.exit(7)
"""
CRATES = ["low", "middle", "desk_cli"]
SCRIPTS = ["page.py", "follow.py"]
tried = 0


def holds(condition, what):
    global tried
    tried += 1
    wants(condition, what)


class Repository:
    """A repository of three crates with the script, and a fake rt."""

    def __init__(self, folder):
        self.folder = folder
        self.calls = folder / "calls"
        self.desk = folder / "desk"
        self.program = folder / "crates/desk_cli/out/desk_cli"
        (folder / "bin").mkdir()
        (folder / "bin/rt").write_text(RT)
        (folder / "bin/rt").chmod(0o755)
        shutil.copy(ROOT / "desk", folder)
        (folder / "examples").mkdir()
        for name in SCRIPTS:
            shutil.copy(ROOT / "examples" / name, folder / "examples")
        (folder / "crates.txt").write_text("low:\nmiddle: low\ndesk_cli: low middle\n")
        for name in CRATES:
            (folder / "crates" / name / "src").mkdir(parents=True)
            self.write(name, "sound")
        (folder / "crates/desk_cli/src/program").write_text(PROGRAM)
        self.environment = {**os.environ, "PATH": f"{folder}/bin:{os.environ['PATH']}", "CALLS": str(self.calls), "RT_JOBS": "2"}

    def write(self, crate, text):
        (self.folder / "crates" / crate / "src/text").write_text(text)

    def how(self, **more):
        return {"env": {**self.environment, **more}, "cwd": self.folder}

    def run(self, *words, given="", **more):
        return subprocess.run([self.desk, *words], input=given, capture_output=True, text=True, **self.how(**more))

    def start(self, *words, **more):
        pipes = {"stdin": subprocess.DEVNULL, "stdout": subprocess.PIPE, "stderr": subprocess.PIPE, "text": True}
        return subprocess.Popen([self.desk, *words], start_new_session=True, **pipes, **self.how(**more))

    def called(self):
        return [line.split(" ", 1) for line in self.calls.read_text().splitlines()] if self.calls.exists() else []

    def count(self):
        """How often rt was called."""
        return len(self.called())

    def since(self, count):
        """What rt was called for since."""
        return [words.split()[0] for _, words in self.called()[count:]]

    def forget(self):
        """Removes what rt kept of the libraries."""
        for name in CRATES[:-1]:
            shutil.rmtree(self.folder / "crates" / name / "out", ignore_errors=True)


@contextmanager
def repository():
    with tempfile.TemporaryDirectory(prefix="launcher-") as folder:
        os.chmod(folder, 0o755)
        yield Repository(Path(folder).resolve())


def wait_for(condition, what):
    end = time.monotonic() + 20
    while not condition():
        wants(time.monotonic() < end, f"waited in vain for {what}")
        time.sleep(0.05)


def is_alive(pid):
    try:
        return Path(f"/proc/{pid}/stat").read_text().rsplit(")", 1)[1].split()[0] != "Z"
    except OSError:
        return False


def passes_on():
    """What the program gets and gives; the first call builds, the second doesn't."""
    with repository() as it:
        ran = it.run("a", "b c", "--d=é", given="x\ny")
        said = [line.rsplit(" (", 1)[0] for line in ran.stderr.splitlines()]
        holds((ran.returncode, ran.stdout) == (7, "['a', 'b c', '--d=é'] x\ny\n"), f"a first call ends with {ran}")
        of_crates = [f"desk: {name} is proved and built" for name in CRATES]
        holds([line for line in said if line.endswith("proved and built")] == of_crates, f"a first call prints {ran.stderr}")
        holds("waiting for nothing" in ran.stderr and "been proved" not in ran.stderr, f"a first call prints {ran.stderr}")
        holds(it.since(0) == ["all", "run"] and it.called()[0][1] == "all check --jobs 2", f"rt was called as {it.called()}")
        ran = it.run()
        holds((ran.returncode, ran.stdout, ran.stderr) == (7, "[] \n", "an error\n"), f"a second call ends with {ran}")
        holds(it.count() == 2, "a second call builds")
        with it.start("sleep") as running:
            running.stdout.readline()
            running.send_signal(signal.SIGTERM)
        holds(running.returncode == -signal.SIGTERM, f"a signal ends the program with {running.returncode}")
        it.program.unlink()
        ran = it.run()
        holds(ran.returncode == 7 and it.since(2) == ["lib", "lib", "run"], f"a program that is gone isn't built again: {it.called()}")
        said = [line.rsplit(" (", 1)[0] for line in ran.stderr.splitlines()]
        holds([line for line in said if line.endswith("proved and built")] == of_crates, f"a later build prints {ran.stderr}")
    with repository() as it:
        holds(it.run(RT_JOBS="1").returncode == 7 and it.since(0) == ["lib", "lib", "run"], f"with one job rt was called as {it.called()}")


def commands():
    with repository() as it:
        for words, status in ((["build", "x"], 2), (["install"], 2), (["install", "a", "b"], 2), (["install", "nowhere"], 1), (["install", "desk"], 1)):
            ran = it.run(*words)
            holds(ran.returncode == status and ran.stderr.startswith("desk: ") and not ran.stdout, f"{words} ends with {ran}")
        holds(it.count() == 0, "arguments that are wrong build")
        ran = it.run("build")
        holds((ran.returncode, ran.stdout) == (0, f"{it.program}\n"), f"build ends with {ran}")
        to = it.folder / "to"
        to.mkdir()
        for _ in range(2):
            ran = it.run("install", "to")
            holds((ran.returncode, ran.stdout, ran.stderr) == (0, "", "desk: the program is to/desk, with page.py and follow.py beside it\n"), f"install ends with {ran}")
            holds((to / "desk").read_text() == PROGRAM and os.access(to / "desk", os.X_OK), "install copies another program")
            for name in SCRIPTS:
                same = (to / name).read_text() == (ROOT / "examples" / name).read_text()
                holds(same and os.access(to / name, os.X_OK), f"install copies another {name}")
        (to / "desk").unlink()
        (to / "desk").mkdir()
        holds(it.run("install", "to").returncode == 1, "install replaces a folder")
        to.chmod(0o555)
        if os.geteuid() == 0:
            ran = subprocess.run([it.desk, "install", "to"], capture_output=True, text=True, preexec_fn=lambda: os.setuid(65_534), **it.how())
        else:
            ran = it.run("install", "to")
        holds(ran.returncode == 1 and "may not be written" in ran.stderr, f"install into a folder without the right ends with {ran}")


def failures():
    for name in CRATES:
        with repository() as it:
            it.write(name, "fails")
            ran = it.run("a")
            holds((ran.returncode, ran.stdout) == (126, ""), f"with {name} wrong a call ends with {ran}")
            holds(f"fn {name}::f: not proved" in ran.stderr and "been proved" not in ran.stderr, f"with {name} wrong standard error has {ran.stderr}")
            it.write(name, "sound")
            holds(it.run().returncode == 7, f"after {name} was mended a call fails")
            it.write(name, "fails")
            ran = it.run("a")
            holds((ran.returncode, ran.stdout) == (126, ""), f"with {name} wrong again a call ends with {ran}")
            holds(f"fn {name}::f: not proved" in ran.stderr and "been proved" not in ran.stderr, f"with {name} wrong again standard error has {ran.stderr}")
    with repository() as it:
        ran = it.run(STOPS="1")
        holds(ran.returncode == 7 and it.since(0) == ["all", "lib", "lib", "run"], f"if rt all judges nothing rt is called as {it.called()}")
        holds("desk_cli is proved and built (3 of 3" in ran.stderr, f"if rt all judges nothing a call ends with {ran}")
    with repository() as it:
        bare = it.folder / "bare"
        bare.mkdir()
        for tool in ("bash", "env", "find", "readlink", "rm", "nproc", "awk", "mkdir", "touch", "mv"):
            (bare / tool).symlink_to(shutil.which(tool))
        ran = it.run(PATH=str(bare))
        holds(ran.returncode == 126 and "there is no rt" in ran.stderr, f"without rt a call ends with {ran}")


def interrupted(crate, number, is_from_nothing):
    """A build that a signal ends while it is at the crate leaves nothing that the next call takes for built."""
    ends_rt = number != signal.SIGKILL
    with repository() as it:
        it.run()
        it.write(crate, "slow")
        if is_from_nothing:
            it.forget()
        # how many calls of rt come before the crate is proved
        before = it.count() + ((crate == "desk_cli") if is_from_nothing else CRATES.index(crate))
        with it.start() as running:
            wait_for(lambda: it.count() > before, "rt")
            time.sleep(0.3)
            pid = it.called()[-1][0]
            os.kill(running.pid, number)
            if ends_rt:
                wait_for(lambda: not is_alive(pid), "the end of rt")
            elif is_alive(pid):
                os.kill(int(pid), signal.SIGKILL)
            _, said = running.communicate()
        what = f"{signal.Signals(number).name} at {crate}{' from nothing' if is_from_nothing else ''}"
        holds(running.returncode in (126, -number, 128 + number), f"{what}: the status is {running.returncode}")
        holds(not ends_rt or "could not be built" in said, f"{what}: standard error has {said}")
        holds(not it.program.with_name("desk_cli.built").exists(), f"{what}: what isn't built is marked as built")
        it.write(crate, "sound")
        count = it.count()
        ran = it.run()
        holds(ran.returncode == 7 and it.since(count)[-1] == "run", f"{what}: the next call doesn't build, and ends with {ran}")


def orphaned():
    """A call that was killed leaves its rt. The next call waits for that rt and then builds."""
    with repository() as it:
        with it.start(AFTER="2") as running:
            wait_for(lambda: it.count() == 2, "rt run")
            running.kill()
            pid = it.called()[-1][0]
        holds(is_alive(pid), "rt ended with the call that was killed")
        ran = it.run()
        holds(not is_alive(pid) and "waits for it" in ran.stderr, f"after a call that was killed the next prints {ran.stderr}")
        holds(ran.returncode == 7 and it.since(2)[-1] == "run", f"after a call that was killed the next ends with {ran}")


def changes():
    with repository() as it:
        it.run()
        time.sleep(0.02)
        it.write("low", "another")
        holds(it.run().returncode == 7 and it.count() == 5, "a source that changed isn't built")
        time.sleep(0.02)
        it.write("low", "a third")
        with it.start(AFTER="1.5") as running:
            wait_for(lambda: it.count() == 8, "rt run")
            it.write("middle", "changed meanwhile")
            running.communicate()
        it.run()
        holds(it.count() == 11, "a source that changed during a build isn't built")


def together():
    with repository() as it, it.start(AFTER="1.5") as one:
        wait_for(lambda: it.count() == 2, "rt run")
        other = it.run()
        one.communicate()
        holds((one.returncode, other.returncode, it.count()) == (7, 7, 2), "of two calls both build")
        holds("waits for it" in other.stderr, f"the call that waits prints {other.stderr}")


def at_terminal():
    with repository() as it:
        ours, theirs = pty.openpty()
        ran = subprocess.Popen([it.desk], stdin=subprocess.DEVNULL, stdout=subprocess.DEVNULL, stderr=theirs, **it.how(AFTER="1.5"))
        os.close(theirs)
        shown = b""
        try:
            while octets := os.read(ours, 4096):
                shown += octets
        except OSError:
            pass  # the end of a terminal that nobody has open
        os.close(ours)
        holds(ran.wait() == 7 and b"\rdesk: 2 of 3, 0:0" in shown and b", about 1 min left" in shown, f"a terminal shows {shown}")


def main():
    argparse.ArgumentParser(description=__doc__, formatter_class=argparse.RawDescriptionHelpFormatter).parse_args()
    passes_on()
    commands()
    failures()
    for crate in CRATES:
        for number in (signal.SIGINT, signal.SIGTERM, signal.SIGHUP, signal.SIGKILL):
            for is_from_nothing in (True, False):
                interrupted(crate, number, is_from_nothing)
    orphaned()
    changes()
    together()
    at_terminal()
    print(f"desk: {tried} cases are as they should be")


if __name__ == "__main__":
    sys.exit(main())
